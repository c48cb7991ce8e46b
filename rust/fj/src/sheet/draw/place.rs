//! Places items in rows so that what is joined stands close together and nothing overlaps.

/// Something to be placed: its height, and how far it extends to both sides of its middle.
#[derive(Clone, Copy, Debug)]
pub struct Item {
    pub left: f64,
    pub right: f64,
    pub height: f64,
    /// Where it would like to stand among its row, from 0, far left, to 2, far right.
    pub lean: f64,
}

/// Two items of neighbouring rows that are joined, the upper one first, and how strongly.
#[derive(Clone, Copy, Debug)]
pub struct Join {
    pub upper: usize,
    pub lower: usize,
    pub strength: f64,
}

/// Items in rows, and their joins.
#[derive(Default)]
pub struct Rows {
    pub joins: Vec<Join>,
    items: Vec<Item>,
    rows: Vec<Vec<usize>>,
}

/// Where an item stands: its middle from the left, and the upper and lower end of its row.
#[derive(Clone, Copy, Debug, Default)]
pub struct Place {
    pub x: f64,
    pub top: f64,
    pub bottom: f64,
}

/// The places of all items, and the size of the whole.
pub struct Placed {
    pub at: Vec<Place>,
    pub width: f64,
    pub height: f64,
}

const GAP: f64 = 22.0;
const ROW_GAP: f64 = 24.0;
/// How often rows are ordered, and how often their items are moved.
const SWEEPS: usize = 12;
const MOVES: usize = 400;

impl Rows {
    /// Adds an item to a row.
    pub fn add(&mut self, row: usize, item: Item) -> usize {
        if self.rows.len() <= row {
            self.rows.resize(row + 1, Vec::new());
        }
        self.items.push(item);
        self.rows[row].push(self.items.len() - 1);
        self.items.len() - 1
    }

    pub fn placed(mut self) -> Placed {
        self.order();
        let x = self.spread();
        let sides = || x.iter().zip(&self.items);
        let left = sides().map(|(x, item)| x - item.left).fold(f64::MAX, f64::min);
        let right = sides().map(|(x, item)| x + item.right).fold(f64::MIN, f64::max);
        let mut at = vec![Place::default(); x.len()];
        let mut top = 0.0;
        for row in &self.rows {
            let bottom = top + row.iter().map(|&i| self.items[i].height).fold(0.0, f64::max);
            row.iter().for_each(|&i| at[i] = Place { x: x[i] - left, top, bottom });
            top = bottom + ROW_GAP;
        }
        Placed { at, width: right - left, height: top - ROW_GAP }
    }

    /// Orders each row by what its items lean to, then tries to have fewer crossings.
    fn order(&mut self) {
        let lean: Vec<f64> = self.items.iter().map(|item| item.lean).collect();
        self.rows.iter_mut().for_each(|row| row.sort_by(|&a, &b| lean[a].total_cmp(&lean[b])));
        let mut best = (self.crossings(), self.rows.clone());
        for sweep in 0..SWEEPS {
            let (rows, down) = (self.rows.len(), sweep % 2 == 0);
            for step in 1..rows {
                self.reorder(if down { step } else { rows - 1 - step }, down);
            }
            let crossings = self.crossings();
            if crossings < best.0 {
                best = (crossings, self.rows.clone());
            }
        }
        self.rows = best.1;
    }

    /// Orders a row by the mean place of what its items are joined to in the row above or below.
    fn reorder(&mut self, row: usize, above: bool) {
        let next = &self.rows[if above { row - 1 } else { row + 1 }];
        let place = |item| next.iter().position(|&other| other == item);
        let mean = |at: usize, item: usize| {
            let joined = self.joins.iter().filter_map(|join| match above {
                true => place(join.upper).filter(|_| join.lower == item),
                false => place(join.lower).filter(|_| join.upper == item),
            });
            let places: Vec<usize> = joined.collect();
            match places.len() {
                0 => at as f64,
                count => places.iter().sum::<usize>() as f64 / count as f64,
            }
        };
        let keys = self.rows[row].iter().enumerate().map(|(at, &item)| (mean(at, item), item));
        let mut keyed: Vec<(f64, usize)> = keys.collect();
        keyed.sort_by(|a, b| a.0.total_cmp(&b.0));
        self.rows[row] = keyed.into_iter().map(|(_, item)| item).collect();
    }

    /// How many pairs of joins cross.
    fn crossings(&self) -> usize {
        let mut place = vec![(0, 0); self.items.len()];
        for (number, row) in self.rows.iter().enumerate() {
            row.iter().enumerate().for_each(|(at, &item)| place[item] = (number, at));
        }
        let ends = |join: &Join| (place[join.upper], place[join.lower]);
        let cross = |one: &Join, other: &Join| {
            let ((a, b), (c, d)) = (ends(one), ends(other));
            a.0 == c.0 && a.1 < c.1 && b.1 > d.1
        };
        let with = |one| self.joins.iter().filter(|other| cross(one, other)).count();
        self.joins.iter().map(with).sum()
    }

    /// Moves items towards what they are joined to, row by row, without overlaps.
    fn spread(&self) -> Vec<f64> {
        let mut x = vec![0.0; self.items.len()];
        for _ in 0..MOVES {
            for row in self.rows.iter().chain(self.rows.iter().rev()) {
                self.settle(row, &mut x);
            }
        }
        x
    }

    /// Where an item would like to be, the mean of what it is joined to, and how strongly.
    fn wanted(&self, item: usize, x: &[f64]) -> (f64, f64) {
        let (mut sum, mut strength) = (0.0, 0.0);
        for join in &self.joins {
            if join.upper == item || join.lower == item {
                sum += join.strength * x[join.upper + join.lower - item];
                strength += join.strength;
            }
        }
        if strength > 0.0 {
            (sum / strength, strength)
        } else {
            (x[item], 1.0)
        }
    }

    /// Gives the items of a row the places that they want, as far as they do not overlap: items
    /// that push each other become a block, which stands at the mean of what they want.
    fn settle(&self, row: &[usize], x: &mut [f64]) {
        let mut blocks: Vec<(f64, f64, usize)> = Vec::new();
        let (mut offset, mut offsets) = (0.0, Vec::new());
        for (at, &item) in row.iter().enumerate() {
            if at > 0 {
                offset += self.items[row[at - 1]].right + GAP + self.items[item].left;
            }
            offsets.push(offset);
            let (wanted, strength) = self.wanted(item, x);
            let mut block = (wanted - offset, strength, 1);
            while let Some((mean, strength, count)) = blocks.pop_if(|left| left.0 > block.0) {
                let sum = strength + block.1;
                block = ((mean * strength + block.0 * block.1) / sum, sum, count + block.2);
            }
            blocks.push(block);
        }
        let means = blocks.iter().flat_map(|&(mean, _, count)| std::iter::repeat_n(mean, count));
        for ((&item, offset), mean) in row.iter().zip(offsets).zip(means) {
            x[item] = mean + offset;
        }
    }
}
