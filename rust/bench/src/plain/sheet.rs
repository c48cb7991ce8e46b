//! A protocol sheet and the grounds 21 to 29.

#[derive(Clone, Copy)]
pub struct Move {
    pub site: u8,
    pub from: u8,
    pub to: u8,
    pub vote: bool,
    pub reads: u32,
    pub writes: u32,
}

/// Local states are numbered 8 * site + state, with sites from 0.
pub struct Sheet {
    pub sites: u8,
    pub counts: [u8; 4],
    pub marks: [u8; 32],
    pub first: u32,
    pub moves: Vec<Move>,
}

impl Move {
    /// The transitions of these bytes, or 25.
    pub fn all(bytes: &[u8], sites: u8, counts: &[u8; 4]) -> Result<Vec<Move>, u8> {
        let read = |bytes: &[u8]| Move::from_bytes(bytes.try_into().ok()?, sites, counts);
        bytes.chunks_exact(12).map(read).collect::<Option<Vec<_>>>().ok_or(25)
    }

    fn from_bytes(bytes: &[u8; 12], sites: u8, counts: &[u8; 4]) -> Option<Move> {
        let &[number, from, to, vote, a, b, c, d, e, f, g, h] = bytes;
        if number == 0 || number > sites {
            return None;
        }
        let site = number - 1;
        let count = counts[site as usize];
        if from >= count || to >= count || vote > 1 {
            return None;
        }
        let reads = u32::from_be_bytes([a, b, c, d]);
        let writes = u32::from_be_bytes([e, f, g, h]);
        Some(Move { site, from, to, vote: vote == 1, reads, writes })
    }

    pub fn place(&self) -> usize {
        8 * self.site as usize + self.from as usize
    }
}

impl Sheet {
    pub fn from_bytes(bytes: &[u8]) -> Result<Sheet, u8> {
        let (length, body) = bytes.split_first_chunk::<2>().ok_or(21)?;
        let length = u16::from_be_bytes(*length) as usize;
        if length == 0 || body.len() != length {
            return Err(21);
        }
        if body[0] != 1 {
            return Err(22);
        }
        let &sites = body.get(1).ok_or(23)?;
        if !(2..=4).contains(&sites) {
            return Err(23);
        }
        let listed = body.get(2..2 + sites as usize).ok_or(23)?;
        if listed.iter().any(|count| !(1..=8).contains(count)) {
            return Err(23);
        }
        let mut counts = [0; 4];
        counts[..listed.len()].copy_from_slice(listed);
        let sheet = Sheet::from_rest(sites, counts, &body[2 + listed.len()..])?;
        match sheet.fault() {
            Some(ground) => Err(ground),
            None => Ok(sheet),
        }
    }

    /// Everything after the counts: grounds 24 and 25.
    fn from_rest(sites: u8, counts: [u8; 4], rest: &[u8]) -> Result<Sheet, u8> {
        let states = counts.iter().sum::<u8>() as usize;
        let (listed, rest) = rest.split_at_checked(states).ok_or(24)?;
        let (first, rest) = rest.split_first_chunk::<4>().ok_or(24)?;
        let (&number, rest) = rest.split_first().ok_or(24)?;
        if number > 64 || rest.len() != 12 * number as usize {
            return Err(24);
        }
        if listed.iter().any(|&mark| mark > 2) {
            return Err(25);
        }
        let mut marks = [0; 32];
        let mut listed = listed.iter();
        for (marks, &count) in marks.chunks_exact_mut(8).zip(&counts) {
            marks.iter_mut().zip(listed.by_ref().take(count as usize)).for_each(|(a, b)| *a = *b);
        }
        let first = u32::from_be_bytes(*first);
        Ok(Sheet { sites, counts, marks, first, moves: Move::all(rest, sites, &counts)? })
    }

    /// The first of the grounds 26 to 29 that holds.
    pub fn fault(&self) -> Option<u8> {
        if self.moves.iter().any(|a| a.reads == 0) {
            return Some(26);
        }
        let mut readers = [0; 4];
        for a in &self.moves {
            readers[a.site as usize] |= a.reads;
        }
        let mut read = 0;
        for reads in readers {
            if read & reads != 0 {
                return Some(27);
            }
            read |= reads;
        }
        if self.moves.iter().any(|a| self.leaves_decision(a)) {
            return Some(28);
        }
        self.has_cycle().then_some(29)
    }

    fn leaves_decision(&self, a: &Move) -> bool {
        let mark = |state: u8| self.marks[8 * a.site as usize + state as usize];
        mark(a.from) != 0 && mark(a.to) != mark(a.from)
    }

    /// Closes the successors of each state under succession and looks for a state among its own.
    fn has_cycle(&self) -> bool {
        let mut after = [0u8; 32];
        for a in &self.moves {
            after[a.place()] |= 1 << a.to;
        }
        after.chunks_exact_mut(8).any(|after| {
            for middle in 0..8 {
                for state in 0..8 {
                    if after[state] >> middle & 1 == 1 {
                        after[state] |= after[middle];
                    }
                }
            }
            (0..8).any(|state| after[state] >> state & 1 == 1)
        })
    }
}
