//! Drafts of sheets, which are assembled to bytes.

/// A transition of a draft.
#[derive(Clone, Copy, Debug)]
pub struct Move {
    pub site: u8,
    pub from: u8,
    pub to: u8,
    pub vote: u8,
    pub reads: u32,
    pub writes: u32,
}

impl Move {
    /// Its bytes in a record.
    pub fn bytes(&self) -> Vec<u8> {
        let ends = [self.site, self.from, self.to, self.vote];
        [ends, self.reads.to_be_bytes(), self.writes.to_be_bytes()].concat()
    }
}

/// A sheet that may be wrong in every way that its bytes can be.
#[derive(Clone, Debug)]
pub struct Draft {
    pub version: u8,
    /// The byte with the number of sites, and the one with the number of transitions, where they
    /// are not what the lists below say.
    pub sites: Option<u8>,
    pub transitions: Option<u8>,
    pub counts: Vec<u8>,
    /// A list of marks per site.
    pub marks: Vec<Vec<u8>>,
    pub first: u32,
    pub moves: Vec<Move>,
    /// How many bytes are taken from the end or added to it before the length is written.
    pub cut: usize,
    pub pad: usize,
    /// What is added to the length.
    pub excess: i32,
}

impl Draft {
    /// A sheet with these marks, whose counts follow.
    pub fn new(marks: Vec<Vec<u8>>, first: u32, moves: Vec<Move>) -> Draft {
        Draft {
            version: 1,
            sites: None,
            transitions: None,
            counts: marks.iter().map(|marks| marks.len() as u8).collect(),
            marks,
            first,
            moves,
            cut: 0,
            pad: 0,
            excess: 0,
        }
    }

    pub fn bytes(&self) -> Vec<u8> {
        let mut body = vec![self.version, self.sites.unwrap_or(self.counts.len() as u8)];
        body.extend(&self.counts);
        body.extend(self.marks.concat());
        body.extend(self.first.to_be_bytes());
        body.push(self.transitions.unwrap_or(self.moves.len() as u8));
        body.extend(self.moves.iter().flat_map(Move::bytes));
        body.resize(body.len().saturating_sub(self.cut) + self.pad, 0);
        let length = (body.len() as i32 + self.excess).clamp(0, 65_535) as u16;
        [&length.to_be_bytes()[..], &body].concat()
    }
}

/// Sites that go through so many states each, independently, by messages outstanding at first:
/// the product of the counts is the number of reachable states. A site writes one more message as
/// it ends; with `more`, site 1 can vote in its last transition once all others have ended, which
/// makes one more state.
pub fn product(counts: &[u8], more: bool) -> Draft {
    let (mut moves, mut next, mut ended) = (Vec::new(), 0, 0);
    let mut fresh = || {
        next += 1;
        1u32 << (next - 1)
    };
    for (site, &count) in (1..).zip(counts) {
        for from in 0..count - 1 {
            let reads = fresh();
            moves.push(Move { site, from, to: from + 1, vote: 0, reads, writes: 0 });
        }
    }
    let first = moves.iter().map(|a| a.reads).sum();
    for (site, &count) in (1..).zip(counts).skip(1) {
        let last = moves.iter_mut().rfind(|a| a.site == site && a.to == count - 1);
        if let Some(last) = last {
            last.writes = fresh();
            ended |= last.writes;
        }
    }
    let last = moves.iter().rfind(|a| a.site == 1).copied();
    if let (true, Some(last)) = (more, last) {
        moves.push(Move { vote: 1, reads: last.reads | ended, ..last });
    }
    let marks = counts.iter().map(|&count| vec![0; count as usize]).collect();
    Draft::new(marks, first, moves)
}
