//! Generated inputs, the same in every run: pseudo-random numbers and what is made of them.

pub mod colliding;
pub mod days;
pub mod drafts;
pub mod faults;
pub mod figures;
pub mod journals;
pub mod obeying;
pub mod parts;
pub mod runs;
pub mod sheets;

/// Marsaglia's xorshift with 64 bits.
pub struct Random(u64);

impl Random {
    pub fn new(seed: u64) -> Random {
        Random(seed ^ 0x9E37_79B9_7F4A_7C15)
    }

    pub fn number(&mut self) -> u64 {
        self.0 ^= self.0 << 13;
        self.0 ^= self.0 >> 7;
        self.0 ^= self.0 << 17;
        self.0
    }

    /// A number below `bound`.
    pub fn below(&mut self, bound: u64) -> u64 {
        (self.number() >> 16) % bound
    }

    /// A number of low..=high.
    pub fn within(&mut self, low: u8, high: u8) -> u8 {
        low + self.below(u64::from(high - low) + 1) as u8
    }

    pub fn byte(&mut self) -> u8 {
        self.below(256) as u8
    }

    /// True once in `times`.
    pub fn once_in(&mut self, times: u64) -> bool {
        self.below(times) == 0
    }

    pub fn bytes(&mut self, length: usize) -> Vec<u8> {
        (0..length).map(|_| self.byte()).collect()
    }

    pub fn pick<'a, T>(&mut self, list: &'a [T]) -> &'a T {
        &list[self.below(list.len() as u64) as usize]
    }
}

/// What a lent buffer holds before a call, so that a byte that was touched shows.
pub fn pattern(length: usize) -> Vec<u8> {
    (0..length).map(|place| 0xA5 ^ place as u8).collect()
}

/// K, O, M, V of a step.
pub type Fields = [u8; 4];

/// Every step that the interface takes of sites 0 to `high` and messages 0 to 9.
pub fn steps(high: u8) -> Vec<Fields> {
    let mut all = vec![[1, 0, 0, 1], [1, 0, 0, 2], [4, 0, 0, 0], [5, 0, 0, 0]];
    for o in 0..=high {
        all.push([3, o, 0, 0]);
        for m in 0..=9 {
            let votes: &[u8] = if m == 1 { &[1, 2] } else { &[0] };
            all.extend(votes.iter().map(|&v| [2, o, m, v]));
        }
    }
    all
}

/// Some of these sites: none, all, one, all but one, or any.
fn some_of(random: &mut Random, sites: u8) -> u8 {
    let one = 1 << random.below(8);
    match random.below(8) {
        0 | 1 => 0,
        2 | 3 => sites,
        4 => sites & one,
        5 => sites & !one,
        _ => sites & random.byte(),
    }
}

/// A sound record, any state, any sets; most often no No is heard.
pub fn sound_site(random: &mut Random, n: u8, number: u8) -> [u8; 8] {
    let others = ((1u16 << n) - 1) as u8 & !(1 << (number - 1));
    let mut set = || some_of(random, others);
    let [known, yes, no, acked] = [set(), set(), set(), set()];
    let no = if random.once_in(4) { no } else { 0 };
    [n, number, random.within(0, 4), random.within(1, number), known, yes, no, acked]
}

/// A record that is sound three times in four; else one byte is another, or all are.
pub fn any_site(random: &mut Random) -> Vec<u8> {
    let n = random.within(2, 8);
    let number = if random.once_in(3) { 1 } else { random.within(1, n) };
    let mut site = sound_site(random, n, number).to_vec();
    match random.below(16) {
        0..=11 => {}
        12 | 13 => site[random.below(8) as usize] = random.byte(),
        14 => site[random.below(4) as usize] = random.within(0, 9),
        _ => site = random.bytes(8),
    }
    site
}

/// A step as the interface takes it nine times in ten, each K as often; else one field is another.
pub fn any_step(random: &mut Random, steps: &[Fields]) -> Fields {
    let k = *random.pick(&[1, 2, 2, 2, 3, 4, 5]);
    let mut fields = loop {
        let fields = *random.pick(steps);
        if fields[0] == k {
            break fields;
        }
    };
    if random.once_in(10) {
        let value = if random.once_in(2) { random.within(0, 10) } else { random.byte() };
        fields[random.below(4) as usize] = value;
    }
    fields
}
