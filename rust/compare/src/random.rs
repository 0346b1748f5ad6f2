//! Random choices that are the same on every machine for one seed (SplitMix64).

pub struct Random(u64);

/// Numbers at which some rule changes: doors, latches, processes, fields, constants.
const EDGES: [u32; 18] = [
    0, 0, 1, 1, 2, 3, 4, 7, 11, 12, 13, 15, 16, 17, 255, 256, 511, 512,
];

impl Random {
    pub fn new(seed: u64) -> Random {
        Random(seed)
    }

    pub fn number(&mut self) -> u64 {
        self.0 = self.0.wrapping_add(0x9E37_79B9_7F4A_7C15);
        let mixed = (self.0 ^ self.0 >> 30).wrapping_mul(0xBF58_476D_1CE4_E5B9);
        let mixed = (mixed ^ mixed >> 27).wrapping_mul(0x94D0_49BB_1331_11EB);
        mixed ^ mixed >> 31
    }

    /// Below `bound`, which is not 0.
    pub fn below(&mut self, bound: usize) -> usize {
        (((self.number() >> 32) * bound as u64) >> 32) as usize
    }

    /// Below `bound`, or now and then the bound itself.
    pub fn nearly_below(&mut self, bound: usize) -> usize {
        let beyond = self.one_in(16) as usize;
        self.below(bound + beyond)
    }

    pub fn from(&mut self, least: usize, most: usize) -> usize {
        least + self.below(most - least + 1)
    }

    pub fn one_in(&mut self, many: usize) -> bool {
        self.below(many) == 0
    }

    pub fn pick<T: Copy>(&mut self, among: &[T]) -> T {
        among[self.below(among.len())]
    }

    /// A word, often at an edge.
    pub fn word(&mut self) -> u32 {
        match self.below(8) {
            0 => self.number() as u32,
            1 => u32::MAX - self.below(4) as u32,
            _ => self.edge(),
        }
    }

    pub fn edge(&mut self) -> u32 {
        self.pick(&EDGES)
    }

    pub fn words(&mut self, count: usize) -> Vec<u32> {
        (0..count).map(|_| self.word()).collect()
    }

    pub fn bytes(&mut self, count: usize) -> Vec<u8> {
        (0..count).map(|_| self.number() as u8).collect()
    }

    /// Words that are all alike, or of which each bit is set or not by chance.
    pub fn any_words(&mut self, count: usize) -> Vec<u32> {
        match self.below(8) {
            0 => vec![u32::MAX; count],
            1 => vec![self.word(); count],
            _ => (0..count).map(|_| self.number() as u32).collect(),
        }
    }
}
