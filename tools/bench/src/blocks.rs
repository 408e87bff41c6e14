//! Block problems by a seed.

/// The page's capacity and the items in order.
pub struct Blocks {
    pub page: u64,
    pub weights: Vec<u64>,
    pub profits: Vec<u64>,
}

impl Blocks {
    /// Weights and profits of 1 to 1,000, each by chance, on a page that holds half of all weight.
    pub fn random(items: usize, seed: u64) -> Blocks {
        let mut dice = Dice(seed);
        let weights: Vec<u64> = (0..items).map(|_| dice.up_to(1_000)).collect();
        let profits = (0..items).map(|_| dice.up_to(1_000)).collect();
        Blocks { page: weights.iter().sum::<u64>() / 2, weights, profits }
    }
}

/// The generator splitmix64, by its state.
struct Dice(u64);

impl Dice {
    /// A number from 1 to `most`.
    fn up_to(&mut self, most: u64) -> u64 {
        self.0 = self.0.wrapping_add(0x9e37_79b9_7f4a_7c15);
        let z = (self.0 ^ self.0 >> 30).wrapping_mul(0xbf58_476d_1ce4_e5b9);
        let z = (z ^ z >> 27).wrapping_mul(0x94d0_49bb_1331_11eb);
        1 + (z ^ z >> 31) % most
    }
}
