//! A small generator of numbers, the same in each run.

/// The state of the generator.
pub struct Draw(pub u64);

impl Draw {
    /// A number below a bound that isn't 0.
    pub fn below(&mut self, bound: u64) -> u64 {
        self.0 = self
            .0
            .wrapping_mul(6_364_136_223_846_793_005)
            .wrapping_add(1_442_695_040_888_963_407);
        (self.0 >> 33) % bound
    }
}
