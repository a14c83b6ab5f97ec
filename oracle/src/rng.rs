//! A small generator of numbers, the same on every machine.

pub struct Rng(u64);

impl Rng {
    /// Every case has a generator of its own, so that a case can be made by its number alone.
    pub fn new(seed: u64, number: u64) -> Rng {
        let mut rng = Rng(seed ^ number.wrapping_mul(0x9E37_79B9_7F4A_7C15));
        rng.next();
        rng.next();
        rng
    }

    pub fn next(&mut self) -> u64 {
        self.0 = self.0.wrapping_add(0x9E37_79B9_7F4A_7C15);
        let mixed = (self.0 ^ (self.0 >> 30)).wrapping_mul(0xBF58_476D_1CE4_E5B9);
        let mixed = (mixed ^ (mixed >> 27)).wrapping_mul(0x94D0_49BB_1331_11EB);
        mixed ^ (mixed >> 31)
    }

    /// A number below `end`, which is not 0.
    pub fn below(&mut self, end: usize) -> usize {
        ((self.next() >> 16) % end as u64) as usize
    }

    /// True in `percent` of a hundred cases.
    pub fn chance(&mut self, percent: usize) -> bool {
        self.below(100) < percent
    }

    pub fn pick<'a, V: ?Sized>(&mut self, from: &[&'a V]) -> &'a V {
        from[self.below(from.len())]
    }

    /// Mostly one of the first list, in `percent` of a hundred one of the second.
    pub fn pick_odd<'a>(&mut self, percent: usize, usual: &[&'a str], odd: &[&'a str]) -> &'a str {
        if self.chance(percent) { self.pick(odd) } else { self.pick(usual) }
    }
}
