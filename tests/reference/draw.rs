//! Numbers drawn from a seed, and the values that calls and lesson files are made of.

/// Numbers drawn from a seed (splitmix64).
pub struct Dice {
    state: u64,
}

impl Dice {
    /// The numbers for one file or call, which follow from the seed and its number alone.
    pub fn new(seed: u64, number: u64) -> Dice {
        let seed = Dice { state: seed }.next();
        Dice { state: Dice { state: seed ^ number }.next() }
    }

    fn next(&mut self) -> u64 {
        self.state = self.state.wrapping_add(0x9E37_79B9_7F4A_7C15);
        let z = (self.state ^ self.state >> 30).wrapping_mul(0xBF58_476D_1CE4_E5B9);
        let z = (z ^ z >> 27).wrapping_mul(0x94D0_49BB_1331_11EB);
        z ^ z >> 31
    }

    /// From 0 to the bound less one.
    pub fn below(&mut self, bound: u64) -> u64 {
        self.next() % bound
    }

    /// Both ends are drawn too.
    pub fn between(&mut self, low: u64, high: u64) -> u64 {
        low + self.below(high - low + 1)
    }

    /// Once in so many times.
    pub fn one_in(&mut self, times: u64) -> bool {
        self.below(times) == 0
    }

    pub fn pick<T: Copy>(&mut self, list: &[T]) -> T {
        list[self.below(list.len() as u64) as usize]
    }

    pub fn bytes(&mut self, count: usize) -> Vec<u8> {
        (0..count).map(|_| self.next() as u8).collect()
    }
}

/// From 2k + 1 to 65,535, often one of the ends.
pub fn modulus(dice: &mut Dice, k: u64) -> u64 {
    match dice.below(8) {
        0 => 2 * k + 1,
        1 => 65_535,
        2 => 2 * k + 2,
        3 => dice.between(2 * k + 1, 2 * k + 30),
        4 => dice.pick(&[3_329, 12_289, 8_192, 32_768, 65_534]),
        _ => dice.between(2 * k + 1, 65_535),
    }
}

/// n Boolean shares.
pub fn shares(dice: &mut Dice, n: u64, k: u64) -> Vec<u64> {
    let ones = (1 << k) - 1;
    let form = dice.below(8);
    let share = |_| match form {
        0 => 0,
        1 => ones,
        2 => dice.pick(&[0, ones]),
        _ => dice.between(0, ones),
    };
    (0..n).map(share).collect()
}

/// Words below q.
pub fn random_words(dice: &mut Dice, q: u64, count: u64) -> Vec<u64> {
    let form = dice.below(10);
    let word = |_| match form {
        0 => 0,
        1 => q - 1,
        2 => dice.pick(&[0, q - 1]),
        _ => dice.below(q),
    };
    (0..count).map(word).collect()
}

/// The share with one of the bits k to 15 set, or all of them.
pub fn too_wide(dice: &mut Dice, share: u64, k: u64) -> u64 {
    let inside = dice.between(k, 15);
    share | dice.pick(&[1 << k, 1 << 15, 1 << inside, 65_536 - (1 << k)])
}

/// A word past W, which may be q or more.
pub fn unjudged_word(dice: &mut Dice, q: u64) -> u64 {
    let word = dice.pick(&[0, q - 1, q, 65_535]);
    if dice.one_in(2) {
        word
    } else {
        dice.below(65_536)
    }
}

/// A word that is not below q.
pub fn too_high(dice: &mut Dice, q: u64) -> u64 {
    let above = (q + 1).min(65_535);
    dice.pick(&[q, above, 65_535])
}
