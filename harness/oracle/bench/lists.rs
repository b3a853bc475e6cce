//! The three lists of binary64 numbers, and the two-element gap.

/// A splitmix64 generator.
struct Random {
    state: u64,
}

impl Random {
    fn word(&mut self) -> u64 {
        self.state = self.state.wrapping_add(0x9e37_79b9_7f4a_7c15);
        let mut word = self.state;
        word = (word ^ (word >> 30)).wrapping_mul(0xbf58_476d_1ce4_e5b9);
        word = (word ^ (word >> 27)).wrapping_mul(0x94d0_49bb_1331_11eb);
        word ^ (word >> 31)
    }

    fn below(&mut self, limit: u64) -> u64 {
        ((u128::from(self.word()) * u128::from(limit)) >> 64) as u64
    }

    /// An amount of 0.01 to 9999.99.
    fn amount(&mut self) -> u64 {
        let cents = 1 + self.below(999_999);
        (cents as f64 / 100.0).to_bits()
    }

    /// A finite number of any exponent and either sign.
    fn finite(&mut self) -> u64 {
        let field = self.below(2047);
        (self.word() & 0x800f_ffff_ffff_ffff) | (field << 52)
    }

    fn shuffle<T>(&mut self, list: &mut [T]) {
        for index in (1..list.len()).rev() {
            let other = self.below(index as u64 + 1) as usize;
            list.swap(index, other);
        }
    }
}

/// The kinds of list: their letters, and what they hold.
pub const KINDS: [(char, &str); 3] = [('a', "amounts"), ('b', "any exponent"), ('c', "cancelling pairs")];

/// A list and, for the dot product, a second one.
pub struct Lists {
    pub left: Vec<[u64; 1]>,
    pub right: Vec<[u64; 1]>,
}

impl Lists {
    /// The lists of a kind, drawn anew from the seed for each length.
    pub fn of(kind: char, count: usize, seed: u64) -> Self {
        let mut random = Random { state: seed };
        let mut pairs = Vec::with_capacity(count);
        match kind {
            'a' => pairs.extend((0..count).map(|_| (random.amount(), random.amount()))),
            'b' => pairs.extend((0..count).map(|_| (random.finite(), random.finite()))),
            _ => {
                // pairs of a number and its negative, and one or two amounts
                for _ in 0..(count - 1) / 2 {
                    let (left, right) = (random.finite(), random.finite());
                    pairs.push((left, right));
                    pairs.push((left ^ (1 << 63), right));
                }
                while pairs.len() < count {
                    pairs.push((random.amount(), random.amount()));
                }
                random.shuffle(&mut pairs);
            }
        }
        let (left, right) = pairs.into_iter().map(|(left, right)| ([left], [right])).unzip();
        Self { left, right }
    }

    /// The largest finite number of kind 0, E 28, W 30 and the least above zero: about 2^28 positions apart.
    pub fn gap() -> Self {
        Self { left: vec![[0x1fff_fffd], [1]], right: Vec::new() }
    }
}
