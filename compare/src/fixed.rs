//! Numbers of 256 bits, 192 of them after the point, none of them negative. Bits below the last place are cut off.

/// Four words, the most significant first, so that the numbers are ordered as the arrays are.
#[derive(Clone, Copy, PartialEq, Eq, PartialOrd, Ord)]
pub struct Fixed([u64; 4]);

/// How many bits stand after the point.
pub const PLACES: i32 = 192;

impl Fixed {
    pub const ZERO: Fixed = Fixed([0; 4]);
    pub const ONE: Fixed = Fixed([1, 0, 0, 0]);
    pub const MOST: Fixed = Fixed([u64::MAX; 4]);

    /// digits * 2^exponent.
    pub fn new(digits: u128, exponent: i32) -> Fixed {
        Fixed([0, 0, (digits >> 64) as u64, digits as u64]).shifted(exponent + PLACES)
    }

    /// This times 2^by.
    pub fn shifted(self, by: i32) -> Fixed {
        Fixed([3, 2, 1, 0].map(|n| self.word_from(64 * n - by)))
    }

    /// The 64 bits from a place on, which is counted from the last; there are zeros on both sides of the number.
    fn word_from(self, place: i32) -> u64 {
        let word = |n: i32| match n {
            0..=3 => self.0[3 - n as usize],
            _ => 0,
        };
        let (n, bits) = (place.div_euclid(64), place.rem_euclid(64));
        match bits {
            0 => word(n),
            _ => word(n) >> bits | word(n + 1) << (64 - bits),
        }
    }

    pub fn plus(self, other: Fixed) -> Fixed {
        let mut words = [0; 4];
        let mut carry = 0;
        for i in (0..4).rev() {
            let sum = u128::from(self.0[i]) + u128::from(other.0[i]) + carry;
            words[i] = sum as u64;
            carry = sum >> 64;
        }
        Fixed(words)
    }

    /// The larger less the smaller.
    pub fn apart(self, other: Fixed) -> Fixed {
        let (large, small) = (self.max(other), self.min(other));
        // all words of the smaller turned round, and one added
        let turned = Fixed(small.0.map(|word| !word));
        large.plus(turned).plus(Fixed([0, 0, 0, 1]))
    }

    /// The product, which has to be below 2^64.
    pub fn times(self, other: Fixed) -> Fixed {
        // the least significant first
        let mut words = [0; 8];
        for i in 0..4 {
            let mut carry = 0;
            for j in 0..4 {
                let product = u128::from(self.0[3 - i]) * u128::from(other.0[3 - j]);
                let sum = product + u128::from(words[i + j]) + carry;
                words[i + j] = sum as u64;
                carry = sum >> 64;
            }
            words[i + 4] = carry as u64;
        }
        Fixed([words[6], words[5], words[4], words[3]])
    }

    /// The product with a whole number, which has to be below 2^64.
    pub fn times_whole(self, n: u64) -> Fixed {
        let mut words = [0; 4];
        let mut carry = 0;
        for i in (0..4).rev() {
            let sum = u128::from(self.0[i]) * u128::from(n) + carry;
            words[i] = sum as u64;
            carry = sum >> 64;
        }
        Fixed(words)
    }

    pub fn over(self, n: u64) -> Fixed {
        let mut rest = 0;
        Fixed(self.0.map(|word| {
            let top = u128::from(rest) << 64 | u128::from(word);
            rest = (top % u128::from(n)) as u64;
            (top / u128::from(n)) as u64
        }))
    }

    /// How many bits the number has, zeros before the first 1 left out: 193 for 1.
    pub fn length(self) -> i32 {
        match self.0.iter().position(|&word| word != 0) {
            Some(i) => 256 - 64 * i as i32 - self.0[i].leading_zeros() as i32,
            None => 0,
        }
    }

    /// The last 64 bits as a whole number.
    pub fn last_word(self) -> u64 {
        self.0[3]
    }

    /// A double near this, for printing.
    pub fn about(self) -> f64 {
        let word = 2f64.powi(64);
        self.0
            .iter()
            .rev()
            .fold(0.0, |below, &n| below / word + n as f64)
    }
}
