//! Sets of vectors, or of points, of at most eight variables as four numbers of 64
//! bits. Follows document 02, No. 4.

use super::sets;

/// Most variables of these sets.
pub const MOST_VARIABLES: usize = 8;

/// Bit v % 64 of word v / 64 is set when the set has v.
#[derive(Clone, Copy, PartialEq, Eq)]
pub struct VectorSet([u64; 4]);

impl VectorSet {
    pub const EMPTY: VectorSet = VectorSet([0; 4]);

    pub fn of(vectors: &[u16]) -> VectorSet {
        let mut set = VectorSet::EMPTY;
        for &vector in vectors {
            set.0[usize::from(vector / 64)] |= 1 << (vector % 64);
        }
        set
    }

    /// All vectors of n variables.
    pub fn full(n: usize) -> VectorSet {
        match n {
            0..=5 => VectorSet([(1 << (1 << n)) - 1, 0, 0, 0]),
            6 => VectorSet([u64::MAX, 0, 0, 0]),
            7 => VectorSet([u64::MAX, u64::MAX, 0, 0]),
            _ => VectorSet([u64::MAX; 4]),
        }
    }

    /// The vectors above all with this lead, without the lead's bit.
    const fn after(lead: usize) -> VectorSet {
        let mut words = [0; 4];
        let mut vector = 2 << lead;
        while vector < 1 << MOST_VARIABLES {
            if vector >> lead & 1 == 0 {
                words[vector / 64] |= 1 << (vector % 64);
            }
            vector += 1;
        }
        VectorSet(words)
    }

    fn zip(self, other: VectorSet, word: impl Fn(u64, u64) -> u64) -> VectorSet {
        VectorSet(std::array::from_fn(|place| {
            word(self.0[place], other.0[place])
        }))
    }

    pub fn and(self, other: VectorSet) -> VectorSet {
        self.zip(other, |left, right| left & right)
    }

    pub fn or(self, other: VectorSet) -> VectorSet {
        self.zip(other, |left, right| left | right)
    }

    pub fn without(self, other: VectorSet) -> VectorSet {
        self.zip(other, |left, right| left & !right)
    }

    /// The set with each vector x moved to x XOR the given one.
    pub fn moved(self, vector: u16) -> VectorSet {
        let (high, low) = (usize::from(vector / 64), (vector % 64) as u8);
        VectorSet(std::array::from_fn(|place| {
            sets::moved(self.0[place ^ high], low)
        }))
    }

    pub fn count(self) -> usize {
        self.0.iter().map(|word| word.count_ones() as usize).sum()
    }

    /// The least vector of the set.
    pub fn least(self) -> Option<u16> {
        let place = self.0.iter().position(|&word| word != 0)?;
        Some((64 * place) as u16 + self.0[place].trailing_zeros() as u16)
    }

    /// The vectors of the set, rising.
    pub fn vectors(self) -> impl Iterator<Item = u16> {
        (0..4).flat_map(move |place| {
            let mut word = self.0[place];
            std::iter::from_fn(move || {
                let bit = word.trailing_zeros();
                word &= word.wrapping_sub(1);
                (bit < 64).then(|| (64 * place) as u16 + bit as u16)
            })
        })
    }
}

/// What may follow a vector in a reduced basis, by its lead.
pub const AFTER: [VectorSet; MOST_VARIABLES] = [
    VectorSet::after(0),
    VectorSet::after(1),
    VectorSet::after(2),
    VectorSet::after(3),
    VectorSet::after(4),
    VectorSet::after(5),
    VectorSet::after(6),
    VectorSet::after(7),
];

/// The vectors a of n variables with w XOR a allowed for each on point w.
pub fn closure_set(n: usize, on: &[u16], allowed: VectorSet) -> VectorSet {
    on.iter()
        .fold(VectorSet::full(n), |set, &w| set.and(allowed.moved(w)))
}
