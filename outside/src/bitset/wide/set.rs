//! Sets of points below 512.

pub const MOST: usize = 512;
pub const WORDS: usize = 8;

/// Point v is bit v mod 64 of word v div 64.
#[derive(Clone, Copy)]
#[repr(transparent)]
pub struct Set(pub [u64; WORDS]);

impl Set {
    pub const EMPTY: Set = Set([0; WORDS]);

    /// The rows of a table.
    pub fn rows(rows: &[[u64; WORDS]]) -> &[Set] {
        // SAFETY: a set is its words and nothing else.
        unsafe { std::slice::from_raw_parts(rows.as_ptr().cast(), rows.len()) }
    }

    /// The points 0 to n - 1.
    pub fn below(n: usize) -> Set {
        Set(std::array::from_fn(|i| match n.saturating_sub(64 * i) {
            left @ 0..64 => (1 << left) - 1,
            _ => !0,
        }))
    }

    /// The points of a list, all below 512.
    pub fn of(points: &[u16]) -> Set {
        let mut set = Set::EMPTY;
        points.iter().for_each(|&v| set.insert(v));
        set
    }

    pub fn insert(&mut self, v: u16) {
        self.0[v as usize / 64 % WORDS] |= 1 << (v % 64);
    }

    pub fn remove(&mut self, v: u16) {
        self.0[v as usize / 64 % WORDS] &= !(1 << (v % 64));
    }

    pub fn holds(&self, v: u16) -> bool {
        self.0[v as usize / 64 % WORDS] >> (v % 64) & 1 == 1
    }

    pub fn and(&self, other: &Set) -> Set {
        Set(std::array::from_fn(|i| self.0[i] & other.0[i]))
    }

    pub fn or(&self, other: &Set) -> Set {
        Set(std::array::from_fn(|i| self.0[i] | other.0[i]))
    }

    pub fn without(&self, other: &Set) -> Set {
        Set(std::array::from_fn(|i| self.0[i] & !other.0[i]))
    }

    pub fn is_empty(&self) -> bool {
        self.0.iter().fold(0, |all, word| all | word) == 0
    }

    /// This set, or the other one where this is empty. Without a branch, which the processor could not foresee.
    pub fn or_if_empty(&self, other: &Set) -> Set {
        let mask = (self.is_empty() as u64).wrapping_neg();
        Set(std::array::from_fn(|i| self.0[i] | other.0[i] & mask))
    }

    pub fn count(&self) -> u32 {
        self.0.iter().map(|word| word.count_ones()).sum()
    }

    /// The smallest point of a set that is not empty.
    pub fn smallest(&self) -> u16 {
        let i = self.0.iter().position(|&word| word != 0).expect("a point");
        64 * i as u16 + self.0[i].trailing_zeros() as u16
    }

    pub fn for_each(&self, mut act: impl FnMut(u16)) {
        for (i, &word) in self.0.iter().enumerate() {
            let mut rest = word;
            while rest != 0 {
                act(64 * i as u16 + rest.trailing_zeros() as u16);
                rest &= rest - 1;
            }
        }
    }
}
