//! Sets of small indices, one bit each.

use std::ops::{BitAnd, BitAndAssign, BitOr, BitOrAssign, Not, Shl, Shr};

/// A set of indices below `BITS`. Shifts have to be by less than that.
pub trait BitSet:
    Copy
    + Default
    + PartialEq
    + Not<Output = Self>
    + BitAnd<Output = Self>
    + BitOr<Output = Self>
    + BitAndAssign
    + BitOrAssign
    + Shl<u32, Output = Self>
    + Shr<u32, Output = Self>
{
    const BITS: u32;

    /// How many levels the lengths of runs have: 1, 2, 4 and so on.
    const LEVELS: usize;

    /// The set of index 0.
    const ONE: Self;

    fn wrapping_add(self, other: Self) -> Self;
    fn reverse_bits(self) -> Self;
    fn trailing_zeros(self) -> u32;
    fn leading_zeros(self) -> u32;
    fn count_ones(self) -> u32;

    /// Returns 64 bits that depend on all of the set.
    fn folded(self) -> u64;

    fn is_empty(self) -> bool {
        self == Self::default()
    }

    /// Returns the set of index `i`.
    fn single(i: u32) -> Self {
        Self::ONE << i
    }

    /// Returns the set of the indices below `n`, which is at least 1.
    fn prefix(n: u32) -> Self {
        !Self::default() >> (Self::BITS - n)
    }

    /// Returns the greatest index of a set that isn't empty.
    fn last_index(self) -> u32 {
        Self::BITS - 1 - self.leading_zeros()
    }

    fn contains(self, i: u32) -> bool {
        !(self >> i & Self::ONE).is_empty()
    }

    /// Removes the least index from a set that isn't empty, and returns it.
    #[inline(always)]
    fn pop(&mut self) -> u32 {
        let least = self.trailing_zeros();
        *self &= self.wrapping_add(!Self::default());
        least
    }

    /// Calls `f` with each index, the least first.
    #[inline(always)]
    fn each(mut self, mut f: impl FnMut(u32)) {
        while !self.is_empty() {
            f(self.pop());
        }
    }
}

macro_rules! bit_set {
    ($type:ty, $levels:expr, $folded:expr) => {
        impl BitSet for $type {
            const BITS: u32 = <$type>::BITS;
            const LEVELS: usize = $levels;
            const ONE: Self = 1;

            #[inline(always)]
            fn wrapping_add(self, other: Self) -> Self {
                self.wrapping_add(other)
            }

            #[inline(always)]
            fn reverse_bits(self) -> Self {
                self.reverse_bits()
            }

            #[inline(always)]
            fn trailing_zeros(self) -> u32 {
                self.trailing_zeros()
            }

            #[inline(always)]
            fn leading_zeros(self) -> u32 {
                self.leading_zeros()
            }

            #[inline(always)]
            fn count_ones(self) -> u32 {
                self.count_ones()
            }

            #[inline(always)]
            fn folded(self) -> u64 {
                ($folded as fn($type) -> u64)(self)
            }
        }
    };
}

// Lines of 64 cells are left to `u128`: without them there is one level less.
bit_set!(u64, 6, |x| x);
bit_set!(u128, 8, |x| x as u64 ^ (x >> 64) as u64);

/// A set of 256 bits: the lower half, then the upper one.
#[derive(Clone, Copy, Default, PartialEq)]
pub struct Wide(u128, u128);

macro_rules! by_halves {
    ($trait:ident, $name:ident, $assign:ident, $assign_name:ident) => {
        impl $trait for Wide {
            type Output = Wide;

            fn $name(self, other: Wide) -> Wide {
                Wide(self.0.$name(other.0), self.1.$name(other.1))
            }
        }

        impl $assign for Wide {
            fn $assign_name(&mut self, other: Wide) {
                *self = self.$name(other);
            }
        }
    };
}

by_halves!(BitAnd, bitand, BitAndAssign, bitand_assign);
by_halves!(BitOr, bitor, BitOrAssign, bitor_assign);

impl Not for Wide {
    type Output = Wide;

    fn not(self) -> Wide {
        Wide(!self.0, !self.1)
    }
}

impl Shl<u32> for Wide {
    type Output = Wide;

    fn shl(self, by: u32) -> Wide {
        match by {
            0 => self,
            1..=127 => Wide(self.0 << by, self.1 << by | self.0 >> (128 - by)),
            _ => Wide(0, self.0 << (by - 128)),
        }
    }
}

impl Shr<u32> for Wide {
    type Output = Wide;

    fn shr(self, by: u32) -> Wide {
        self.reverse_bits().shl(by).reverse_bits()
    }
}

impl BitSet for Wide {
    const BITS: u32 = 256;
    const LEVELS: usize = 9;
    const ONE: Self = Wide(1, 0);

    fn wrapping_add(self, other: Wide) -> Wide {
        let (low, carry) = self.0.overflowing_add(other.0);
        Wide(low, self.1.wrapping_add(other.1).wrapping_add(u128::from(carry)))
    }

    fn reverse_bits(self) -> Wide {
        Wide(self.1.reverse_bits(), self.0.reverse_bits())
    }

    fn trailing_zeros(self) -> u32 {
        if self.0 != 0 { self.0.trailing_zeros() } else { 128 + self.1.trailing_zeros() }
    }

    fn leading_zeros(self) -> u32 {
        self.reverse_bits().trailing_zeros()
    }

    fn count_ones(self) -> u32 {
        self.0.count_ones() + self.1.count_ones()
    }

    fn folded(self) -> u64 {
        self.0.folded() ^ self.1.folded().rotate_left(32)
    }
}
