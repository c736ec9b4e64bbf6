//! A flag set over u32: flag number n is bit n, as in flagset.
use std::{
    fmt,
    marker::PhantomData,
    ops::{BitAnd, BitAndAssign, BitOr, BitOrAssign, Not},
};

pub trait Flags: Copy {
    const ALL: u32;
    fn bit(self) -> u32;
}

pub struct FlagSet<F>(u32, PhantomData<F>);

impl<F> Clone for FlagSet<F> {
    fn clone(&self) -> Self {
        *self
    }
}
impl<F> Copy for FlagSet<F> {}
impl<F> Default for FlagSet<F> {
    fn default() -> Self {
        Self(0, PhantomData)
    }
}
impl<F> PartialEq for FlagSet<F> {
    fn eq(&self, other: &Self) -> bool {
        self.0 == other.0
    }
}
impl<F> Eq for FlagSet<F> {}
impl<F> fmt::Debug for FlagSet<F> {
    fn fmt(&self, f: &mut fmt::Formatter<'_>) -> fmt::Result {
        write!(f, "FlagSet({:#X})", self.0)
    }
}

impl<F: Flags> FlagSet<F> {
    pub fn bits(&self) -> u32 {
        self.0
    }

    /// Takes bits that no flag names as they are (the oracle's carried bits).
    pub fn from_raw(bits: u32) -> Self {
        Self(bits, PhantomData)
    }

    pub fn contains(&self, other: impl Into<FlagSet<F>>) -> bool {
        let other = other.into().0;
        self.0 & other == other
    }
}

impl<F: Flags> From<F> for FlagSet<F> {
    fn from(f: F) -> Self {
        Self(f.bit(), PhantomData)
    }
}

impl<F: Flags, R: Into<FlagSet<F>>> BitOr<R> for FlagSet<F> {
    type Output = Self;
    fn bitor(self, rhs: R) -> Self {
        Self(self.0 | rhs.into().0, PhantomData)
    }
}
impl<F: Flags, R: Into<FlagSet<F>>> BitAnd<R> for FlagSet<F> {
    type Output = Self;
    fn bitand(self, rhs: R) -> Self {
        Self(self.0 & rhs.into().0, PhantomData)
    }
}
impl<F: Flags, R: Into<FlagSet<F>>> BitOrAssign<R> for FlagSet<F> {
    fn bitor_assign(&mut self, rhs: R) {
        self.0 |= rhs.into().0
    }
}
impl<F: Flags, R: Into<FlagSet<F>>> BitAndAssign<R> for FlagSet<F> {
    fn bitand_assign(&mut self, rhs: R) {
        self.0 &= rhs.into().0
    }
}
impl<F: Flags> Not for FlagSet<F> {
    type Output = Self;
    fn not(self) -> Self {
        Self(!self.0 & F::ALL, PhantomData)
    }
}

#[macro_export]
macro_rules! flags {
    ($(#[$meta:meta])* $vis:vis enum $name:ident: u32 { $($(#[$fmeta:meta])* $flag:ident),* $(,)? }) => {
        $(#[$meta])*
        #[derive(Copy, Clone, Debug, Eq, PartialEq)]
        $vis enum $name { $($(#[$fmeta])* $flag),* }

        impl $crate::Flags for $name {
            const ALL: u32 = 0 $(| 1 << ($name::$flag as u32))*;
            fn bit(self) -> u32 { 1 << (self as u32) }
        }
        impl<R: Into<$crate::FlagSet<$name>>> ::std::ops::BitOr<R> for $name {
            type Output = $crate::FlagSet<$name>;
            fn bitor(self, rhs: R) -> Self::Output { $crate::FlagSet::from(self) | rhs }
        }
        impl ::std::ops::Not for $name {
            type Output = $crate::FlagSet<$name>;
            fn not(self) -> Self::Output { !$crate::FlagSet::from(self) }
        }
    };
}
