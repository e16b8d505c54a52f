//! A buffer that is owned or borrowed.

#[cfg(feature = "alloc")]
use alloc::{boxed::Box, vec};
use core::ops::{Deref, DerefMut};

pub(crate) enum Lent<'a, T> {
    #[cfg(feature = "alloc")]
    Owned(Box<[T]>),
    Borrowed(&'a mut [T]),
}

#[cfg(feature = "alloc")]
impl<T: Clone + Default> Lent<'_, T> {
    pub fn owned(elements: usize) -> Self {
        Lent::Owned(vec![T::default(); elements].into_boxed_slice())
    }
}

impl<T> Deref for Lent<'_, T> {
    type Target = [T];

    fn deref(&self) -> &[T] {
        match self {
            #[cfg(feature = "alloc")]
            Lent::Owned(buffer) => buffer,
            Lent::Borrowed(buffer) => buffer,
        }
    }
}

impl<T> DerefMut for Lent<'_, T> {
    fn deref_mut(&mut self) -> &mut [T] {
        match self {
            #[cfg(feature = "alloc")]
            Lent::Owned(buffer) => buffer,
            Lent::Borrowed(buffer) => buffer,
        }
    }
}
