//! As much of smallvec as loopsubdiv.rs uses. A list that fits stands in place and not on the heap, as with the crate, so that bench/run times the Rust as it would run.
use std::mem::MaybeUninit;
use std::ops::{Deref, DerefMut};
use std::slice;

/// # Safety
/// The type is an array of `SIZE` items and nothing else.
pub unsafe trait Array {
    type Item: Copy;
    const SIZE: usize;
}

unsafe impl<T: Copy, const N: usize> Array for [T; N] {
    type Item = T;
    const SIZE: usize = N;
}

enum Kept<A: Array> {
    /// The first items are set, so many.
    InPlace(MaybeUninit<A>, usize),
    Heap(Vec<A::Item>),
}

pub struct SmallVec<A: Array>(Kept<A>);

impl<A: Array> SmallVec<A> {
    #[inline]
    pub fn from_elem(elem: A::Item, n: usize) -> Self {
        if n > A::SIZE {
            return SmallVec(Kept::Heap(vec![elem; n]));
        }
        let mut items = MaybeUninit::<A>::uninit();
        for i in 0..n {
            // SAFETY: i is below SIZE.
            unsafe { items.as_mut_ptr().cast::<A::Item>().add(i).write(elem) };
        }
        SmallVec(Kept::InPlace(items, n))
    }
}

impl<A: Array> Deref for SmallVec<A> {
    type Target = [A::Item];

    #[inline]
    fn deref(&self) -> &[A::Item] {
        match &self.0 {
            // SAFETY: from_elem set the first n.
            Kept::InPlace(items, n) => unsafe { slice::from_raw_parts(items.as_ptr().cast(), *n) },
            Kept::Heap(items) => items,
        }
    }
}

impl<A: Array> DerefMut for SmallVec<A> {
    #[inline]
    fn deref_mut(&mut self) -> &mut [A::Item] {
        match &mut self.0 {
            // SAFETY: from_elem set the first n.
            Kept::InPlace(items, n) => unsafe { slice::from_raw_parts_mut(items.as_mut_ptr().cast(), *n) },
            Kept::Heap(items) => items,
        }
    }
}

#[macro_export]
macro_rules! smallvec {
    ($elem:expr; $n:expr) => {
        $crate::SmallVec::from_elem($elem, $n)
    };
}
