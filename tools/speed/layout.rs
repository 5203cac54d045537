//! This library's layout, as one would write it in Rust with `unsafe` for speed: two columns of slots with a length each,
//! in which a removal keeps the order. What this library takes beside it is the cost of proof and toolchain. What it takes
//! beside the Rust crate is the cost of the layout.

use crate::both::Both;
use crate::bytes::Bytes;
use crate::calls::{numbers_at, wide_at};
use crate::inputs::key_of;
use crate::numbers::Numbers;
use crate::platform::Global;
use crate::rust_crate::map_in_rust;
use crate::texts::Texts;
use crate::wide::Wide;
use std::borrow::Borrow;
use std::mem::{self, MaybeUninit};
use std::{hint, ptr, slice};

/// A list of at most `N` items.
struct Column<T, const N: usize> {
    /// The first `len` are initialized, and are `Some`.
    slots: [MaybeUninit<Option<T>>; N],
    len: usize,
}

impl<T, const N: usize> Column<T, N> {
    #[inline]
    fn new() -> Self {
        Column { slots: [const { MaybeUninit::uninit() }; N], len: 0 }
    }

    #[inline]
    fn items(&self) -> impl Iterator<Item = &T> {
        // SAFETY: there are no more items than slots.
        unsafe { hint::assert_unchecked(self.len <= N) };
        // SAFETY: the first `len` slots are initialized.
        let slots: &[Option<T>] = unsafe { slice::from_raw_parts(self.slots.as_ptr().cast(), self.len) };
        // SAFETY: they are `Some`.
        slots.iter().map(|slot| unsafe { slot.as_ref().unwrap_unchecked() })
    }

    /// The item at `index`, which must be below `len`.
    #[inline]
    unsafe fn at(&mut self, index: usize) -> &mut T {
        unsafe { self.slots.get_unchecked_mut(index).assume_init_mut().as_mut().unwrap_unchecked() }
    }

    /// Adds an item last. There must be room.
    #[inline]
    unsafe fn push(&mut self, item: T) {
        unsafe { self.slots.get_unchecked_mut(self.len) }.write(Some(item));
        self.len += 1;
    }

    /// Takes the item at `index`, which must be below `len`, and moves those behind it up by one.
    #[inline]
    unsafe fn remove(&mut self, index: usize) -> T {
        unsafe {
            let gap = self.slots.as_mut_ptr().add(index);
            let item = gap.read().assume_init().unwrap_unchecked();
            self.len -= 1;
            ptr::copy(gap.add(1), gap, self.len - index);
            item
        }
    }
}

impl<T: Copy, const N: usize> Column<T, N> {
    #[inline]
    fn copied(&self) -> Self {
        let mut copy: Self = Column::new();
        // SAFETY: there are at most as many items as slots, here and in the copy, and they are `Copy`.
        unsafe { ptr::copy_nonoverlapping(self.slots.as_ptr(), copy.slots.as_mut_ptr(), self.len) };
        copy.len = self.len;
        copy
    }
}

impl<T, const N: usize> Drop for Column<T, N> {
    #[inline]
    fn drop(&mut self) {
        // SAFETY: the first `len` slots are initialized.
        unsafe { ptr::slice_from_raw_parts_mut(self.slots.as_mut_ptr().cast::<Option<T>>(), self.len).drop_in_place() }
    }
}

/// A map of at most `N` pairs, whose columns have the same length.
pub struct Columns<K, V, const N: usize> {
    keys: Column<K, N>,
    values: Column<V, N>,
}

impl<K, V, const N: usize> Columns<K, V, N> {
    #[inline]
    fn new() -> Self {
        Columns { keys: Column::new(), values: Column::new() }
    }

    #[inline]
    fn index_of<Q: Eq + ?Sized>(&self, key: &Q) -> Option<usize>
    where
        K: Borrow<Q>,
    {
        self.keys.items().position(|stored| stored.borrow() == key)
    }

    #[inline]
    fn get<Q: Eq + ?Sized>(&self, key: &Q) -> Option<&V>
    where
        K: Borrow<Q>,
    {
        let index = self.index_of(key)?;
        // SAFETY: the key stands there, and the columns have the same length.
        unsafe { self.values.slots.get_unchecked(index).assume_init_ref().as_ref() }
    }

    /// Adds a pair with a new key, and returns `true`, if there is room.
    #[inline]
    fn push(&mut self, key: K, value: V) -> bool {
        let has_room = self.keys.len < N;
        if has_room {
            // SAFETY: there is room, and the columns have the same length.
            unsafe {
                self.keys.push(key);
                self.values.push(value);
            }
        }
        has_room
    }

    /// Stores a value at a key, and returns the value that stood there, or `None` if a new key doesn't fit.
    #[inline]
    fn checked_insert(&mut self, key: K, value: V) -> Option<Option<V>>
    where
        K: Eq,
    {
        match self.index_of(&key) {
            // SAFETY: the key stands there, and the columns have the same length.
            Some(index) => Some(Some(mem::replace(unsafe { self.values.at(index) }, value))),
            None => self.push(key, value).then_some(None),
        }
    }

    #[inline]
    fn remove<Q: Eq + ?Sized>(&mut self, key: &Q) -> Option<V>
    where
        K: Borrow<Q>,
    {
        let index = self.index_of(key)?;
        // SAFETY: the key stands there, and the columns have the same length.
        unsafe {
            let _key = self.keys.remove(index);
            Some(self.values.remove(index))
        }
    }

    #[inline]
    fn retain(&mut self, mut keep: impl FnMut(&K, &mut V) -> bool) {
        // A panic of `keep` leaks the pairs, since the columns are empty until the end.
        let (len, mut kept) = (mem::take(&mut self.keys.len), 0);
        self.values.len = 0;
        let (keys, values) = (self.keys.slots.as_mut_ptr(), self.values.slots.as_mut_ptr());
        for index in 0..len {
            // SAFETY: both slots were initialized and `Some`, and no earlier turn moved or dropped them.
            unsafe {
                let (key, value) = (&mut *keys.add(index), &mut *values.add(index));
                let pair = (key.assume_init_ref().as_ref().unwrap_unchecked(), value.assume_init_mut().as_mut().unwrap_unchecked());
                if keep(pair.0, pair.1) {
                    ptr::copy(key, keys.add(kept), 1);
                    ptr::copy(value, values.add(kept), 1);
                    kept += 1;
                } else {
                    key.assume_init_drop();
                    value.assume_init_drop();
                }
            }
        }
        (self.keys.len, self.values.len) = (kept, kept);
    }

    #[inline]
    fn len(&self) -> usize {
        self.keys.len
    }
}

impl<K: Eq, V, const N: usize> FromIterator<(K, V)> for Columns<K, V, N> {
    #[inline]
    fn from_iter<I: IntoIterator<Item = (K, V)>>(pairs: I) -> Self {
        let mut map = Columns::new();
        for (key, value) in pairs {
            map.checked_insert(key, value);
        }
        map
    }
}

impl<K: Eq, V, const N: usize> From<[(K, V); N]> for Columns<K, V, N> {
    #[inline]
    fn from(pairs: [(K, V); N]) -> Self {
        pairs.into_iter().collect()
    }
}

impl<K: Clone, V: Clone, const N: usize> Clone for Columns<K, V, N> {
    #[inline]
    fn clone(&self) -> Self {
        let mut copy = Columns::new();
        for (key, value) in self.keys.items().zip(self.values.items()) {
            let (key, value) = (key.clone(), value.clone());
            // SAFETY: there are at most as many pairs as here.
            unsafe {
                copy.keys.push(key);
                copy.values.push(value);
            }
        }
        copy
    }
}

impl<K: Copy, V: Copy, const N: usize> Columns<K, V, N> {
    #[inline]
    fn copied(&self) -> Self {
        Columns { keys: self.keys.copied(), values: self.values.copied() }
    }
}

map_in_rust! { Columns,
    #[inline]
    fn note(&mut self, key: u64) {
        match self.index_of(&key) {
            Some(index) => {
                // SAFETY: the key stands there, and the columns have the same length.
                let times = unsafe { self.values.at(index) };
                *times = times.wrapping_add(1);
            }
            None => {
                self.push(key, 1);
            }
        }
    }

    #[inline]
    fn total(&self) -> u64 {
        self.values.items().fold(0, |sum, value| sum.wrapping_add(*value))
    }

    #[inline]
    fn copy_and_find(&self, key: u64) -> u64 {
        self.copied().found(key)
    }
}

impl<const N: usize> Both for Columns<u64, u64, N> {
    #[inline]
    fn is_same(&self, other: &Self) -> bool {
        let mut pairs = self.keys.items().zip(self.values.items());
        self.keys.len == other.keys.len && pairs.all(|(key, value)| other.find(*key) == Some(*value))
    }

    #[inline]
    fn put_all(&mut self, other: &Self) {
        for (key, value) in other.keys.items().zip(other.values.items()) {
            self.checked_insert(*key, *value);
        }
    }
}

/// The sum of some bytes, each with the bits of `mask` flipped.
#[inline]
fn sum_of<'a>(items: impl Iterator<Item = &'a u8>, mask: u64) -> u64 {
    items.fold(0, |sum, item| sum.wrapping_add(*item as u64 ^ mask))
}

impl<const N: usize> Bytes for Columns<u8, (), N> {
    #[inline]
    fn empty() -> Self {
        Columns::new()
    }

    #[inline]
    fn put(&mut self, item: u8) {
        self.checked_insert(item, ());
    }

    #[inline]
    fn has(&self, item: u8) -> bool {
        self.index_of(&item).is_some()
    }

    #[inline]
    fn total(&self, mask: u64) -> u64 {
        sum_of(self.keys.items(), mask)
    }

    #[inline]
    fn count(&self) -> u64 {
        self.keys.len as u64
    }

    #[inline]
    fn keep_half(&mut self, first: u8, bit: u8) {
        self.retain(|item, _| item.wrapping_add(first) & bit != 0);
    }

    #[inline]
    fn join_and_find(&self, other: &Self, item: u8) -> u64 {
        let mut set = Self::empty();
        for item in self.keys.items().chain(other.keys.items()) {
            set.put(*item);
        }
        (set.has(item) as u64).wrapping_add(set.count())
    }

    #[inline]
    fn total_apart_and_common(&self, other: &Self, mask: u64) -> u64 {
        let apart = self.keys.items().filter(|item| !other.has(**item));
        let common = self.keys.items().filter(|item| other.has(**item));
        sum_of(apart, mask).wrapping_add(sum_of(common, mask))
    }
}
