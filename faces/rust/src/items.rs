//! What all lists of a file have in common, and the iterator over their items.
//!
//! The call that makes a list fails if the list can't be read. So a list has all of its items, and they are plain
//! values: no iterator adaptor can drop an error.
//!
//! ```
//! # let bytes = std::fs::read(std::env::current_exe()?)?;
//! let elf = goblin_rs::Elf::parse(&bytes)?;
//! let sections = elf.section_headers()?;
//! assert_eq!(sections.iter().skip(1).count(), sections.len() - 1);
//! // half of the file has no section headers, so there is no list
//! let cut = goblin_rs::Elf::parse(&bytes[..bytes.len() / 2])?;
//! assert!(cut.section_headers().is_err());
//! # Ok::<(), Box<dyn std::error::Error>>(())
//! ```
use crate::error::{Error, Result};
use core::iter::FusedIterator;
use core::ops::Range;
use core::{fmt, mem};

// The number of items at the end of a batch that are for the back of the list. The others are for the front.
const BACK: u64 = 16;

/// A list in a file: symbols, relocations, section headers or program headers. Only types of this crate have it.
///
/// ```
/// use goblin_rs::items::{Items, List};
///
/// /// Returns every second item.
/// fn each_second<L: List>(items: Items<L>) -> Vec<L::Item> {
///     items.step_by(2).collect()
/// }
/// # let bytes = std::fs::read(std::env::current_exe()?)?;
/// let elf = goblin_rs::Elf::parse(&bytes)?;
/// let segments = elf.program_headers()?;
/// assert_eq!(each_second(segments.iter()).len(), (segments.len() + 1) / 2);
/// # Ok::<(), Box<dyn std::error::Error>>(())
/// ```
///
/// ```compile_fail
/// # use goblin_rs::items::List;
/// #[derive(Clone, Copy)]
/// struct Mine;
/// impl List for Mine {
///     type Item = u8;
/// }
/// ```
pub trait List: Copy + Batches<<Self as List>::Item> {
    /// An item.
    type Item;
}

// How a list is read. Since no other crate can name this trait, none has lists of its own, so it can get more methods.
mod sealed {
    use crate::error::Result;

    /// What the macro `table` says of a list.
    pub trait Table {
        /// An item as the library writes it.
        type Raw: Copy;
        /// An array of some items.
        type Batch: AsRef<[Self::Raw]> + AsMut<[Self::Raw]> + Clone;

        /// Returns an array whose items are not read yet.
        fn batch() -> Self::Batch;

        /// Returns the number of items, which was read when the list was made.
        fn count(&self) -> u64;
    }

    pub trait Batches<Item>: Table {
        /// Returns the item that the library wrote.
        fn item(&self, raw: Self::Raw) -> Item;

        /// Reads the item at an index.
        fn read(&self, index: u64) -> Result<Option<Item>>;

        /// Reads the items from an index on until the list or the array ends, and returns how many were read.
        fn fill(&self, first: u64, items: &mut [Self::Raw]) -> Result<Option<u64>>;
    }
}
pub(crate) use sealed::{Batches, Table};

/// Returns what the library read of a list that was made. This is no error: by its contracts the library refuses a list
/// at every index or at none, and the bytes have not changed.
#[inline]
pub(crate) fn made<T>(read: Result<T>) -> T {
    match read {
        Ok(read) => read,
        Err(e) => refused_late(&e),
    }
}

#[cold]
#[inline(never)]
fn refused_late(e: &Error) -> ! {
    panic!("a list was made, so it must be refused at no index, but is refused: {e}")
}

// The methods of all lists. A list has a `count`, and its iterator is made from the list. The texts name one item
// and several.
macro_rules! list {
    ($list:ident $(<$of:ident: $bound:ident>)? of $item:ty, by $iterator:ty, $one:literal, $more:literal) => {
        impl<'a $(, $of: $bound<'a>)?> $list<'a $(, $of)?> {
            #[doc = concat!("Returns the number of ", $more, ".")]
            #[must_use]
            pub fn len(&self) -> usize {
                self.count as usize
            }

            #[doc = concat!("Reports whether there is no ", $one, ".")]
            #[must_use]
            pub fn is_empty(&self) -> bool {
                self.count == 0
            }

            #[doc = concat!("Returns the ", $more, " as a vector.")]
            #[must_use]
            pub fn to_vec(&self) -> alloc::vec::Vec<$item> {
                self.iter().collect()
            }

            #[doc = concat!("Returns an iterator over the ", $more, " in order.")]
            pub fn iter(&self) -> $iterator {
                <$iterator>::new(*self)
            }
        }

        impl<'a $(, $of: $bound<'a>)?> IntoIterator for $list<'a $(, $of)?> {
            type Item = $item;
            type IntoIter = $iterator;

            fn into_iter(self) -> $iterator {
                self.iter()
            }
        }

        impl<'a $(, $of: $bound<'a>)?> IntoIterator for &$list<'a $(, $of)?> {
            type Item = $item;
            type IntoIter = $iterator;

            fn into_iter(self) -> $iterator {
                self.iter()
            }
        }
    };
}

// The methods of a list whose items have indices. The library writes so many of them at a time.
macro_rules! table {
    ($list:ident of $item:ty, $one:literal, $more:literal, [$raw:ty; $len:literal]) => {
        $crate::items::list!($list of $item, by $crate::items::Items<$list<'a>>, $one, $more);

        impl $crate::items::List for $list<'_> {
            type Item = $item;
        }

        impl $crate::items::Table for $list<'_> {
            type Raw = $raw;
            type Batch = [$raw; $len];

            fn batch() -> Self::Batch {
                [Default::default(); $len]
            }

            fn count(&self) -> u64 {
                self.count
            }
        }

        impl $list<'_> {
            #[doc = concat!("Returns the ", $one, " at an index, or `None` past the end.")]
            #[inline]
            #[must_use]
            pub fn get(&self, index: usize) -> Option<$item> {
                $crate::items::made($crate::items::Batches::read(self, index as u64))
            }
        }

        /// Two lists are equal if their items are equal.
        impl PartialEq for $list<'_> {
            fn eq(&self, other: &Self) -> bool {
                self.iter().eq(other.iter())
            }
        }

        impl Eq for $list<'_> {}
    };
}
pub(crate) use {list, table};

/// An iterator over the items of a list, from both ends. It reads several items at a time.
///
/// ```
/// # let bytes = std::fs::read(std::env::current_exe()?)?;
/// let elf = goblin_rs::Elf::parse(&bytes)?;
/// let mut sections = elf.section_headers()?.iter();
/// let (first, left) = (sections.next(), sections.len());
/// assert_eq!(first, elf.section_header(0)?);
/// assert_eq!(sections.next_back(), elf.section_header(left)?);
/// # Ok::<(), Box<dyn std::error::Error>>(())
/// ```
#[derive(Clone)]
#[must_use = "iterators are lazy and do nothing unless consumed"]
pub struct Items<L: List> {
    list: L,
    // Items that were read: those for the front, then those for the back.
    batch: L::Batch,
    // The items that are left: indices of the batch, then of the list, then of the batch.
    front: Range<u64>,
    middle: Range<u64>,
    back: Range<u64>,
}

impl<L: List> Items<L> {
    pub(crate) fn new(list: L) -> Self {
        Items { list, batch: L::batch(), front: 0..0, middle: 0..list.count(), back: 0..0 }
    }

    // Returns the item at an index of the batch. The remainder changes nothing, but the compiler then needs no bounds
    // check if the length is a power of two.
    #[inline]
    fn item(&self, index: u64) -> L::Item {
        let batch = self.batch.as_ref();
        self.list.item(batch[index as usize % batch.len()])
    }

    // The number of items of a batch that are for the front.
    fn front_len(&self) -> u64 {
        self.batch.as_ref().len() as u64 - BACK
    }

    // Reads the items at some indices of the list into the batch, from an index of the batch on. Returns their
    // indices there.
    fn fill(&mut self, start: u64, indices: Range<u64>) -> Range<u64> {
        let in_batch = start..start + (indices.end - indices.start);
        let items = &mut self.batch.as_mut()[in_batch.start as usize..in_batch.end as usize];
        let filled = made(self.list.fill(indices.start, items));
        assert_eq!(filled, Some(items.len() as u64), "the list has enough items for the array");
        in_batch
    }

    // Reads items for the front, if it has none. Reports whether it then has some.
    #[inline(never)]
    fn fill_front(&mut self) -> bool {
        if self.middle.is_empty() {
            self.front = mem::take(&mut self.back);
        } else {
            let Range { start, end } = self.middle;
            self.middle.start = end.min(start + self.front_len());
            self.front = self.fill(0, start..self.middle.start);
        }
        !self.front.is_empty()
    }

    // Reads items for the back, if it has none. Reports whether it then has some.
    #[inline(never)]
    fn fill_back(&mut self) -> bool {
        if self.middle.is_empty() {
            self.back = mem::take(&mut self.front);
        } else {
            let Range { start, end } = self.middle;
            self.middle.end = start.max(end.saturating_sub(BACK));
            self.back = self.fill(self.front_len(), self.middle.end..end);
        }
        !self.back.is_empty()
    }
}

impl<L: List> Iterator for Items<L> {
    type Item = L::Item;

    #[inline]
    fn next(&mut self) -> Option<Self::Item> {
        if self.front.is_empty() && !self.fill_front() {
            return None;
        }
        self.front.start += 1;
        Some(self.item(self.front.start - 1))
    }

    fn size_hint(&self) -> (usize, Option<usize>) {
        let left: u64 = [&self.front, &self.middle, &self.back].map(|range| range.end - range.start).iter().sum();
        (left as usize, Some(left as usize))
    }

    fn nth(&mut self, n: usize) -> Option<Self::Item> {
        let mut n = n as u64;
        for range in [&mut self.front, &mut self.middle, &mut self.back] {
            let skipped = n.min(range.end - range.start);
            range.start += skipped;
            n -= skipped;
        }
        self.next()
    }

    fn count(self) -> usize {
        self.len()
    }

    fn last(mut self) -> Option<Self::Item> {
        self.next_back()
    }
}

impl<L: List> DoubleEndedIterator for Items<L> {
    #[inline]
    fn next_back(&mut self) -> Option<Self::Item> {
        if self.back.is_empty() && !self.fill_back() {
            return None;
        }
        self.back.end -= 1;
        Some(self.item(self.back.end))
    }

    fn nth_back(&mut self, n: usize) -> Option<Self::Item> {
        let mut n = n as u64;
        for range in [&mut self.back, &mut self.middle, &mut self.front] {
            let skipped = n.min(range.end - range.start);
            range.end -= skipped;
            n -= skipped;
        }
        self.next_back()
    }
}

impl<L: List> ExactSizeIterator for Items<L> {}

impl<L: List> FusedIterator for Items<L> {}

impl<L: List> fmt::Debug for Items<L> {
    fn fmt(&self, f: &mut fmt::Formatter<'_>) -> fmt::Result {
        f.debug_struct("Items").field("left", &self.len()).finish_non_exhaustive()
    }
}
