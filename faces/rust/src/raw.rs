//! The structs of `goblin.h`, which the library reads and writes. Some are public types of this crate, and some have a
//! public type with goblin's fields, which may be wider. The test compares the offset and the size of each field with
//! the library's.
pub use crate::generated::{Dyn, Header, Note, ProgramHeader, Range, Refusal, Reloc, Section, SectionHeader};
pub use crate::generated::{Sym, Symbol};

const _: () = assert!(usize::BITS == 64, "the library is only for 64-bit machines");

macro_rules! records {
    ($($(#[$doc:meta])* $name:ident { $($(#[$of_field:meta])* $field:ident: $type:ty),* $(,)? })*) => {$(
        $(#[$doc])*
        #[repr(C)]
        #[derive(Clone, Copy, Debug, Default, PartialEq, Eq, Hash)]
        pub struct $name { $($(#[$of_field])* pub $field: $type),* }

        #[cfg(test)]
        impl $crate::raw::tests::Fields for $name {
            fn fields(&self) -> std::vec::Vec<std::vec::Vec<u8>> {
                [$(self.$field.fields()),*].concat()
            }
        }
    )*};
}

pub(crate) use records;

/// A file: its bytes and its header.
#[repr(C)]
pub struct File {
    bytes: *const u8,
    len: usize,
    pub header: Header,
}

impl File {
    /// Returns the file of some bytes, which must outlive it, by a header for the calls that need one.
    #[inline]
    pub fn of(bytes: &[u8], header: Option<&Header>) -> Self {
        File { bytes: bytes.as_ptr(), len: bytes.len(), header: header.copied().unwrap_or_default() }
    }
}

#[cfg(test)]
pub mod tests {
    use super::*;
    use crate::sys;
    use std::prelude::v1::*;
    use std::vec;

    pub trait Fields {
        /// Returns the bytes of each field. A range counts as two fields.
        fn fields(&self) -> Vec<Vec<u8>>;
    }

    macro_rules! numbers {
        ($($type:ty)*) => {$(
            impl Fields for $type {
                fn fields(&self) -> Vec<Vec<u8>> {
                    vec![self.to_ne_bytes().to_vec()]
                }
            }
        )*};
    }
    numbers!(u8 u16 u32 u64 i64 usize);

    records! {
        /// One of each struct, which the library fills.
        Layout {
            size_of_refusal: u64, size_of_range: u64, size_of_header: u64, size_of_section: u64, size_of_segment: u64,
            size_of_symbol: u64, size_of_reloc: u64, size_of_note: u64, size_of_dyn: u64, size_of_file: u64,
            refusal: Refusal, range: Range, header: Header, section: Section, segment: ProgramHeader, symbol: Symbol,
            reloc: Reloc, note: Note, entry: Dyn,
        }
    }

    // Fails unless each byte of a record's first field is 1, of its second 2, and so on.
    fn assert_filled<T: Fields>(record: &T, size: u64, fields: usize) {
        assert_eq!(std::mem::size_of::<T>() as u64, size);
        let found = record.fields();
        assert_eq!(found.len(), fields);
        for (field, number) in found.iter().zip(1..) {
            assert!(field.iter().all(|byte| *byte == number), "field {} is {:?}", number, field);
        }
    }

    #[test]
    fn fields_have_the_offsets_of_the_library() {
        let layout = sys::layout();
        assert_filled(&layout.refusal, layout.size_of_refusal, 7);
        assert_filled(&layout.range, layout.size_of_range, 2);
        assert_filled(&layout.header, layout.size_of_header, 18);
        assert_filled(&layout.section, layout.size_of_section, 10);
        assert_filled(&layout.segment, layout.size_of_segment, 8);
        assert_filled(&layout.symbol, layout.size_of_symbol, 6);
        assert_filled(&layout.reloc, layout.size_of_reloc, 4);
        assert_filled(&layout.note, layout.size_of_note, 6);
        assert_filled(&layout.entry, layout.size_of_dyn, 2);
        assert_eq!(std::mem::size_of::<File>() as u64, layout.size_of_file);
    }
}
