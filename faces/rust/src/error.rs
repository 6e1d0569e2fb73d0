//! Why a file is refused.
use crate::generated::{ITEM_SYMBOLS, SECTION_TYPE};
use crate::section_header::{sht_to_str, SectionHeader};
use crate::{raw, sys};
use alloc::{string::String, vec};
use core::{fmt, result};
#[cfg(feature = "std")]
use std::{error, io};

/// Why a file or a section of it is refused.
///
/// `Debug` prints the same text as `Display`, so a `main` that returns an error prints a readable message.
///
/// ```
/// let refused = goblin_rs::Elf::parse(b"#!/bin/sh\n# no ELF file").unwrap_err();
/// assert_eq!(refused.to_string(), "Invalid magic number: 0x732f6e69622f2123");
/// // as an error of std::io
/// let refused: std::io::Error = refused.into();
/// assert_eq!(refused.kind(), std::io::ErrorKind::InvalidData);
/// ```
#[derive(Clone, Copy, PartialEq, Eq, Hash)]
pub struct Error(raw::Refusal);

/// A result with this crate's [`Error`].
pub type Result<T> = result::Result<T, Error>;

/// The kind of an error, with the numbers that belong to it, in the order of `goblin.h`. Later versions may have more
/// kinds.
///
/// A number in a section or a segment, and a part of a note that is read as bytes, may also end ([`Kind::TooBig`]) or
/// start ([`Kind::BadOffset`]) past the end of the section or the segment. Of a list of headers the item is one header,
/// while [`Error::offset`] is the list's. The offset of [`Kind::BadOffset`] counts from the start of the section or the
/// segment for such a number, and from the start of the note for such a part; else from the start of the file, as
/// [`Error::offset`] always does. An alignment of notes below 4 counts as 4.
///
/// ```
/// use goblin_rs::{Elf, Kind};
///
/// let refused = Elf::parse(b"\x7fELF").unwrap_err();
/// assert_eq!(refused.kind(), Kind::TooSmall);
/// ```
pub use crate::generated::Kind;

/// What an error is about, if its kind alone does not say it. Later versions may have more.
///
/// ```
/// use goblin_rs::section_header::{SectionHeader, SHT_NOTE};
/// use goblin_rs::{error::Item, Elf};
///
/// # let bytes = std::fs::read(std::env::current_exe()?)?;
/// let elf = Elf::parse(&bytes)?;
/// // a section with 8 bytes, where the header of a note has 12
/// let section = SectionHeader { sh_type: SHT_NOTE, sh_offset: 16, sh_size: 8, ..SectionHeader::default() };
/// let refused = elf.notes_bytes(&section).unwrap_err();
/// assert_eq!((refused.item(), refused.offset()), (Some(Item::NoteHeader), 16));
/// # Ok::<(), Box<dyn std::error::Error>>(())
/// ```
pub use crate::generated::Item;

impl Error {
    /// Returns what the error is about, if its kind alone does not say it.
    #[must_use]
    pub fn item(&self) -> Option<Item> {
        Item::of(&self.0)
    }

    /// Returns where in the file the thing begins that is refused: 0 for the header, the offset of a list of headers,
    /// of a table or of a string table, or that of the string, the note, the bytes, or the field of a number that does
    /// not fit. For a header that is read of a list it is the list's offset.
    #[must_use]
    pub fn offset(&self) -> u64 {
        self.0.offset
    }

    /// Returns the kind of this error.
    #[must_use]
    pub fn kind(&self) -> Kind {
        Kind::of(&self.0)
    }

    #[inline]
    pub(crate) fn new(why: raw::Refusal) -> Self {
        Error(why)
    }

    /// Returns an error of a kind that this crate refuses itself, with its first number.
    pub(crate) fn own(kind: u32, first: u64, offset: u64) -> Self {
        Error(raw::Refusal { kind, first, offset, ..raw::Refusal::default() })
    }

    /// Returns the same error with its second number.
    pub(crate) fn second(self, second: u64) -> Self {
        Error(raw::Refusal { second, ..self.0 })
    }

    /// Returns the same error about an item.
    pub(crate) fn about(self, item: u32) -> Self {
        Error(raw::Refusal { item, ..self.0 })
    }

    /// Returns the error of a section that was read as symbols or relocations, an item, and has another type.
    pub(crate) fn section_type(section: &SectionHeader, item: u32) -> Self {
        Error::own(SECTION_TYPE, section.sh_type.into(), section.sh_offset).about(item)
    }
}

/// Writes the library's text of the error, or this crate's own of [`Kind::SectionType`] and what follows it.
impl fmt::Display for Error {
    fn fmt(&self, f: &mut fmt::Formatter<'_>) -> fmt::Result {
        match self.kind() {
            Kind::SectionType(sh_type) => {
                let held = if self.0.item == ITEM_SYMBOLS { "symbols" } else { "relocations" };
                write!(f, "A section of type {:#x} ({}) holds no {}", sh_type, sht_to_str(sh_type), held)
            }
            Kind::NoItem(index) => write!(f, "There is no item {} to write", index),
            Kind::NumberWidth(width) => write!(f, "A number has 1, 2, 4 or 8 bytes, and not {}", width),
            Kind::NotLoaded(address) => write!(f, "No segment loads the address {:#x} from the file", address),
            Kind::NotCounted(address) => write!(f, "No section has the number of symbols at {:#x}", address),
            Kind::NoString { tag, value } => write!(f, "The value {:#x} of tag {:#x} has no string", value, tag),
            Kind::OpenString(at) => write!(f, "No zero byte closes the string at offset {} of its table", at),
            _ => {
                let mut text = vec![0; sys::goblin_refusal_to_str(&self.0, &mut [])];
                sys::goblin_refusal_to_str(&self.0, &mut text);
                f.write_str(&String::from_utf8_lossy(&text))
            }
        }
    }
}

/// Writes the same text.
impl fmt::Debug for Error {
    fn fmt(&self, f: &mut fmt::Formatter<'_>) -> fmt::Result {
        fmt::Display::fmt(self, f)
    }
}

#[cfg(feature = "std")]
impl error::Error for Error {}

/// Returns an error of the kind `InvalidData` with the same text.
#[cfg(feature = "std")]
impl From<Error> for io::Error {
    fn from(e: Error) -> io::Error {
        io::Error::new(io::ErrorKind::InvalidData, e)
    }
}

#[cfg(test)]
mod tests {
    use super::*;
    use crate::generated::*;
    use crate::section_header::SHT_STRTAB;
    use std::format;
    use std::string::ToString;

    // The kind and the text of each refusal, if the numbers are 31, 5, 6 and 1. From 10 on each text begins with
    // "Malformed entity: ".
    #[rustfmt::skip]
    const REFUSALS: [(u32, u32, Kind, &str); 17] = [
        (2, 0, Kind::BadMagic(31), "Invalid magic number: 0x1f"),
        (3, 0, Kind::TooBig { size: 31, len: 5 }, "type is too big (31) for 5"),
        (4, 0, Kind::BadOffset(31), "bad offset 31"),
        (5, 1, Kind::BadInput { size: 31 }, "bad input invalid utf8 (31)"),
        (6, 2, Kind::BufferTooShort(31), "Buffer is too short for 31 section headers"),
        (6, 3, Kind::BufferTooShort(31), "Buffer is too short for 31 program headers"),
        (10, 0, Kind::InvalidClass(31), "Invalid class in Header: 31"),
        (12, 0, Kind::TooSmall, "Too small"),
        (13, 0, Kind::ElfClass(31), "invalid ELF class 1f"),
        (14, 0, Kind::DataType(31), "invalid ELF endianness DATA type 1f"),
        (15, 0, Kind::Data(31), "invalid ELF DATA type 1f"),
        (16, 0, Kind::NoteAlign(31), "Notes has unimplemented alignment requirement: 0x1f"),
        (17, 0, Kind::SymtabOffset { offset: 31, len: 5 }, "Symbol table offset (31) is beyond file boundary (5)"),
        (19, 0, Kind::SymtabPast { requested: 31, available: 5 },
            "Symbol table extends beyond file boundary (requested: 31, available: 5)"),
        (20, 0, Kind::StrtabOffset { offset: 31, len: 5 }, "String table offset (31) is beyond file boundary (5)"),
        (21, 0, Kind::StrtabRange { size: 31, offset: 5, len: 6, overflow: true },
            "Strtable size (31) + offset (5) is out of bounds for 6 #bytes. Overflowed: true"),
        (24, 0, Kind::IntegerFit(31),
            "Integer do not fit: out of range integral type conversion attempted: 31 at offset 7"),
    ];

    #[test]
    fn kinds_and_texts_are_the_library_s() {
        let of_kind = |kind, item| raw::Refusal { kind, item, first: 31, second: 5, third: 6, fourth: 1, offset: 7 };
        for (number, item, kind, text) in REFUSALS {
            let refused = Error::new(of_kind(number, item));
            let start = if number < 10 { "" } else { "Malformed entity: " };
            assert_eq!((refused.kind(), refused.to_string()), (kind, format!("{start}{text}")), "{number}");
        }
        // all others are of later versions
        for number in (0..1000).filter(|number| REFUSALS.iter().all(|row| row.0 != *number)) {
            assert_eq!(Error::new(of_kind(number, 0)).kind(), Kind::Other(number));
        }
    }

    #[test]
    fn items_are_the_library_s() {
        use Item::*;
        let items = [InvalidUtf8, SectionHeaders, ProgramHeaders, NoteHeader, NoteName, NoteDesc, Addend];
        for number in 0..1000 {
            // (whatever the kind)
            for kind in [3, 100] {
                let item = (number as usize).checked_sub(1).and_then(|index| items.get(index));
                assert_eq!(Error::own(kind, 0, 0).about(number).item().as_ref(), item, "{number}");
            }
        }
    }

    #[test]
    fn texts_of_the_crate_s_own() {
        let of_type = |sh_type| SectionHeader { sh_type, sh_offset: 0x40, ..SectionHeader::default() };
        let own = |kind| Error::own(kind, 0x1234, 0x40);
        let (symbols, relocs) = (Some(Item::Symbols), Some(Item::Relocations));
        let of_symbols = Error::section_type(&of_type(SHT_STRTAB), ITEM_SYMBOLS);
        let of_relocs = Error::section_type(&of_type(0x40), ITEM_RELOCATIONS);
        #[rustfmt::skip]
        let rows = [
            (of_symbols, symbols, Kind::SectionType(3), "A section of type 0x3 (SHT_STRTAB) holds no symbols"),
            (of_relocs, relocs, Kind::SectionType(0x40), "A section of type 0x40 (UNKNOWN_SHT) holds no relocations"),
            (own(NO_ITEM), None, Kind::NoItem(0x1234), "There is no item 4660 to write"),
            (own(NUMBER_WIDTH), None, Kind::NumberWidth(0x1234), "A number has 1, 2, 4 or 8 bytes, and not 4660"),
            (own(NOT_LOADED), None, Kind::NotLoaded(0x1234), "No segment loads the address 0x1234 from the file"),
            (own(NOT_COUNTED), None, Kind::NotCounted(0x1234), "No section has the number of symbols at 0x1234"),
            (own(OPEN_STRING), None, Kind::OpenString(0x1234),
                "No zero byte closes the string at offset 4660 of its table"),
            (own(NO_STRING).second(5), None, Kind::NoString { tag: 0x1234, value: 5 },
                "The value 0x5 of tag 0x1234 has no string"),
        ];
        for (refused, item, kind, text) in rows {
            assert_eq!((refused.kind(), refused.item(), refused.offset()), (kind, item, 0x40));
            assert_eq!((refused.to_string(), format!("{refused:?}")), (text.to_string(), text.to_string()));
        }
    }

    #[cfg(feature = "std")]
    #[test]
    fn an_error_of_input_has_the_same_text() {
        let refused = Error::own(12, 0, 0);
        let of_input = io::Error::from(refused);
        assert_eq!((of_input.kind(), of_input.to_string()), (io::ErrorKind::InvalidData, refused.to_string()));
        assert_eq!(of_input.get_ref().and_then(|e| e.downcast_ref()), Some(&refused));
    }
}
