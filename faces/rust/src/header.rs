//! The header of a file, its constants, and the names of its numbers.
pub use crate::generated::header::*;
use crate::generated::names::{CLASS, ET, MACHINE};
use crate::generated::{INTEGER_FIT, ITEM_ADDEND, ITEM_RELOCATIONS, ITEM_SYMBOLS, NO_ITEM, NUMBER_WIDTH};
use crate::error::{Error, Result};
use crate::names::name_of;
use crate::part::{Part, Ranged};
use crate::program_header::ProgramHeader;
use crate::reloc::{holds_relocs, Reloc};
use crate::section_header::{section_header32, section_header64, SectionHeader, SHT_DYNSYM, SHT_RELA, SHT_SYMTAB};
use crate::sym::{sym32, sym64, Sym};
use crate::sys;

/// A file's header.
///
/// ```
/// use goblin_rs::header::{machine_to_str, EM_X86_64, ET_DYN};
///
/// # let bytes = std::fs::read(std::env::current_exe()?)?;
/// let header = goblin_rs::Elf::parse(&bytes)?.header;
/// let is_for_this = header.e_machine == EM_X86_64 && header.e_type == ET_DYN;
/// println!("{}: {}", machine_to_str(header.e_machine), is_for_this);
/// # Ok::<(), Box<dyn std::error::Error>>(())
/// ```
pub use crate::raw::Header;

impl Header {
    /// Reports whether the file is of the 64-bit class. Any class but 2 counts as the 32-bit class.
    #[must_use]
    pub fn is_64(&self) -> bool {
        self.ei_class == ELFCLASS64
    }

    /// Reports whether the file is little endian. Any byte order but 2 counts as little endian.
    #[must_use]
    pub fn little_endian(&self) -> bool {
        self.ei_data != ELFDATA2MSB
    }
}

/// The calls that write. Each changes the bytes of its record in a file's bytes, in the class and byte order of this
/// header, and no others. If it fails, it changes nothing. What is written is read again as the same record, unless
/// section 0 has the number of headers and the call changes it. Each panics if the library that is linked has another
/// interface than this crate.
///
/// ```
/// use goblin_rs::section_header::SHF_WRITE;
/// use goblin_rs::Elf;
///
/// # let mut bytes = std::fs::read(std::env::current_exe()?)?;
/// let elf = Elf::parse(&bytes)?;
/// let (header, found) = (elf.header, elf.section_by_name(".text", 0)?);
/// let (index, mut section) = found.ok_or("no .text")?;
/// section.sh_flags |= SHF_WRITE;
/// header.put_section_header(&mut bytes, index, &section)?;
/// assert_eq!(Elf::parse(&bytes)?.section_header(index)?, Some(section));
/// # Ok::<(), Box<dyn std::error::Error>>(())
/// ```
impl Header {
    /// Writes this header at the start of a file's bytes, in the class and byte order that it names. Writes the magic
    /// number, too, and leaves the padding, the bytes 9 to 15.
    ///
    /// # Errors
    /// If the class or the byte order is neither 1 nor 2, if there are too few bytes, or if a number does not fit
    /// the class.
    pub fn put(&self, bytes: &mut [u8]) -> Result<()> {
        sys::goblin_put_header(bytes, self).map(|_| ())
    }

    /// Writes the section header at an index.
    ///
    /// # Errors
    /// If there is none, if the section headers are not inside the bytes, or if a number does not fit the class.
    pub fn put_section_header(&self, bytes: &mut [u8], index: usize, section: &SectionHeader) -> Result<()> {
        is_there(index, self.e_shoff, || sys::goblin_section(bytes, self, index as u64))?;
        let size = self.size_of(section_header32::SIZEOF_SHDR, section_header64::SIZEOF_SHDR);
        self.refuse_cut(bytes, self.e_shoff + index as u64 * size, &[(0, 4, section.sh_name)])?;
        sys::goblin_put_section(bytes, self, index as u64, &section.cut()).map(|_| ())
    }

    // Returns one of two sizes, or offsets, by the class.
    fn size_of(&self, in_32: usize, in_64: usize) -> u64 {
        (if self.is_64() { in_64 } else { in_32 }) as u64
    }

    // Refuses a number of a record that has more bits than its field: each has an offset in the record and a number of
    // bytes. The library refuses it as a number of so many bytes. In C the field has no more bits.
    fn refuse_cut(&self, bytes: &mut [u8], record: u64, fields: &[(u64, usize, usize)]) -> Result<()> {
        let cut = fields.iter().find(|(_, width, value)| value >> (8 * width) != 0);
        cut.map_or(Ok(()), |(at, width, value)| self.put_number(bytes, record + at, *width, *value as u64))
    }

    /// Writes the program header at an index.
    ///
    /// # Errors
    /// If there is none, if the program headers are not inside the bytes, or if a number does not fit the class.
    pub fn put_program_header(&self, bytes: &mut [u8], index: usize, segment: &ProgramHeader) -> Result<()> {
        let written = sys::goblin_put_segment(bytes, self, index as u64, segment)?;
        written.then_some(()).ok_or_else(|| Error::own(NO_ITEM, index as u64, self.e_phoff))
    }

    /// Writes the symbol at an index of a section of type `SHT_SYMTAB` or `SHT_DYNSYM`.
    ///
    /// # Errors
    /// If the section has another type, if there is no such symbol, if the symbols are not inside the bytes, or if a
    /// number does not fit the class.
    pub fn put_symbol(&self, bytes: &mut [u8], section: &SectionHeader, index: usize, symbol: &Sym) -> Result<()> {
        if ![SHT_SYMTAB, SHT_DYNSYM].contains(&section.sh_type) {
            return Err(Error::section_type(section, ITEM_SYMBOLS));
        }
        let range = section.range();
        is_there(index, section.sh_offset, || sys::goblin_symbol(bytes, self, &range, index as u64))?;
        let record = section.sh_offset + index as u64 * self.size_of(sym32::SIZEOF_SYM, sym64::SIZEOF_SYM);
        let of_index = self.size_of(14, 6);
        self.refuse_cut(bytes, record, &[(0, 4, symbol.st_name), (of_index, 2, symbol.st_shndx)])?;
        sys::goblin_put_symbol(bytes, self, &range, index as u64, &symbol.cut()).map(|_| ())
    }

    /// Writes the relocation at an index of a section of type `SHT_RELA` or `SHT_REL`.
    ///
    /// # Errors
    /// If the section has another type, if there is no such relocation, if the relocations are not inside the bytes, if
    /// a number does not fit the class, or if the relocation has an addend and those of the section have none, or the
    /// reverse.
    pub fn put_reloc(&self, bytes: &mut [u8], section: &SectionHeader, index: usize, reloc: &Reloc) -> Result<()> {
        if !holds_relocs(section) {
            return Err(Error::section_type(section, ITEM_RELOCATIONS));
        }
        let (range, is_rela, word) = (section.range(), section.sh_type == SHT_RELA, self.size_of(4, 8));
        is_there(index, section.sh_offset, || sys::goblin_reloc(bytes, self, &range, is_rela, index as u64))?;
        let record = section.sh_offset + index as u64 * if is_rela { 3 * word } else { 2 * word };
        self.refuse_cut(bytes, record, &[(word, 4, reloc.r_sym)])?;
        // (the library refuses an addend of a section without addends, unless it is 0)
        if reloc.r_addend.is_some() != is_rela && reloc.r_addend.unwrap_or(0) == 0 {
            return Err(Error::own(INTEGER_FIT, 0, record + 2 * word).about(ITEM_ADDEND));
        }
        sys::goblin_put_reloc(bytes, self, &range, is_rela, index as u64, &reloc.cut()).map(|_| ())
    }

    /// Writes a number of `width` bytes at an offset, in the file's byte order.
    ///
    /// # Errors
    /// If the width is not 1, 2, 4 or 8, if the bytes at the offset are not inside the file, or if the number does not
    /// fit.
    pub fn put_number(&self, bytes: &mut [u8], offset: u64, width: usize, value: u64) -> Result<()> {
        let written = sys::goblin_put_number(bytes, self, offset, width as u64, value)?;
        written.then_some(()).ok_or_else(|| Error::own(NUMBER_WIDTH, width as u64, offset))
    }

    /// Writes a number of `width` bytes at an offset of a section or of a segment's bytes in the file, as
    /// [`Elf::number_in`](crate::Elf::number_in) reads it.
    ///
    /// # Errors
    /// If the width is not 1, 2, 4 or 8, if the section's or the segment's bytes are not inside the file, if the number
    /// is not inside them, or if it does not fit.
    pub fn put_number_in(
        &self,
        bytes: &mut [u8],
        part: &impl Part,
        offset: u64,
        width: usize,
        value: u64,
    ) -> Result<()> {
        let range = part.range();
        let written = sys::goblin_put_number_in(bytes, self, &range, offset, width as u64, value)?;
        written.then_some(()).ok_or_else(|| Error::own(NUMBER_WIDTH, width as u64, range.offset.saturating_add(offset)))
    }
}

// Fails unless the list at an offset has an item, which is read.
fn is_there<T>(index: usize, list: u64, read: impl FnOnce() -> Result<Option<T>>) -> Result<()> {
    sys::check_interface();
    read()?.map(|_| ()).ok_or_else(|| Error::own(NO_ITEM, index as u64, list))
}

/// Returns the name of a class, [`Header::ei_class`]: `ELF32`, `ELF64`, `NONE` or `UNKNOWN_CLASS`.
#[must_use]
pub fn class_to_str(ei_class: u8) -> &'static str {
    name_of(CLASS, ei_class.into())
}

/// Returns the name of a file's type, [`Header::e_type`], such as `DYN`, or `UNKNOWN_ET`.
#[must_use]
pub fn et_to_str(e_type: u16) -> &'static str {
    name_of(ET, e_type.into())
}

/// Returns the name of a machine, [`Header::e_machine`], such as `X86_64`, or `EM_UNKNOWN`.
///
/// ```
/// use goblin_rs::header::{machine_to_str, EM_X86_64};
///
/// let bits = match machine_to_str(EM_X86_64) {
///     "X86_64" | "AARCH64" => 64,
///     _ => 32,
/// };
/// assert_eq!(bits, 64);
/// ```
#[must_use]
pub fn machine_to_str(e_machine: u16) -> &'static str {
    name_of(MACHINE, e_machine.into())
}
