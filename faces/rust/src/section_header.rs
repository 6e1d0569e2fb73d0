//! Section headers, their constants, and the names of their numbers.
use crate::generated::names::{SHF, SHT};
pub use crate::generated::section_header::*;
use crate::elf::Elf;
use crate::error::Result;
use crate::items::{table, Batches, Items};
use crate::names::name_of;
use crate::{raw, sys};
use core::ops::Range;

/// A section header.
///
/// ```
/// use goblin_rs::section_header::{SectionHeader, SHF_ALLOC, SHF_WRITE, SHT_PROGBITS};
///
/// let section =
///     SectionHeader { sh_type: SHT_PROGBITS, sh_flags: SHF_ALLOC | SHF_WRITE, ..SectionHeader::default() };
/// assert!(section.sh_flags & SHF_ALLOC != 0 && section.is_writable());
/// ```
pub use crate::raw::SectionHeader;

impl SectionHeader {
    /// Returns the section's range in the file, inside the file or not, or `None` if its type is `SHT_NOBITS`. For any
    /// other type it is `sh_offset` and `sh_size` as they stand, and may be empty. Its end is at most `usize::MAX`.
    /// [`Elf::section_data`] returns the bytes.
    #[must_use]
    pub fn file_range(&self) -> Option<Range<usize>> {
        let start = self.sh_offset as usize;
        let range = start..start.saturating_add(self.sh_size as usize);
        Some(range).filter(|_| self.sh_type != SHT_NOBITS)
    }

    /// Returns the section's range in memory. Its end is at most `usize::MAX`.
    #[must_use]
    pub fn vm_range(&self) -> Range<usize> {
        let start = self.sh_addr as usize;
        start..start.saturating_add(self.sh_size as usize)
    }

    /// Reports whether the section holds relocations with addends (`SHT_RELA`). As in goblin, it is false for those
    /// without (`SHT_REL`).
    #[must_use]
    pub fn is_relocation(&self) -> bool {
        self.sh_type == SHT_RELA
    }

    /// Reports whether the section is loaded and executable.
    #[must_use]
    pub fn is_executable(&self) -> bool {
        self.is_alloc() && self.sh_flags & SHF_EXECINSTR != 0
    }

    /// Reports whether the section is loaded and writable.
    #[must_use]
    pub fn is_writable(&self) -> bool {
        self.is_alloc() && self.sh_flags & SHF_WRITE != 0
    }

    /// Reports whether the section is loaded into memory.
    #[must_use]
    pub fn is_alloc(&self) -> bool {
        self.sh_flags & SHF_ALLOC != 0
    }

    /// Returns its start and its negative end in the file, if it has bytes there, and then in memory, if it is loaded.
    /// What it doesn't have is inside any segment.
    pub(crate) fn bounds(&self) -> [i128; 4] {
        let of_file = Some(i128::from(self.sh_offset)).filter(|_| self.sh_type != SHT_NOBITS);
        let of_memory = Some(i128::from(self.sh_addr)).filter(|_| self.is_alloc());
        let end = |start: i128| -start - i128::from(self.sh_size);
        [of_file, of_file.map(end), of_memory, of_memory.map(end)].map(|bound| bound.unwrap_or(i128::MAX))
    }

    /// Returns what, with the bounds, decides in which segments it is: a number below 16.
    pub(crate) fn class(&self) -> usize {
        let parts = [self.sh_flags & SHF_TLS != 0, self.is_alloc(), self.sh_type == SHT_NOBITS, self.sh_size == 0];
        parts.iter().fold(0, |class, part| 2 * class + usize::from(*part))
    }
}

/// The section headers of a file.
///
/// ```
/// # let bytes = std::fs::read(std::env::current_exe()?)?;
/// let elf = goblin_rs::Elf::parse(&bytes)?;
/// let names = elf.shdr_strtab()?;
/// for section in elf.section_headers()? {
///     println!("{:#x} {}", section.sh_offset, names.get(section.sh_name)?.unwrap_or(""));
/// }
/// # Ok::<(), Box<dyn std::error::Error>>(())
/// ```
#[derive(Clone, Copy, Debug)]
pub struct SectionHeaders<'a> {
    elf: Elf<'a>,
    count: u64,
}

/// An iterator over section headers.
pub type SectionHeaderIterator<'a> = Items<SectionHeaders<'a>>;

impl<'a> SectionHeaders<'a> {
    pub(crate) fn of(elf: Elf<'a>) -> Result<Self> {
        let count = sys::goblin_section_count(&elf.file, &elf.header)?;
        Ok(SectionHeaders { elf, count: count.expect("headers that are not refused have a count") })
    }
}

table!(SectionHeaders of SectionHeader, "section header", "section headers", [raw::Section; 32]);

impl Batches<SectionHeader> for SectionHeaders<'_> {
    #[inline]
    fn item(&self, section: raw::Section) -> SectionHeader {
        section.into()
    }

    #[inline]
    fn read(&self, index: u64) -> Result<Option<SectionHeader>> {
        sys::goblin_section(&self.elf.file, &self.elf.header, index)
    }

    fn fill(&self, first: u64, items: &mut [raw::Section]) -> Result<Option<u64>> {
        sys::goblin_sections(&self.elf.file, &self.elf.header, first, items)
    }
}

/// Returns the name of a section's type, such as `SHT_PROGBITS`, or `UNKNOWN_SHT`. As in goblin, 19 is `SHT_NUM`, which
/// newer tools print as `RELR`, and 0x70000001 is `SHT_X86_64_UNWIND` for every machine.
#[must_use]
pub fn sht_to_str(sh_type: u32) -> &'static str {
    name_of(SHT, sh_type)
}

/// Returns the name of one flag of a section, such as `SHF_WRITE`, or `SHF_UNKNOWN`.
#[must_use]
pub fn shf_to_str(flag: u64) -> &'static str {
    // (no flag above 32 bits has a name, and neither has 0)
    name_of(SHF, u32::try_from(flag).unwrap_or(0))
}
