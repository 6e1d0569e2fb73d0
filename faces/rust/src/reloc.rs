//! Relocations.
pub use crate::generated::reloc::*;
use crate::elf::Elf;
use crate::error::Result;
use crate::file::File;
use crate::items::{table, Batches, Items};
use crate::section_header::{SectionHeader, SHT_REL, SHT_RELA};
use crate::{raw, sys};

/// A relocation.
///
/// ```
/// use goblin_rs::reloc::Reloc;
///
/// let reloc = Reloc { r_offset: 0x18, r_addend: Some(-4), r_sym: 3, r_type: 2 };
/// assert_eq!(reloc, Reloc { r_addend: Some(-4), ..reloc });
/// ```
#[derive(Clone, Copy, Debug, Default, PartialEq, Eq, Hash)]
pub struct Reloc {
    /// Where it applies: an offset in a section, or an address, which depends on the file's type.
    pub r_offset: u64,
    /// The addend, or `None` if the relocation has none of its own.
    pub r_addend: Option<i64>,
    /// The index of the symbol, or 0 for none.
    pub r_sym: usize,
    /// The type, whose meaning depends on the machine.
    pub r_type: u32,
}

impl Reloc {
    /// Returns the relocation in C, whose index of a symbol is cut to 32 bits.
    pub(crate) fn cut(&self) -> raw::Reloc {
        let Reloc { r_offset, r_addend, r_sym, r_type } = *self;
        raw::Reloc { r_offset, r_type, r_sym: r_sym as u32, r_addend: r_addend.unwrap_or(0) }
    }
}

/// The relocations of a section.
///
/// ```
/// # let bytes = std::fs::read(std::env::current_exe()?)?;
/// let elf = goblin_rs::Elf::parse(&bytes)?;
/// use goblin_rs::section_header::SHT_RELA;
///
/// for section in elf.section_headers()?.iter().filter(|section| section.sh_type == SHT_RELA) {
///     let relocs = elf.relocs(&section)?;
///     assert!(relocs.iter().all(|reloc| reloc.r_addend.is_some()));
/// }
/// # Ok::<(), Box<dyn std::error::Error>>(())
/// ```
#[derive(Clone, Copy, Debug, Default)]
pub struct RelocSection<'a> {
    file: File<'a>,
    header: raw::Header,
    range: raw::Range,
    is_rela: bool,
    count: u64,
}

/// An iterator over relocations.
pub type RelocIterator<'a> = Items<RelocSection<'a>>;

impl<'a> RelocSection<'a> {
    pub(crate) fn of(elf: &Elf<'a>, range: raw::Range, is_rela: bool) -> Result<Self> {
        let Elf { file, header } = *elf;
        let count = sys::goblin_reloc_count(&file, &header, &range, is_rela)?;
        let count = count.expect("a section that is not refused has a count");
        Ok(RelocSection { file, header, range, is_rela, count })
    }
}

table!(RelocSection of Reloc, "relocation", "relocations", [raw::Reloc; 64]);

impl Batches<Reloc> for RelocSection<'_> {
    #[inline]
    fn item(&self, reloc: raw::Reloc) -> Reloc {
        let raw::Reloc { r_offset, r_type, r_sym, r_addend } = reloc;
        Reloc { r_offset, r_addend: self.is_rela.then_some(r_addend), r_sym: r_sym as usize, r_type }
    }

    #[inline]
    fn read(&self, index: u64) -> Result<Option<Reloc>> {
        let found = sys::goblin_reloc(&self.file, &self.header, &self.range, self.is_rela, index)?;
        Ok(found.map(|reloc| self.item(reloc)))
    }

    fn fill(&self, first: u64, items: &mut [raw::Reloc]) -> Result<Option<u64>> {
        sys::goblin_relocs(&self.file, &self.header, &self.range, self.is_rela, first, items)
    }
}

pub(crate) fn holds_relocs(header: &SectionHeader) -> bool {
    header.sh_type == SHT_RELA || header.sh_type == SHT_REL
}
