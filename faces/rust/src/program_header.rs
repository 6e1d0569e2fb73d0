//! Program headers, their constants, and the names of their numbers.
use crate::generated::names::PT;
pub use crate::generated::program_header::*;
use crate::elf::Elf;
use crate::error::Result;
use crate::items::{table, Batches, Items};
use crate::names::name_of;
use crate::section_header::{SectionHeader, SectionHeaderIterator, SectionHeaders, SHF_TLS, SHT_NOBITS};
use crate::sys;
use core::iter::FusedIterator;
use core::ops::Range;

/// A program header.
///
/// ```
/// use goblin_rs::program_header::{ProgramHeader, PF_R, PF_X, PT_LOAD};
///
/// let segment = ProgramHeader { p_type: PT_LOAD, p_flags: PF_R | PF_X, ..ProgramHeader::default() };
/// assert!(segment.is_executable() && !segment.is_write());
/// ```
pub use crate::raw::ProgramHeader;
pub use crate::section_map::SectionMap;

impl ProgramHeader {
    /// Returns the segment's range in the file, inside the file or not. Its end is at most `u64::MAX`.
    #[must_use]
    pub fn file_range(&self) -> Range<usize> {
        self.p_offset as usize..self.p_offset.saturating_add(self.p_filesz) as usize
    }

    /// Returns the segment's range in memory. Its end is at most `u64::MAX`.
    #[must_use]
    pub fn vm_range(&self) -> Range<usize> {
        self.p_vaddr as usize..self.p_vaddr.saturating_add(self.p_memsz) as usize
    }

    /// Reports whether the segment holds a section, as `readelf -l` maps sections to segments.
    ///
    /// The section's range in the file, if it has one, must be inside the segment's. If it is loaded (`SHF_ALLOC`), its
    /// addresses must be inside the segment's, too. Some segments hold only some sections:
    /// - `PT_PHDR` holds none.
    /// - `PT_TLS` holds only sections with `SHF_TLS`. Of these, `PT_LOAD` and `PT_GNU_RELRO` hold those with bytes in
    ///   the file, and other segments hold none.
    /// - `PT_LOAD`, `PT_GNU_RELRO`, `PT_DYNAMIC`, `PT_GNU_EH_FRAME` and `PT_GNU_STACK` hold only loaded sections, and
    ///   so do the types from `PT_GNU_SFRAME` (0x6474e554) to `PT_GNU_MBIND_HI` (0x6474f554).
    /// - An empty section is not held at the segment's end, nor at the start of `PT_DYNAMIC` or `PT_NOTE`, unless the
    ///   segment is empty, too.
    ///
    /// This rule is not part of the library. It is tested, and compared with `readelf`, but not proved.
    #[must_use]
    pub fn holds(&self, section: &SectionHeader) -> bool {
        self.may_hold(section) && has_bounds(&section.bounds(), &self.least_bounds(section))
    }

    // Returns the least bounds of the sections of a class that the segment holds: their starts and their negative ends,
    // in the file and in memory.
    pub(crate) fn least_bounds(&self, section: &SectionHeader) -> [i128; 4] {
        let is_empty = section.sh_size == 0;
        let after = is_empty && self.p_memsz != 0 && [PT_DYNAMIC, PT_NOTE].contains(&self.p_type);
        let starts = [self.p_offset, self.p_vaddr].map(i128::from);
        let sizes = [self.p_filesz, self.p_memsz].map(|size| i128::from(size) - i128::from(is_empty && size > 0));
        let first = starts.map(|start| start + i128::from(after));
        [first[0], -starts[0] - sizes[0], first[1], -starts[1] - sizes[1]]
    }

    // Reports whether segments of this type hold sections of a class.
    pub(crate) fn may_hold(&self, section: &SectionHeader) -> bool {
        let is_tls = section.sh_flags & SHF_TLS != 0;
        match self.p_type {
            PT_PHDR => false,
            PT_TLS => is_tls,
            PT_LOAD | PT_GNU_RELRO => section.is_alloc() && !(is_tls && section.sh_type == SHT_NOBITS),
            PT_DYNAMIC | PT_GNU_EH_FRAME | PT_GNU_STACK | 0x6474_e554..=0x6474_f554 => section.is_alloc() && !is_tls,
            _ => !is_tls,
        }
    }

    /// Reports whether the segment may be executed.
    #[must_use]
    pub fn is_executable(&self) -> bool {
        self.p_flags & PF_X != 0
    }

    /// Reports whether the segment may be read.
    #[must_use]
    pub fn is_read(&self) -> bool {
        self.p_flags & PF_R != 0
    }

    /// Reports whether the segment may be written.
    #[must_use]
    pub fn is_write(&self) -> bool {
        self.p_flags & PF_W != 0
    }
}

/// Reports whether each bound of a section is at least what a segment asks for.
pub(crate) fn has_bounds(bounds: &[i128; 4], least: &[i128; 4]) -> bool {
    bounds.iter().zip(least).all(|(bound, least)| bound >= least)
}

/// The program headers of a file.
///
/// ```
/// # let bytes = std::fs::read(std::env::current_exe()?)?;
/// let elf = goblin_rs::Elf::parse(&bytes)?;
/// use goblin_rs::program_header::PT_LOAD;
///
/// let loaded: u64 =
///     elf.program_headers()?.iter().filter(|segment| segment.p_type == PT_LOAD).map(|segment| segment.p_memsz).sum();
/// assert!(loaded > 0);
/// # Ok::<(), Box<dyn std::error::Error>>(())
/// ```
#[derive(Clone, Copy, Debug)]
pub struct ProgramHeaders<'a> {
    elf: Elf<'a>,
    count: u64,
}

/// An iterator over program headers.
pub type ProgramHeaderIterator<'a> = Items<ProgramHeaders<'a>>;

impl<'a> ProgramHeaders<'a> {
    pub(crate) fn of(elf: Elf<'a>) -> Result<Self> {
        let count = sys::goblin_segment_count(&elf.file, &elf.header)?;
        Ok(ProgramHeaders { elf, count: count.expect("headers that are not refused have a count") })
    }
}

table!(ProgramHeaders of ProgramHeader, "program header", "program headers", [ProgramHeader; 32]);

impl Batches<ProgramHeader> for ProgramHeaders<'_> {
    #[inline]
    fn item(&self, segment: ProgramHeader) -> ProgramHeader {
        segment
    }

    #[inline]
    fn read(&self, index: u64) -> Result<Option<ProgramHeader>> {
        sys::goblin_segment(&self.elf.file, &self.elf.header, index)
    }

    fn fill(&self, first: u64, items: &mut [ProgramHeader]) -> Result<Option<u64>> {
        sys::goblin_segments(&self.elf.file, &self.elf.header, first, items)
    }
}

/// An iterator over the sections of a segment, from both ends.
///
/// ```
/// # let bytes = std::fs::read(std::env::current_exe()?)?;
/// use goblin_rs::program_header::{SegmentSections, PT_LOAD};
///
/// let elf = goblin_rs::Elf::parse(&bytes)?;
/// let loaded = elf.program_headers()?.iter().find(|segment| segment.p_type == PT_LOAD).ok_or("no segment")?;
/// let sections: SegmentSections = elf.segment_sections(&loaded)?;
/// assert!(sections.count() > 0);
/// # Ok::<(), Box<dyn std::error::Error>>(())
/// ```
#[derive(Clone, Debug)]
#[must_use = "iterators are lazy and do nothing unless consumed"]
pub struct SegmentSections<'a> {
    segment: ProgramHeader,
    sections: SectionHeaderIterator<'a>,
}

impl<'a> SegmentSections<'a> {
    pub(crate) fn of(segment: ProgramHeader, sections: SectionHeaders<'a>) -> Self {
        let mut sections = sections.iter();
        // (section 0 means no section)
        sections.next();
        SegmentSections { segment, sections }
    }
}

impl Iterator for SegmentSections<'_> {
    type Item = SectionHeader;

    fn next(&mut self) -> Option<SectionHeader> {
        self.sections.find(|section| self.segment.holds(section))
    }
}

impl DoubleEndedIterator for SegmentSections<'_> {
    fn next_back(&mut self) -> Option<SectionHeader> {
        self.sections.rfind(|section| self.segment.holds(section))
    }
}

impl FusedIterator for SegmentSections<'_> {}

/// Returns the name of a segment's type, such as `PT_LOAD`, or `UNKNOWN_PT`.
#[must_use]
pub fn pt_to_str(p_type: u32) -> &'static str {
    name_of(PT, p_type)
}
