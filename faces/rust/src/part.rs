//! What has bytes in a file: sections and segments.
use crate::error::Result;
use crate::file::File;
use crate::program_header::ProgramHeader;
use crate::raw::Range;
use crate::section_header::{SectionHeader, SHT_NOBITS};
use crate::sys;

/// What has bytes in a file: a [`SectionHeader`] or a [`ProgramHeader`]. Calls that take either take a reference to
/// this. Only these two have it.
///
/// ```
/// # let bytes = std::fs::read(std::env::current_exe()?)?;
/// use goblin_rs::{Elf, Part};
///
/// /// Returns the first 4 bytes of a section or a segment as a number.
/// fn first_word(elf: &Elf, part: &impl Part) -> goblin_rs::Result<Option<u64>> {
///     elf.number_in(part, 0, 4)
/// }
/// let elf = Elf::parse(&bytes)?;
/// let text = elf.section(".text")?.ok_or("no .text")?;
/// assert_eq!(first_word(&elf, &text)?, elf.number(text.sh_offset, 4)?);
/// # Ok::<(), Box<dyn std::error::Error>>(())
/// ```
pub trait Part: sealed::Part {}

// What a part is read by. No other crate can name this trait, so it can get more methods.
mod sealed {
    use crate::error::Result;
    use crate::file::File;
    use crate::raw::Range;

    pub trait Part {
        /// Returns its range in the file, inside the file or not.
        fn range(&self) -> Range;

        /// Returns the alignment of its notes.
        fn alignment(&self) -> u64;

        /// Returns the range of its bytes, if it has some.
        fn found(&self, file: File<'_>) -> Result<Option<Range>>;
    }
}

pub(crate) use sealed::Part as Ranged;

impl Part for SectionHeader {}

impl Part for ProgramHeader {}

impl sealed::Part for SectionHeader {
    // (of `SHT_NOBITS` it is empty, whatever the size)
    fn range(&self) -> Range {
        let range = Range { offset: self.sh_offset, size: self.sh_size };
        Some(range).filter(|_| self.sh_type != SHT_NOBITS).unwrap_or_default()
    }

    fn alignment(&self) -> u64 {
        self.sh_addralign
    }

    fn found(&self, file: File<'_>) -> Result<Option<Range>> {
        sys::goblin_section_range(&file, &self.cut())
    }
}

impl sealed::Part for ProgramHeader {
    fn range(&self) -> Range {
        Range { offset: self.p_offset, size: self.p_filesz }
    }

    fn alignment(&self) -> u64 {
        self.p_align
    }

    fn found(&self, file: File<'_>) -> Result<Option<Range>> {
        sys::goblin_segment_range(&file, self)
    }
}
