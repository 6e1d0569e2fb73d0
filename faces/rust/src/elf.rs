//! A file as a whole.
use crate::dynamic::{Dynamic, DF_1_PIE, DT_FLAGS_1};
use crate::error::{Error, Result};
use crate::file::File;
use crate::generated::{ITEM_RELOCATIONS, ITEM_SYMBOLS};
use crate::header::{Header, ET_DYN, ET_REL};
use crate::note::{AnyNote, NoteBytes, NoteIterator, Notes};
use crate::part::{Part, Ranged};
use crate::program_header::{ProgramHeader, ProgramHeaders, SectionMap, SegmentSections};
use crate::reloc::{holds_relocs, RelocSection};
use crate::section_header::{SectionHeader, SectionHeaders, SHT_DYNSYM, SHT_RELA, SHT_SYMTAB};
use crate::strtab::Strtab;
use crate::sym::Symtab;
use crate::sys;
use alloc::vec::Vec;

/// A file in memory, with its header. Everything else is read on demand.
///
/// ```
/// # let bytes = std::fs::read(std::env::current_exe()?)?;
/// let elf = goblin_rs::Elf::parse(&bytes)?;
/// println!("entry {:#x}", elf.entry());
/// if let Some(text) = elf.section(".text")? {
///     let code = elf.section_data(&text)?.unwrap_or(&[]);
///     assert_eq!(code.len() as u64, text.sh_size);
/// }
/// # Ok::<(), Box<dyn std::error::Error>>(())
/// ```
#[derive(Clone, Copy, Debug)]
pub struct Elf<'a> {
    pub(crate) file: File<'a>,
    /// The header. Everything else is read by its class, byte order and machine, and by the offsets and counts of
    /// its tables.
    pub header: Header,
}

/// The same as [`Elf::parse`].
impl<'a> TryFrom<&'a [u8]> for Elf<'a> {
    type Error = Error;

    fn try_from(bytes: &'a [u8]) -> Result<Self> {
        Elf::parse(bytes)
    }
}

impl<'a> Elf<'a> {
    /// Reads the header.
    ///
    /// # Errors
    /// If the file is too short, does not start with the magic number, or has an invalid class or byte order.
    ///
    /// # Panics
    /// If the library that is linked has another interface than this crate.
    pub fn parse(bytes: &'a [u8]) -> Result<Self> {
        sys::check_interface();
        Ok(Elf { file: File(bytes), header: sys::goblin_file(bytes)? })
    }

    /// Returns the same file with a header that counts only the headers that are whole inside it. With it no list of
    /// headers is refused, of a file that is cut or damaged, and what [`Elf::section_headers`] and
    /// [`Elf::program_headers`] return of this file is the same.
    ///
    /// In most files the header of the section names is one of the last. If it is cut off, sections have no names.
    /// Of a file with more headers the first 65,535 section headers and 65,534 program headers are counted.
    ///
    /// ```
    /// # let bytes = std::fs::read(std::env::current_exe()?)?;
    /// use goblin_rs::Elf;
    ///
    /// let elf = Elf::parse(&bytes)?;
    /// // the file ends in its second section header
    /// let cut = Elf::parse(&bytes[..elf.header.e_shoff as usize + 100])?;
    /// assert!(cut.section_headers().is_err());
    /// assert_eq!(cut.whole().section_headers()?.len(), 1);
    /// assert_eq!(cut.whole().program_headers()?, elf.program_headers()?);
    /// # Ok::<(), Box<dyn std::error::Error>>(())
    /// ```
    #[must_use]
    pub fn whole(&self) -> Self {
        Elf { file: self.file, header: sys::goblin_whole_header(&self.file, &self.header) }
    }

    /// Returns the file's bytes, which [`Elf::parse`] was given.
    #[must_use]
    pub fn bytes(&self) -> &'a [u8] {
        self.file.0
    }

    /// Reports whether the file is of the 64-bit class.
    #[must_use]
    pub fn is_64(&self) -> bool {
        self.header.is_64()
    }

    /// Reports whether the file is little endian.
    #[must_use]
    pub fn little_endian(&self) -> bool {
        self.header.little_endian()
    }

    /// Returns the address at which the program starts, or 0.
    #[must_use]
    pub fn entry(&self) -> u64 {
        self.header.e_entry
    }

    /// Reports whether the file's type is `ET_REL`.
    #[must_use]
    pub fn is_object_file(&self) -> bool {
        self.header.e_type == ET_REL
    }

    /// Reports whether the file is a shared library: its type is `ET_DYN`, and it is no position-independent program,
    /// which linkers mark by `DF_1_PIE` in the value of `DT_FLAGS_1`.
    ///
    /// # Errors
    /// If the type is `ET_DYN`, and the program headers or the dynamic section are not inside the file.
    pub fn is_lib(&self) -> Result<bool> {
        if self.header.e_type != ET_DYN {
            return Ok(false);
        }
        let flags = self.dynamic()?.and_then(|dynamic| dynamic.last(DT_FLAGS_1)).unwrap_or(0);
        Ok(flags & DF_1_PIE == 0)
    }

    /// Returns the program header at an index, or `None` past the end.
    ///
    /// # Errors
    /// If the program headers are not inside the file.
    pub fn program_header(&self, index: usize) -> Result<Option<ProgramHeader>> {
        sys::goblin_segment(&self.file, &self.header, index as u64)
    }

    /// Returns all program headers. If they end past the end of the file, those of [`Elf::whole`] are inside it. Their
    /// number is `e_phnum`, or if that is 0xffff, `sh_info` of the first section.
    ///
    /// # Errors
    /// If they are not inside the file, or the first section has their number and is not inside the file.
    pub fn program_headers(&self) -> Result<ProgramHeaders<'a>> {
        ProgramHeaders::of(*self)
    }

    /// Returns the section header at an index, or `None` past the end.
    ///
    /// # Errors
    /// If the section headers are not inside the file.
    pub fn section_header(&self, index: usize) -> Result<Option<SectionHeader>> {
        sys::goblin_section(&self.file, &self.header, index as u64)
    }

    /// Returns all section headers. If they end past the end of the file, those of [`Elf::whole`] are inside it.
    ///
    /// # Errors
    /// If they are not inside the file.
    pub fn section_headers(&self) -> Result<SectionHeaders<'a>> {
        SectionHeaders::of(*self)
    }

    /// Returns the first section with a name: a text or bytes. The section header at index 0, which means no section,
    /// is left out.
    ///
    /// # Errors
    /// If the section headers or their names are not inside the file.
    pub fn section(&self, name: impl AsRef<[u8]>) -> Result<Option<SectionHeader>> {
        Ok(self.section_by_name(name, 1)?.map(|(_, section)| section))
    }

    /// Returns the index and the header of the first section with a name, from an index on.
    ///
    /// ```
    /// # let bytes = std::fs::read(std::env::current_exe()?)?;
    /// let elf = goblin_rs::Elf::parse(&bytes)?;
    /// let mut size = 0;
    /// let mut first = 0;
    /// while let Some((index, section)) = elf.section_by_name(".group", first)? {
    ///     size += section.sh_size;
    ///     first = index + 1;
    /// }
    /// assert_eq!(size, 0); // (only object files have groups)
    /// # Ok::<(), Box<dyn std::error::Error>>(())
    /// ```
    ///
    /// # Errors
    /// If the section headers or their names are not inside the file.
    pub fn section_by_name(&self, name: impl AsRef<[u8]>, first: usize) -> Result<Option<(usize, SectionHeader)>> {
        let names = self.shdr_strtab()?.range;
        let found = sys::goblin_section_by_name(&self.file, &self.header, &names, name.as_ref(), first as u64)?;
        Ok(found.map(|(index, section)| (index as usize, section)))
    }

    /// Returns the index and the header of the first section of a type, an `SHT_` number, from an index on.
    ///
    /// # Errors
    /// If the section headers are not inside the file.
    pub fn section_by_type(&self, sh_type: u32, first: usize) -> Result<Option<(usize, SectionHeader)>> {
        let found = sys::goblin_section_by_type(&self.file, &self.header, sh_type, first as u64)?;
        Ok(found.map(|(index, section)| (index as usize, section)))
    }

    /// Returns the name of a section, or `None` if its offset is past the end of the section names.
    ///
    /// # Errors
    /// If the section headers or their names are not inside the file, or the name is not UTF-8.
    pub fn section_name(&self, section: &SectionHeader) -> Result<Option<&'a str>> {
        self.shdr_strtab()?.get(section.sh_name)
    }

    /// Returns the bytes of a section, or `None` if it has none in the file: its type is `SHT_NULL` or `SHT_NOBITS`, or
    /// its size is 0.
    ///
    /// # Errors
    /// If they are not inside the file.
    pub fn section_data(&self, section: &SectionHeader) -> Result<Option<&'a [u8]>> {
        let range = sys::goblin_section_range(&self.file, &section.cut())?;
        Ok(range.map(|range| self.file.slice(range)))
    }

    /// Returns those bytes of a section or a segment that are inside the file. If [`Elf::section_data`] or
    /// [`Elf::segment_data`] fails, there are fewer than `sh_size` or `p_filesz`. There are none, `Some(&[])`, if they
    /// start at the end of the file or past it. Returns `None` only where those calls do.
    ///
    /// ```
    /// # let bytes = std::fs::read(std::env::current_exe()?)?;
    /// let text = goblin_rs::Elf::parse(&bytes)?.section(".text")?.ok_or("no .text")?;
    /// // the file ends after 16 bytes of the section
    /// let cut = goblin_rs::Elf::parse(&bytes[..text.sh_offset as usize + 16])?;
    /// assert!(cut.section_data(&text).is_err());
    /// assert_eq!(cut.readable_data(&text).map(|data| data.len()), Some(16));
    /// # Ok::<(), Box<dyn std::error::Error>>(())
    /// ```
    pub fn readable_data(&self, part: &impl Part) -> Option<&'a [u8]> {
        let found = part.found(self.file);
        let range = found.unwrap_or_else(|_| Some(sys::goblin_range_in_file(&self.file, &part.range())))?;
        Some(self.file.slice(range))
    }

    /// Returns the bytes of a segment, or `None` if it has none in the file: its type is `PT_NULL`, or `p_filesz` is 0.
    ///
    /// # Errors
    /// If they are not inside the file.
    pub fn segment_data(&self, segment: &ProgramHeader) -> Result<Option<&'a [u8]>> {
        let range = sys::goblin_segment_range(&self.file, segment)?;
        Ok(range.map(|range| self.file.slice(range)))
    }

    /// Returns the sections of a segment, in the sense of [`ProgramHeader::holds`]. The section header at index 0,
    /// which means no section, is left out. Each call reads all section headers: for many segments use
    /// [`Elf::section_map`].
    ///
    /// # Errors
    /// If the section headers are not inside the file.
    pub fn segment_sections(&self, segment: &ProgramHeader) -> Result<SegmentSections<'a>> {
        Ok(SegmentSections::of(*segment, self.section_headers()?))
    }

    /// Returns a map of the sections, for those of many segments.
    ///
    /// # Errors
    /// If the section headers are not inside the file.
    pub fn section_map(&self) -> Result<SectionMap> {
        Ok(SectionMap::of(self.section_headers()?.iter().skip(1).collect()))
    }

    /// Returns the number in `width` bytes at an offset of the file, in the file's byte order. Returns `None` if the
    /// width is not 1, 2, 4 or 8.
    ///
    /// # Errors
    /// If the bytes are not inside the file.
    pub fn number(&self, offset: u64, width: usize) -> Result<Option<u64>> {
        sys::goblin_number(&self.file, &self.header, offset, width as u64)
    }

    /// Returns the number in `width` bytes at an offset of a section or of a segment's bytes in the file, in the file's
    /// byte order. The offset counts from the start of the section or the segment. Returns `None` if the width is not
    /// 1, 2, 4 or 8.
    ///
    /// ```
    /// # let bytes = std::fs::read(std::env::current_exe()?)?;
    /// let elf = goblin_rs::Elf::parse(&bytes)?;
    /// let text = elf.section(".text")?.ok_or("no .text")?;
    /// assert_eq!(elf.number_in(&text, 2, 4)?, elf.number(text.sh_offset + 2, 4)?);
    /// assert!(elf.number_in(&text, text.sh_size - 3, 4).is_err());
    /// # Ok::<(), Box<dyn std::error::Error>>(())
    /// ```
    ///
    /// # Errors
    /// If the section's or the segment's bytes are not inside the file, or the number is not inside them. A section of
    /// type `SHT_NOBITS` has no bytes in the file, so no number is inside it.
    pub fn number_in(&self, part: &impl Part, offset: u64, width: usize) -> Result<Option<u64>> {
        sys::goblin_number_in(&self.file, &self.header, &part.range(), offset, width as u64)
    }

    /// Returns the offset in the file of the byte that is loaded at an address, or `None` if no byte of the file is
    /// loaded there. It is that of the first segment of type `PT_LOAD` for which
    /// `p_vaddr <= address < p_vaddr + p_filesz`.
    ///
    /// ```
    /// # let bytes = std::fs::read(std::env::current_exe()?)?;
    /// let elf = goblin_rs::Elf::parse(&bytes)?;
    /// let text = elf.section(".text")?.ok_or("no .text")?;
    /// assert_eq!(elf.address_to_offset(text.sh_addr)?, Some(text.sh_offset));
    /// # Ok::<(), Box<dyn std::error::Error>>(())
    /// ```
    ///
    /// # Errors
    /// If the program headers are not inside the file, or the file has no byte at that offset.
    pub fn address_to_offset(&self, address: u64) -> Result<Option<u64>> {
        sys::goblin_address_to_offset(&self.file, &self.header, address)
    }

    /// Returns the dynamic section, by the first segment of type `PT_DYNAMIC`, or `None` if no segment has that type.
    ///
    /// # Errors
    /// If the program headers or the dynamic section are not inside the file.
    pub fn dynamic(&self) -> Result<Option<Dynamic<'a>>> {
        if self.program_headers()?.is_empty() {
            return Ok(None);
        }
        self.dynamic_section()
    }

    /// Returns the dynamic section as [`Elf::dynamic`] does, but in a file without program headers it is the first
    /// section of type `SHT_DYNAMIC`.
    ///
    /// # Errors
    /// If the program headers, or without those the section headers, or the dynamic section are not inside the file.
    pub fn dynamic_section(&self) -> Result<Option<Dynamic<'a>>> {
        Dynamic::of(*self)
    }

    /// Returns the string table of the section names. It is empty if the file has none: the index of its section is 0
    /// or past the end, or that section has no bytes in the file.
    ///
    /// # Errors
    /// If the section headers are not inside the file.
    pub fn shdr_strtab(&self) -> Result<Strtab<'a>> {
        let names = sys::goblin_names_section(&self.file, &self.header)?.unwrap_or_default();
        Ok(self.strtab(&names))
    }

    /// Returns a section, or a segment's bytes in the file, as a string table. It is empty if the section's type is
    /// `SHT_NOBITS`, or if the size is 0. Of a section header only `sh_type`, `sh_offset` and `sh_size` are read, and
    /// of a program header only `p_offset` and `p_filesz`, so a program may make it.
    pub fn strtab(&self, part: &impl Part) -> Strtab<'a> {
        Strtab { file: self.file, range: part.range() }
    }

    /// Returns the section that a section links to by its `sh_link`, such as the string table of a symbol table.
    /// Returns `None` if `sh_link` is 0 or past the end, or that section has no bytes in the file (`SHT_NOBITS`).
    ///
    /// # Errors
    /// If the section headers are not inside the file.
    pub fn linked_section(&self, section: &SectionHeader) -> Result<Option<SectionHeader>> {
        sys::goblin_linked_section(&self.file, &self.header, section.sh_link.into())
    }

    /// Returns the symbols of a section of type `SHT_SYMTAB` or `SHT_DYNSYM`. Their names are in the linked section
    /// ([`Elf::linked_section`]). If there is none, the string table is empty.
    ///
    /// # Errors
    /// If the section has another type, or the section headers or the symbols are not inside the file.
    pub fn symtab(&self, section: &SectionHeader) -> Result<Symtab<'a>> {
        if ![SHT_SYMTAB, SHT_DYNSYM].contains(&section.sh_type) {
            return Err(Error::section_type(section, ITEM_SYMBOLS));
        }
        let names = self.linked_section(section)?.unwrap_or_default();
        Symtab::of(self, section.range(), self.strtab(&names))
    }

    /// Returns the last symbol table (`SHT_SYMTAB`), if there is one. Few files have several.
    ///
    /// # Errors
    /// If the section headers or the symbols are not inside the file.
    pub fn syms(&self) -> Result<Option<Symtab<'a>>> {
        let section = self.section_headers()?.iter().rfind(|section| section.sh_type == SHT_SYMTAB);
        section.map(|section| self.symtab(&section)).transpose()
    }

    /// Returns the first symbol table for dynamic linking (`SHT_DYNSYM`), if there is one.
    ///
    /// # Errors
    /// If the section headers or the symbols are not inside the file. If there is no such section, but the dynamic
    /// section has the address of symbols (`DT_SYMTAB`) or is not inside the file: only section headers have their
    /// number, and many stripped files have none.
    pub fn dynsyms(&self) -> Result<Option<Symtab<'a>>> {
        if let Some((_, section)) = self.section_by_type(SHT_DYNSYM, 0)? {
            return self.symtab(&section).map(Some);
        }
        self.dynamic()?.map_or(Ok(None), |dynamic| dynamic.has_no_symbols().map(|()| None))
    }

    /// Returns the relocations of a section of type `SHT_RELA` or `SHT_REL`.
    ///
    /// # Errors
    /// If the section has another type, or the relocations are not inside the file.
    pub fn relocs(&self, section: &SectionHeader) -> Result<RelocSection<'a>> {
        if !holds_relocs(section) {
            return Err(Error::section_type(section, ITEM_RELOCATIONS));
        }
        RelocSection::of(self, section.range(), section.sh_type == SHT_RELA)
    }

    /// Returns all relocation sections, each with the index of its section. If one is damaged, [`Elf::relocs`] reads
    /// the others.
    ///
    /// ```
    /// # let bytes = std::fs::read(std::env::current_exe()?)?;
    /// let elf = goblin_rs::Elf::parse(&bytes)?;
    /// for (index, relocs) in elf.shdr_relocs()? {
    ///     println!("section {index}: {} relocations", relocs.len());
    /// }
    /// # Ok::<(), Box<dyn std::error::Error>>(())
    /// ```
    ///
    /// # Errors
    /// If the section headers or the relocations of any section are not inside the file.
    pub fn shdr_relocs(&self) -> Result<Vec<(usize, RelocSection<'a>)>> {
        let sections = self.section_headers()?.iter().enumerate().filter(|(_, section)| holds_relocs(section));
        sections.map(|(index, section)| Ok((index, self.relocs(&section)?))).collect()
    }

    /// Returns the notes of a section or a segment. If one is damaged, [`Elf::readable_notes`] returns those before it.
    /// If the name of one is not UTF-8, [`Elf::notes_bytes`] reads it.
    ///
    /// # Errors
    /// If the alignment is neither 4 nor 8, a note is not inside the file, or a name is not UTF-8. An alignment below 4
    /// counts as 4.
    pub fn notes(&self, part: &impl Part) -> Result<Notes<'a>> {
        all_notes(self.readable_notes(part))
    }

    /// Returns the notes of a section or a segment up to the first damaged one, and the error of that one.
    pub fn readable_notes(&self, part: &impl Part) -> (Notes<'a>, Option<Error>) {
        Notes::of(self, part)
    }

    /// Returns the notes of a section or a segment as bytes, so that names need not be UTF-8. Each note must be inside
    /// the section or the segment. If one is damaged, [`Elf::readable_notes_bytes`] returns those before it.
    ///
    /// ```
    /// # let bytes = std::fs::read(std::env::current_exe()?)?;
    /// let elf = goblin_rs::Elf::parse(&bytes)?;
    /// if let Some(section) = elf.section(".note.gnu.build-id")? {
    ///     let notes = elf.notes_bytes(&section)?;
    ///     assert!(notes.iter().all(|note| note.name == b"GNU\0"));
    /// }
    /// # Ok::<(), Box<dyn std::error::Error>>(())
    /// ```
    ///
    /// # Errors
    /// If the alignment is neither 4 nor 8, or a note is not inside the section or the segment and the file. An
    /// alignment below 4 counts as 4. [`Error::item`] returns which part of the note is not inside.
    pub fn notes_bytes(&self, part: &impl Part) -> Result<Notes<'a, NoteBytes<'a>>> {
        all_notes(self.readable_notes_bytes(part))
    }

    /// Returns the notes of a section or a segment as bytes up to the first damaged one, and the error of that one.
    pub fn readable_notes_bytes(&self, part: &impl Part) -> (Notes<'a, NoteBytes<'a>>, Option<Error>) {
        Notes::of(self, part)
    }

    /// Returns the notes of all segments of type `PT_NOTE` as bytes: those that are loaded, and all of a core file.
    /// Others are in sections alone, as the GNU build ID of a program in Go may be. It reads all of them, and those
    /// that several segments have once for each.
    ///
    /// # Errors
    /// If the program headers are not inside the file, or a note of any of these segments is damaged.
    pub fn iter_note_headers(&self) -> Result<NoteIterator<'a>> {
        NoteIterator::of_segments(*self)
    }

    /// Returns the notes of all sections of type `SHT_NOTE` as bytes. A file whose section headers are stripped, and a
    /// core file, has none of these. It reads all of them, and those that several sections have once for each.
    ///
    /// # Errors
    /// If the section headers are not inside the file, or a note of any of these sections is damaged.
    pub fn iter_note_sections(&self) -> Result<NoteIterator<'a>> {
        NoteIterator::of_sections(*self)
    }

    /// Returns the build ID: the descriptor of the first note `GNU` of type `NT_GNU_BUILD_ID` of the segments of notes
    /// or, if they have none, of the sections of notes. Of all these notes the first 65,536 are read.
    ///
    /// ```
    /// # let bytes = std::fs::read(std::env::current_exe()?)?;
    /// let elf = goblin_rs::Elf::parse(&bytes)?;
    /// let hex: String = elf.build_id()?.unwrap_or(&[]).iter().map(|byte| format!("{byte:02x}")).collect();
    /// # assert!(hex.len() < 129);
    /// # Ok::<(), Box<dyn std::error::Error>>(())
    /// ```
    ///
    /// # Errors
    /// If the headers are not inside the file, and then at the first damaged note.
    pub fn build_id(&self) -> Result<Option<&'a [u8]>> {
        let found = sys::goblin_build_id(&self.file, &self.header)?;
        Ok(found.map(|range| self.file.slice(range)))
    }
}

fn all_notes<'a, N: AnyNote<'a>>((notes, refusal): (Notes<'a, N>, Option<Error>)) -> Result<Notes<'a, N>> {
    refusal.map_or(Ok(notes), Err)
}
