//! The dynamic section, and the constants of its entries.
pub use crate::generated::dynamic::*;
use crate::generated::{NOT_COUNTED, NOT_LOADED, NO_STRING};
use crate::elf::Elf;
use crate::error::{Error, Result};
use crate::items::made;
use crate::program_header::{ProgramHeader, PT_INTERP};
use crate::reloc::RelocSection;
use crate::strtab::Strtab;
use crate::{raw, sys};
use alloc::{vec, vec::Vec};
use core::iter::FusedIterator;
use core::ops::Range;

/// An entry of the dynamic section.
///
/// ```
/// use goblin_rs::dynamic::{Dyn, DF_BIND_NOW, DT_FLAGS};
///
/// let entry = Dyn { d_tag: DT_FLAGS, d_val: DF_BIND_NOW };
/// assert_eq!(entry.d_tag, 30);
/// ```
pub use crate::raw::Dyn;

// The number of entries that are read at a time.
const BATCH: usize = 32;

/// The dynamic section of a file, which says what a program needs of the loader. It is inside the file.
///
/// ```
/// # let bytes = std::fs::read(std::env::current_exe()?)?;
/// use goblin_rs::dynamic::DT_NEEDED;
///
/// let elf = goblin_rs::Elf::parse(&bytes)?;
/// if let Some(dynamic) = elf.dynamic()? {
///     let strings = dynamic.strings()?.ok_or("no strings")?;
///     for offset in dynamic.values(DT_NEEDED) {
///         println!("{:?}", strings.get(offset as usize)?);
///     }
/// }
/// # Ok::<(), Box<dyn std::error::Error>>(())
/// ```
#[derive(Clone, Copy, Debug)]
pub struct Dynamic<'a> {
    elf: Elf<'a>,
    range: raw::Range,
}

impl<'a> Dynamic<'a> {
    pub(crate) fn of(elf: Elf<'a>) -> Result<Option<Self>> {
        let range = sys::goblin_dynamic(&elf.file, &elf.header)?;
        Ok(range.map(|range| Dynamic { elf, range }))
    }

    /// Returns an iterator over the entries, up to the first one of tag `DT_NULL`.
    ///
    /// ```
    /// # let bytes = std::fs::read(std::env::current_exe()?)?;
    /// if let Some(dynamic) = goblin_rs::Elf::parse(&bytes)?.dynamic()? {
    ///     assert!(dynamic.entries().all(|entry| entry.d_tag != goblin_rs::dynamic::DT_NULL));
    /// }
    /// # Ok::<(), Box<dyn std::error::Error>>(())
    /// ```
    pub fn entries(&self) -> DynIterator<'a> {
        DynIterator { dynamic: *self, batch: [Dyn::default(); BATCH], left: 0..0, next: Some(0) }
    }

    /// Returns the value of the first entry with a tag, a `DT_` number, or `None` if there is none.
    #[must_use]
    pub fn value(&self, tag: u64) -> Option<u64> {
        let found = made(sys::goblin_dynamic_value(&self.elf.file, &self.elf.header, &self.range, tag, 0));
        found.map(|(_, value)| value)
    }

    // Returns the string at an offset, which is the value of a tag.
    fn text(&self, strings: &Strtab<'a>, tag: u64, offset: u64) -> Result<&'a str> {
        strings.get(offset as usize)?.ok_or_else(|| Error::own(NO_STRING, tag, self.range.offset).second(offset))
    }

    // Fails if there are symbols, whose number the section does not have.
    pub(crate) fn has_no_symbols(&self) -> Result<()> {
        let address = self.last(DT_SYMTAB);
        address.map_or(Ok(()), |address| Err(Error::own(NOT_COUNTED, address, self.range.offset)))
    }

    // Returns the value of the last entry with a tag. Of several, goblin and the loader of glibc take that one.
    pub(crate) fn last(&self, tag: u64) -> Option<u64> {
        self.values(tag).last()
    }

    /// Returns an iterator over the values of the entries with a tag.
    pub fn values(&self, tag: u64) -> DynValues<'a> {
        DynValues { entries: self.entries(), tag }
    }

    /// Returns the string table of the section, which is inside the file. Its address and its size are the values of
    /// `DT_STRTAB` and `DT_STRSZ`. Returns `None` if one of these is missing, or if no segment loads the address from
    /// the file. In a file without program headers it is the section that the dynamic section links to.
    ///
    /// # Errors
    /// If the string table is not inside the file.
    pub fn strings(&self) -> Result<Option<Strtab<'a>>> {
        let Elf { file, header } = self.elf;
        let range = sys::goblin_dynamic_strings(&file, &header, &self.range)?;
        Ok(range.map(|range| Strtab { file, range }))
    }
}

/// An iterator over the entries of a dynamic section.
///
/// ```
/// # let bytes = std::fs::read(std::env::current_exe()?)?;
/// use goblin_rs::dynamic::DynIterator;
///
/// if let Some(dynamic) = goblin_rs::Elf::parse(&bytes)?.dynamic()? {
///     let entries: DynIterator = dynamic.entries();
///     assert!(entries.count() > 0);
/// }
/// # Ok::<(), Box<dyn std::error::Error>>(())
/// ```
#[derive(Clone, Debug)]
#[must_use = "iterators are lazy and do nothing unless consumed"]
pub struct DynIterator<'a> {
    dynamic: Dynamic<'a>,
    // Entries that were read, and the indices of those of them that are left.
    batch: [Dyn; BATCH],
    left: Range<usize>,
    // The index to read the next ones at, if there may be more.
    next: Option<u64>,
}

impl Iterator for DynIterator<'_> {
    type Item = Dyn;

    fn next(&mut self) -> Option<Dyn> {
        if self.left.is_empty() {
            let (Elf { file, header }, first) = (self.dynamic.elf, self.next?);
            let filled = sys::goblin_dynamic_entries(&file, &header, &self.dynamic.range, first, &mut self.batch);
            self.left = 0..made(filled).unwrap_or(0) as usize;
            // (what follows the end must not be read)
            self.next = Some(first + BATCH as u64).filter(|_| self.left.end == BATCH);
        }
        self.left.next().map(|index| self.batch[index])
    }
}

impl FusedIterator for DynIterator<'_> {}

/// An iterator over the values of the entries of a dynamic section with a tag.
///
/// ```
/// # let bytes = std::fs::read(std::env::current_exe()?)?;
/// use goblin_rs::dynamic::{DynValues, DT_NEEDED};
///
/// if let Some(dynamic) = goblin_rs::Elf::parse(&bytes)?.dynamic()? {
///     let offsets: DynValues = dynamic.values(DT_NEEDED);
///     println!("{} libraries", offsets.count());
/// }
/// # Ok::<(), Box<dyn std::error::Error>>(())
/// ```
#[derive(Clone, Debug)]
#[must_use = "iterators are lazy and do nothing unless consumed"]
pub struct DynValues<'a> {
    entries: DynIterator<'a>,
    tag: u64,
}

impl Iterator for DynValues<'_> {
    type Item = u64;

    fn next(&mut self) -> Option<u64> {
        self.entries.find(|entry| entry.d_tag == self.tag).map(|entry| entry.d_val)
    }
}

impl FusedIterator for DynValues<'_> {}

/// What the dynamic section says, which needs no section headers. Of several entries with one tag the last one counts,
/// as in goblin, but of `DT_STRTAB` and `DT_STRSZ` the first one, as in readelf.
impl<'a> Elf<'a> {
    /// Returns the relocations with addends, by `DT_RELA` and `DT_RELASZ`. There are none without these entries.
    ///
    /// # Errors
    /// If the program headers, the dynamic section or the relocations are not inside the file, or no segment loads the
    /// relocations.
    pub fn dynrelas(&self) -> Result<RelocSection<'a>> {
        self.dynamic_relocs(DT_RELA, DT_RELASZ)
    }

    /// Returns the relocations without addends, by `DT_REL` and `DT_RELSZ`. There are none without these entries.
    ///
    /// # Errors
    /// As of [`Elf::dynrelas`].
    pub fn dynrels(&self) -> Result<RelocSection<'a>> {
        self.dynamic_relocs(DT_REL, DT_RELSZ)
    }

    /// Returns the relocations of the procedure linkage table, by `DT_JMPREL` and `DT_PLTRELSZ`. There are none without
    /// these entries. They have addends if the value of `DT_PLTREL` is `DT_RELA`.
    ///
    /// ```
    /// # let bytes = std::fs::read(std::env::current_exe()?)?;
    /// let elf = goblin_rs::Elf::parse(&bytes)?;
    /// let symbols = elf.dynsyms()?.unwrap_or_default();
    /// for reloc in elf.pltrelocs()? {
    ///     assert!(symbols.get(reloc.r_sym).is_some());
    /// }
    /// # Ok::<(), Box<dyn std::error::Error>>(())
    /// ```
    ///
    /// # Errors
    /// As of [`Elf::dynrelas`].
    pub fn pltrelocs(&self) -> Result<RelocSection<'a>> {
        self.dynamic_relocs(DT_JMPREL, DT_PLTRELSZ)
    }

    /// Returns the string table of the dynamic section, which is empty if there is none.
    ///
    /// # Errors
    /// If the program headers, the dynamic section or its strings are not inside the file.
    pub fn dynstrtab(&self) -> Result<Strtab<'a>> {
        Ok(self.dynamic()?.map_or(Ok(None), |dynamic| dynamic.strings())?.unwrap_or_default())
    }

    /// Returns the names of the libraries that are needed (`DT_NEEDED`), in order.
    ///
    /// ```
    /// # let bytes = std::fs::read(std::env::current_exe()?)?;
    /// let elf = goblin_rs::Elf::parse(&bytes)?;
    /// for library in elf.libraries()? {
    ///     println!("needs {library}");
    /// }
    /// # Ok::<(), Box<dyn std::error::Error>>(())
    /// ```
    ///
    /// # Errors
    /// If the program headers, the dynamic section or its strings are not inside the file, or a name is not in the
    /// strings or is not UTF-8. (goblin leaves such a name out.)
    pub fn libraries(&self) -> Result<Vec<&'a str>> {
        self.dynamic_texts(DT_NEEDED)
    }

    /// Returns the search paths of the libraries in older files (`DT_RPATH`). Each may hold several folders, with
    /// colons between them.
    ///
    /// # Errors
    /// As of [`Elf::libraries`].
    pub fn rpaths(&self) -> Result<Vec<&'a str>> {
        self.dynamic_texts(DT_RPATH)
    }

    /// Returns the search paths of the libraries (`DT_RUNPATH`). Each may hold several folders, separated by colons.
    ///
    /// # Errors
    /// As of [`Elf::libraries`].
    pub fn runpaths(&self) -> Result<Vec<&'a str>> {
        self.dynamic_texts(DT_RUNPATH)
    }

    /// Returns the name by which other files need this library (`DT_SONAME`). As in goblin, a value of 0 is no name.
    ///
    /// # Errors
    /// As of [`Elf::libraries`].
    pub fn soname(&self) -> Result<Option<&'a str>> {
        let dynamic = self.dynamic()?;
        let found = dynamic.and_then(|dynamic| Some((dynamic, dynamic.last(DT_SONAME).filter(|offset| *offset != 0)?)));
        found.map(|(dynamic, offset)| dynamic.text(&self.dynstrtab()?, DT_SONAME, offset)).transpose()
    }

    /// Returns the path of the program interpreter: the text of the last segment of type `PT_INTERP` that has bytes, up
    /// to its first zero byte.
    ///
    /// # Errors
    /// If the program headers or the text are not inside the file, or it is not UTF-8.
    pub fn interpreter(&self) -> Result<Option<&'a str>> {
        let is_path = |segment: &ProgramHeader| segment.p_type == PT_INTERP && segment.p_filesz > 0;
        let segment = self.program_headers()?.iter().rfind(is_path);
        segment.map_or(Ok(None), |segment| self.strtab(&segment).get(0))
    }

    // Returns the strings of all entries with a tag, in order. One that ends together with another one is taken of that
    // one: a hostile file has thousands, each of megabytes, and no byte is read for each of them.
    fn dynamic_texts(&self, tag: u64) -> Result<Vec<&'a str>> {
        let dynamic = match self.dynamic()? {
            Some(dynamic) => dynamic,
            None => return Ok(Vec::new()),
        };
        let mut offsets: Vec<(u64, usize)> = dynamic.values(tag).zip(0..).collect();
        // (as for a name that is not there, the strings are not read)
        let strings = if offsets.is_empty() { Strtab::default() } else { self.dynstrtab()? };
        offsets.sort_unstable();
        let mut texts = vec![""; offsets.len()];
        let (mut start, mut text) = (0, "");
        for (offset, index) in offsets {
            let within = (offset - start) as usize;
            if within < text.len() && text.is_char_boundary(within) {
                texts[index] = &text[within..];
                continue;
            }
            (start, text) = (offset, dynamic.text(&strings, tag, offset)?);
            texts[index] = text;
        }
        Ok(texts)
    }

    // Returns the relocations whose address and size are the values of two tags.
    fn dynamic_relocs(&self, address: u64, size: u64) -> Result<RelocSection<'a>> {
        let dynamic = match self.dynamic()? {
            Some(dynamic) => dynamic,
            None => return Ok(RelocSection::default()),
        };
        let is_rela = address == DT_RELA || (address == DT_JMPREL && dynamic.last(DT_PLTREL) == Some(DT_RELA));
        let (address, size) = match (dynamic.last(address), dynamic.last(size)) {
            (Some(address), Some(size)) if size > 0 => (address, size),
            _ => return Ok(RelocSection::default()),
        };
        let offset = self.address_to_offset(address)?;
        let offset = offset.ok_or_else(|| Error::own(NOT_LOADED, address, dynamic.range.offset))?;
        RelocSection::of(self, raw::Range { offset, size }, is_rela)
    }
}
