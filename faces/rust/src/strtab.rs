//! String tables.
use crate::error::{Error, Result};
use crate::file::File;
use crate::generated::OPEN_STRING;
use crate::{raw, sys};
use alloc::vec::Vec;
#[cfg(feature = "std")]
use std::ffi::CStr;

/// A string table: a range of the file.
///
/// ```
/// # let bytes = std::fs::read(std::env::current_exe()?)?;
/// let elf = goblin_rs::Elf::parse(&bytes)?;
/// let names = elf.shdr_strtab()?;
/// assert_eq!(names.get(0)?, Some(""));
/// # Ok::<(), Box<dyn std::error::Error>>(())
/// ```
#[derive(Clone, Copy, Debug, Default)]
pub struct Strtab<'a> {
    pub(crate) file: File<'a>,
    pub(crate) range: raw::Range,
}

impl<'a> Strtab<'a> {
    /// Returns the string at an offset from the table's start, or `None` past its end.
    ///
    /// # Errors
    /// If the table is not inside the file, or the string is not UTF-8.
    #[inline]
    pub fn get(&self, offset: usize) -> Result<Option<&'a str>> {
        sys::string(self.file.0, &self.range, offset as u64)
    }

    /// Returns the bytes of the string at an offset, which need not be UTF-8, or `None` past the end of the table.
    ///
    /// ```
    /// # let bytes = std::fs::read(std::env::current_exe()?)?;
    /// let elf = goblin_rs::Elf::parse(&bytes)?;
    /// let names = elf.shdr_strtab()?;
    /// let text = elf.section(".text")?.ok_or("no .text")?;
    /// assert_eq!(names.get_bytes(text.sh_name)?, Some(&b".text"[..]));
    /// # Ok::<(), Box<dyn std::error::Error>>(())
    /// ```
    ///
    /// # Errors
    /// If the table is not inside the file.
    #[inline]
    pub fn get_bytes(&self, offset: usize) -> Result<Option<&'a [u8]>> {
        let range = sys::goblin_string(&self.file, &self.range, offset as u64)?;
        Ok(range.map(|range| self.file.slice(range)))
    }

    /// Returns the bytes of the string at an offset, which need not be UTF-8, if a zero byte of the table closes it.
    /// Returns `None` past the end of the table and if the string ends with the table.
    ///
    /// # Errors
    /// If the table is not inside the file.
    #[inline]
    pub fn get_closed_bytes(&self, offset: usize) -> Result<Option<&'a [u8]>> {
        let range = sys::goblin_string_closed(&self.file, &self.range, offset as u64)?;
        Ok(range.map(|range| self.file.slice(range)))
    }

    /// Returns what [`Strtab::get_closed_bytes`] does, as a string of C with its zero byte.
    ///
    /// ```
    /// # let bytes = std::fs::read(std::env::current_exe()?)?;
    /// let elf = goblin_rs::Elf::parse(&bytes)?;
    /// let text = elf.section(".text")?.ok_or("no .text")?;
    /// let (names, at) = (elf.shdr_strtab()?, text.sh_name);
    /// assert_eq!(names.get_closed_bytes(at)?, Some(&b".text"[..]));
    /// assert_eq!(names.get_c_str(at)?.map(|name| name.to_bytes_with_nul()), Some(&b".text\0"[..]));
    /// # Ok::<(), Box<dyn std::error::Error>>(())
    /// ```
    ///
    /// # Errors
    /// If the table is not inside the file.
    #[cfg(feature = "std")]
    #[inline]
    pub fn get_c_str(&self, offset: usize) -> Result<Option<&'a CStr>> {
        sys::c_string(self.file.0, &self.range, offset as u64)
    }

    /// Returns the part of the table up to its last zero byte. At each offset in it begins a string that a zero byte
    /// closes.
    ///
    /// ```
    /// # let bytes = std::fs::read(std::env::current_exe()?)?;
    /// let elf = goblin_rs::Elf::parse(&bytes)?;
    /// let text = elf.section(".text")?.ok_or("no .text")?;
    /// assert_eq!(elf.shdr_strtab()?.closed()?.get(text.sh_name)?, Some(".text"));
    /// # Ok::<(), Box<dyn std::error::Error>>(())
    /// ```
    ///
    /// # Errors
    /// If the table is not inside the file.
    pub fn closed(&self) -> Result<Self> {
        let range = sys::goblin_closed_strings(&self.file, &self.range)?;
        Ok(Strtab { file: self.file, range: range.unwrap_or_default() })
    }

    /// Returns the bytes of the strings at many offsets, each as [`Strtab::get_bytes`] does. The table is checked once
    /// for up to 64 strings, and again after an offset past its end.
    ///
    /// ```
    /// # let bytes = std::fs::read(std::env::current_exe()?)?;
    /// let elf = goblin_rs::Elf::parse(&bytes)?;
    /// let sections = elf.section_headers()?;
    /// let names = elf.shdr_strtab()?.get_all_bytes(sections.iter().map(|section| section.sh_name))?;
    /// assert_eq!(names.len(), sections.len());
    /// assert!(names.contains(&Some(&b".text"[..])));
    /// # Ok::<(), Box<dyn std::error::Error>>(())
    /// ```
    ///
    /// # Errors
    /// If there are offsets, and the table is not inside the file, or no zero byte of it closes one of the strings.
    /// Each such string would be read up to the table's end.
    pub fn get_all_bytes(&self, offsets: impl IntoIterator<Item = usize>) -> Result<Vec<Option<&'a [u8]>>> {
        let offsets: Vec<u64> = offsets.into_iter().map(|offset| offset as u64).collect();
        let mut found = Vec::with_capacity(offsets.len());
        let mut ranges = [raw::Range::default(); 64];
        while found.len() < offsets.len() {
            let batch = &offsets[found.len()..offsets.len().min(found.len() + ranges.len())];
            let filled = sys::goblin_strings(&self.file, &self.range, batch, &mut ranges)?;
            let end = self.range.offset.saturating_add(self.range.size);
            if let Some(open) = ranges[..filled].iter().find(|string| string.offset + string.size == end) {
                return Err(Error::own(OPEN_STRING, open.offset - self.range.offset, open.offset));
            }
            found.extend(ranges[..filled].iter().map(|range| Some(self.file.slice(*range))));
            if filled < batch.len() {
                found.push(None);
            }
        }
        Ok(found)
    }

    /// Reports whether the string at an offset has these bytes, which need not be UTF-8. Past the end of the table
    /// there is none. It reads no more of the string than `name` has, and one byte.
    ///
    /// ```
    /// # let bytes = std::fs::read(std::env::current_exe()?)?;
    /// let elf = goblin_rs::Elf::parse(&bytes)?;
    /// let (names, text) = (elf.shdr_strtab()?, elf.section(".text")?.ok_or("no .text")?);
    /// assert!(names.is_at(text.sh_name, b".text")? && !names.is_at(text.sh_name, b".te")?);
    /// assert!(names.starts_at(text.sh_name, b".te")?);
    /// # Ok::<(), Box<dyn std::error::Error>>(())
    /// ```
    ///
    /// # Errors
    /// If the table is not inside the file.
    #[inline]
    pub fn is_at(&self, offset: usize, name: &[u8]) -> Result<bool> {
        sys::goblin_string_is(&self.file, &self.range, offset as u64, name)
    }

    /// Reports whether the string at an offset starts with these bytes, as [`Strtab::is_at`] does.
    ///
    /// # Errors
    /// If the table is not inside the file.
    #[inline]
    pub fn starts_at(&self, offset: usize, start: &[u8]) -> Result<bool> {
        sys::goblin_string_starts(&self.file, &self.range, offset as u64, start)
    }
}
