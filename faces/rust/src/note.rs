//! Notes, their constants, and the names of their types.
use crate::generated::names::{NOTE_TYPE_CORE, NOTE_TYPE_GNU};
pub use crate::generated::note::*;
use crate::elf::Elf;
use crate::error::{Error, Result};
use crate::file::File;
use crate::items::{list, made};
use crate::names::name_of;
use crate::part::Part;
use crate::program_header::PT_NOTE;
use crate::section_header::SHT_NOTE;
use crate::{raw, sys};
use core::iter::FusedIterator;
use core::marker::PhantomData;
use core::str;

/// A note.
///
/// ```
/// use goblin_rs::note::Note;
///
/// let note = Note { n_type: 3, name: "GNU", desc: b"\x01\x02" };
/// assert_eq!(note.type_to_str(), "NT_GNU_BUILD_ID");
/// ```
#[derive(Clone, Copy, Debug, Default, PartialEq, Eq, Hash)]
pub struct Note<'a> {
    /// Its type, whose meaning depends on the name.
    pub n_type: u32,
    /// Its name.
    pub name: &'a str,
    /// Its descriptor.
    pub desc: &'a [u8],
}

impl Note<'_> {
    /// Returns the name of its type, such as `NT_GNU_BUILD_ID`, or `NT_UNKNOWN`. Type 3 is `NT_GNU_BUILD_ID` for every
    /// name but `CORE`, as in goblin.
    #[must_use]
    pub fn type_to_str(&self) -> &'static str {
        type_to_str(self.name.as_bytes(), self.n_type)
    }
}

fn type_to_str(name: &[u8], n_type: u32) -> &'static str {
    name_of(if name == b"CORE" { NOTE_TYPE_CORE } else { NOTE_TYPE_GNU }, n_type)
}

/// A note as bytes. Its name need not be UTF-8.
///
/// ```
/// use goblin_rs::note::NoteBytes;
///
/// let note = NoteBytes { n_type: 3, name: b"GNU\0", desc: b"\x01\x02" };
/// assert_eq!(note.name.strip_suffix(b"\0"), Some(&b"GNU"[..]));
/// ```
#[derive(Clone, Copy, Debug, Default, PartialEq, Eq, Hash)]
pub struct NoteBytes<'a> {
    /// Its type, whose meaning depends on the name.
    pub n_type: u32,
    /// Its whole name. In most files it ends with a zero byte.
    pub name: &'a [u8],
    /// Its descriptor.
    pub desc: &'a [u8],
}

impl<'a> NoteBytes<'a> {
    /// Returns its name without the zero bytes at its end, or `None` if it is not UTF-8.
    #[must_use]
    pub fn text(&self) -> Option<&'a str> {
        str::from_utf8(self.start_of_name()).ok()
    }

    /// Returns the name of its type, as [`Note::type_to_str`] does.
    #[must_use]
    pub fn type_to_str(&self) -> &'static str {
        type_to_str(self.start_of_name(), self.n_type)
    }

    fn start_of_name(&self) -> &'a [u8] {
        let end = self.name.iter().rposition(|&byte| byte != 0).map_or(0, |last| last + 1);
        &self.name[..end]
    }
}

/// What notes are read as: [`Note`] or [`NoteBytes`]. Only these two have it.
///
/// ```
/// use goblin_rs::note::{AnyNote, Notes};
///
/// /// Returns the last note, whatever notes are read as.
/// fn last<'a, N: AnyNote<'a>>(notes: Notes<'a, N>) -> Option<N> {
///     notes.iter().last()
/// }
/// # let bytes = std::fs::read(std::env::current_exe()?)?;
/// let elf = goblin_rs::Elf::parse(&bytes)?;
/// if let Some(section) = elf.section(".note.gnu.build-id")? {
///     let (note, as_bytes) = (last(elf.notes(&section)?), last(elf.notes_bytes(&section)?));
///     assert_eq!(note.map(|note| note.desc), as_bytes.map(|note| note.desc));
/// }
/// # Ok::<(), Box<dyn std::error::Error>>(())
/// ```
pub trait AnyNote<'a>: Copy + sealed::AnyNote<'a> {}

// How notes are read. No other crate can name this trait, so it can get more methods.
mod sealed {
    use super::Notes;
    use crate::error::Result;
    use crate::file::File;
    use crate::raw;

    pub trait AnyNote<'a>: Sized {
        /// Reads the note at an offset.
        fn read(notes: &Notes<'a, Self>, offset: u64) -> Result<Option<raw::Note>>;

        /// Returns a note that was read.
        fn new(file: File<'a>, note: raw::Note) -> Self;
    }
}

impl<'a> AnyNote<'a> for Note<'a> {}

impl<'a> AnyNote<'a> for NoteBytes<'a> {}

impl<'a> sealed::AnyNote<'a> for Note<'a> {
    fn read(notes: &Notes<'a, Self>, offset: u64) -> Result<Option<raw::Note>> {
        sys::goblin_note_utf8(&notes.file, &notes.header, &notes.range, notes.alignment, offset)
    }

    fn new(file: File<'a>, note: raw::Note) -> Self {
        let (name, desc) = ranges(&note);
        Note { n_type: note.n_type, name: file.text(name), desc: file.slice(desc) }
    }
}

impl<'a> sealed::AnyNote<'a> for NoteBytes<'a> {
    fn read(notes: &Notes<'a, Self>, offset: u64) -> Result<Option<raw::Note>> {
        let found = sys::goblin_note_whole(&notes.file, &notes.header, &notes.range, notes.alignment, offset)?;
        let mut note = match found {
            Some(note) => note,
            None => return Ok(None),
        };
        // (the last byte of the name, if it has one, is not in the range, and the note begins with the name's size)
        note.name_size = match note.name_size {
            0 => sys::goblin_number(&notes.file, &notes.header, offset, 4)?.unwrap_or(0),
            size => size + 1,
        };
        Ok(Some(note))
    }

    fn new(file: File<'a>, note: raw::Note) -> Self {
        let (name, desc) = ranges(&note);
        NoteBytes { n_type: note.n_type, name: file.slice(name), desc: file.slice(desc) }
    }
}

// Returns the ranges of a note's name and of its descriptor.
fn ranges(note: &raw::Note) -> (raw::Range, raw::Range) {
    let raw::Note { name_offset, name_size, desc_offset, desc_size, .. } = *note;
    (raw::Range { offset: name_offset, size: name_size }, raw::Range { offset: desc_offset, size: desc_size })
}

/// The notes of a section or a segment.
///
/// ```
/// # let bytes = std::fs::read(std::env::current_exe()?)?;
/// let elf = goblin_rs::Elf::parse(&bytes)?;
/// use goblin_rs::note::NT_GNU_BUILD_ID;
///
/// if let Some(section) = elf.section(".note.gnu.build-id")? {
///     let build_id = elf.notes(&section)?.iter().find(|note| note.n_type == NT_GNU_BUILD_ID);
///     assert!(build_id.map_or(false, |note| !note.desc.is_empty()));
/// }
/// # Ok::<(), Box<dyn std::error::Error>>(())
/// ```
#[derive(Clone, Copy, Debug)]
pub struct Notes<'a, N = Note<'a>> {
    file: File<'a>,
    header: raw::Header,
    range: raw::Range,
    alignment: u64,
    count: usize,
    read_as: PhantomData<N>,
}

impl<'a, N: AnyNote<'a>> Notes<'a, N> {
    // Returns the notes of a section or a segment, of which none is read.
    fn unread(elf: &Elf<'a>, part: &impl Part) -> Self {
        let Elf { file, header } = *elf;
        Notes { file, header, range: part.range(), alignment: part.alignment(), count: 0, read_as: PhantomData }
    }

    /// Reads the notes of a section or a segment up to the first damaged one, and returns the error of that one.
    pub(crate) fn of(elf: &Elf<'a>, part: &impl Part) -> (Self, Option<Error>) {
        let mut notes = Self::unread(elf, part);
        let mut offset = notes.range.offset;
        loop {
            match N::read(&notes, offset) {
                Ok(Some(note)) => offset = note.next,
                Ok(None) => return (notes, None),
                Err(e) => return (notes, Some(e)),
            }
            notes.count += 1;
        }
    }
}

list!(Notes<N: AnyNote> of N, by NoteDataIterator<'a, N>, "note", "notes");

/// An iterator over the notes of a section or a segment.
///
/// ```
/// # let bytes = std::fs::read(std::env::current_exe()?)?;
/// let elf = goblin_rs::Elf::parse(&bytes)?;
/// let section = elf.section(".note.gnu.build-id")?.unwrap_or_default();
/// let mut notes = elf.notes(&section)?.iter();
/// let left = notes.len();
/// assert_eq!(notes.next().is_some(), left > 0);
/// # Ok::<(), Box<dyn std::error::Error>>(())
/// ```
#[derive(Clone, Debug)]
#[must_use = "iterators are lazy and do nothing unless consumed"]
pub struct NoteDataIterator<'a, N = Note<'a>> {
    notes: Notes<'a, N>,
    // The offset to read the next note at.
    next: u64,
    left: usize,
}

impl<'a, N: AnyNote<'a>> NoteDataIterator<'a, N> {
    fn new(notes: Notes<'a, N>) -> Self {
        NoteDataIterator { notes, next: notes.range.offset, left: notes.count }
    }
}

impl<'a, N: AnyNote<'a>> Iterator for NoteDataIterator<'a, N> {
    type Item = N;

    fn next(&mut self) -> Option<Self::Item> {
        self.left = self.left.checked_sub(1)?;
        let note = made(N::read(&self.notes, self.next))?;
        self.next = note.next;
        Some(N::new(self.notes.file, note))
    }

    fn size_hint(&self) -> (usize, Option<usize>) {
        (self.left, Some(self.left))
    }
}

impl<'a, N: AnyNote<'a>> ExactSizeIterator for NoteDataIterator<'a, N> {}

impl<'a, N: AnyNote<'a>> FusedIterator for NoteDataIterator<'a, N> {}

// Returns the notes of the segment or the section at an index, if there is one, and if it is of notes.
type Holder<'a> = fn(Elf<'a>, usize) -> Option<Option<Result<Notes<'a, NoteBytes<'a>>>>>;

/// An iterator over the notes of all segments of type `PT_NOTE`, or of all sections of type `SHT_NOTE`.
///
/// ```
/// # let bytes = std::fs::read(std::env::current_exe()?)?;
/// let elf = goblin_rs::Elf::parse(&bytes)?;
/// for note in elf.iter_note_headers()? {
///     println!("{:?} {}: {} bytes", note.text(), note.type_to_str(), note.desc.len());
/// }
/// # Ok::<(), Box<dyn std::error::Error>>(())
/// ```
#[derive(Clone, Debug)]
#[must_use = "iterators are lazy and do nothing unless consumed"]
pub struct NoteIterator<'a> {
    elf: Elf<'a>,
    holder: Holder<'a>,
    // The index of the next header.
    next: usize,
    // The notes of the last segment or section of notes before it.
    notes: Option<NoteDataIterator<'a, NoteBytes<'a>>>,
    left: usize,
}

impl<'a> NoteIterator<'a> {
    pub(crate) fn of_segments(elf: Elf<'a>) -> Result<Self> {
        elf.program_headers()?;
        Self::of(elf, |elf, index| {
            made(elf.program_header(index)).map(|h| (h.p_type == PT_NOTE).then(|| elf.notes_bytes(&h)))
        })
    }

    pub(crate) fn of_sections(elf: Elf<'a>) -> Result<Self> {
        elf.section_headers()?;
        Self::of(elf, |elf, index| {
            made(elf.section_header(index)).map(|h| (h.sh_type == SHT_NOTE).then(|| elf.notes_bytes(&h)))
        })
    }

    fn of(elf: Elf<'a>, holder: Holder<'a>) -> Result<Self> {
        let mut all = NoteIterator { elf, holder, next: 0, notes: None, left: 0 };
        let mut counted = all.clone();
        while let Some(notes) = counted.next_notes() {
            all.left += notes?.len();
        }
        Ok(all)
    }

    // Returns the notes of the next segment or section of notes.
    fn next_notes(&mut self) -> Option<Result<Notes<'a, NoteBytes<'a>>>> {
        loop {
            let notes = (self.holder)(self.elf, self.next)?;
            self.next += 1;
            if notes.is_some() {
                return notes;
            }
        }
    }
}

impl<'a> Iterator for NoteIterator<'a> {
    type Item = NoteBytes<'a>;

    fn next(&mut self) -> Option<Self::Item> {
        loop {
            if let Some(note) = self.notes.as_mut().and_then(Iterator::next) {
                self.left -= 1;
                return Some(note);
            }
            self.notes = Some(made(self.next_notes()?).iter());
        }
    }

    fn size_hint(&self) -> (usize, Option<usize>) {
        (self.left, Some(self.left))
    }
}

impl ExactSizeIterator for NoteIterator<'_> {}

impl FusedIterator for NoteIterator<'_> {}
