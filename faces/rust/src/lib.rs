//! Safe Rust over `goblin_c`, the static library of a verified port of goblin's ELF layer.
//!
//! A file is a slice of bytes. [`Elf::parse`] reads its header, and everything else is read on demand. The library's
//! results are proved, and this crate passes them on. [Two tables](#coming-from-goblin) say what stands here for each
//! of goblin's fields and calls.
//!
//! ```
//! # let path = std::env::current_exe()?;
//! let bytes = std::fs::read(path)?;
//! let elf = goblin_rs::Elf::parse(&bytes)?;
//! for section in elf.section_headers()? {
//!     println!("{:#x} {}", section.sh_offset, elf.section_name(&section)?.unwrap_or(""));
//! }
//! # Ok::<(), Box<dyn std::error::Error>>(())
//! ```
//!
//! # Lists
//! The call that makes a list fails if the list can't be read. So a list has all of its items, and they are plain
//! values: no iterator adaptor can drop an error. Each list has `len`, `is_empty` and `iter`, and can be iterated over
//! by value or by reference. Lists whose items have indices also have `get`.
//!
//! # Files that are cut
//! The call for a whole fails if a part of it is not inside the file. [`Error::offset`] is where the whole begins, such
//! as the list of headers. Of notes it is where the damaged note begins. [`Elf::whole`] returns the same file with only
//! the headers that are whole inside it: its lists of headers, and searches in them, never fail for the list. The calls
//! whose names begin with `readable_` never fail: they return what is left of notes, or of the bytes of a section or a
//! segment. The example `truncated` shows them.
//!
//! A separate debug file, as `objcopy --only-keep-debug` makes it, has the header of the dynamic section, but not its
//! bytes. If the header still has its size, the calls that read it fail: [`Elf::dynamic`], [`Elf::dynsyms`],
//! [`Elf::libraries`] and its like. [`Elf::section`], [`Elf::syms`] and [`Elf::build_id`] read such a file.
//!
//! # Notes
//! [`Elf::iter_note_headers`] returns the notes of segments: those that are loaded, and all of a core file. Others are
//! in sections alone, as the GNU build ID of a program in Go may be: [`Elf::iter_note_sections`] returns them, unless
//! the section headers are stripped. [`Elf::build_id`] looks in both. Their names are bytes, since some are not UTF-8.
//!
//! # Headers that a program makes
//! A header that a call takes need not be one of the file. [`Elf::strtab`], [`Elf::section_data`], [`Elf::number_in`]
//! and [`Elf::relocs`] read only `sh_type`, `sh_offset` and `sh_size`. [`Elf::symtab`] also reads `sh_link`, and the
//! calls for notes `sh_addralign`. So a string table can be read at any offset: `elf.strtab(&SectionHeader { sh_offset,
//! sh_size, ..section })`.
//!
//! # What may change
//! [`header::Header`], [`section_header::SectionHeader`], [`program_header::ProgramHeader`], [`sym::Sym`],
//! [`reloc::Reloc`], [`dynamic::Dyn`], [`note::Note`] and [`note::NoteBytes`] have the standard's fields, all public. A
//! program makes them by a literal, or by some fields and `..Default::default()`. They get no further fields in a
//! compatible version. Enumerations may get further variants, and traits further methods: no other crate has them.
//!
//! # Writing
//! The calls of [`header::Header`] whose names begin with `put` change a record in a `&mut [u8]`. What they write reads
//! as the same record, and no other byte changes, which is proved.
//!
//! # Platforms
//! The library is made for Linux (and Android) on x86-64 and AArch64, and this crate needs a host of 64 bits. The files
//! that it reads may be of any machine. It needs Rust 1.63. There is no public repository yet, and no registry that has
//! it: `make dist` of its sources makes the crate. Without the feature `std`, which is on by default, it needs
//! only `core` and `alloc`: [`Error`] is then no error of std, and [`strtab::Strtab::get_c_str`] is missing, which
//! [`strtab::Strtab::get_closed_bytes`] stands for. (A program without std needs Rust 1.68.) All types may be shared
//! and sent between threads, since the library has no state.
//!
//! # Coming from goblin
//! Here each part of the file is read on demand, which can fail, so most of goblin's fields are calls that return a
//! result. A list is not a slice.
//!
//! The symbols of `dynsyms` are those of the section of type `SHT_DYNSYM`. goblin counts those at `DT_SYMTAB` by
//! `DT_GNU_HASH`, or else by `DT_HASH`, and at least up to the highest index in a relocation. Without such a section
//! they are refused here with [`Kind::NotCounted`], which a program that goes on without them matches. A name of the
//! dynamic section that can't be read is an error, and so is an interpreter that is not UTF-8; goblin leaves them out.
//! A program that does so, too, reads [`dynamic::Dynamic::values`] of `DT_NEEDED` one by one, each by
//! [`strtab::Strtab::get`] of [`Elf::dynstrtab`].
//!
//! goblin's modules `elf::header`, `elf::sym` and so on are `goblin_rs::header`, `goblin_rs::sym` here. Its
//! [`Elf::parse`] refuses a file of which any part is refused; here only the header is read, so a program that asks
//! whether a file can be read also asks for the lists that it needs.
//!
//! goblin has no searches. Here [`Elf::section`], [`Elf::section_by_name`] and [`Elf::section_by_type`] find a section,
//! and the calls of [`sym::Symtab`] that begin with `symbol_by_` a symbol, by its name or an address.
//! [`Elf::linked_section`] is the section that `sh_link` names, and [`Elf::address_to_offset`] finds a loaded byte.
//!
//! |field of goblin's `Elf`|here|
//! |---|---|
//! |`header`|`header`, with fields such as `ei_osabi` for its `e_ident`|
//! |`is_64`, `little_endian`, `entry`, `is_lib`|`is_64()`, `little_endian()`, `entry()`, `is_lib()?`|
//! |`program_headers`, `section_headers`|`program_headers()?`, `section_headers()?`|
//! |`shdr_strtab`, `dynstrtab`|`shdr_strtab()?`, `dynstrtab()?`|
//! |`syms`, `strtab`|`syms()?.unwrap_or_default()`, and its `strtab()`|
//! |`dynsyms`|`dynsyms()?.unwrap_or_default()`|
//! |`dynamic`|`dynamic()?`, with `entries()` for `dyns`, up to `DT_NULL`, and for `info` the last of `values(tag)`|
//! |`dynrelas`, `dynrels`, `pltrelocs`, `shdr_relocs`|`dynrelas()?`, `dynrels()?`, `pltrelocs()?`, `shdr_relocs()?`|
//! |`libraries`, `rpaths`, `runpaths`, `soname`|`libraries()?`, `rpaths()?`, `runpaths()?`, `soname()?`|
//! |`interpreter`|`interpreter()?`, up to its first zero byte, and an error if it is not UTF-8|
//! |`versym`, `verdef`, `verneed`|not here|
//!
//! |call of goblin|here|
//! |---|---|
//! |`Elf::parse`|the same, but it reads only the header|
//! |`is_object_file`|the same|
//! |`Elf::parse_header`, `Elf::lazy_parse`|`Elf::parse`, which reads only the header|
//! |`Elf::parse_with_opts`, permissive|[`Elf::whole`], and the calls that begin with `readable_`|
//! |`iter_note_headers`, `iter_note_sections`|the same without arguments|
//! |`get_at(offset)`, `[offset]` of a `Strtab`|`get(offset)?`, `None` past the end. What is not UTF-8 is an error|
//! |`to_vec`, `len` of a `Strtab`|not here|
//! |`get`, `len`, `is_empty`, `iter`, `to_vec` of symbols and relocations|the same, also of sections and segments|
//! |`machine_to_str` and so on|the same, but `dynamic::tag_to_str`, which is not here|
//! |`st_bind`, `is_import`, `vm_range`, `is_executable` and so on of records|the same|
//! |`r_info`, `r_sym`, `r_type` of an `r_info`|not here. A [`reloc::Reloc`] has the last two|
//! |`parse`, `size`, `check_size`, `from_bytes`, `from_fd` of records|not here: lists read them|
//! |`pwrite_with` of a record|a call of [`header::Header`] whose name begins with `put`|
//! |`compression_header`|the constants in [`other`], and [`Elf::number_in`] for its fields|
//! |what reads symbol versions, hash tables, archives, Mach-O or PE|not here|
//!
//! These lines, the comments, work with goblin, each before what to write instead:
//!
//! ```
//! # let path = std::env::current_exe()?;
//! # let bytes = std::fs::read(path)?;
//! use goblin_rs::note::NoteBytes;
//! use goblin_rs::section_header::{SectionHeader, SHF_ALLOC};
//! use goblin_rs::{Elf, Kind};
//!
//! // match Object::parse(&bytes)? { Object::Elf(elf) => .. }
//! let elf = Elf::parse(&bytes)?;
//! // elf.is_64, elf.little_endian, elf.is_lib, elf.entry
//! let _ = (elf.is_64(), elf.little_endian(), elf.is_lib()?, elf.entry());
//! // elf.header.e_ident[EI_OSABI]
//! let _ = elf.header.ei_osabi;
//!
//! // for section in &elf.section_headers
//! for section in elf.section_headers()? {
//!     // elf.shdr_strtab.get_at(section.sh_name)
//!     let name: Option<&str> = elf.section_name(&section)?;
//!     // section.sh_flags as u32 & SHF_ALLOC != 0
//!     let is_loaded = section.sh_flags & SHF_ALLOC != 0;
//!     println!("{name:?} {is_loaded}");
//! }
//! // elf.section_headers[1], elf.section_headers.first()
//! let _: (Option<SectionHeader>, _) = (elf.section_headers()?.get(1), elf.section_headers()?.get(0));
//! // elf.section_headers.to_vec(), &elf.section_headers[1..]
//! let sections: Vec<SectionHeader> = elf.section_headers()?.to_vec();
//! let sections = &sections[1..];
//! # assert!(!sections.is_empty());
//! // elf.section_headers()?.skip(1), since `iter` makes the iterator
//! let _ = elf.section_headers()?.iter().skip(1);
//!
//! // for symbol in &elf.syms
//! if let Some(symbols) = elf.syms()? {
//!     for symbol in symbols {
//!         // elf.strtab[symbol.st_name], elf.strtab.get_at(symbol.st_name)
//!         let name: Option<&str> = symbols.name(&symbol)?;
//!         # assert!(name.map_or(true, |name| name.len() < 10000));
//!     }
//! }
//!
//! // for (index, relocs) in &elf.shdr_relocs
//! for (index, relocs) in elf.shdr_relocs()? {
//!     println!("{} in section {index}", relocs.len());
//! }
//! // elf.pltrelocs.iter(), elf.libraries
//! println!("{} {:?}", elf.pltrelocs()?.iter().count(), elf.libraries()?);
//!
//! // elf.iter_note_headers(&bytes), whose items are results
//! let _: Vec<NoteBytes> = elf.iter_note_headers()?.collect();
//! // elf.iter_note_sections(&bytes, Some(".note.ABI-tag"))
//! if let Some(section) = elf.section(".note.ABI-tag")? {
//!     println!("{}", elf.notes(&section)?.len());
//! }
//!
//! // Err(Error::BadMagic(magic)) => ..
//! match Elf::parse(b"no file of this kind").map_err(|e| e.kind()) {
//!     Err(Kind::BadMagic(magic)) => assert_eq!(magic.to_le_bytes(), *b"no file "),
//!     other => panic!("{other:?}"),
//! }
//! # Ok::<(), Box<dyn std::error::Error>>(())
//! ```
#![no_std]
#![deny(missing_docs, unsafe_code)]

extern crate alloc;
#[cfg(any(feature = "std", test))]
extern crate std;

mod address_map;
pub mod dynamic;
pub mod elf;
pub mod error;
mod file;
#[rustfmt::skip]
mod generated;
pub mod header;
pub mod items;
mod names;
pub mod note;
mod part;
pub mod program_header;
mod raw;
pub mod reloc;
pub mod section_header;
mod section_map;
pub mod strtab;
pub mod sym;
#[allow(unsafe_code)]
mod sys;

pub use elf::Elf;
pub use error::{Error, Kind, Result};
pub use generated::other;
pub use part::Part;
