//! Tests what is read of small files that are made here, of both classes and byte orders, whole and damaged.
use goblin_rs::error::{Item, Kind};
use goblin_rs::header::{self, Header};
use goblin_rs::note::NoteIterator;
use goblin_rs::program_header::*;
use goblin_rs::reloc::Reloc;
use goblin_rs::section_header::*;
use goblin_rs::strtab::Strtab;
use goblin_rs::sym::Sym;
use goblin_rs::{Elf, Result};

mod made;
use made::{in_each_form, index, made, section_at, segment_at, why, Form, FORMS, STRINGS};

/// Returns a file whose section header at an index is changed.
fn with_section(form: Form, index: usize, change: impl Fn(&mut SectionHeader)) -> Vec<u8> {
    let mut file = made(form, 0);
    let elf = Elf::parse(&file).unwrap();
    let (header, mut section) = (elf.header, section_at(&elf, index));
    change(&mut section);
    header.put_section_header(&mut file, index, &section).unwrap();
    file
}

/// Returns a file whose header has this index of the section names.
fn with_names_at(form: Form, e_shstrndx: u16) -> Vec<u8> {
    let mut file = made(form, 0);
    Header { e_shstrndx, ..Elf::parse(&file).unwrap().header }.put(&mut file).unwrap();
    file
}

/// Returns what returns numbers below others, the same for the same seed.
fn random(seed: u64) -> impl FnMut(u64) -> u64 {
    let mut state = seed.wrapping_mul(0x9e37_79b9_7f4a_7c15);
    move |below| {
        state = state.wrapping_mul(6_364_136_223_846_793_005).wrapping_add(1_442_695_040_888_963_407);
        (state >> 33) % below
    }
}

fn section(elf: &Elf<'_>, kind: u32) -> SectionHeader {
    elf.section_headers().unwrap().iter().find(|section| section.sh_type == kind).unwrap()
}

#[test]
fn headers() {
    in_each_form(|form, _, Elf { header, .. }| {
        assert_eq!((header.ei_class, header.ei_data), (1 + u8::from(form.is_64), 1 + u8::from(form.is_big)));
        assert_eq!((header.ei_version, header.ei_osabi, header.ei_abiversion), (1, 3, 4));
        assert_eq!((header.e_type, header.e_machine, header.e_version), (3, 0x3e, 1));
        assert_eq!((header.e_entry, header.e_flags, header.e_ehsize), (0x1234, 0x55667788, 0x99));
        assert_eq!((header.e_phentsize, header.e_phnum), (0xaa, 2));
        assert_eq!((header.e_shentsize, header.e_shnum, header.e_shstrndx), (0xbb, 7, 6));
    });
}

#[test]
fn sections() {
    in_each_form(|form, _, elf| {
        let names = elf.shdr_strtab().unwrap();
        let sections: Vec<_> = elf.section_headers().unwrap().iter().collect();
        let found: Vec<_> = sections.iter().map(|s| names.get(s.sh_name).unwrap().unwrap()).collect();
        assert_eq!(found, ["", ".note", ".symtab", ".strtab", ".rela", ".rel", ".names"]);
        for (index, name) in found.iter().enumerate() {
            assert_eq!(elf.section_by_name(name, 0), Ok(Some((index, sections[index]))));
            assert_eq!(elf.section_header(index), Ok(Some(sections[index])));
            assert_eq!(elf.section_name(&sections[index]), Ok(Some(*name)));
        }
        assert_eq!(elf.section_by_name(".no", 0), Ok(None));
        assert_eq!(elf.section_header(7), Ok(None));
        let SectionHeader { sh_name, sh_type, sh_flags, sh_addr, sh_offset, sh_size, .. } = sections[4];
        let place = (sections[3].sh_offset + STRINGS.len() as u64, 6 * form.wide() as u64);
        assert_eq!((sh_name, sh_type, sh_flags, sh_addr), (23, SHT_RELA, 0x32, 0x6017));
        let SectionHeader { sh_link, sh_info, sh_addralign, sh_entsize, .. } = sections[4];
        assert_eq!(((sh_offset, sh_size), sh_link, sh_info, sh_addralign, sh_entsize), (place, 2, 1, 4, 30));
    });
}

#[test]
fn segments() {
    in_each_form(|_, _, elf| {
        let segments: Vec<_> = elf.program_headers().unwrap().iter().collect();
        assert_eq!(segments.len(), 2);
        let load = segments[1];
        assert_eq!((load.p_type, load.p_flags, load.p_offset, load.p_filesz), (1, 5, 0, elf.header.e_shoff));
        assert_eq!((load.p_vaddr, load.p_paddr, load.p_memsz, load.p_align), (0x4000, 0x5000, load.p_filesz + 1, 4));
        assert_eq!(elf.program_header(1), Ok(Some(load)));
        assert_eq!(elf.program_header(2), Ok(None));
    });
}

#[test]
fn sections_in_segments() {
    // the segment has 0x50 bytes at offset 0x100, and 0x80 addresses from 0x1100 on
    let holds = |p_type, sh_flags, sh_type, (before, size): (u64, u64)| {
        let (p_offset, p_filesz, p_vaddr, p_memsz) = (0x100, 0x50, 0x1100, 0x80);
        let segment = ProgramHeader { p_type, p_offset, p_filesz, p_vaddr, p_memsz, ..Default::default() };
        let (sh_offset, sh_addr) = (0x100u64.wrapping_add(before), 0x1100u64.wrapping_add(before));
        segment.holds(&SectionHeader { sh_type, sh_flags, sh_offset, sh_addr, sh_size: size, ..Default::default() })
    };
    let loaded = |p_type, range| holds(p_type, SHF_ALLOC, SHT_PROGBITS, range);
    assert!(loaded(PT_LOAD, (0, 0x50)) && loaded(PT_LOAD, (0x4f, 1)));
    assert!([(0, 0x51), (u64::MAX, 1), (0x50, 1), (1, u64::MAX)].iter().all(|range| !loaded(PT_LOAD, *range)));
    assert!(loaded(PT_LOAD, (0, 0)) && !loaded(PT_LOAD, (0x50, 0)));
    // without bytes in the file only the addresses count
    let zeros = |range| holds(PT_LOAD, SHF_ALLOC, SHT_NOBITS, range);
    assert!(zeros((0x50, 0x30)) && !zeros((0x50, 0x31)) && !zeros((0x80, 0)));
    // some segments hold only loaded sections
    let of_loaded = [PT_LOAD, PT_DYNAMIC, PT_GNU_EH_FRAME, PT_GNU_RELRO, PT_GNU_STACK, 0x6474_e554, 0x6474_f554];
    assert_eq!(of_loaded.map(|p_type| holds(p_type, 0, SHT_PROGBITS, (1, 1))), [false; 7]);
    assert!([0x6474_e553, 0x6474_f555].iter().all(|p_type| holds(*p_type, 0, SHT_PROGBITS, (1, 1))));
    assert!(holds(PT_INTERP, 0, SHT_PROGBITS, (1, 1)) && holds(PT_NOTE, 0, SHT_NOTE, (1, 1)));
    assert!(!loaded(PT_PHDR, (1, 1)) && loaded(PT_DYNAMIC, (1, 1)));
    // thread-local storage
    let of_thread = |p_type, sh_type| holds(p_type, SHF_ALLOC | SHF_TLS, sh_type, (1, 1));
    assert_eq!([PT_TLS, PT_LOAD, PT_GNU_RELRO].map(|p| of_thread(p, SHT_PROGBITS)), [true; 3]);
    assert_eq!([PT_NOTE, PT_GNU_STACK].map(|p| of_thread(p, SHT_PROGBITS)), [false; 2]);
    assert_eq!([PT_TLS, PT_LOAD, PT_GNU_RELRO].map(|p| of_thread(p, SHT_NOBITS)), [true, false, false]);
    assert!(!loaded(PT_TLS, (1, 1)));
    // an empty section at the start of a segment of notes is not held
    assert_eq!([PT_NOTE, PT_DYNAMIC, PT_LOAD].map(|p_type| loaded(p_type, (0, 0))), [false, false, true]);
    assert_eq!([PT_NOTE, PT_DYNAMIC, PT_LOAD].map(|p_type| loaded(p_type, (1, 0))), [true; 3]);
    let empty = ProgramHeader { p_type: PT_NOTE, p_offset: 0x100, ..Default::default() };
    let at = |sh_offset, sh_size| SectionHeader { sh_type: SHT_NOTE, sh_offset, sh_size, ..Default::default() };
    assert!(empty.holds(&at(0x100, 0)) && !empty.holds(&at(0x101, 0)) && !empty.holds(&at(0x100, 1)));
}

#[test]
fn sections_of_the_segments_of_a_file() {
    in_each_form(|_, file, elf| {
        let names = |segment: &ProgramHeader| {
            let sections = elf.segment_sections(segment).unwrap();
            sections.map(|section| elf.section_name(&section).unwrap().unwrap()).collect::<Vec<_>>()
        };
        let (notes, load) = (segment_at(&elf, 0), segment_at(&elf, 1));
        // (the addresses of the sections are past those of the segments)
        assert_eq!((names(&notes), names(&load)), (vec![], vec![]));
        let everywhere = |segment| ProgramHeader { p_vaddr: 0, p_memsz: u64::MAX, ..segment };
        assert_eq!(names(&everywhere(notes)), [".note"]);
        let all = [".note", ".symtab", ".strtab", ".rela", ".rel", ".names"];
        assert_eq!(names(&everywhere(load)), all);
        // (the section at index 0 is empty and at its start, so it would be held)
        assert_eq!(names(&everywhere(ProgramHeader { p_type: PT_INTERP, ..load })), all);
        let cut = Elf::parse(&file[..200]).unwrap();
        assert_eq!(cut.segment_sections(&load).err().map(|e| e.kind()), Some(Kind::BadOffset(elf.header.e_shoff)));
    });
}

/// Returns a file with these sections.
fn with_sections(sections: &[SectionHeader]) -> Vec<u8> {
    let mut file = made(FORMS[0], 0);
    let (e_shoff, e_shnum) = (file.len() as u64, sections.len() as u16);
    file.resize(file.len() + 64 * sections.len(), 0);
    let header = Header { e_shoff, e_shnum, ..Elf::parse(&file).unwrap().header };
    header.put(&mut file).unwrap();
    for (index, section) in sections.iter().enumerate() {
        header.put_section_header(&mut file, index, section).unwrap();
    }
    file
}

#[test]
fn a_map_of_sections_finds_those_that_each_segment_holds() {
    let (mut any, mut found) = (random(1), 0);
    // (most numbers are small, and some at the end of what there is)
    let (starts, sizes) = ([0, 0, 0, 0, 0, 0, 0, 0, u64::MAX - 30], [0, 4, 8, 30, u64::MAX]);
    let types = [PT_LOAD, PT_TLS, PT_DYNAMIC, PT_NOTE, PT_PHDR, PT_INTERP, PT_GNU_RELRO];
    for _ in 0..40 {
        let section = |_| SectionHeader {
            sh_type: [SHT_PROGBITS, SHT_NOBITS][any(2) as usize],
            sh_flags: [0, SHF_ALLOC, SHF_ALLOC | SHF_TLS][any(3) as usize],
            sh_offset: any(30) + starts[any(9) as usize],
            sh_addr: any(30) + starts[any(9) as usize],
            sh_size: sizes[any(5) as usize],
            ..Default::default()
        };
        let file = with_sections(&(0..60).map(section).collect::<Vec<_>>());
        let elf = Elf::parse(&file).unwrap();
        let map = elf.section_map().unwrap();
        for _ in 0..60 {
            let segment = ProgramHeader {
                p_type: types[any(7) as usize],
                p_offset: any(30) + starts[any(9) as usize],
                p_vaddr: any(30) + starts[any(9) as usize],
                p_filesz: sizes[any(5) as usize],
                p_memsz: sizes[any(5) as usize],
                ..Default::default()
            };
            let wanted: Vec<_> = elf.segment_sections(&segment).unwrap().collect();
            found += wanted.len();
            assert_eq!(map.segment_sections(&segment), wanted, "{segment:?}");
        }
    }
    assert!(found > 1000, "{found}");
    let cut = with_sections(&[SectionHeader::default()]);
    assert!(Elf::parse(&cut[..cut.len() - 1]).unwrap().section_map().is_err());
}

#[test]
fn a_map_of_many_sections_takes_no_square_of_their_number() {
    // (each of these is tried for each segment, if not all that decides is in the map: addresses, the emptiness, types)
    let count = 20_000;
    let far = |i: u64| if i % 2 == 0 { i } else { 1_000_000 + i };
    let loaded = SectionHeader { sh_type: SHT_PROGBITS, sh_flags: SHF_ALLOC, sh_size: 1, ..Default::default() };
    let halves = |i| SectionHeader { sh_offset: far(i), sh_addr: far(i + 1), ..loaded };
    let empty = |_| SectionHeader { sh_offset: count, sh_addr: count, sh_size: 0, ..loaded };
    let inside = |i| SectionHeader { sh_offset: i, sh_addr: i, ..loaded };
    let kinds: [(&dyn Fn(u64) -> SectionHeader, u32); 3] = [(&halves, PT_LOAD), (&empty, PT_LOAD), (&inside, PT_TLS)];
    for (section, p_type) in kinds {
        let file = with_sections(&(0..count).map(section).collect::<Vec<_>>());
        let begin = std::time::Instant::now();
        let map = Elf::parse(&file).unwrap().section_map().unwrap();
        let segment = ProgramHeader { p_type, p_filesz: count, p_memsz: count, ..Default::default() };
        assert!((0..count).all(|_| map.segment_sections(&segment).is_empty()));
        assert!(begin.elapsed().as_secs() < 5);
    }
}

#[test]
fn sections_and_their_names() {
    in_each_form(|_, file, elf| {
        assert_eq!((elf.entry(), elf.is_lib()), (0x1234, Ok(true)));
        let mut program = elf;
        (program.header.e_type, program.header.e_entry) = (header::ET_EXEC, 5);
        assert_eq!((program.entry(), program.is_lib(), program.is_object_file()), (5, Ok(false), false));
        program.header.e_type = header::ET_REL;
        assert_eq!((program.is_lib(), program.is_object_file()), (Ok(false), true));
        program.header.e_type = header::ET_CORE;
        assert_eq!(program.is_lib(), Ok(false));
        // (section 0 means no section)
        assert_eq!(elf.section(""), Ok(None));
        assert_eq!(elf.section(".no"), Ok(None));
        let names = elf.section(".names").unwrap().unwrap();
        let named = |sh_name| elf.section_name(&SectionHeader { sh_name, ..names }).map_err(|e| e.kind());
        assert_eq!((named(names.sh_size as usize), named(names.sh_size as usize - 2)), (Ok(None), Err(NOT_UTF_8)));
        let cut = Elf::parse(&file[..200]).unwrap();
        let refused = Kind::BadOffset(elf.header.e_shoff);
        assert_eq!(cut.section(".names").map_err(|e| e.kind()), Err(refused));
        assert_eq!(cut.section_name(&names).map_err(|e| e.kind()), Err(refused));
    });
}

/// The refusal of the name that is not UTF-8. From its offset to the end of the strings there are two bytes: it and a
/// zero byte.
const NOT_UTF_8: Kind = Kind::BadInput { size: 2 };

#[test]
fn symbols() {
    in_each_form(|_, _, elf| {
        let symbols = elf.syms().unwrap().unwrap();
        let second = Sym { st_name: 7, st_info: 0x21, st_other: 0, st_shndx: 0xfff1, st_value: 0x2030, st_size: 0x40 };
        assert_eq!(symbols.get(2), Some(second));
        assert_eq!((second.st_bind(), second.st_type()), (2, 1));
        let first = symbols.get(1).unwrap();
        assert_eq!((first.st_visibility(), first.st_value, first.st_size, first.st_shndx), (2, 0x1020, 0x30, 3));
        let names: Vec<_> = symbols.iter().map(|symbol| symbols.name(&symbol).map_err(|e| e.kind())).collect();
        assert_eq!(names, [Ok(Some("")), Ok(Some("first")), Ok(Some("second")), Ok(Some("été")), Err(NOT_UTF_8)]);
        assert_eq!(symbols.symbol_by_name("été", 0).map(index), Ok(Some(3)));
        assert_eq!(symbols.symbol_by_name("t", 0).map(index), Ok(None));
        assert_eq!(symbols.get(5), None);
        assert_eq!(symbols.strtab().get(STRINGS.len()), Ok(None));
        assert!(elf.dynsyms().unwrap().is_none());
    });
}

/// A name, and the index of the first item with it.
type Named = (Result<Option<String>>, Result<Option<usize>>);

fn first_section(file: &[u8]) -> Named {
    let elf = Elf::parse(file).unwrap();
    let found = elf.section_by_name(".note", 0).map(|found| found.map(|(index, _)| index));
    (elf.shdr_strtab().unwrap().get(1).map(|name| name.map(String::from)), found)
}

/// Returns the type of the section that the symbol table links to, and its name.
fn linked(file: &[u8]) -> Result<Option<(u32, String)>> {
    let elf = Elf::parse(file).unwrap();
    let linked = elf.linked_section(&section_at(&elf, 2))?;
    Ok(linked.map(|section| (section.sh_type, elf.section_name(&section).unwrap().unwrap().to_string())))
}

fn first_symbol(file: &[u8]) -> Named {
    let symbols = Elf::parse(file).unwrap().syms().unwrap().unwrap();
    let symbol = symbols.get(1).unwrap();
    (symbols.name(&symbol).map(|name| name.map(String::from)), symbols.symbol_by_name("first", 0).map(index))
}

#[test]
fn no_section_is_no_table() {
    for form in FORMS {
        let none = (Ok(None), Ok(None));
        assert_eq!(first_section(&made(form, 0)), (Ok(Some(".note".to_string())), Ok(Some(1))));
        assert_eq!(first_section(&with_names_at(form, 0)), none);
        assert_eq!(first_section(&with_names_at(form, 7)), none);
        assert_eq!(first_section(&with_names_at(form, 0xffff)), none);
        assert_eq!(first_section(&with_section(form, 6, |names| names.sh_type = SHT_NOBITS)), none);
        assert_eq!(first_symbol(&made(form, 0)), (Ok(Some("first".to_string())), Ok(Some(1))));
        assert_eq!(linked(&made(form, 0)), Ok(Some((SHT_STRTAB, ".strtab".to_string()))));
        for unlinked in [
            with_section(form, 2, |symbols| symbols.sh_link = 0),
            with_section(form, 2, |symbols| symbols.sh_link = 7),
            with_section(form, 3, |strings| strings.sh_type = SHT_NOBITS),
        ] {
            assert_eq!(first_symbol(&unlinked), none);
            assert_eq!(linked(&unlinked), Ok(None));
        }
    }
}

#[test]
fn sections_without_bytes_hold_nothing() {
    in_each_form(|_, _, elf| {
        for index in 1..7 {
            let mut section = section_at(&elf, index);
            assert_ne!(elf.strtab(&section).get(0), Ok(None));
            section.sh_type = SHT_NOBITS;
            assert_eq!(elf.strtab(&section).get(0), Ok(None));
            assert!(elf.notes(&section).unwrap().is_empty());
            assert_eq!(elf.symtab(&section).unwrap_err().kind(), Kind::SectionType(SHT_NOBITS));
            assert_eq!(elf.relocs(&section).unwrap_err().kind(), Kind::SectionType(SHT_NOBITS));
        }
    });
}

#[test]
fn counts_and_bytes() {
    for form in FORMS {
        let file = made(form, 2);
        let elf = Elf::parse(&file).unwrap();
        let symbols = elf.syms().unwrap().unwrap();
        assert_eq!((symbols.len(), symbols.is_empty()), (7, false));
        // the labels 5 and 6 have the values 0 and 1, and their section, ".note", holds 48 addresses from 0x6001 on
        let at = |address| index(symbols.symbol_by_address(address));
        assert_eq!([0, 0x101f, 0x1020, 0x104f, 0x1050].map(at), [None, None, Some(1), Some(1), None]);
        assert_eq!([0x6000, 0x6001, 0x6030, 0x6031].map(at), [None, Some(6), Some(6), None]);
        assert_eq!(at(u64::MAX >> 32), None);
        let counts: Vec<_> = elf.shdr_relocs().unwrap().iter().map(|(_, relocs)| relocs.len()).collect();
        assert_eq!(counts, [2, 1]);
        let sections = elf.section_headers().unwrap();
        let found = |index| sections.get(index).map(|section| (index, section));
        assert_eq!((elf.section_by_type(3, 0), elf.section_by_type(3, 4)), (Ok(found(3)), Ok(found(6))));
        assert_eq!(elf.section_by_type(3, 7), Ok(None));
        let strings = section_at(&elf, 3);
        assert_eq!(elf.section_data(&strings), Ok(Some(STRINGS)));
        assert_eq!(elf.section_data(&SectionHeader { sh_type: SHT_NOBITS, ..strings }), Ok(None));
        let past = SectionHeader { sh_offset: file.len() as u64 - 1, sh_size: 2, ..strings };
        assert_eq!(elf.section_data(&past).map_err(|e| e.kind()), Err(Kind::TooBig { size: 2, len: 1 }));
        let load = segment_at(&elf, 1);
        assert_eq!(elf.segment_data(&load), Ok(Some(&file[..elf.header.e_shoff as usize])));
        assert_eq!(symbols.strtab().get_bytes(20), Ok(Some(&b"\xff"[..])));
        assert_eq!(symbols.strtab().get_bytes(STRINGS.len()), Ok(None));
        let bytes = symbols.symbol_by_name(b"\xff", 0).unwrap().map(|(index, symbol)| (index, symbol.st_name));
        assert_eq!((bytes, symbols.symbol_by_name(b"\xc3", 0).map(index)), (Some((4, 20)), Ok(None)));
        let cut = SectionHeader { sh_size: strings.sh_size - 1, ..strings };
        let closed = elf.strtab(&cut).closed().unwrap();
        assert_eq!([7, 20].map(|at| closed.get_bytes(at)), [Ok(Some(&b"second"[..])), Ok(None)]);
        let (mut named, first) = (file.clone(), section_at(&elf, 1));
        elf.header.put_section_header(&mut named, 1, &SectionHeader { sh_name: 41, ..first }).unwrap();
        let found = Elf::parse(&named).unwrap().section_by_name(b"\xff", 0).unwrap();
        assert_eq!((found.map(|(index, _)| index), elf.section(b"\xff")), (Some(1), Ok(None)));
        assert_eq!(elf.strtab(&past).closed().map_err(|e| e.offset()).err(), Some(past.sh_offset));
        compares_strings(&symbols.strtab());
        assert_eq!(elf.number(18, 2), Ok(Some(0x3e)));
        assert_eq!(elf.number(18, 3), Ok(None));
        assert_eq!(elf.number(file.len() as u64, 1).map_err(|e| e.kind()), Err(Kind::BadOffset(file.len() as u64)));
    }
}

/// Compares strings of a table of `STRINGS`, and finds them as C strings, and many of them.
fn compares_strings(names: &Strtab) {
    for (at, name) in [(1, &b"first"[..]), (2, b"irst"), (20, b"\xff")] {
        assert_eq!(names.is_at(at, name), Ok(true));
    }
    for (at, name) in [(1, &b"firs"[..]), (1, b"first\0"), (STRINGS.len(), b""), (usize::MAX, b"")] {
        assert_eq!(names.is_at(at, name), Ok(false));
    }
    assert_eq!((names.starts_at(7, b"sec"), names.starts_at(7, b"")), (Ok(true), Ok(true)));
    assert_eq!((names.starts_at(7, b"seconds"), names.starts_at(6, b"\0")), (Ok(false), Ok(false)));
    for (at, name) in [(7, Some(&b"second"[..])), (20, Some(b"\xff")), (STRINGS.len(), None)] {
        assert_eq!(names.get_closed_bytes(at), Ok(name));
        assert_eq!(names.get_c_str(at).map(|found| found.map(|found| found.to_bytes())), Ok(name));
    }
    assert_eq!(names.closed().and_then(|all| all.get_bytes(20)), Ok(Some(&b"\xff"[..])));
    // (with offsets past the end, and without, so that all are read of each 64)
    for offsets in [STRINGS.len() + 1, STRINGS.len()].map(|count| (0..200).map(move |index| index % count)) {
        let wanted: Vec<_> = offsets.clone().map(|offset| names.get_bytes(offset).unwrap()).collect();
        assert_eq!(names.get_all_bytes(offsets), Ok(wanted));
    }
    assert_eq!(names.get_all_bytes([]), Ok(vec![]));
}

#[test]
fn reads_no_open_string_for_each_name() {
    // (of each all 2 MiB would be read, which is 4 GB)
    let (file, size) = (made(FORMS[0], 0), 2 << 20);
    let start = file.len() as u64;
    let long = [file, vec![b'a'; size]].concat();
    let strings = SectionHeader { sh_type: 3, sh_offset: start, sh_size: size as u64, ..SectionHeader::default() };
    let found = Elf::parse(&long).unwrap().strtab(&strings).get_all_bytes(0..2000);
    let refused = found.map(|names| names.len()).unwrap_err();
    assert_eq!((refused.kind(), refused.offset()), (Kind::OpenString(0), start));
}

#[test]
fn refuses_to_compare_strings_past_the_end() {
    in_each_form(|_, file, elf| {
        let strings = section_at(&elf, 3);
        // (only "first")
        let open = elf.strtab(&SectionHeader { sh_offset: strings.sh_offset + 1, sh_size: 5, ..strings });
        assert_eq!((open.get_c_str(0), open.get_closed_bytes(0)), (Ok(None), Ok(None)));
        assert_eq!(open.is_at(0, b"first"), Ok(true));
        let refused = open.get_all_bytes([5, 2]).unwrap_err();
        assert_eq!((refused.kind(), refused.offset()), (Kind::OpenString(2), strings.sh_offset + 3));
        assert_eq!(refused.to_string(), "No zero byte closes the string at offset 2 of its table");
        assert_eq!(open.get_all_bytes([5]), Ok(vec![None]));
        let past = elf.strtab(&SectionHeader { sh_offset: file.len() as u64 - 1, sh_size: 2, ..strings });
        let len = file.len() as u64;
        let wanted = Kind::StrtabRange { size: 2, offset: len - 1, len, overflow: false };
        assert_eq!(past.is_at(0, b"").map_err(|e| e.kind()), Err(wanted));
        assert_eq!(past.starts_at(0, b"").map_err(|e| e.kind()), Err(wanted));
        assert_eq!(past.get_c_str(0).map_err(|e| e.kind()), Err(wanted));
        assert_eq!(past.get_closed_bytes(0).map_err(|e| e.kind()), Err(wanted));
        assert_eq!(past.get_all_bytes([0, 1]).map_err(|e| e.kind()), Err(wanted));
        assert_eq!(past.get_all_bytes([]), Ok(vec![]));
    });
}

/// Returns the bytes that differ in two files, as the range from the first to the last.
fn changed(before: &[u8], after: &[u8]) -> Option<std::ops::Range<usize>> {
    let differs = |index: &usize| before[*index] != after[*index];
    Some((0..before.len()).find(differs)?..(0..before.len()).rfind(differs)? + 1)
}

/// Asserts that a call has changed bytes of a record alone, and brings back the file.
fn has_written(file: &mut [u8], before: &[u8], place: (u64, usize), written: Result<()>) {
    let range = changed(before, file).unwrap();
    assert!(range.start as u64 >= place.0 && range.end as u64 <= place.0 + place.1 as u64, "{range:?} {place:?}");
    assert_eq!(written, Ok(()));
    file.copy_from_slice(before);
}

#[test]
fn headers_are_written() {
    for form in FORMS {
        let before = made(form, 0);
        let (elf, mut file) = (Elf::parse(&before).unwrap(), before.clone());
        let (header, of_section, of_segment) =
            (elf.header, if form.is_64 { 64 } else { 40 }, if form.is_64 { 56 } else { 32 });
        let found = (section_at(&elf, 3), segment_at(&elf, 1));
        header.put(&mut file).unwrap();
        let written =
            (header.put_section_header(&mut file, 3, &found.0), header.put_program_header(&mut file, 1, &found.1));
        assert_eq!((written, changed(&before, &file)), ((Ok(()), Ok(())), None));
        let (section, segment) = (
            SectionHeader { sh_info: 5, sh_type: 0x1234, ..found.0 },
            ProgramHeader { p_flags: 7, p_align: 2, ..found.1 },
        );
        let written = header.put_section_header(&mut file, 3, &section);
        assert_eq!(Elf::parse(&file).unwrap().section_header(3), Ok(Some(section)));
        has_written(&mut file, &before, (header.e_shoff + 3 * of_section as u64, of_section), written);
        let written = header.put_program_header(&mut file, 1, &segment);
        assert_eq!(Elf::parse(&file).unwrap().program_header(1), Ok(Some(segment)));
        has_written(&mut file, &before, (header.e_phoff + of_segment as u64, of_segment), written);
        let other = Header { e_entry: 0x4321, e_shstrndx: 3, ei_osabi: 9, ..header };
        let written = other.put(&mut file);
        assert_eq!(Elf::parse(&file).unwrap().header, other);
        has_written(&mut file, &before, (0, form.header_size()), written);
        // what is not written is an error, which `?` passes on
        assert_eq!(why(header.put_section_header(&mut file, 7, &section)), (Kind::NoItem(7), header.e_shoff));
        assert_eq!(why(header.put_section_header(&mut file, 9999, &section)), (Kind::NoItem(9999), header.e_shoff));
        assert_eq!(why(header.put_program_header(&mut file, 2, &segment)), (Kind::NoItem(2), header.e_phoff));
        let cut = (Kind::BadOffset(header.e_shoff), header.e_shoff);
        assert_eq!(why(header.put_section_header(&mut file[..200], 0, &section)), cut);
        assert_eq!(why(Header { ei_class: 3, ..header }.put(&mut file)), (Kind::InvalidClass(3), 0));
        assert_eq!(why(Header { ei_data: 0, ..header }.put(&mut file)), (Kind::Data(0), 0));
        let long_name = SectionHeader { sh_name: 1 << 32, ..section };
        let place = header.e_shoff + 3 * of_section as u64;
        assert_eq!(why(header.put_section_header(&mut file, 3, &long_name)), (Kind::IntegerFit(1 << 32), place));
        assert_eq!(changed(&before, &file), None);
        let high = Header { e_entry: 1 << 32, ..header }.put(&mut file).map_err(|e| e.kind());
        assert_eq!(high, if form.is_64 { Ok(()) } else { Err(Kind::IntegerFit(1 << 32)) });
    }
}

#[test]
fn symbols_relocations_and_numbers_are_written() {
    for form in FORMS {
        let before = made(form, 0);
        let (elf, mut file) = (Elf::parse(&before).unwrap(), before.clone());
        let (header, of_symbol, of_rela) = (elf.header, if form.is_64 { 24 } else { 16 }, 3 * form.wide());
        let (table, rela, rel) = (section_at(&elf, 2), section_at(&elf, 4), section_at(&elf, 5));
        let (symbol, reloc) = (elf.symtab(&table).unwrap().get(2).unwrap(), elf.relocs(&rela).unwrap().get(1).unwrap());
        let written = (header.put_symbol(&mut file, &table, 2, &symbol), header.put_reloc(&mut file, &rela, 1, &reloc));
        assert_eq!((written, changed(&before, &file)), ((Ok(()), Ok(())), None));
        let hidden = Sym { st_other: 2, st_size: 9, st_shndx: 0xfffe, ..symbol };
        let written = header.put_symbol(&mut file, &table, 2, &hidden);
        assert_eq!(Elf::parse(&file).unwrap().symtab(&table).unwrap().get(2), Some(hidden));
        has_written(&mut file, &before, (table.sh_offset + 2 * of_symbol as u64, of_symbol), written);
        let moved = Reloc { r_addend: Some(-9), r_type: 3, r_sym: 0xffffff, ..reloc };
        let written = header.put_reloc(&mut file, &rela, 1, &moved);
        assert_eq!(Elf::parse(&file).unwrap().relocs(&rela).unwrap().get(1), Some(moved));
        has_written(&mut file, &before, (rela.sh_offset + of_rela as u64, of_rela), written);
        let without = Reloc { r_addend: None, ..moved };
        let written = header.put_reloc(&mut file, &rel, 0, &without);
        assert_eq!(Elf::parse(&file).unwrap().relocs(&rel).unwrap().get(0), Some(without));
        has_written(&mut file, &before, (rel.sh_offset, 2 * form.wide()), written);
        let written = header.put_number(&mut file, 18, 2, 0xf3);
        assert_eq!(Elf::parse(&file).unwrap().header.e_machine, 0xf3);
        has_written(&mut file, &before, (18, 2), written);
        let written = header.put_number_in(&mut file, &rel, 2, 2, 0x1234);
        assert_eq!(Elf::parse(&file).unwrap().number_in(&rel, 2, 2), Ok(Some(0x1234)));
        has_written(&mut file, &before, (rel.sh_offset + 2, 2), written);
        // none of these is written
        assert_eq!(why(header.put_symbol(&mut file, &table, 5, &symbol)), (Kind::NoItem(5), table.sh_offset));
        assert_eq!(why(header.put_reloc(&mut file, &rel, 1, &without)), (Kind::NoItem(1), rel.sh_offset));
        assert_eq!(why(header.put_number(&mut file, 5, 3, 0)), (Kind::NumberWidth(3), 5));
        let addend = 2 * form.wide() as u64;
        let moves = why(header.put_reloc(&mut file, &rel, 0, &moved));
        assert_eq!(moves, (Kind::IntegerFit(-9_i64 as u64), rel.sh_offset + addend));
        let leaves = why(header.put_reloc(&mut file, &rela, 0, &without));
        assert_eq!(leaves, (Kind::IntegerFit(0), rela.sh_offset + addend));
        let none = header.put_reloc(&mut file, &rel, 0, &Reloc { r_addend: Some(0), ..moved });
        assert_eq!(none.map_err(|e| (e.item(), e.kind(), e.offset())), Err((Some(Item::Addend), leaves.0, moves.1)));
        let high = Sym { st_shndx: 0x10003, ..symbol };
        let index = table.sh_offset + if form.is_64 { 6 } else { 14 };
        assert_eq!(why(header.put_symbol(&mut file, &table, 0, &high)), (Kind::IntegerFit(0x10003), index));
        assert_eq!(why(header.put_symbol(&mut file, &table, 5, &high)).0, Kind::NoItem(5));
        let long = Sym { st_name: 0x1_0000_0003, ..symbol };
        let second = table.sh_offset + of_symbol as u64;
        assert_eq!(why(header.put_symbol(&mut file, &table, 1, &long)), (Kind::IntegerFit(0x1_0000_0003), second));
        let far = Reloc { r_sym: 0x1_0000_0003, ..reloc };
        let info = rela.sh_offset + of_rela as u64 + form.wide() as u64;
        assert_eq!(why(header.put_reloc(&mut file, &rela, 1, &far)), (Kind::IntegerFit(0x1_0000_0003), info));
        assert_eq!(why(header.put_number(&mut file, 18, 2, 0x10000)), (Kind::IntegerFit(0x10000), 18));
        let byte = why(header.put_number_in(&mut file, &rel, 2, 1, 0x100));
        assert_eq!(byte, (Kind::IntegerFit(0x100), rel.sh_offset + 2));
        let end = rel.sh_offset + rel.sh_size;
        assert_eq!(why(header.put_number_in(&mut file, &rel, rel.sh_size, 1, 0)), (Kind::BadOffset(rel.sh_size), end));
        assert_eq!(why(header.put_number_in(&mut file, &rel, 2, 3, 0)), (Kind::NumberWidth(3), rel.sh_offset + 2));
        let of_type = (header.put_symbol(&mut file, &rel, 0, &symbol), header.put_reloc(&mut file, &table, 0, &reloc));
        let refused = (Kind::SectionType(SHT_REL), Kind::SectionType(SHT_SYMTAB));
        assert_eq!((of_type.0.unwrap_err().kind(), of_type.1.unwrap_err().kind()), refused);
        assert_eq!(changed(&before, &file), None);
    }
}

#[test]
fn the_first_section_header_has_the_number_of_segments() {
    for form in FORMS {
        let mut file = made(form, 0);
        let header = Elf::parse(&file).unwrap().header;
        let (sections, count) = (header.e_shoff, Header { e_phnum: 0xffff, ..header });
        header.put_number(&mut file, sections + if form.is_64 { 44 } else { 28 }, 4, 1).unwrap();
        count.put(&mut file).unwrap();
        let elf = Elf::parse(&file).unwrap();
        assert_eq!((elf.program_headers().unwrap().len(), elf.program_header(1)), (1, Ok(None)));
        assert_eq!(elf.whole().header, count);
        // (the file ends in that header, so the number can't be read, and then of the segments none is inside)
        let cut = Elf::parse(&file[..sections as usize + 3]).unwrap();
        let past = Kind::TooBig { size: if form.is_64 { 64 } else { 40 }, len: 3 };
        assert_eq!(why(cut.program_headers()), (past, sections));
        assert_eq!(cut.whole().header, Header { e_phnum: 0, e_shoff: 0, e_shnum: 0, ..count });
        let without = Header { e_shoff: 0, ..count };
        without.put(&mut file).unwrap();
        let elf = Elf::parse(&file).unwrap();
        assert_eq!(elf.program_headers().unwrap_err().kind(), Kind::BufferTooShort(0xffff));
        assert_eq!(elf.whole().program_headers().unwrap().len(), 2);
    }
}

#[test]
fn numbers_in_sections_and_segments() {
    in_each_form(|form, file, elf| {
        let strings = elf.section(".strtab").unwrap().unwrap();
        // "firs" is the first name but its last letter
        let letters = if form.is_big { 0x6669_7273 } else { 0x7372_6966 };
        assert_eq!(elf.number_in(&strings, 1, 4), Ok(Some(letters)));
        assert_eq!(elf.number_in(&strings, 1, 1), Ok(Some(0x66)));
        assert_eq!((elf.number_in(&strings, 1, 3), elf.number_in(&strings, u64::MAX, 16)), (Ok(None), Ok(None)));
        let load = segment_at(&elf, 1);
        assert_eq!(elf.number_in(&load, 18, 2), Ok(Some(0x3e)));
        let whole = ProgramHeader { p_offset: strings.sh_offset, p_filesz: strings.sh_size, ..load };
        assert_eq!(elf.number_in(&whole, 1, 4), Ok(Some(letters)));
        let kinds = |offset, width| {
            let of_section = elf.number_in(&strings, offset, width).map_err(|e| e.kind());
            assert_eq!(elf.number_in(&whole, offset, width).map_err(|e| e.kind()), of_section);
            of_section
        };
        let size = STRINGS.len() as u64;
        assert_eq!(kinds(size - 4, 8), Err(Kind::TooBig { size: 8, len: 4 }));
        assert_eq!(kinds(size, 1), Err(Kind::BadOffset(size)));
        assert_eq!(kinds(u64::MAX, 1), Err(Kind::BadOffset(u64::MAX)));
        let past = SectionHeader { sh_offset: file.len() as u64 - 8, sh_size: 9, ..strings };
        assert_eq!(elf.number_in(&past, 0, 1).map_err(|e| e.kind()), Err(Kind::TooBig { size: 9, len: 8 }));
        let without = SectionHeader { sh_type: SHT_NOBITS, ..strings };
        assert_eq!(elf.number_in(&without, 0, 1).map_err(|e| e.kind()), Err(Kind::BadOffset(0)));
    });
}

#[test]
fn errors_of_lists_begin_where_the_list_does() {
    for form in FORMS {
        let file = with_names_at(form, 3);
        let list = Elf::parse(&file).unwrap().header.e_shoff;
        let size = if form.is_64 { 64 } else { 40 };
        let header_5 = list + 5 * size;
        // the file ends in section header 5, and then where it begins
        for (len, kind) in
            [(header_5 + size - 2, Kind::TooBig { size, len: size - 2 }), (header_5, Kind::BadOffset(header_5))]
        {
            let cut = Elf::parse(&file[..len as usize]).unwrap();
            assert_eq!(why(cut.section_headers()), (kind, list));
            assert_eq!(why(cut.section_header(1)), (kind, list));
            let whole = cut.whole();
            assert_eq!(whole.section_headers().unwrap().len(), 5);
            // the names of sections are read by the header that is left, and searches find them
            let names = whole.section_header(3).unwrap().unwrap();
            assert_eq!(why(cut.section_name(&names)), (kind, list));
            assert_eq!(whole.shdr_strtab().unwrap().get(1), Ok(Some("first")));
            assert_eq!(whole.section_by_name("first", 0), Ok(Some((1, whole.section_header(1).unwrap().unwrap()))));
            assert_eq!(whole.syms().unwrap().map(|symbols| symbols.len()), Some(5));
        }
    }
}

#[test]
fn offsets_of_errors_count_from_the_start_of_their_whole() {
    in_each_form(|_, file, elf| {
        let (strings, size) = (elf.section(".strtab").unwrap().unwrap(), STRINGS.len() as u64);
        let far = (Kind::BadOffset(size + 5), strings.sh_offset + size + 5);
        assert_eq!(why(elf.number_in(&strings, size + 5, 1)), far);
        let past = SectionHeader { sh_offset: file.len() as u64 + 7, ..strings };
        assert_eq!(why(elf.number_in(&past, 3, 1)), (Kind::BadOffset(past.sh_offset), past.sh_offset));
        // the second note begins 20 bytes after the first, its name 12 bytes after that, and its descriptor 8
        // bytes later
        let section = section_at(&elf, 1);
        let (first, second) = (section.sh_offset, section.sh_offset + 20);
        for (len, note, of_text, of_bytes) in [
            (first, first, Kind::BadOffset(first), Kind::BadOffset(0)),
            (first + 12, first, Kind::BadOffset(12), Kind::BadOffset(12)),
            (second, second, Kind::BadOffset(second), Kind::BadOffset(0)),
            (second + 11, second, Kind::TooBig { size: 12, len: 11 }, Kind::TooBig { size: 12, len: 11 }),
            (second + 20, second, Kind::BadOffset(20), Kind::BadOffset(20)),
            (second + 24, second, Kind::TooBig { size: 5, len: 4 }, Kind::TooBig { size: 5, len: 4 }),
        ] {
            let cut = Elf::parse(&file[..len as usize]).unwrap();
            assert_eq!((why(cut.notes(&section)), why(cut.notes_bytes(&section))), ((of_text, note), (of_bytes, note)));
        }
        for alignment in 0..=9 {
            let section = SectionHeader { sh_addralign: alignment, ..section };
            let counts = (elf.notes(&section).map(|all| all.len()), elf.notes_bytes(&section).map(|all| all.len()));
            match alignment {
                0..=4 => assert_eq!(counts, (Ok(2), Ok(2))),
                8 => {}
                _ => assert_eq!(why(elf.notes(&section)), (Kind::NoteAlign(alignment), first)),
            }
        }
    });
}

#[test]
fn offsets_of_addresses() {
    for form in FORMS {
        // the first segment is of notes, and has the same address
        let mut file = made(form, 0);
        let elf = Elf::parse(&file).unwrap();
        let (load, end) = (segment_at(&elf, 1), elf.header.e_shoff);
        assert_eq!((load.p_vaddr, load.p_offset, load.p_filesz, load.p_memsz), (0x4000, 0, end, end + 1));
        assert_eq!(elf.address_to_offset(0x4000), Ok(Some(0)));
        assert_eq!(elf.address_to_offset(0x4000 + end - 1), Ok(Some(end - 1)));
        for address in [0, 0x3fff, 0x4000 + end, u64::MAX] {
            assert_eq!(elf.address_to_offset(address), Ok(None));
        }
        let cut = Elf::parse(&file[..200]).unwrap();
        assert_eq!(cut.address_to_offset(0).map_err(|e| e.kind()), Err(Kind::BadOffset(elf.header.e_phoff)));
        // with another p_offset the file has 2 bytes of the segment
        let (len, header) = (file.len() as u64, elf.header);
        assert_eq!(header.put_program_header(&mut file, 1, &ProgramHeader { p_offset: len - 2, ..load }), Ok(()));
        let elf = Elf::parse(&file).unwrap();
        assert_eq!(elf.address_to_offset(0x4001), Ok(Some(len - 1)));
        assert_eq!(elf.address_to_offset(0x4002).map_err(|e| e.kind()), Err(Kind::BadOffset(len)));
    }
}

#[test]
fn parts_of_sections_and_segments() {
    in_each_form(|_, file, elf| {
        let len = file.len() as u64;
        for section in elf.section_headers().unwrap() {
            assert_eq!(elf.readable_data(&section), elf.section_data(&section).unwrap());
        }
        for segment in elf.program_headers().unwrap() {
            assert_eq!(elf.readable_data(&segment), elf.segment_data(&segment).unwrap());
        }
        let (section, segment) = (section_at(&elf, 3), segment_at(&elf, 1));
        for (offset, size, left) in
            [(len - 3, 4, 3), (len - 3, u64::MAX, 3), (len, 1, 0), (len + 1, 5, 0), (u64::MAX, u64::MAX, 0)]
        {
            let section = SectionHeader { sh_offset: offset, sh_size: size, ..section };
            let segment = ProgramHeader { p_offset: offset, p_filesz: size, ..segment };
            assert!(elf.section_data(&section).is_err() && elf.segment_data(&segment).is_err());
            let wanted = &file[file.len() - left..];
            assert_eq!((elf.readable_data(&section), elf.readable_data(&segment)), (Some(wanted), Some(wanted)));
        }
        let past = SectionHeader { sh_offset: len - 1, sh_size: 2, ..section };
        assert_eq!(elf.readable_data(&SectionHeader { sh_type: SHT_NOBITS, ..past }), None);
        assert_eq!(elf.readable_data(&SectionHeader { sh_size: 0, ..past }), None);
        assert_eq!(elf.readable_data(&ProgramHeader { p_filesz: 0, p_offset: len, ..segment }), None);
    });
}

#[test]
fn symbols_of_one_name() {
    for form in FORMS {
        // the symbols from 5 on have the empty name, as symbol 0 has
        let file = made(form, 2);
        let symbols = Elf::parse(&file).unwrap().syms().unwrap().unwrap();
        let found: Vec<_> = (0..9).map(|first| symbols.symbol_by_name("", first).unwrap()).collect();
        let at = |index| symbols.get(index).map(|symbol| (index, symbol));
        let wanted = [&[at(0)], &[at(5); 5][..], &[at(6)], &[None; 2]].concat();
        assert_eq!(found, wanted);
        for (name, first, found) in [("first", 0, 1), ("first", 2, 9), ("", usize::MAX, 9), ("second", 0, 2)] {
            assert_eq!(symbols.symbol_by_name(name, first), Ok(at(found)));
        }
    }
}

#[test]
fn sections_of_one_name() {
    for form in FORMS {
        // the sections at 4 and 5 have the name ".rela"
        let file = with_section(form, 5, |section| section.sh_name = 23);
        let elf = Elf::parse(&file).unwrap();
        let found: Vec<_> =
            (0..9).map(|first| elf.section_by_name(".rela", first).unwrap().map(|(index, _)| index)).collect();
        assert_eq!(found, [&[Some(4); 5][..], &[Some(5)], &[None; 3]].concat());
        assert_eq!(elf.section_by_name(".rela", usize::MAX), Ok(None));
        assert_eq!(elf.section(".rela"), elf.section_header(4));
        let cut = Elf::parse(&file[..200]).unwrap();
        assert_eq!(cut.section_by_name(".strtab", 0).map_err(|e| e.kind()), Err(Kind::BadOffset(elf.header.e_shoff)));
    }
}

#[test]
fn symbols_by_a_map_of_their_addresses() {
    for (form, more) in FORMS.into_iter().flat_map(|form| [(form, 0), (form, 3), (form, 100)]) {
        let mut file = made(form, more);
        let header = Elf::parse(&file).unwrap().header;
        let notes = SectionHeader { sh_flags: SHF_ALLOC, sh_size: 0x1000, ..Default::default() };
        assert_eq!(header.put_section_header(&mut file, 1, &notes), Ok(()));
        let symbols = Elf::parse(&file).unwrap().syms().unwrap().unwrap();
        let map = symbols.address_map();
        // symbol 1 has the value 0x1020 and the size 0x30, and each symbol from 5 on the number before which it was
        // added and no size, in section 1, which ends at 0x1000; others are of no section
        for address in (0..0x1100).chain([u64::MAX]) {
            let wanted = match address {
                0x1020..=0x104f => Some(1),
                0x1000.. => None,
                _ if more == 0 => None,
                _ => Some(5 + (address as usize).min(more - 1)),
            };
            let wanted = wanted.and_then(|index| Some((index, symbols.get(index)?)));
            assert_eq!(map.symbol_by_address(address), wanted, "{address:#x}");
            assert_eq!(symbols.symbol_by_address(address), wanted, "{address:#x}");
        }
        assert_eq!(index(map.clone().symbol_by_address(0x1020)), Some(1));
    }
}

#[test]
fn a_map_of_many_nested_symbols_takes_no_square_of_their_number() {
    let (form, count) = (FORMS[0], 60_000);
    let mut file = made(form, 0);
    let start = file.len() as u64;
    // each of the first lies in the one before it, and the others are labels of a section that begins after them
    for i in 0..count {
        file.extend(form.symbol(0, i, 4 * count - 2 * i, 2, 0, 2));
        file.extend(form.symbol(0, count + i, 0, 2, 0, 1));
    }
    let header = Elf::parse(&file).unwrap().header;
    let table = SectionHeader { sh_type: SHT_SYMTAB, sh_offset: start, sh_size: 48 * count, ..Default::default() };
    for (index, sh_addr) in [(1, 3 * count), (2, 0)] {
        let holder = SectionHeader { sh_addr, sh_size: 9 * count, sh_flags: SHF_ALLOC, ..Default::default() };
        header.put_section_header(&mut file, index, &holder).unwrap();
    }
    let symbols = Elf::parse(&file).unwrap().symtab(&table).unwrap();
    let begin = std::time::Instant::now();
    let map = symbols.address_map();
    assert!(begin.elapsed().as_secs() < 10);
    for address in [0, 1, count, 2 * count, 3 * count - 1, 3 * count, 4 * count, 9 * count, 12 * count - 1, 12 * count]
    {
        assert_eq!(map.symbol_by_address(address), symbols.symbol_by_address(address), "{address}");
    }
    assert!(map.symbol_by_address(4 * count - 1).is_some() && map.symbol_by_address(12 * count).is_none());
}

#[test]
fn maps_of_nested_symbols_find_what_the_call_finds() {
    let mut found = 0;
    for (form, seed) in FORMS.into_iter().flat_map(|form| (1..150u64).map(move |seed| (form, seed))) {
        // each symbol has a value below 24 and a size below 12, mostly, and is mostly of a section and a function
        let mut any = random(seed);
        let mut file = made(form, 0);
        let start = file.len() as u64;
        for _ in 0..any(14) {
            let (value, size) = (any(24), if any(9) == 0 { u64::MAX } else { any(12) });
            let value = if any(9) == 0 { u64::MAX - value } else { value };
            let section = [1, 1, 2, 3, 0xffff, 0, 0xfff1, 9][any(8) as usize];
            let info = [2, 2, 0, 1, 10, 3, 0x12][any(7) as usize];
            file.extend(form.symbol(0, value, size, info, 0, section));
        }
        file.push(0);
        let header = Elf::parse(&file).unwrap().header;
        let section = SectionHeader {
            sh_type: SHT_SYMTAB,
            sh_offset: start,
            sh_size: file.len() as u64 - start,
            ..Default::default()
        };
        for index in 1..4 {
            let most = if form.is_64 { u64::MAX } else { u32::MAX.into() };
            let sh_addr = if any(4) == 0 { most - any(30) } else { any(20) };
            let (sh_size, sh_flags) = (if any(9) == 0 { most } else { any(24) }, [2, 2, 6, 5][any(4) as usize]);
            let holder = SectionHeader { sh_addr, sh_size, sh_flags, ..section };
            assert_eq!(header.put_section_header(&mut file, index, &holder), Ok(()));
        }
        Header { e_type: any(4) as u16, ..header }.put(&mut file).unwrap();
        let elf = Elf::parse(&file).unwrap();
        let symbols = elf.symtab(&section).unwrap();
        let map = symbols.address_map();
        for address in (0..40).flat_map(|i| [i, u64::MAX - i, u64::from(u32::MAX) - i]) {
            let wanted = symbols.symbol_by_address(address);
            assert_eq!(map.symbol_by_address(address), wanted, "{address:#x} {:?}", symbols.to_vec());
            found += usize::from(wanted.is_some());
        }
    }
    assert!(found > 10000, "{found}");
}

#[test]
fn relocations() {
    in_each_form(|_, _, elf| {
        let symbols = elf.syms().unwrap().unwrap();
        let mut listed = Vec::new();
        for (index, relocs) in elf.shdr_relocs().unwrap() {
            assert_eq!(index, if listed.is_empty() { 4 } else { 5 });
            for reloc in relocs {
                assert_eq!(relocs.get(listed.len() % 2), Some(reloc));
                let Reloc { r_offset, r_addend, r_sym, r_type } = reloc;
                let symbol = symbols.get(r_sym).unwrap();
                listed.push((r_offset, r_type, symbols.name(&symbol).unwrap().unwrap(), r_addend));
            }
        }
        let wanted = [(0x8, 7, "first", Some(-4)), (0x18, 9, "second", Some(5)), (0x28, 11, "été", None)];
        assert_eq!(listed, wanted);
    });
}

#[test]
fn notes() {
    in_each_form(|_, _, elf| {
        let of_section: Vec<_> = elf.iter_note_sections().unwrap().collect();
        let of_segment: Vec<_> = elf.iter_note_headers().unwrap().collect();
        assert_eq!(of_section, of_segment);
        assert_eq!(of_section, elf.notes_bytes(&section(&elf, SHT_NOTE)).unwrap().iter().collect::<Vec<_>>());
        let texts: Vec<_> = elf.notes(&section(&elf, SHT_NOTE)).unwrap().iter().collect();
        let found: Vec<_> = texts.iter().map(|note| (note.n_type, note.name, note.desc)).collect();
        assert_eq!(found, [(3, "GNU", &b"abcd"[..]), (0x1234, "goblin", &b"hello"[..])]);
        let types: Vec<_> = of_section.iter().map(|note| note.type_to_str()).collect();
        assert_eq!(types, ["NT_GNU_BUILD_ID", "NT_UNKNOWN"]);
        assert_eq!(types, texts.iter().map(|note| note.type_to_str()).collect::<Vec<_>>());
    });
}

// Returns a note, whose name is whole.
fn note(form: Form, name: &[u8], n_type: u64, desc: &[u8]) -> Vec<u8> {
    let mut note = form.numbers(&[(4, name.len() as u64), (4, desc.len() as u64), (4, n_type)]);
    for part in [name, desc] {
        note.extend(part);
        note.resize((note.len() + 3) / 4 * 4, 0);
    }
    note
}

// Returns a file whose sections 1, 4 and 5 are notes, of which its segment of notes holds those of section 4.
fn noted(form: Form, sections: [Vec<u8>; 3]) -> Vec<u8> {
    let mut file = made(form, 0);
    file.resize((file.len() + 7) / 8 * 8, 0);
    let header = Elf::parse(&file).unwrap().header;
    for (index, notes) in [1, 4, 5].into_iter().zip(sections) {
        let (offset, size) = (file.len() as u64, notes.len() as u64);
        file.extend(notes);
        file.resize((file.len() + 7) / 8 * 8, 0);
        let section = SectionHeader { sh_type: SHT_NOTE, sh_offset: offset, sh_size: size, ..Default::default() };
        assert_eq!(header.put_section_header(&mut file, index, &section), Ok(()));
        let segment = ProgramHeader { p_type: PT_NOTE, p_offset: offset, p_filesz: size, ..Default::default() };
        assert!(index != 4 || header.put_program_header(&mut file, 0, &segment) == Ok(()));
    }
    file
}

/// A note's name, as a text and as bytes, its type and its descriptor.
type Fields<'a> = (Option<&'a str>, &'a [u8], u32, &'a [u8]);

fn fields(notes: NoteIterator<'_>) -> Vec<Fields<'_>> {
    notes.map(|note| (note.text(), note.name, note.n_type, note.desc)).collect()
}

#[test]
fn all_notes_have_any_names_and_a_build_id_may_be_in_a_section_alone() {
    for form in FORMS {
        // (as annobin and a program in Go have them: readelf -n names the owners GA*FORTIFY:0xff, \xff, Go and GNU)
        let fortify = note(form, b"GA*FORTIFY\0\xff\0", 0x100, b"at");
        let attributes = [&fortify[..], &note(form, b"\xff\0", 3, b"")].concat();
        let go = note(form, b"Go\0\0", 4, b"of Go");
        let file = noted(form, [attributes.clone(), go.clone(), note(form, b"GNU\0", 3, b"of ld")]);
        let elf = Elf::parse(&file).unwrap();
        let of_go = (Some("Go"), &b"Go\0\0"[..], 4, &b"of Go"[..]);
        assert_eq!(fields(elf.iter_note_headers().unwrap()), [of_go]);
        let of_sections = [
            (None, &b"GA*FORTIFY\0\xff\0"[..], 0x100, &b"at"[..]),
            (None, b"\xff\0", 3, b""),
            of_go,
            (Some("GNU"), b"GNU\0", 3, b"of ld"),
        ];
        assert_eq!(fields(elf.iter_note_sections().unwrap()), of_sections);
        assert_eq!(elf.iter_note_sections().unwrap().nth(1).unwrap().type_to_str(), "NT_GNU_BUILD_ID");
        assert_eq!(elf.build_id(), Ok(Some(&b"of ld"[..])));
        assert_eq!(Elf::parse(&made(form, 0)).unwrap().build_id(), Ok(Some(&b"abcd"[..])));
        // (names whose last byte is not zero, and one without bytes)
        let odd = [(&b"AB"[..], &b"a"[..]), (b"x", b"b"), (b"", b"c"), (b"\0", b"d")];
        let named = noted(form, [odd.map(|(name, desc)| note(form, name, 1, desc)).concat(), vec![], vec![]]);
        let found = Elf::parse(&named).unwrap();
        let found: Vec<_> = found.iter_note_sections().unwrap().map(|note| (note.name, note.desc)).collect();
        assert_eq!(found, odd);
        let without = noted(form, [attributes, go.clone(), go]);
        assert_eq!(Elf::parse(&without).unwrap().build_id(), Ok(None));
        // (a name or a descriptor past the end of its section is damage, whatever the name)
        let second = section_at(&elf, 1).sh_offset as usize + fortify.len();
        for at in [second, second + 4] {
            let mut damaged = file.clone();
            damaged[at..at + 4].copy_from_slice(&form.numbers(&[(4, 64)]));
            let elf = Elf::parse(&damaged).unwrap();
            for refused in [elf.iter_note_sections().map(|_| ()), elf.build_id().map(|_| ())] {
                assert_eq!(refused.map_err(|e| e.offset()), Err(second as u64));
            }
        }
    }
}

#[test]
fn a_build_id_is_looked_for_in_so_many_notes() {
    let form = FORMS[0];
    let id = note(form, b"GNU\0", 3, b"of ld");
    for (count, found) in [(65535, Some(&b"of ld"[..])), (65536, None)] {
        let many = [note(form, b"ABC\0", 1, b"").repeat(count), id.clone()].concat();
        let file = noted(form, [vec![], many, id.clone()]);
        assert_eq!(Elf::parse(&file).unwrap().build_id(), Ok(found));
    }
}

#[test]
fn refusals() {
    let file = made(FORMS[0], 0);
    let refused = |change: &dyn Fn(&mut Vec<u8>)| {
        let mut file = file.clone();
        change(&mut file);
        let e = Elf::parse(&file).err().unwrap();
        (e.kind(), e.to_string())
    };
    let wanted = [
        (refused(&|f| f.truncate(15)), Kind::TooSmall, "Malformed entity: Too small"),
        (refused(&|f| f[3] = b'f'), Kind::BadMagic(0x0301_0102_664c_457f), "Invalid magic number: 0x3010102664c457f"),
        (refused(&|f| f.truncate(63)), Kind::TooBig { size: 64, len: 63 }, "type is too big (64) for 63"),
    ];
    for ((kind, text), wanted_kind, wanted_text) in wanted {
        assert_eq!((kind, &text[..]), (wanted_kind, wanted_text));
    }
    // a `main` that returns an error prints it by `Debug`
    assert_eq!(format!("{:?}", Elf::parse(&file[..63]).err().unwrap()), "type is too big (64) for 63");
    let class = refused(&|f| f[4] = 3);
    assert_eq!(class.0, Kind::ElfClass(3));
}

/// Reads everything, and returns the numbers of items and of refusals.
fn read_all(file: &[u8]) -> Result<(usize, usize)> {
    let elf = Elf::parse(file)?;
    let (mut items, mut refusals) = (0, 0);
    let mut count = |found: Result<usize>| match found {
        Ok(found) => items += found,
        Err(_) => refusals += 1,
    };
    count(elf.program_headers().map(|all| all.iter().map(|_| 1).sum()));
    count(elf.iter_note_headers().map(|all| all.map(|_| 1).sum()));
    count(elf.iter_note_sections().map(|all| all.map(|_| 1).sum()));
    count(elf.section_headers().map(|all| all.len()));
    for section in elf.section_headers().iter().flatten() {
        count(elf.section_name(&section).map(|_| 1));
        match section.sh_type {
            SHT_RELA | SHT_REL => count(elf.relocs(&section).map(|all| all.iter().map(|_| 1).sum())),
            SHT_SYMTAB => match elf.symtab(&section) {
                Ok(symbols) => symbols.iter().for_each(|symbol| count(symbols.name(&symbol).map(|_| 1))),
                Err(e) => count(Err(e)),
            },
            _ => {}
        }
    }
    Ok((items, refusals))
}

#[test]
fn damaged() {
    for form in FORMS {
        let file = made(form, 0);
        let whole = read_all(&file).unwrap();
        assert_eq!(whole.1, 1, "the one name that is not UTF-8");
        let (mut fewer, mut refused, mut same) = (0, 0, 0);
        let mut count = |file: &[u8]| match read_all(file) {
            Ok(found) if found == whole => same += 1,
            Ok(_) => fewer += 1,
            Err(_) => refused += 1,
        };
        for end in 0..file.len() {
            count(&file[..end]);
            for byte in [0, 1, 0x80, 0xff, file[end] ^ 0x55] {
                let mut damaged = file.clone();
                damaged[end] = byte;
                count(&damaged);
            }
        }
        assert_eq!(fewer + refused + same, 6 * file.len());
        assert!(fewer > file.len() && refused > 60 && same > file.len(), "{} {} {}", fewer, refused, same);
    }
}

#[test]
fn the_last_symbol_table_counts() {
    for form in FORMS {
        fn count(file: &[u8]) -> Option<usize> {
            Elf::parse(file).unwrap().syms().unwrap().map(|symbols| symbols.len())
        }
        let mut file = made(form, 0);
        let elf = Elf::parse(&file).unwrap();
        let (header, table) = (elf.header, section_at(&elf, 2));
        // (the fourth section then has the first two symbols)
        let size = if form.is_64 { 48 } else { 32 };
        header.put_section_header(&mut file, 4, &SectionHeader { sh_size: size, ..table }).unwrap();
        assert_eq!(count(&file), Some(2));
        header.put_section_header(&mut file, 4, &SectionHeader { sh_type: SHT_STRTAB, ..table }).unwrap();
        assert_eq!(count(&file), Some(5));
        header.put_section_header(&mut file, 2, &SectionHeader { sh_type: SHT_NOTE, ..table }).unwrap();
        assert_eq!(count(&file), None);
    }
}
