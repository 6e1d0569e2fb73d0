//! Tests what is read of the dynamic section of small files that are made here, whole and damaged.
use goblin_rs::dynamic::*;
use goblin_rs::header::{Header, ET_EXEC};
use goblin_rs::program_header::{PT_DYNAMIC, PT_INTERP, PT_LOAD};
use goblin_rs::section_header::{SectionHeader, SHT_DYNAMIC};
use goblin_rs::{Elf, Kind};

mod made;
use made::{in_each_form, made, segment_at, why, Form, FORMS};

/// How many entries follow the one that ends a dynamic section: more than are read at a time.
const PAST: usize = 64;

/// Returns a file with a dynamic section and its strings, each with a segment. The section has these entries, one that
/// ends them, and others.
fn with_dynamic(form: Form, entries: &[(u64, u64)]) -> Vec<u8> {
    let mut file = made(form, 0);
    let strings = file.len() as u64;
    file.extend(b"\0liba\0libb\0");
    let dynamic = file.len() as u64;
    for (tag, value) in entries.iter().chain(&[(DT_NULL, 0)]).chain(&[(DT_SONAME, 1); PAST]) {
        file.extend(form.numbers(&[(form.wide(), *tag), (form.wide(), *value)]));
    }
    let e_phoff = file.len() as u64;
    file.extend(form.segment(PT_LOAD.into(), 4, strings, 11));
    file.extend(form.segment(PT_DYNAMIC.into(), 4, dynamic, e_phoff - dynamic));
    Header { e_phoff, e_phnum: 2, ..Elf::parse(&file).unwrap().header }.put(&mut file).unwrap();
    file
}

/// Some entries, more than are read at a time. The first segment of `with_dynamic` loads the strings at 0x4000.
fn entries(strings_size: u64) -> Vec<(u64, u64)> {
    let first = [(DT_NEEDED, 1), (DT_STRTAB, 0x4000), (DT_STRSZ, strings_size), (DT_NEEDED, 6)];
    first.into_iter().chain((0..60).map(|i| (0x6000_0000 + i, i))).collect()
}

#[test]
fn dynamic_sections() {
    in_each_form(|form, _, without| {
        assert!(without.dynamic().unwrap().is_none());
        // (their number is also one that is read at a time)
        for count in [4, 32, 64] {
            let wanted = &entries(11)[..count];
            let file = with_dynamic(form, wanted);
            let dynamic = Elf::parse(&file).unwrap().dynamic().unwrap().unwrap();
            assert!(dynamic.entries().map(|entry| (entry.d_tag, entry.d_val)).eq(wanted.iter().copied()));
            assert_eq!(dynamic.values(DT_NEEDED).collect::<Vec<_>>(), [1, 6]);
            assert_eq!(dynamic.value(DT_NEEDED), Some(1));
            assert_eq!((dynamic.value(DT_NULL), dynamic.value(DT_SONAME)), (None, None));
            let strings = dynamic.strings().unwrap().unwrap();
            assert_eq!([1, 6, 11].map(|at| strings.get(at)), [Ok(Some("liba")), Ok(Some("libb")), Ok(None)]);
        }
    });
}

#[test]
fn a_dynamic_section_without_segments() {
    for form in FORMS {
        let mut file = with_dynamic(form, &[(DT_NEEDED, 1), (DT_NEEDED, 7)]);
        let whole = Elf::parse(&file).unwrap();
        let (header, dynamic) = (whole.header, segment_at(&whole, 1));
        let (sh_offset, sh_size) = (dynamic.p_offset, dynamic.p_filesz);
        let section = SectionHeader { sh_type: SHT_DYNAMIC, sh_offset, sh_size, sh_link: 3, ..Default::default() };
        header.put_section_header(&mut file, 1, &section).unwrap();
        let mut elf = Elf::parse(&file).unwrap();
        assert!(elf.dynamic_section().unwrap().unwrap().strings().unwrap().is_none());
        elf.header.e_phnum = 0;
        assert!(elf.dynamic().unwrap().is_none());
        let found = elf.dynamic_section().unwrap().unwrap();
        let strings = found.strings().unwrap().unwrap();
        let names: Vec<_> = found.values(DT_NEEDED).map(|at| strings.get(at as usize)).collect();
        assert_eq!(names, [Ok(Some("first")), Ok(Some("second"))]);
        let (without, past) = (elf.header, SectionHeader { sh_size: file.len() as u64, ..section });
        header.put_section_header(&mut file, 1, &past).unwrap();
        without.put(&mut file).unwrap();
        assert_eq!(why(Elf::parse(&file).unwrap().dynamic_section()).1, dynamic.p_offset);
    }
}

#[test]
fn symbols_that_no_section_counts_are_refused() {
    in_each_form(|form, _, without| {
        let file = with_dynamic(form, &[(DT_STRTAB, 0x4000), (DT_SYMTAB, 0x4001), (DT_SYMTAB, 0x4002)]);
        let mut elf = Elf::parse(&file).unwrap();
        let e_phoff = elf.header.e_phoff;
        let dynamic = e_phoff - ((4 + PAST) * 2 * form.wide()) as u64;
        let refused = (Kind::NotCounted(0x4002), dynamic);
        assert_eq!(why(elf.dynsyms()), refused);
        (elf.header.e_shnum, elf.header.e_shoff) = (0, 0);
        assert_eq!([elf, elf.whole()].map(|elf| why(elf.dynsyms())), [refused; 2]);
        let mut cut = Elf::parse(&file[..dynamic as usize + 1]).unwrap();
        cut.header = elf.header;
        assert_eq!(why(cut.dynsyms()), (Kind::BadOffset(e_phoff), e_phoff));
        // without that entry, or a dynamic section, there are none
        assert_eq!(Elf::parse(&with_dynamic(form, &[(DT_STRTAB, 0x4000)])).unwrap().dynsyms(), Ok(None));
        assert_eq!(without.dynsyms(), Ok(None));
    });
}

#[test]
fn relocations_of_the_dynamic_section() {
    for form in FORMS {
        let of_tags = |entries: &[(u64, u64)]| {
            let file = with_dynamic(form, entries);
            let elf = Elf::parse(&file).unwrap();
            [elf.dynrelas(), elf.dynrels(), elf.pltrelocs()].map(|relocs| {
                relocs.map(|all| (all.len(), all.get(0).map(|r| r.r_addend.is_some()))).map_err(|e| e.kind())
            })
        };
        let (none, wide) = (Ok((0, None)), form.wide() as u64);
        // (at 0x4000 are 11 bytes of strings, and after them the file goes on: only the address counts)
        let (one, two) = (3 * wide, 4 * wide);
        assert_eq!(of_tags(&[(DT_RELA, 0x4000), (DT_RELASZ, one)]), [Ok((1, Some(true))), none, none]);
        assert_eq!(of_tags(&[(DT_REL, 0x4001), (DT_RELSZ, two)]), [none, Ok((2, Some(false))), none]);
        let plt = [(DT_JMPREL, 0x4000), (DT_PLTRELSZ, 6 * wide), (DT_PLTREL, DT_RELA)];
        assert_eq!(of_tags(&plt), [none, none, Ok((2, Some(true)))]);
        assert_eq!(of_tags(&[plt[0], plt[1], (DT_PLTREL, DT_REL)]), [none, none, Ok((3, Some(false)))]);
        // without an address, a size or entries there are none
        assert_eq!(of_tags(&[(DT_RELA, 0x4000), (DT_RELSZ, two), (DT_REL, 0x4000), (DT_RELSZ, 0)]), [none; 3]);
        // the last value counts
        assert_eq!(of_tags(&[(DT_REL, 7), (DT_RELSZ, 1), (DT_REL, 0x4000), (DT_RELSZ, two)])[1], Ok((2, Some(false))));
        assert_eq!(of_tags(&[(DT_REL, 0x3fff), (DT_RELSZ, two)])[1], Err(Kind::NotLoaded(0x3fff)));
        let far = of_tags(&[(DT_RELA, 0x4000), (DT_RELASZ, 0x1000_0000)])[0].unwrap_err();
        assert!(matches!(far, Kind::TooBig { size: 0x1000_0000, .. }), "{far:?}");
    }
}

#[test]
fn a_position_independent_program_is_no_library() {
    // (of two values the last one counts)
    let rows = [(&[1][..], true), (&[DF_1_PIE, 1], true), (&[1 << 27], false), (&[0, 0x800_0001], false)];
    for (form, (values, is_lib)) in FORMS.into_iter().flat_map(|form| rows.map(|row| (form, row))) {
        let file = with_dynamic(form, &values.iter().map(|value| (DT_FLAGS_1, *value)).collect::<Vec<_>>());
        let mut elf = Elf::parse(&file).unwrap();
        assert_eq!(elf.is_lib(), Ok(is_lib), "{values:?}");
        // (the third program header begins where the file ends)
        elf.header.e_phnum = 3;
        assert_eq!(why(elf.is_lib()), (Kind::BadOffset(file.len() as u64), elf.header.e_phoff));
        elf.header.e_type = ET_EXEC;
        assert_eq!(elf.is_lib(), Ok(false));
    }
}

#[test]
fn names_of_the_dynamic_section() {
    let tags = [DT_NEEDED, DT_RPATH, DT_RUNPATH, DT_SONAME];
    in_each_form(|form, _, without| {
        // the names of each tag
        let read = |entries: &[(u64, u64)]| {
            let file = with_dynamic(form, &[&[(DT_STRTAB, 0x4000), (DT_STRSZ, 11)], entries].concat());
            let elf = Elf::parse(&file).unwrap();
            let soname = elf.soname().map(|name| name.into_iter().collect());
            [elf.libraries(), elf.rpaths(), elf.runpaths(), soname]
                .map(|names: goblin_rs::Result<Vec<&str>>| names.map(|names| names.join(" ")).map_err(|e| e.kind()))
        };
        let wanted = |names: [&str; 4]| names.map(|names| Ok(names.to_string()));
        let of_all = [(DT_NEEDED, 6), (DT_RUNPATH, 8), (DT_NEEDED, 1), (DT_SONAME, 2), (DT_NEEDED, 3), (DT_NEEDED, 1)];
        let found = read(&[&of_all[..], &[(DT_RPATH, 6)]].concat());
        assert_eq!(found, wanted(["libb liba ba liba", "libb", "bb", "iba"]));
        // (5 and 10 are the zero bytes after the names)
        assert_eq!(read(&[(DT_NEEDED, 10), (DT_NEEDED, 5), (DT_NEEDED, 1)]), wanted(["  liba", "", "", ""]));
        assert_eq!(read(&[(DT_SONAME, 1), (DT_SONAME, 0)]), wanted([""; 4]));
        for tag in tags {
            let no_string = Err(Kind::NoString { tag, value: 11 });
            let refused = tags.map(|of| if of == tag { no_string.clone() } else { Ok(String::new()) });
            assert_eq!(read(&[(tag, 1), (tag, 11)]), refused);
        }
        assert_eq!((without.libraries(), without.soname(), without.interpreter()), (Ok(vec![]), Ok(None), Ok(None)));
        assert_eq!(without.dynstrtab().and_then(|strings| strings.get(0)), Ok(None));
        // (without a name the strings are not read, which are not inside the file)
        let past = with_dynamic(form, &[(DT_STRTAB, 0x4000), (DT_STRSZ, 1 << 20)]);
        let past = Elf::parse(&past).unwrap();
        assert!(past.dynstrtab().is_err());
        assert_eq!([past.libraries(), past.rpaths(), past.runpaths()], [Ok(vec![]), Ok(vec![]), Ok(vec![])]);
        assert_eq!(past.soname(), Ok(None));
    });
}

#[test]
fn many_names_that_end_together_are_read_once() {
    let (form, size) = (FORMS[0], 4_000_000_u64);
    let mut file = made(form, 0);
    let (strings, count) = (file.len() as u64, 20_000);
    file.extend(std::iter::repeat(b'a').take(size as usize - 3).chain(*b"\xc3\xa9\0"));
    let dynamic = file.len() as u64;
    let entries = [(DT_STRTAB, 0x4000), (DT_STRSZ, size)].into_iter().chain((0..count).map(|i| (DT_NEEDED, i)));
    file.extend(entries.chain([(DT_NULL, 0)]).flat_map(|(tag, value)| form.numbers(&[(8, tag), (8, value)])));
    let e_phoff = file.len() as u64;
    file.extend(form.segment(PT_LOAD.into(), 4, strings, size));
    file.extend(form.segment(PT_DYNAMIC.into(), 4, dynamic, e_phoff - dynamic));
    let mut elf = Elf::parse(&file).unwrap();
    (elf.header.e_phoff, elf.header.e_phnum) = (e_phoff, 2);
    // (each read to its end, they take a minute)
    let start = std::time::Instant::now();
    let names = elf.libraries().unwrap();
    assert!(start.elapsed().as_secs() < 5);
    assert!(names.iter().zip(0..).all(|(name, index)| name.len() as u64 == size - 1 - index));
    assert!(names[0].ends_with("a\u{e9}"));
}

#[test]
fn the_last_interpreter_counts() {
    for form in FORMS {
        let mut file = made(form, 0);
        let (strings, header) = (file.len() as u64, Elf::parse(&file).unwrap().header);
        file.extend(b"/first\0/second\0\0\xff\0");
        let e_phoff = file.len() as u64;
        for (offset, size) in [(strings, 7), (strings + 7, 9), (strings, 0), (strings + 16, 1)] {
            file.extend(form.segment(PT_INTERP.into(), 4, offset, size));
        }
        let of_first = |e_phnum| {
            let mut elf = Elf::parse(&file).unwrap();
            elf.header = Header { e_phoff, e_phnum, ..header };
            elf.interpreter()
        };
        // (what follows the first zero byte is no part of it, and an empty one is none)
        assert_eq!((of_first(1), of_first(3)), (Ok(Some("/first")), Ok(Some("/second"))));
        assert_eq!(why(of_first(4)), (Kind::BadInput { size: 1 }, strings + 16));
        assert_eq!(why(of_first(5)).1, e_phoff);
    }
}

#[test]
fn damaged_dynamic_sections() {
    for form in FORMS {
        let file = with_dynamic(form, &entries(1 << 20));
        let mut elf = Elf::parse(&file).unwrap();
        let strings = elf.dynamic().unwrap().unwrap().strings();
        assert!(matches!(strings.map_err(|e| e.kind()), Err(Kind::TooBig { size: 0x10_0000, .. })));
        // (the third program header begins where the file ends)
        elf.header.e_phnum = 3;
        assert_eq!(why(elf.dynamic()), (Kind::BadOffset(file.len() as u64), elf.header.e_phoff));
        // a size in the file of the second segment that is too great
        let mut file = with_dynamic(form, &entries(11)[..2]);
        let e_phoff = Elf::parse(&file).unwrap().header.e_phoff;
        let at = e_phoff as usize + if form.is_64 { 56 + 32 } else { 32 + 16 };
        file[at..at + form.wide()].copy_from_slice(&form.numbers(&[(form.wide(), 0x7fff_0000)]));
        // (the section has the two entries, the one that ends them, and others)
        let dynamic = e_phoff - ((3 + PAST) * 2 * form.wide()) as u64;
        let too_big = Kind::TooBig { size: 0x7fff_0000, len: file.len() as u64 - dynamic };
        assert_eq!(why(Elf::parse(&file).unwrap().dynamic()), (too_big, dynamic));
    }
    let file = with_dynamic(FORMS[0], &entries(11)[..2]);
    let dynamic = Elf::parse(&file).unwrap().dynamic().unwrap().unwrap();
    assert!(dynamic.strings().unwrap().is_none(), "there is no entry with their size");
}
