//! Tests Rust's idioms over the tables of small files that are made here, and then lines that authors of tools write,
//! each a statement of its own.
use goblin_rs::dynamic::{DynIterator, DynValues};
use goblin_rs::elf::Elf;
use goblin_rs::error::{Error, Kind};
use goblin_rs::header::{self, *};
use goblin_rs::items::{Items, List};
use goblin_rs::note::*;
use goblin_rs::program_header::{self, *};
use goblin_rs::reloc::{Reloc, RelocSection};
use goblin_rs::section_header::{self, *};
use goblin_rs::strtab::Strtab;
use goblin_rs::sym::{self, *};
use std::collections::{BTreeMap, HashMap, HashSet};
use std::fmt::Debug;
use std::io;

mod made;
use made::{in_each_form, index, made, section_at, segment_at, FORMS, STRINGS};

/// Asserts that an iterator returns the items of a list, converted by `of`: from both ends, alternating, skipping,
/// cloned and counted.
fn has_items<L: List, T: Clone + Debug + PartialEq>(items: Items<L>, of: impl Fn(L::Item) -> T, list: &[T]) {
    assert_eq!((items.len(), items.size_hint()), (list.len(), (list.len(), Some(list.len()))));
    assert_eq!(items.clone().map(&of).collect::<Vec<_>>(), list);
    let backwards: Vec<_> = list.iter().rev().cloned().collect();
    assert_eq!(items.clone().rev().map(&of).collect::<Vec<_>>(), backwards);
    assert_eq!((items.clone().count(), items.clone().last().map(&of).as_ref()), (list.len(), list.last()));
    for n in [0, 1, 2, 63, 64, 65, 130, usize::MAX] {
        let mut skipped = items.clone();
        assert_eq!(skipped.next().map(&of).as_ref(), list.first());
        assert_eq!(skipped.nth(n).map(&of).as_ref(), list.get(n.saturating_add(1)), "{n}");
        let mut skipped = items.clone();
        assert_eq!(skipped.nth(n).map(&of).as_ref(), list.get(n), "{n}");
        let rest = list.get(n..).map_or(&[][..], |rest| rest.get(1..).unwrap_or(&[]));
        assert_eq!((skipped.len(), skipped.clone().count()), (rest.len(), rest.len()), "{n}");
        assert_eq!(skipped.map(&of).collect::<Vec<_>>(), rest);
        // (some items were read for either end)
        let mut from_end = items.clone();
        assert_eq!(from_end.next_back().map(&of).as_ref(), list.last());
        from_end.next();
        let inner = list.get(1..list.len().max(1) - 1).unwrap_or(&[]);
        let kept = inner.len().checked_sub(n.saturating_add(1));
        assert_eq!(from_end.nth_back(n).map(&of).as_ref(), kept.map(|kept| &inner[kept]), "{n}");
        assert_eq!(from_end.map(&of).collect::<Vec<_>>(), inner[..kept.unwrap_or(0)]);
    }
    let (mut turns, mut left) = (items, list);
    while let [first, middle @ ..] = left {
        assert_eq!(turns.next().map(&of).as_ref(), Some(first));
        left = middle;
        if let [middle @ .., last] = left {
            assert_eq!(turns.next_back().map(&of).as_ref(), Some(last));
            left = middle;
        }
        assert_eq!(turns.len(), left.len());
    }
    assert!(turns.next().is_none() && turns.next_back().is_none() && turns.next().is_none());
}

#[test]
fn symbols_from_both_ends() {
    for more in [0, 1, 58, 59, 60, 123, 124, 300, 1000] {
        let file = made(FORMS[more % 4], more);
        let symbols = Elf::parse(&file).unwrap().syms().unwrap().unwrap();
        let mut values = Vec::new();
        for symbol in &symbols {
            values.push(symbol.st_value);
        }
        let made: Vec<u64> = [0, 0x1020, 0x2030, 0x3040, 0x4050].into_iter().chain(0..more as u64).collect();
        assert_eq!((values, symbols.get(5 + more)), (made.clone(), None));
        has_items(symbols.iter(), |symbol| symbol.st_value, &made);
    }
}

#[test]
fn types_can_be_named_shared_and_made() {
    struct Held<'a> {
        entries: DynIterator<'a>,
        values: DynValues<'a>,
        sections: SegmentSections<'a>,
    }
    fn is_shared<T: Send + Sync + Clone + Debug>(_: &T) {}
    let file = made(FORMS[0], 0);
    let elf = Elf::parse(&file).unwrap();
    assert_eq!(elf.bytes(), &file[..]);
    let whole = ProgramHeader { p_type: PT_NULL, p_filesz: file.len() as u64, p_memsz: 0x10000, ..Default::default() };
    let sections = elf.segment_sections(&whole).unwrap();
    assert!(sections.clone().rev().map(|s| s.sh_name).eq([34, 29, 23, 15, 7, 1]));
    is_shared(&(elf, sections.clone(), elf.section_map().unwrap(), elf.syms().unwrap()));
    is_shared(&(elf.shdr_relocs().unwrap(), elf.iter_note_headers().unwrap()));
    is_shared(&(elf.syms().unwrap().unwrap().address_map(), Elf::parse(&[]).unwrap_err(), elf.shdr_strtab().unwrap()));
    if let Some(dynamic) = elf.dynamic().unwrap() {
        let held = Held { entries: dynamic.entries(), values: dynamic.values(1), sections };
        is_shared(&(held.entries, held.values, held.sections));
    }
    let none = Symtab::default();
    assert_eq!((none.len(), none.get(0), none.iter().next()), (0, None, None));
    assert_eq!((none.symbol_by_name("a", 0), none.symbol_by_address(0)), (Ok(None), None));
    assert_eq!((Note::default().name, NoteBytes::default().desc), ("", &[][..]));
}

#[test]
fn tables_from_both_ends() {
    in_each_form(|_, _, elf| {
        let (sections, segments) = (elf.section_headers().unwrap(), elf.program_headers().unwrap());
        has_items(sections.iter(), |section| section.sh_type, &[0, 7, 2, 3, 4, 9, 3]);
        has_items(segments.iter(), |segment| segment.p_type, &[4, 1]);
        let relocs = elf.shdr_relocs().unwrap();
        has_items(relocs[1].1.iter(), |reloc| reloc.r_type, &[11]);
        has_items((&relocs[0].1).into_iter(), |reloc| reloc.r_offset, &[0x8, 0x18]);
        assert_eq!((sections.len(), segments.len(), segments.is_empty()), (7, 2, false));
        assert_eq!((sections.get(4).map(|section| section.sh_type), sections.get(7)), (Some(SHT_RELA), None));
        assert_eq!((segments.get(1).map(|segment| segment.p_type), segments.get(2)), (Some(PT_LOAD), None));
        for mut notes in [elf.iter_note_sections().unwrap(), elf.iter_note_headers().unwrap()] {
            assert_eq!((notes.len(), notes.clone().count()), (2, 2));
            assert_eq!(notes.by_ref().last().unwrap().text(), Some("goblin"));
            assert!(notes.next().is_none() && notes.next().is_none() && notes.len() == 0);
        }
    });
}

#[test]
fn lists_are_equal_if_their_items_are() {
    let (file, longer) = (made(FORMS[0], 0), made(FORMS[0], 1));
    let (one, other) = (Elf::parse(&file).unwrap(), Elf::parse(&longer).unwrap());
    assert_eq!(one.section_headers(), Elf::parse(&file.clone()).unwrap().section_headers());
    assert_ne!(one.section_headers(), other.section_headers());
    assert_eq!(one.program_headers().unwrap().get(0), other.program_headers().unwrap().get(0));
    assert_ne!(one.program_headers(), other.program_headers());
    assert_ne!(one.syms(), other.syms());
    let relocs = |file| Elf::parse(file).unwrap().section(".rela").unwrap().unwrap();
    assert_eq!(one.relocs(&relocs(&file)), other.relocs(&relocs(&longer)));
    assert_ne!(one.relocs(&relocs(&file)), one.relocs(&one.section(".rel").unwrap().unwrap()));
}

#[test]
fn what_symbols_and_headers_are() {
    in_each_form(|form, file, elf| {
        assert_eq!((elf.is_64(), elf.little_endian()), (form.is_64, !form.is_big));
        let symbols = elf.syms().unwrap().unwrap();
        let first = symbols.get(1).unwrap();
        assert!(first.is_function() && !first.is_import());
        // global and weak symbols with the value 0 are imported, and local ones are not
        let rows = [(0x10, [1, 1, 0]), (0x22, [1, 0, 1]), (0x02, [0, 0, 1]), (0x1a, [1, 1, 0])];
        for (st_info, row) in rows {
            let [is_import, is_global_import, is_function] = row.map(|is| is == 1);
            let symbol = Sym { st_info, st_value: 0, ..first };
            assert_eq!((symbol.is_import(), symbol.is_function()), (is_import, is_function));
            assert_eq!(sym::is_import(st_info, 0), is_global_import);
            assert!(!Sym { st_value: 1, ..symbol }.is_import() && !sym::is_import(st_info, 1));
        }
        assert_eq!((get_type(0x12), st_bind(0x21), st_type(0x21), st_visibility(0xfe)), (type_to_str(2), 2, 1, 6));
        let strings = section_at(&elf, 3);
        let range = strings.file_range().unwrap();
        assert_eq!(&file[range.clone()], STRINGS);
        assert_eq!(elf.section_data(&strings), Ok(Some(&file[range])));
        assert_eq!(SectionHeader { sh_type: SHT_NOBITS, ..strings }.file_range(), None);
        let far = SectionHeader { sh_offset: u64::MAX - 1, sh_addr: 7, sh_size: 3, sh_flags: 5, ..strings };
        assert_eq!((far.file_range(), far.vm_range()), (Some(usize::MAX - 1..usize::MAX), 7..10));
        assert!(!far.is_alloc() && !far.is_writable() && !far.is_executable() && !far.is_relocation());
        let far = SectionHeader { sh_flags: 7, sh_type: SHT_RELA, ..far };
        assert!(far.is_alloc() && far.is_writable() && far.is_executable() && far.is_relocation());
        let load = segment_at(&elf, 1);
        let end = elf.header.e_shoff as usize;
        assert_eq!((load.file_range(), load.vm_range()), (0..end, 0x4000..0x4001 + end));
        assert!(load.is_executable() && load.is_read() && !load.is_write());
        let of_flags = |p_flags| ProgramHeader { p_flags, ..load };
        assert!(of_flags(PF_W).is_write() && of_flags(PF_R).is_read() && of_flags(PF_X).is_executable());
        assert!(!of_flags(PF_X).is_read() && !of_flags(PF_R).is_executable());
    });
}

#[test]
fn notes_and_names_as_bytes() {
    in_each_form(|_, _, elf| {
        let of_segment: Vec<_> = elf.notes(&segment_at(&elf, 0)).unwrap().iter().collect();
        assert_eq!(of_segment.iter().map(|note| note.name).collect::<Vec<_>>(), ["GNU", "goblin"]);
        let segment = ProgramHeader { p_align: 16, ..segment_at(&elf, 0) };
        let section = SectionHeader { sh_addralign: 16, ..section_at(&elf, 1) };
        for notes in [elf.notes(&segment), elf.notes(&section)] {
            assert_eq!(notes.unwrap_err().kind(), Kind::NoteAlign(16));
        }
        assert_eq!(of_segment.iter().collect::<HashSet<_>>().len(), 2);
        let notes: HashSet<_> = elf.iter_note_headers().unwrap().collect();
        assert_eq!(notes, elf.iter_note_sections().unwrap().collect());
        let symbols = elf.syms().unwrap().unwrap();
        let names: Vec<_> = symbols.iter().map(|symbol| symbols.name_bytes(&symbol).unwrap().unwrap()).collect();
        assert_eq!(names, [&b""[..], b"first", b"second", b"\xc3\xa9t\xc3\xa9", b"\xff"]);
    });
}

#[test]
fn names_are_static_texts() {
    let name: &'static str = machine_to_str(EM_X86_64);
    assert!(matches!(name, "AARCH64" | "X86_64"));
    assert_eq!((name, et_to_str(ET_DYN), class_to_str(2)), ("X86_64", "DYN", "ELF64"));
    let of_symbols = [bind_to_str(1), type_to_str(2), visibility_to_str(3), get_type(0x1a)];
    assert_eq!(of_symbols, ["GLOBAL", "FUNC", "PROTECTED", "GNU_IFUNC"]);
    assert_eq!([pt_to_str(PT_NOTE), pt_to_str(9), sht_to_str(11)], ["PT_NOTE", "UNKNOWN_PT", "SHT_DYNSYM"]);
    assert_eq!([shf_to_str(SHF_TLS), shf_to_str(0), shf_to_str(1 << 32)], ["SHF_TLS", "SHF_UNKNOWN", "SHF_UNKNOWN"]);
    let notes = ["GNU", "CORE"].map(|name| Note { n_type: 3, name, desc: b"" }.type_to_str());
    assert_eq!(notes, ["NT_GNU_BUILD_ID", "NT_PRPSINFO"]);
    let refusals: HashSet<Error> =
        [0, 3, 15, 16].iter().filter_map(|len| Elf::parse(&made(FORMS[0], 0)[..*len]).err()).collect();
    assert_eq!(refusals.len(), 2);
}

type Tried = Result<(), Box<dyn std::error::Error>>;

#[test]
fn of_the_file() -> Tried {
    let bytes = made(FORMS[0], 0);
    let elf = Elf::parse(&bytes)?;
    assert_eq!(elf.header, Elf::try_from(&bytes[..])?.header);
    let same: Elf = bytes.as_slice().try_into()?;
    assert_eq!(same.entry(), 0x1234);
    assert!(elf.is_64() && elf.little_endian() && elf.is_lib()? && !elf.is_object_file());
    assert!(elf.header.e_type == ET_DYN && elf.header.e_type != ET_EXEC);
    assert_eq!(elf.header.e_machine, EM_X86_64);
    assert_eq!(header::machine_to_str(elf.header.e_machine), "X86_64");
    println!("{} {}", header::et_to_str(elf.header.e_type), header::class_to_str(elf.header.ei_class));
    assert!(matches!(elf.header.e_machine, EM_X86_64 | EM_386));
    assert_eq!(elf.header.e_phnum as usize, elf.program_headers()?.len());
    let Header { e_shnum, e_shstrndx, .. } = elf.header;
    assert!(e_shstrndx < e_shnum);
    assert_eq!(bytes.len().min(header64::SIZEOF_EHDR), 64);
    assert!(Elf::parse(b"").is_err());
    Ok(())
}

#[test]
fn of_sections() -> Tried {
    let bytes = made(FORMS[0], 0);
    let elf = Elf::parse(&bytes)?;
    for section in elf.section_headers()? {
        assert!(section.sh_flags & SHF_ALLOC != 0 || section.sh_type == 0 || section.sh_flags & SHF_WRITE == 0);
    }
    for section in &elf.section_headers()? {
        assert!(section.sh_flags & (SHF_WRITE | SHF_EXECINSTR) == 0);
    }
    for (index, section) in elf.section_headers()?.iter().enumerate() {
        assert_eq!(elf.section_header(index)?, Some(section));
    }
    let name_of = |s| elf.section_name(&s).map(Option::unwrap_or_default);
    let named: Vec<&str> = elf.section_headers()?.iter().map(name_of).collect::<Result<_, _>>()?;
    assert_eq!(named, ["", ".note", ".symtab", ".strtab", ".rela", ".rel", ".names"]);
    let text: Option<SectionHeader> = elf.section(".strtab")?;
    assert_eq!(text.map(|s| s.sh_type), Some(SHT_STRTAB));
    let strings = elf.section(".strtab")?.ok_or("no .strtab")?;
    assert_eq!(elf.section_data(&strings)?, Some(STRINGS));
    assert_eq!(elf.section_data(&strings)?.unwrap_or(&[]).len() as u64, strings.sh_size);
    assert_eq!(elf.number_in(&strings, 1, 1)?, Some(u64::from(b'f')));
    let next = |last: &(usize, _)| elf.section_by_name(".rel", last.0 + 1).unwrap();
    let all_named = std::iter::successors(elf.section_by_name(".rel", 0)?, next).map(|found| found.0);
    assert_eq!(all_named.collect::<Vec<usize>>(), [5]);
    let (mut changed, sh_flags) = (bytes.clone(), strings.sh_flags | SHF_WRITE);
    elf.header.put_section_header(&mut changed, 3, &SectionHeader { sh_flags, ..strings })?;
    assert!(Elf::parse(&changed)?.section(".strtab")?.map_or(false, |s| s.is_writable()));
    assert_eq!(strings.file_range().and_then(|range| bytes.get(range)), Some(STRINGS));
    assert!(elf.section(".debug_info")?.is_none());
    let (sections, symbols) = (elf.section_headers()?, elf.section(".symtab")?);
    assert_eq!(sections.iter().skip(1).map(|s| s.sh_size).max(), symbols.map(|s| s.sh_size));
    assert_eq!(elf.section_headers()?.iter().filter(|s| s.sh_type == SHT_NOTE).count(), 1);
    assert!(elf.section_headers()?.iter().any(|s| s.sh_type == SHT_SYMTAB));
    assert!(elf.section_headers()?.iter().all(|s| s.sh_type != SHT_NOBITS));
    assert_eq!(sections.iter().position(|s| s.sh_type == SHT_SYMTAB), index(elf.section_by_name(".symtab", 0)?));
    assert_eq!(elf.section_headers()?.iter().find(|s| s.is_relocation()).map(|s| s.sh_type), Some(SHT_RELA));
    assert_eq!(elf.section_headers()?.get(1), elf.section(".note")?);
    assert_eq!(elf.section_headers()?.iter().last(), elf.section(".names")?);
    assert_eq!(elf.section_headers()?.iter().next_back(), elf.section_header(6)?);
    let mut by_size: Vec<SectionHeader> = elf.section_headers()?.to_vec();
    by_size.sort_by_key(|s| std::cmp::Reverse(s.sh_size));
    assert_eq!(by_size.first().copied(), elf.section(".symtab")?);
    let total: u64 = elf.section_headers()?.iter().filter(SectionHeader::is_alloc).map(|s| s.sh_size).sum();
    assert!(total > 0);
    let by_name: HashMap<&str, SectionHeader> = named.iter().copied().zip(elf.section_headers()?).collect();
    assert_eq!(by_name[".strtab"], strings);
    assert_eq!(section_header::sht_to_str(strings.sh_type), "SHT_STRTAB");
    let flags = sections.iter().step_by(2).map(|s| section_header::shf_to_str(s.sh_flags & SHF_ALLOC));
    assert_eq!(flags.filter(|name| *name == "SHF_ALLOC").count(), 3);
    assert_eq!(elf.section_headers()?, Elf::parse(&bytes)?.section_headers()?);
    Ok(())
}

#[test]
fn of_segments() -> Tried {
    let bytes = made(FORMS[0], 0);
    let elf = Elf::parse(&bytes)?;
    let loaded: Vec<ProgramHeader> = elf.program_headers()?.iter().filter(|p| p.p_type == PT_LOAD).collect();
    assert_eq!(loaded.len(), 1);
    assert_eq!(elf.program_headers()?.iter().map(|p| p.p_vaddr).min(), Some(0x4000));
    assert!(elf.program_headers()?.iter().find(|p| p.p_type == PT_INTERP).is_none());
    let code = elf.program_headers()?.iter().find(|p| p.p_flags & PF_X != 0).ok_or("no code")?;
    assert!(code.vm_range().contains(&0x4010) && code.is_executable());
    assert_eq!(elf.segment_data(&code)?.map(|data| data.len()), Some(code.p_filesz as usize));
    assert_eq!(elf.address_to_offset(code.p_vaddr + 2)?.and_then(|offset| bytes.get(offset as usize)), Some(&b'L'));
    assert_eq!(elf.number_in(&code, 18, 2)?, elf.number(18, 2)?);
    assert_eq!(elf.segment_data(&code)?.and_then(|data| data.get(..4)), Some(&header::ELFMAG[..]));
    let held: Vec<SectionHeader> = elf.segment_sections(&loaded[0])?.collect();
    assert_eq!(held, []);
    println!("{:<10} {:#x}", program_header::pt_to_str(code.p_type), code.p_align);
    let (notes, others): (Vec<_>, Vec<_>) = elf.program_headers()?.into_iter().partition(|p| p.p_type == PT_NOTE);
    assert_eq!((notes.len(), others.len()), (1, 1));
    Ok(())
}

#[test]
fn of_symbols() -> Tried {
    let bytes = made(FORMS[0], 0);
    let elf = Elf::parse(&bytes)?;
    let symbols: Symtab = elf.syms()?.ok_or("no symbols")?;
    for symbol in &symbols {
        let name = symbols.name_bytes(&symbol)?.map(String::from_utf8_lossy).unwrap_or_default();
        println!("{:016x} {name}", symbol.st_value);
    }
    for symbol in symbols {
        assert!(symbol.st_size < 0x100);
    }
    assert!(elf.dynsyms()?.is_none());
    let functions: Vec<Sym> = symbols.iter().filter(Sym::is_function).collect();
    assert_eq!(functions.len(), 1);
    let names: Vec<_> = symbols.iter().take(4).map(|s| symbols.name(&s)).collect::<Result<Vec<_>, Error>>()?;
    assert_eq!(names, [Some(""), Some("first"), Some("second"), Some("été")]);
    let names: Vec<&str> =
        symbols.iter().filter_map(|s| symbols.name(&s).ok().flatten()).filter(|name| !name.is_empty()).collect();
    assert_eq!(names.join(" "), "first second été");
    assert_eq!(symbols.symbol_by_name("second", 0)?.map(|(index, s)| (index, s.st_value)), Some((2, 0x2030)));
    assert_eq!(symbols.iter().filter(|s| s.st_shndx == SHN_UNDEF).count(), 3);
    assert!(symbols.iter().any(|s| s.st_shndx == SHN_ABS && s.st_bind() == STB_WEAK && s.st_type() == STT_OBJECT));
    assert_eq!(symbols.iter().filter(|s| s.st_bind() == STB_GLOBAL).map(|s| s.st_type()).max(), Some(STT_FUNC));
    assert_eq!(symbols.iter().find(|s| s.st_visibility() == STV_HIDDEN).map(|s| s.st_value), Some(0x1020));
    assert_eq!(symbols.symbol_by_address(0x1025).map(|(_, s)| symbols.name(&s)), Some(Ok(Some("first"))));
    let by_address: BTreeMap<u64, Sym> = symbols.iter().map(|s| (s.st_value, s)).collect();
    assert_eq!(by_address.range(..=0x2fff).next_back().map(|(value, _)| *value), Some(0x2030));
    assert_eq!((symbols.len(), symbols.is_empty(), symbols.get(symbols.len())), (5, false, None));
    assert_eq!(sym::type_to_str(functions[0].st_type()), "FUNC");
    assert_eq!(symbols.iter().zip(1..).last().map(|(_, number)| number), Some(5));
    let strings: Strtab = symbols.strtab();
    assert_eq!(strings.get(1)?, Some("first"));
    assert_eq!(symbols.iter().map(|s| s.st_size).sum::<u64>(), 0x120);
    assert_eq!(symbols.iter().max_by_key(|s| s.st_size), symbols.get(4));
    let section = elf.section(".strtab")?.ok_or("no .strtab")?;
    assert!(matches!(elf.symtab(&section), Err(e) if e.kind() == Kind::SectionType(SHT_STRTAB)));
    Ok(())
}

#[test]
fn of_relocations_and_notes() -> Tried {
    let bytes = made(FORMS[0], 0);
    let elf = Elf::parse(&bytes)?;
    for (index, relocs) in elf.shdr_relocs()? {
        let section = elf.section_header(index)?.ok_or("no section")?;
        assert_eq!(elf.section_name(&section)?.map(|name| name.starts_with(".rel")), Some(true));
        assert!(!relocs.is_empty() && relocs.iter().all(|r| r.r_sym != 0));
    }
    let all: Vec<Reloc> = elf.shdr_relocs()?.iter().flat_map(|(_, relocs)| relocs).collect();
    assert_eq!(all.iter().map(|r| r.r_addend.unwrap_or(0)).sum::<i64>(), 1);
    let types: HashSet<u32> = all.iter().map(|r| r.r_type).collect();
    assert_eq!(types, HashSet::from([7, 9, 11]));
    let with_addends: RelocSection = elf.relocs(&elf.section(".rela")?.ok_or("no .rela")?)?;
    assert_eq!(with_addends.get(1).map(|r| r.r_offset), Some(0x18));
    let symbols = elf.syms()?.ok_or("no symbols")?;
    let of_relocs = with_addends.iter().filter_map(|r| symbols.get(r.r_sym));
    let named = of_relocs.map(|s| symbols.name(&s)).collect::<Result<Vec<_>, _>>()?;
    assert_eq!(named, [Some("first"), Some("second")]);
    let mut notes = elf.iter_note_headers()?;
    let build_id = notes.find(|n| n.n_type == NT_GNU_BUILD_ID && n.text() == Some("GNU")).map(|n| n.desc);
    assert_eq!((build_id, elf.build_id()?), (Some(&b"abcd"[..]), build_id));
    let hex: String = build_id.unwrap_or(&[]).iter().map(|byte| format!("{byte:02x}")).collect();
    assert_eq!(hex, "61626364");
    let notes: Vec<Note> = elf.notes(&elf.section(".note")?.ok_or("no .note")?)?.into_iter().collect();
    assert_eq!(notes.last().map(|note| note.desc), Some(&b"hello"[..]));
    assert!(elf.iter_note_sections()?.map(|note| note.type_to_str()).eq(["NT_GNU_BUILD_ID", "NT_UNKNOWN"]));
    assert_eq!(elf.number(18, 2)?, Some(u64::from(EM_X86_64)));
    Ok(())
}

#[test]
fn of_refusals() {
    let bytes = made(FORMS[0], 0);
    let cut = Elf::parse(&bytes[..bytes.len() / 3]).unwrap();
    assert_eq!(cut.section_headers().map_err(|e| e.offset()).err(), Some(cut.header.e_shoff));
    assert!(cut.whole().section_headers().unwrap().is_empty());
    let symbols = Elf::parse(&bytes).unwrap().section(".symtab").unwrap().unwrap();
    let part = symbols.sh_offset as usize..symbols.sh_offset as usize + 30;
    assert_eq!(Elf::parse(&bytes[..part.end]).unwrap().readable_data(&symbols), Some(&bytes[part]));
    let skipped: Result<Vec<_>, Error> = cut.section_headers().map(|sections| sections.iter().skip(1).collect());
    assert_eq!(skipped.map_err(|e| e.kind()), Err(Kind::BadOffset(cut.header.e_shoff)));
    let of_input: io::Result<usize> = cut.section_headers().map(|sections| sections.len()).map_err(io::Error::from);
    assert_eq!(of_input.map_err(|e| e.kind()), Err(io::ErrorKind::InvalidData));
    let through_io = || -> io::Result<u64> { Ok(Elf::parse(&bytes[..3])?.entry()) };
    assert_eq!(through_io().unwrap_err().to_string(), "Malformed entity: Too small");
    let said = match Elf::parse(b"#!/bin/sh\nexit\n#") {
        Ok(_) => "a file".to_string(),
        Err(e) if matches!(e.kind(), Kind::BadMagic(_)) => "no ELF file".to_string(),
        Err(e) => e.to_string(),
    };
    assert_eq!(said, "no ELF file");
    let boxed: Box<dyn std::error::Error + Send + Sync> = Elf::parse(&[]).unwrap_err().into();
    assert_eq!(boxed.downcast_ref::<Error>().map(|e| e.kind()), Some(Kind::TooSmall));
}
