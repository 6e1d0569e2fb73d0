//! Tests iterator adaptors over lists, of whole and damaged files: none drops an error or an item.
use goblin_rs::error::{Item, Kind};
use goblin_rs::header::Header;
use goblin_rs::program_header::ProgramHeader;
use goblin_rs::section_header::{SectionHeader, SHT_DYNSYM, SHT_NOTE, SHT_REL, SHT_RELA, SHT_SYMTAB};
use goblin_rs::{Elf, Error};
use std::fmt::Debug;

mod made;
use made::{in_each_form, made, section_at, segment_at, FORMS};

/// Returns what each adaptor and each consuming method of an iterator returns for some items, as text.
fn forwards<I>(items: impl Fn() -> I) -> Vec<(&'static str, String)>
where
    I: ExactSizeIterator + Clone,
    I::Item: Debug + PartialEq,
{
    fn text<T: Debug>(items: impl Iterator<Item = T>) -> String {
        format!("{:?}", items.collect::<Vec<_>>())
    }
    let mut half = items();
    let first = format!("{:?}", half.by_ref().take(1).collect::<Vec<_>>());
    let mut peeked = items().peekable();
    let peek = format!("{:?}", peeked.peek());
    vec![
        ("by_ref", first + &text(half)),
        ("chain", text(items().chain(items().skip(1)))),
        ("collect", format!("{:?}", items().map(Ok).collect::<Result<Vec<_>, Error>>())),
        ("count", items().count().to_string()),
        ("cycle", text(items().cycle().take(9))),
        ("enumerate", text(items().enumerate().skip(1))),
        ("eq", items().eq(items().take(1)).to_string()),
        ("filter", text(items().enumerate().filter(|(i, _)| i % 2 == 1))),
        ("filter_map", text(items().enumerate().filter_map(|(i, item)| (i != 1).then_some(item)))),
        ("find", format!("{:?}", items().enumerate().find(|(i, _)| *i == 2))),
        ("flat_map", text(items().flat_map(|item| [Some(item), None]))),
        ("fold", items().fold(String::new(), |text, item| text + &format!("{item:?}"))),
        ("fuse", text(items().fuse())),
        ("inspect", text(items().inspect(|_| ()))),
        ("last", format!("{:?}", items().last())),
        ("len", items().len().to_string()),
        ("map_while", text(items().enumerate().map_while(|(i, item)| (i < 2).then_some(item)))),
        ("nth", format!("{:?}", items().nth(1))),
        ("nth past the end", format!("{:?}", items().nth(usize::MAX))),
        ("partition", format!("{:?}", items().enumerate().partition::<Vec<_>, _>(|(i, _)| i % 3 == 0))),
        ("peekable", peek + &text(peeked)),
        ("position", format!("{:?}", items().position(|item| Some(item) == items().last()))),
        ("reduce", format!("{:?}", items().reduce(|_, last| last))),
        ("scan", text(items().scan(0, |sum, item| { *sum += 1; Some((*sum, item)) }))),
        ("size_hint", format!("{:?}", items().size_hint())),
        ("skip", text(items().skip(1))),
        ("skip, collected as results", format!("{:?}", items().skip(1).map(Ok).collect::<Result<Vec<_>, Error>>())),
        ("skip, counted", items().skip(1).count().to_string()),
        ("skip, folded", items().skip(1).fold(0, |sum, _| sum + 1).to_string()),
        ("skip_while", text(items().enumerate().skip_while(|(i, _)| *i < 2))),
        ("step_by", text(items().step_by(2))),
        ("take", text(items().take(2))),
        ("take_while", text(items().enumerate().take_while(|(i, _)| *i < 2))),
        ("try_fold", format!("{:?}", items().try_fold(0, |sum, _| if sum < 3 { Ok(sum + 1) } else { Err(sum) }))),
        ("unzip", format!("{:?}", items().map(|item| (1, item)).unzip::<i32, _, Vec<_>, Vec<_>>())),
        ("zip", text(items().zip(items().skip(1)))),
    ]
}

/// Returns the same of the adaptors and methods that start at the end.
fn backwards<I>(items: impl Fn() -> I) -> Vec<(&'static str, String)>
where
    I: ExactSizeIterator + DoubleEndedIterator + Clone,
    I::Item: Debug + PartialEq,
{
    vec![
        ("next_back", format!("{:?}", items().next_back())),
        ("nth_back", format!("{:?}", items().nth_back(1))),
        ("rev", format!("{:?}", items().rev().collect::<Vec<_>>())),
        ("rev, skip", format!("{:?}", items().rev().skip(1).collect::<Vec<_>>())),
        ("rev, step_by", format!("{:?}", items().rev().step_by(2).collect::<Vec<_>>())),
        ("rfind", format!("{:?}", items().rfind(|item| Some(item) == items().next().as_ref()))),
        ("rfold", items().rfold(String::new(), |text, item| text + &format!("{item:?}"))),
        ("rposition", format!("{:?}", items().rposition(|item| Some(item) == items().next()))),
        ("skip, rev", format!("{:?}", items().skip(1).rev().collect::<Vec<_>>())),
    ]
}

/// Asserts that each adaptor returns the same for a list as for its items, which were read one by one.
fn has_each<L>(list: L, items: Vec<L::Item>)
where
    L: IntoIterator + Copy,
    L::IntoIter: ExactSizeIterator + DoubleEndedIterator + Clone,
    L::Item: Debug + Clone + PartialEq,
{
    assert_eq!(forwards(|| list.into_iter()), forwards(|| items.clone().into_iter()));
    assert_eq!(backwards(|| list.into_iter()), backwards(|| items.clone().into_iter()));
}

/// Returns the items that a function reads by their indices.
fn each<T>(by_index: impl Fn(usize) -> Option<T>) -> Vec<T> {
    (0..).map_while(by_index).collect()
}

#[test]
fn headers_are_refused_or_all_there() {
    for form in FORMS {
        let file = made(form, 0);
        let (mut whole, mut refused) = (0, 0);
        for end in 0..=file.len() {
            let elf = match Elf::parse(&file[..end]) {
                Ok(elf) => elf,
                Err(_) => continue,
            };
            match elf.section_headers() {
                Ok(sections) => has_each(sections, each(|index| elf.section_header(index).unwrap())),
                Err(e) => assert!([0, 1, 7, usize::MAX].iter().all(|index| elf.section_header(*index) == Err(e))),
            }
            match elf.program_headers() {
                Ok(segments) => has_each(segments, each(|index| elf.program_header(index).unwrap())),
                Err(e) => assert!([0, 1, 2, usize::MAX].iter().all(|index| elf.program_header(*index) == Err(e))),
            }
            whole += usize::from(elf.section_headers().is_ok()) + usize::from(elf.program_headers().is_ok());
            refused += usize::from(elf.section_headers().is_err()) + usize::from(elf.program_headers().is_err());
        }
        // (the program headers are at the end, after the section headers)
        let of_program = 2 * if form.is_64 { 56 } else { 32 };
        assert_eq!(whole, of_program + 2);
        assert!(refused > file.len());
    }
}

/// Asserts that the list of whole headers of a file that is cut has those that are inside the first `end` bytes.
fn has_those_inside<L>(list: L, (start, size, end): (u64, u64, u64), all: &[L::Item])
where
    L: IntoIterator + Copy,
    L::IntoIter: ExactSizeIterator + DoubleEndedIterator + Clone,
    L::Item: Debug + Clone + PartialEq,
{
    let inside = all.len().min((end.saturating_sub(start) / size) as usize);
    assert_eq!(list.into_iter().len(), inside);
    if end.saturating_sub(start) % size < 2 {
        has_each(list, all[..inside].to_vec());
    }
}

#[test]
fn whole_headers_are_all_that_are_inside_the_file() {
    for form in FORMS {
        let file = made(form, 0);
        let all = Elf::parse(&file).unwrap();
        let sections: Vec<_> = all.section_headers().unwrap().iter().collect();
        let segments: Vec<_> = all.program_headers().unwrap().iter().collect();
        let (of_section, of_segment) = if form.is_64 { (64, 56) } else { (40, 32) };
        for end in form.header_size()..=file.len() {
            let elf = Elf::parse(&file[..end]).unwrap();
            let whole = elf.whole();
            has_those_inside(whole.section_headers().unwrap(), (elf.header.e_shoff, of_section, end as u64), &sections);
            has_those_inside(whole.program_headers().unwrap(), (elf.header.e_phoff, of_segment, end as u64), &segments);
            let (e_shoff, e_shnum, e_phnum) = (whole.header.e_shoff, whole.header.e_shnum, whole.header.e_phnum);
            assert_eq!((e_shoff != 0, e_shnum as usize, e_phnum as usize), {
                let lists = (whole.section_headers().unwrap(), whole.program_headers().unwrap());
                (!lists.0.is_empty(), lists.0.len(), lists.1.len())
            });
            assert_eq!(whole.header, Header { e_shoff, e_shnum, e_phnum, ..elf.header });
            assert_eq!(whole.whole().header, whole.header);
        }
    }
}

#[test]
fn the_first_section_header_has_the_number_of_headers() {
    for form in FORMS {
        // e_shnum is 0, and sh_size of the first section 7
        let mut file = made(form, 0);
        let at = Elf::parse(&file).unwrap().header.e_shoff as usize;
        let (e_shnum, sh_size, size) = if form.is_64 { (60, 32, 64) } else { (48, 20, 40) };
        file[e_shnum..e_shnum + 2].fill(0);
        file[at + sh_size..][..form.wide()].copy_from_slice(&form.numbers(&[(form.wide(), 7)]));
        let elf = Elf::parse(&file).unwrap();
        assert_eq!(elf.section_headers().unwrap().len(), 7);
        assert_eq!(elf.whole().header, elf.header);
        let cut = Elf::parse(&file[..at + 3 * size + 1]).unwrap();
        let (whole, second) = (cut.whole(), elf.section_header(2));
        let found = (whole.header.e_shnum, whole.section_header(2), whole.section_header(3));
        assert_eq!(found, (3, second, Ok(None)));
        let without = Elf::parse(&file[..at + size - 1]).unwrap();
        let refused = Kind::TooBig { size: size as u64, len: size as u64 - 1 };
        assert_eq!(without.section_header(6).map_err(|e| e.kind()), Err(refused));
        assert_eq!((without.whole().header.e_shoff, without.whole().section_headers().unwrap().len()), (0, 0));
    }
}

/// Returns ranges, some of which end past the end of the file.
fn ranges(len: u64) -> Vec<(u64, u64)> {
    let offsets = [0, 1, len - 100, len - 1, len, len + 1, u64::MAX];
    let sizes = [0, 1, 24, 60, 99, 100, 101, len, u64::MAX];
    offsets.iter().flat_map(|offset| sizes.iter().map(move |size| (*offset, *size))).collect()
}

#[test]
fn symbols_are_refused_or_all_there() {
    in_each_form(|form, file, elf| {
        let (len, entry) = (file.len() as u64, if form.is_64 { 24 } else { 16 });
        for (offset, size) in ranges(len) {
            let requested = size / entry * entry;
            let wanted = match len.checked_sub(offset) {
                None | Some(0) => Err(Kind::SymtabOffset { offset, len }),
                Some(available) if available < requested => Err(Kind::SymtabPast { requested, available }),
                Some(_) => Ok(size / entry),
            };
            let section =
                SectionHeader { sh_type: SHT_DYNSYM, sh_offset: offset, sh_size: size, ..SectionHeader::default() };
            let symbols = elf.symtab(&section).map_err(|e| e.kind());
            assert_eq!(symbols.map(|symbols| symbols.len() as u64), wanted, "{offset} {size}");
            if let Ok(symbols) = symbols {
                assert_eq!(symbols.len(), each(|index| symbols.get(index)).len());
                has_each(symbols, each(|index| symbols.get(index)));
            }
        }
    });
}

#[test]
fn relocations_are_refused_or_all_there() {
    in_each_form(|form, file, elf| {
        let len = file.len() as u64;
        for ((offset, size), (sh_type, numbers)) in
            ranges(len).into_iter().flat_map(|range| [(range, (SHT_RELA, 3)), (range, (SHT_REL, 2))])
        {
            let wanted = match len.checked_sub(offset) {
                _ if size == 0 => Ok(0),
                None | Some(0) => Err(Kind::BadOffset(offset)),
                Some(left) if left < size => Err(Kind::TooBig { size, len: left }),
                Some(_) => Ok(size / (numbers * form.wide() as u64)),
            };
            let section = SectionHeader { sh_type, sh_offset: offset, sh_size: size, ..SectionHeader::default() };
            let relocs = elf.relocs(&section).map_err(|e| e.kind());
            assert_eq!(relocs.map(|relocs| relocs.len() as u64), wanted, "{offset} {size}");
            if let Ok(relocs) = relocs {
                assert_eq!(relocs.len(), each(|index| relocs.get(index)).len());
                has_each(relocs, each(|index| relocs.get(index)));
            }
        }
    });
}

/// Returns a file with another byte at an offset of a section.
fn with_byte(file: &[u8], section: usize, offset: usize, byte: u8) -> Vec<u8> {
    let mut file = file.to_vec();
    let start = section_at(&Elf::parse(&file).unwrap(), section).sh_offset as usize;
    file[start + offset] = byte;
    file
}

#[test]
fn notes_are_refused_or_all_there() {
    in_each_form(|_, file, elf| {
        let (section, segment) = (section_at(&elf, 1), segment_at(&elf, 0));
        assert_eq!(section.sh_type, SHT_NOTE);
        let notes: Vec<_> = elf.notes(&section).unwrap().iter().collect();
        assert_eq!(notes.iter().map(|note| note.name).collect::<Vec<_>>(), ["GNU", "goblin"]);
        let wanted = forwards(|| notes.clone().into_iter());
        assert_eq!(forwards(|| elf.notes(&segment).unwrap().into_iter()), wanted);
        // the first byte of each name is not UTF-8
        for (offset, readable) in [(12, 0), (32, 1)] {
            let damaged = with_byte(file, 1, offset, 0xff);
            let elf = Elf::parse(&damaged).unwrap();
            let refused = elf.notes(&section).unwrap_err();
            assert!(matches!(refused.kind(), Kind::BadInput { .. }));
            assert_eq!(elf.notes(&segment).unwrap_err(), refused);
            let of_all = [elf.iter_note_sections().unwrap(), elf.iter_note_headers().unwrap()];
            assert_eq!(of_all.map(|mut all| all.nth(readable).unwrap().text()), [None; 2]);
            for (before, why) in [elf.readable_notes(&section), elf.readable_notes(&segment)] {
                assert_eq!(forwards(|| before.iter()), forwards(|| notes[..readable].iter().copied()));
                assert_eq!(why, Some(refused));
            }
        }
        let (all, why) = elf.readable_notes(&section);
        assert_eq!((all.len(), why), (2, None));
        let cut = Elf::parse(&file[..200]).unwrap();
        assert_eq!(cut.iter_note_sections().unwrap_err().kind(), Kind::BadOffset(cut.header.e_shoff));
        assert_eq!(cut.iter_note_headers().unwrap_err().kind(), Kind::BadOffset(cut.header.e_phoff));
    });
}

#[test]
fn notes_as_bytes_are_refused_or_all_there() {
    in_each_form(|_, file, elf| {
        let (section, segment) = (section_at(&elf, 1), segment_at(&elf, 0));
        let notes: Vec<_> = elf.notes_bytes(&section).unwrap().iter().collect();
        let fields: Vec<_> = notes.iter().map(|note| (note.n_type, note.name, note.desc)).collect();
        assert_eq!(fields, [(3, &b"GNU\0"[..], &b"abcd"[..]), (0x1234, b"goblin\0", b"hello")]);
        let wanted = forwards(|| notes.clone().into_iter());
        assert_eq!(forwards(|| elf.notes_bytes(&segment).unwrap().into_iter()), wanted);
        assert_eq!(forwards(|| elf.iter_note_sections().unwrap()), wanted);
        assert_eq!(forwards(|| elf.iter_note_headers().unwrap()), wanted);
        // the first byte of the second name is not UTF-8
        let damaged = with_byte(file, 1, 32, 0xff);
        let read: Vec<_> =
            Elf::parse(&damaged).unwrap().notes_bytes(&section).unwrap().iter().map(|note| note.name).collect();
        assert_eq!(read, [&b"GNU\0"[..], b"\xffoblin\0"]);
        // the range ends in the first note's header, name and descriptor, and then in those of the second
        let items = [Item::NoteHeader, Item::NoteName, Item::NoteDesc];
        for (size, n) in [11, 15, 19, 31, 38, 44].into_iter().zip(0..) {
            let (readable, item) = (n / 3, items[n % 3]);
            let section = SectionHeader { sh_size: size, ..section };
            let segment = ProgramHeader { p_filesz: size, ..segment };
            let refused = elf.notes_bytes(&section).unwrap_err();
            assert_eq!((refused.item(), refused.offset()), (Some(item), section.sh_offset + 20 * readable as u64));
            assert_eq!(elf.notes_bytes(&segment).unwrap_err(), refused);
            for (before, why) in [elf.readable_notes_bytes(&section), elf.readable_notes_bytes(&segment)] {
                assert_eq!(forwards(|| before.iter()), forwards(|| notes[..readable].iter().copied()));
                assert_eq!(why, Some(refused));
            }
        }
        let unaligned = SectionHeader { sh_addralign: 16, ..section };
        let refused = elf.notes_bytes(&unaligned).unwrap_err();
        assert_eq!((refused.kind(), refused.item()), (Kind::NoteAlign(16), None));
        let empty = SectionHeader { sh_size: 0, ..section };
        assert!(elf.notes_bytes(&empty).unwrap().is_empty());
    });
}

#[test]
fn sections_of_relocations_are_refused_or_all_there() {
    in_each_form(|form, file, elf| {
        let sections = elf.section_headers().unwrap();
        let wanted = [4, 5].map(|index| (index, elf.relocs(&sections.get(index).unwrap()).unwrap()));
        assert_eq!(elf.shdr_relocs().unwrap(), wanted);
        for (index, len) in [(4, 6 * form.wide()), (5, 2 * form.wide())] {
            // `sh_offset` of this section is that of the file's last byte
            let mut damaged = file.to_vec();
            let offset = elf.header.e_shoff as usize + if form.is_64 { 64 * index + 24 } else { 40 * index + 16 };
            damaged[offset..offset + form.wide()]
                .copy_from_slice(&form.numbers(&[(form.wide(), file.len() as u64 - 1)]));
            let elf = Elf::parse(&damaged).unwrap();
            assert_eq!(elf.shdr_relocs().unwrap_err().kind(), Kind::TooBig { size: len as u64, len: 1 });
            let read: Vec<_> =
                [4, 5].iter().map(|index| elf.relocs(&section_at(&elf, *index)).is_ok()).collect();
            assert_eq!(read, [index != 4, index != 5]);
        }
        let cut = Elf::parse(&file[..200]).unwrap();
        assert_eq!(cut.shdr_relocs().unwrap_err().kind(), Kind::BadOffset(cut.header.e_shoff));
        assert_eq!(cut.syms().unwrap_err().kind(), Kind::BadOffset(cut.header.e_shoff));
        assert_eq!(cut.dynsyms().unwrap_err().kind(), Kind::BadOffset(cut.header.e_shoff));
    });
}

#[test]
fn a_table_of_another_type_is_refused() {
    in_each_form(|_, _, elf| {
        for section in elf.section_headers().unwrap() {
            let sh_type = section.sh_type;
            let refused = |item| Some((Kind::SectionType(sh_type), Some(item)));
            let of_symbols = elf.symtab(&section).err().map(|e| (e.kind(), e.item()));
            assert_eq!(of_symbols, refused(Item::Symbols).filter(|_| sh_type != SHT_SYMTAB));
            let of_relocs = elf.relocs(&section).err().map(|e| (e.kind(), e.item()));
            let is_of_relocs = [SHT_RELA, SHT_REL].contains(&sh_type);
            assert_eq!(of_relocs, refused(Item::Relocations).filter(|_| !is_of_relocs));
        }
    });
}
