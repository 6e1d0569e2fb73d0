//! Makes small files of both classes and byte orders.
// (no test uses all of this)
#![allow(dead_code)]
use goblin_rs::program_header::ProgramHeader;
use goblin_rs::section_header::SectionHeader;
use goblin_rs::{Elf, Kind};

/// A class and a byte order.
#[derive(Clone, Copy, Debug)]
pub struct Form {
    pub is_64: bool,
    pub is_big: bool,
}

pub const FORMS: [Form; 4] = [
    Form { is_64: true, is_big: false },
    Form { is_64: true, is_big: true },
    Form { is_64: false, is_big: false },
    Form { is_64: false, is_big: true },
];

impl Form {
    pub fn wide(self) -> usize {
        if self.is_64 { 8 } else { 4 }
    }

    pub fn header_size(self) -> usize {
        if self.is_64 { 64 } else { 52 }
    }

    /// Returns the bytes of numbers, each with its width. `W` is the width of an address.
    pub fn numbers(self, numbers: &[(usize, u64)]) -> Vec<u8> {
        let mut bytes = Vec::new();
        for &(width, number) in numbers {
            let width = if width == W { self.wide() } else { width };
            let all = number.to_be_bytes();
            let lowest = &all[8 - width..];
            if self.is_big {
                bytes.extend(lowest);
            } else {
                bytes.extend(lowest.iter().rev());
            }
        }
        bytes
    }

    pub fn symbol(self, name: u64, value: u64, size: u64, info: u64, other: u64, section: u64) -> Vec<u8> {
        if self.is_64 {
            self.numbers(&[(4, name), (1, info), (1, other), (2, section), (8, value), (8, size)])
        } else {
            self.numbers(&[(4, name), (4, value), (4, size), (1, info), (1, other), (2, section)])
        }
    }

    pub fn reloc_info(self, symbol: u64, kind: u64) -> u64 {
        if self.is_64 { symbol << 32 | kind } else { symbol << 8 | kind }
    }

    pub fn segment(self, kind: u64, flags: u64, offset: u64, size: u64) -> Vec<u8> {
        let places = [(W, offset), (W, 0x4000), (W, 0x5000), (W, size), (W, size + 1)];
        let (first, last) = if self.is_64 { (vec![(4, flags)], vec![]) } else { (vec![], vec![(4, flags)]) };
        self.numbers(&[&[(4, kind)], &first[..], &places, &last, &[(W, 4)]].concat())
    }
}

const W: usize = 0;
const SECTION_NAMES: &[u8] = b"\0.note\0.symtab\0.strtab\0.rela\0.rel\0.names\0\xff\0";
pub const STRINGS: &[u8] = b"\0first\0second\0\xc3\xa9t\xc3\xa9\0\xff\0";

/// Runs a test with the file of each form.
pub fn in_each_form(test: impl for<'a> Fn(Form, &'a [u8], Elf<'a>)) {
    for form in FORMS {
        let file = made(form, 0);
        test(form, &file, Elf::parse(&file).unwrap());
    }
}

/// Returns the section header at an index.
pub fn section_at(elf: &Elf<'_>, index: usize) -> SectionHeader {
    elf.section_header(index).unwrap().unwrap()
}

/// Returns the program header at an index.
pub fn segment_at(elf: &Elf<'_>, index: usize) -> ProgramHeader {
    elf.program_header(index).unwrap().unwrap()
}

/// Returns the kind and the offset of an error.
pub fn why<T: std::fmt::Debug>(result: goblin_rs::Result<T>) -> (Kind, u64) {
    let e = result.unwrap_err();
    (e.kind(), e.offset())
}

/// Returns the index of an item that was found.
pub fn index<T>(found: Option<(usize, T)>) -> Option<usize> {
    found.map(|(index, _)| index)
}

/// Returns a file with seven sections, two segments and four named symbols, and with a number of unnamed symbols
/// after these.
pub fn made(form: Form, more: usize) -> Vec<u8> {
    let mut file = vec![0; form.header_size()];
    let mut sections = vec![0; if form.is_64 { 64 } else { 40 }];
    let mut add = |name: u64, kind: u64, content: Vec<u8>, link: u64, info: u64| {
        let (offset, size) = (file.len() as u64, content.len() as u64);
        let first = [(4, name), (4, kind), (W, 0x32), (W, 0x6000 + name), (W, offset), (W, size)];
        sections.extend(form.numbers(&[&first[..], &[(4, link), (4, info), (W, 4), (W, name + 7)]].concat()));
        file.extend(content);
        (offset, size)
    };
    let mut notes = form.numbers(&[(4, 4), (4, 4), (4, 3)]);
    notes.extend(b"GNU\0abcd");
    notes.extend(form.numbers(&[(4, 7), (4, 5), (4, 0x1234)]));
    notes.extend(b"goblin\0\0hello\0\0\0");
    let notes = add(1, 7, notes, 0, 0);
    let mut symbols = form.symbol(0, 0, 0, 0, 0, 0);
    symbols.extend(form.symbol(1, 0x1020, 0x30, 0x12, 2, 3));
    symbols.extend(form.symbol(7, 0x2030, 0x40, 0x21, 0, 0xfff1));
    symbols.extend(form.symbol(14, 0x3040, 0x50, 0x10, 0, 0));
    symbols.extend(form.symbol(20, 0x4050, 0x60, 0x10, 0, 0));
    for number in 0..more as u64 {
        symbols.extend(form.symbol(0, number, 0, 0, 0, 1));
    }
    add(7, 2, symbols, 3, 1);
    add(15, 3, STRINGS.to_vec(), 0, 0);
    let with_addends =
        [(W, 0x8), (W, form.reloc_info(1, 7)), (W, -4i64 as u64), (W, 0x18), (W, form.reloc_info(2, 9)), (W, 5)];
    add(23, 4, form.numbers(&with_addends), 2, 1);
    add(29, 9, form.numbers(&[(W, 0x28), (W, form.reloc_info(3, 11))]), 2, 1);
    add(34, 3, SECTION_NAMES.to_vec(), 0, 0);
    let section_headers = file.len() as u64;
    file.extend(sections);
    let program_headers = file.len() as u64;
    file.extend(form.segment(4, 4, notes.0, notes.1));
    file.extend(form.segment(1, 5, 0, section_headers));
    let (class, order) = (1 + u64::from(form.is_64), 1 + u64::from(form.is_big));
    let places = [(W, 0x1234), (W, program_headers), (W, section_headers), (4, 0x55667788)];
    let counts = [(2, 0x99), (2, 0xaa), (2, 2), (2, 0xbb), (2, 7), (2, 6)];
    let mut start = b"\x7fELF".to_vec();
    start.extend(form.numbers(&[(1, class), (1, order), (1, 1), (1, 3), (1, 4), (7, 0)]));
    start.extend(form.numbers(&[&[(2, 3), (2, 0x3e), (4, 1)], &places[..], &counts].concat()));
    file[..start.len()].copy_from_slice(&start);
    file
}
