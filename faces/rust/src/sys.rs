//! The calls of the library, which `goblin.h` declares and documents. All unsafe code of this crate is here.
//!
//! Each call is a safe function, since its types say all that it needs: it reads only its slices and references, and
//! writes only its mutable ones, within their lengths. Its declaration is made of the one in `goblin.h`.
use crate::error::{Error, Result};
use crate::file::File;
use crate::generated::{calls, VERSION};
use crate::raw::{self, Dyn, Header, Note, ProgramHeader, Range, Refusal, Reloc, Section, Symbol};
use crate::section_header::SectionHeader;
use crate::sym::Sym;
use core::str;
#[cfg(feature = "std")]
use std::ffi::CStr;

// The type of an item that a call writes, or of what is made of it.
macro_rules! made {
    ($item:ty) => { $item };
    ($item:ty, $made:ty) => { $made };
}

// A call takes a file, by its bytes and most by its header, and further arguments: after `into` an array to fill.
// It returns an item (the number of items that were filled, for an array) or what is made of it, `None` for GOBLIN_END,
// or the error for a refusal.
macro_rules! calls {
    ($(fn $name:ident($([$header:ident])? $($given:ident: $type:ty),*) $(into [$each:ty])?
        -> $item:ty $(as $made:ty)?;)*) => {$(
        #[inline]
        pub fn $name(bytes: &[u8] $(, $header: &Header)? $(, $given: $type)* $(, items: &mut [$each])?)
            -> Result<Option<made!($item $(, $made)?)>> {
            let file = raw::File::of(bytes, None$(.or(Some($header)))?);
            let (mut item, mut why) = <($item, Refusal)>::default();
            // SAFETY: each pointer of a slice is passed with the slice's length. `item` and `why` are this function's
            // own, and all references and slices outlive the call. It writes only numbers.
            let status = unsafe {
                calls::$name(&file $(, $given)* $(, <[$each]>::as_mut_ptr(items), items.len())?, &mut item, &mut why)
            };
            result(status, item, why).map(|found| found.map(<made!($item $(, $made)?)>::from))
        }
    )*};
}

// Returns what a call has written.
#[inline]
fn result<T>(status: u32, item: T, why: Refusal) -> Result<Option<T>> {
    match status {
        0 => Ok(Some(item)),
        1 => Ok(None),
        _ => Err(Error::new(why)),
    }
}

calls! {
    fn goblin_section_count([header]) -> u64;
    fn goblin_section([header] index: u64) -> Section as SectionHeader;
    fn goblin_sections([header] first: u64) into [Section] -> u64;
    fn goblin_linked_section([header] index: u64) -> Section as SectionHeader;
    fn goblin_names_section([header]) -> Section as SectionHeader;
    fn goblin_segment([header] index: u64) -> ProgramHeader;
    fn goblin_segments([header] first: u64) into [ProgramHeader] -> u64;
    fn goblin_section_range(section: &Section) -> Range;
    fn goblin_segment_count([header]) -> u64;
    fn goblin_segment_range(segment: &ProgramHeader) -> Range;
    fn goblin_address_to_offset([header] address: u64) -> u64;
    fn goblin_dynamic([header]) -> Range;
    fn goblin_dynamic_entries([header] dynamic: &Range, first: u64) into [Dyn] -> u64;
    fn goblin_dynamic_strings([header] dynamic: &Range) -> Range;
    fn goblin_symbol_count([header] table: &Range) -> u64;
    fn goblin_reloc_count([header] relocs: &Range, is_rela: bool) -> u64;
    fn goblin_string(strings: &Range, offset: u64) -> Range;
    fn goblin_string_closed(strings: &Range, offset: u64) -> Range;
    fn goblin_closed_strings(strings: &Range) -> Range;
    fn goblin_number([header] offset: u64, width: u64) -> u64;
    fn goblin_number_in([header] range: &Range, offset: u64, width: u64) -> u64;
    fn goblin_symbol([header] table: &Range, index: u64) -> Symbol as Sym;
    fn goblin_symbols([header] table: &Range, first: u64) into [Symbol] -> u64;
    fn goblin_symbol_by_address([header] table: &Range, address: u64) -> u64;
    fn goblin_reloc([header] relocs: &Range, is_rela: bool, index: u64) -> Reloc;
    fn goblin_relocs([header] relocs: &Range, is_rela: bool, first: u64) into [Reloc] -> u64;
    fn goblin_note_utf8([header] notes: &Range, alignment: u64, offset: u64) -> Note;
    fn goblin_note_whole([header] notes: &Range, alignment: u64, offset: u64) -> Note;
    fn goblin_build_id([header]) -> Range;
    fn goblin_string_utf8(strings: &Range, offset: u64) -> Range;
}

/// Returns the header at the start of a file.
pub fn goblin_file(bytes: &[u8]) -> Result<Header> {
    let (mut file, mut why) = (raw::File::of(bytes, None), Refusal::default());
    // SAFETY: the pointer of the slice is passed with the slice's length. `file` and `why` are this function's own.
    let status = unsafe { calls::goblin_file(bytes.as_ptr(), bytes.len(), &mut file, &mut why) };
    result(status, file.header, why).map(|header| header.expect("a file that is not refused has a header"))
}

// A call compares a string with some bytes. It returns whether they match.
macro_rules! comparisons {
    ($(fn $name:ident(by $by:ident);)*) => {$(
        #[inline]
        pub fn $name(bytes: &[u8], strings: &Range, offset: u64, $by: &[u8]) -> Result<bool> {
            let file = raw::File::of(bytes, None);
            // SAFETY: each pointer of a slice is passed with the slice's length, and all references and slices outlive
            // the call. It writes nothing.
            let matches = unsafe { calls::$name(&file, strings, offset, $by.as_ptr().cast(), $by.len()) };
            // (it is false, too, if the table is refused)
            Ok(matches || goblin_string(bytes, strings, strings.size)?.is_some())
        }
    )*};
}

comparisons! {
    fn goblin_string_is(by name);
    fn goblin_string_starts(by start);
}

/// Finds the ranges of the strings at some offsets, as many as fit, up to the first offset past the end of the table.
/// Returns their number.
pub fn goblin_strings(bytes: &[u8], strings: &Range, offsets: &[u64], ranges: &mut [Range]) -> Result<usize> {
    let file = raw::File::of(bytes, None);
    let (mut filled, mut why) = <(u64, Refusal)>::default();
    // SAFETY: each pointer of a slice is passed with the slice's length. `filled` and `why` are this function's own,
    // and all references and slices outlive the call. It writes only numbers.
    let status = unsafe {
        let (offsets, count, made, most) = (offsets.as_ptr(), offsets.len(), ranges.as_mut_ptr(), ranges.len());
        calls::goblin_strings(&file, strings, offsets, count, made, most, &mut filled, &mut why)
    };
    result(status, (), why).map(|_| filled as usize)
}

// A call finds the first item of some kind from an index on: after `by` a slice to read. It returns the index and
// the item.
macro_rules! searches {
    ($(fn $name:ident($($given:ident: $type:ty),*) $(by $by:ident)? -> $item:ty $(as $made:ty)?;)*) => {$(
        #[inline]
        pub fn $name(bytes: &[u8], header: &Header $(, $given: $type)* $(, $by: &[u8])?, first: u64)
            -> Result<Option<(u64, made!($item $(, $made)?))>> {
            let file = raw::File::of(bytes, Some(header));
            let (mut index, mut item, mut why) = <(u64, $item, Refusal)>::default();
            // SAFETY: each pointer of a slice is passed with the slice's length. The results are this function's own,
            // and all references and slices outlive the call. It writes only numbers.
            let status = unsafe {
                let (first, found, made) = (first, &mut index, &mut item);
                calls::$name(&file $(, $given)* $(, $by.as_ptr().cast(), $by.len())?, first, found, made, &mut why)
            };
            result(status, (index, item.into()), why)
        }
    )*};
}

searches! {
    fn goblin_section_by_name(names: &Range) by name -> Section as SectionHeader;
    fn goblin_section_by_type(sh_type: u32) -> Section as SectionHeader;
    fn goblin_symbol_by_name(table: &Range, names: &Range) by name -> Symbol as Sym;
    fn goblin_dynamic_value(dynamic: &Range, tag: u64) -> u64;
}

// A call writes a record into a file's bytes. It returns whether there is one. A program need not have called
// `Elf::parse` before.
macro_rules! writes {
    ($(fn $name:ident($($given:ident: $type:ty),*);)*) => {$(
        pub fn $name(bytes: &mut [u8], header: &Header $(, $given: $type)*) -> Result<bool> {
            check_interface();
            let mut why = Refusal::default();
            // SAFETY: the pointer of the slice is passed with the slice's length. `why` is this function's own, and all
            // references and slices outlive the call. It writes only numbers.
            let status = unsafe { calls::$name(bytes.as_mut_ptr(), bytes.len(), header $(, $given)*, &mut why) };
            result(status, (), why).map(|written| written.is_some())
        }
    )*};
}

writes! {
    fn goblin_put_header();
    fn goblin_put_section(index: u64, section: &Section);
    fn goblin_put_segment(index: u64, segment: &ProgramHeader);
    fn goblin_put_symbol(table: &Range, index: u64, symbol: &Symbol);
    fn goblin_put_reloc(table: &Range, is_rela: bool, index: u64, reloc: &Reloc);
    fn goblin_put_number(offset: u64, width: u64, value: u64);
    fn goblin_put_number_in(range: &Range, offset: u64, width: u64, value: u64);
}

/// Returns a header that counts only the headers that are whole inside the file.
pub fn goblin_whole_header(bytes: &[u8], header: &Header) -> Header {
    let (file, mut whole) = (raw::File::of(bytes, Some(header)), raw::File::of(bytes, None));
    // SAFETY: the pointer of the slice is passed with the slice's length, and `whole` is this function's own.
    unsafe { calls::goblin_whole_header(&file, &mut whole) };
    whole.header
}

/// Returns the part of a range that is inside the file.
pub fn goblin_range_in_file(bytes: &[u8], range: &Range) -> Range {
    let (file, mut part) = (raw::File::of(bytes, None), Range::default());
    // SAFETY: the pointer of the slice is passed with the slice's length, and `part` is this function's own.
    unsafe { calls::goblin_range_in_file(&file, range, &mut part) };
    part
}

/// Returns the string whose range `goblin_string_utf8` returns. It is not checked once more for being UTF-8.
#[inline]
pub fn string<'a>(bytes: &'a [u8], strings: &Range, offset: u64) -> Result<Option<&'a str>> {
    let string = goblin_string_utf8(bytes, strings, offset)?.map(|range| File(bytes).slice(range));
    debug_assert!(string.map_or(true, |string| str::from_utf8(string).is_ok()));
    // SAFETY: a string that the library returns here is UTF-8, which is proved.
    Ok(string.map(|string| unsafe { str::from_utf8_unchecked(string) }))
}

/// Returns the C string whose range `goblin_string_closed` returns. It is not searched once more for zero bytes.
#[cfg(feature = "std")]
#[inline]
pub fn c_string<'a>(bytes: &'a [u8], strings: &Range, offset: u64) -> Result<Option<&'a CStr>> {
    let string = goblin_string_closed(bytes, strings, offset)?;
    let string = string.map(|Range { offset, size }| File(bytes).slice(Range { offset, size: size + 1 }));
    debug_assert!(string.map_or(true, |string| CStr::from_bytes_with_nul(string).is_ok()));
    // SAFETY: after a string that the library returns here there is a zero byte, and none in it, which is proved.
    Ok(string.map(|string| unsafe { CStr::from_bytes_with_nul_unchecked(string) }))
}

// A call writes a text into a buffer, or as much of it as fits, and returns the length of the whole text.
macro_rules! texts {
    ($(fn $name:ident($given:ident: $type:ty $(, by $by:ident)?);)*) => {$(
        pub fn $name($($by: &[u8], )? $given: $type, text: &mut [u8]) -> usize {
            check_interface();
            let (text, most) = (text.as_mut_ptr().cast(), text.len());
            // SAFETY: each pointer is passed with the length of its slice, and all outlive the call.
            unsafe { calls::$name($($by.as_ptr().cast(), $by.len(), )? $given, text, most) as usize }
        }
    )*};
}

// (with these the tests compare the names of numbers, which are stored)
#[cfg(test)]
texts! {
    fn goblin_class_to_str(ei_class: u8);
    fn goblin_et_to_str(e_type: u16);
    fn goblin_machine_to_str(e_machine: u16);
    fn goblin_pt_to_str(p_type: u32);
    fn goblin_sht_to_str(sh_type: u32);
    fn goblin_shf_to_str(flag: u64);
    fn goblin_bind_to_str(binding: u8);
    fn goblin_type_to_str(type_: u8);
    fn goblin_visibility_to_str(visibility: u8);
    fn goblin_note_type_to_str(n_type: u32, by name);
}

texts! {
    fn goblin_refusal_to_str(why: &Refusal);
}

/// Panics if the library that is linked has another interface. Its calls may take other arguments.
#[inline]
pub fn check_interface() {
    // SAFETY: it takes no argument.
    let interface = unsafe { calls::goblin_version() };
    assert_eq!(interface, VERSION, "libgoblin_c.a has another interface than goblin_rs");
}

#[cfg(test)]
pub fn layout() -> crate::raw::tests::Layout {
    let mut layout = Default::default();
    let size = std::mem::size_of_val(&layout);
    // SAFETY: it writes only numbers to `layout`, within its size.
    assert_eq!(unsafe { calls::goblin_layout((&mut layout as *mut crate::raw::tests::Layout).cast(), size) }, size);
    layout
}
