//! Symbols, their constants, and the names of their numbers.
pub use crate::address_map::AddressMap;
use crate::generated::names::{BIND, TYPE, VISIBILITY};
pub use crate::generated::sym::*;
use crate::elf::Elf;
use crate::error::Result;
use crate::file::File;
use crate::items::{made, table, Batches, Items};
use crate::names::name_of;
use crate::section_header::SectionHeader;
use crate::strtab::Strtab;
use crate::{raw, sys};

/// A symbol.
///
/// ```
/// use goblin_rs::section_header::SHN_UNDEF;
/// use goblin_rs::sym::{Sym, STB_GLOBAL, STT_FUNC};
///
/// let symbol = Sym { st_info: STB_GLOBAL << 4 | STT_FUNC, ..Sym::default() };
/// assert!(symbol.is_function() && symbol.is_import() && symbol.st_shndx == SHN_UNDEF);
/// ```
pub use crate::raw::Sym;

impl Sym {
    /// Returns the binding.
    #[must_use]
    pub fn st_bind(&self) -> u8 {
        st_bind(self.st_info)
    }

    /// Returns the type.
    #[must_use]
    pub fn st_type(&self) -> u8 {
        st_type(self.st_info)
    }

    /// Returns the visibility.
    #[must_use]
    pub fn st_visibility(&self) -> u8 {
        st_visibility(self.st_other)
    }

    /// Reports whether the symbol is imported: its binding is `STB_GLOBAL` or `STB_WEAK`, and its value is 0.
    #[must_use]
    pub fn is_import(&self) -> bool {
        (self.st_bind() == STB_GLOBAL || self.st_bind() == STB_WEAK) && self.st_value == 0
    }

    /// Reports whether the symbol is a function: its type is `STT_FUNC`.
    #[must_use]
    pub fn is_function(&self) -> bool {
        self.st_type() == STT_FUNC
    }
}

/// Returns the binding in an `st_info`: its high four bits.
#[must_use]
pub fn st_bind(info: u8) -> u8 {
    info >> 4
}

/// Returns the type in an `st_info`: its low four bits.
#[must_use]
pub fn st_type(info: u8) -> u8 {
    info & 0xf
}

/// Returns the visibility in an `st_other`: its low three bits.
#[must_use]
pub fn st_visibility(other: u8) -> u8 {
    other & 0x7
}

/// Reports whether a symbol is global and its value is 0. As in goblin, it is false for a weak symbol,
/// unlike [`Sym::is_import`].
#[must_use]
pub fn is_import(info: u8, value: u64) -> bool {
    st_bind(info) == STB_GLOBAL && value == 0
}

/// Returns the name of the type in an `st_info`.
#[must_use]
pub fn get_type(info: u8) -> &'static str {
    type_to_str(st_type(info))
}

/// A symbol table, with the string table of its names.
///
/// ```
/// # let bytes = std::fs::read(std::env::current_exe()?)?;
/// let elf = goblin_rs::Elf::parse(&bytes)?;
/// if let Some(symbols) = elf.syms()? {
///     for symbol in symbols.iter().filter(|symbol| symbol.is_function()) {
///         println!("{:x} {}", symbol.st_value, symbols.name(&symbol)?.unwrap_or(""));
///     }
///     if let Some((index, main)) = symbols.symbol_by_name("main", 0)? {
///         println!("main is symbol {index}, at {:x}", main.st_value);
///     }
/// }
/// # Ok::<(), Box<dyn std::error::Error>>(())
/// ```
#[derive(Clone, Copy, Debug)]
pub struct Symtab<'a> {
    file: File<'a>,
    pub(crate) header: raw::Header,
    range: raw::Range,
    count: u64,
    strtab: Strtab<'a>,
}

/// A table without symbols.
impl Default for Symtab<'_> {
    fn default() -> Self {
        let (header, range, strtab) = Default::default();
        // (a table that starts at the end of the file is refused)
        Symtab { file: File(&[0]), header, range, count: 0, strtab }
    }
}

/// An iterator over symbols.
pub type SymIterator<'a> = Items<Symtab<'a>>;

impl<'a> Symtab<'a> {
    pub(crate) fn of(elf: &Elf<'a>, range: raw::Range, strtab: Strtab<'a>) -> Result<Self> {
        let Elf { file, header } = *elf;
        let count = sys::goblin_symbol_count(&file, &header, &range)?;
        Ok(Symtab { file, header, range, count: count.expect("a table that is not refused has a count"), strtab })
    }

    /// Returns the string table.
    #[must_use]
    pub fn strtab(&self) -> Strtab<'a> {
        self.strtab
    }

    /// Returns the name of a symbol, or `None` if its offset is past the end of the string table.
    ///
    /// # Errors
    /// If the string table is not inside the file, or the name is not UTF-8.
    #[inline]
    pub fn name(&self, symbol: &Sym) -> Result<Option<&'a str>> {
        self.strtab.get(symbol.st_name)
    }

    /// Returns the bytes of a symbol's name, which need not be UTF-8, or `None` if its offset is past the end of the
    /// string table.
    ///
    /// # Errors
    /// If the string table is not inside the file.
    #[inline]
    pub fn name_bytes(&self, symbol: &Sym) -> Result<Option<&'a [u8]>> {
        self.strtab.get_bytes(symbol.st_name)
    }

    /// Returns the symbol of an address, and its index. It contains the address: of those with
    /// `st_value <= address < st_value + st_size` it is the one with the highest `st_value`, the first of several. If
    /// there is none, a label of size 0 may be there, as assembly has. It counts only in its own section: of the
    /// symbols with `st_value <= address` whose section holds the address, it is the first of size 0 among those with
    /// the highest `st_value`. A section holds the addresses with `sh_addr <= address < sh_addr + sh_size`, but none if
    /// its `sh_flags` lack `SHF_ALLOC`. None of these sums wraps around.
    ///
    /// Only symbols of a section count, whose `st_shndx` is from 1 to 0xfeff, or 0xffff (`SHN_XINDEX`), which is the
    /// index of no section here. And only those of type `STT_NOTYPE`, `STT_OBJECT`, `STT_FUNC` or `STT_GNU_IFUNC`
    /// count. In a file of type `ET_REL` an `st_value` is an offset in a section, so there any section holds the
    /// addresses below `sh_size`, and symbols of different sections mix.
    ///
    /// Each call reads all symbols: for many addresses use [`Symtab::address_map`].
    #[must_use]
    pub fn symbol_by_address(&self, address: u64) -> Option<(usize, Sym)> {
        let index = made(sys::goblin_symbol_by_address(&self.file, &self.header, &self.range, address))? as usize;
        Some((index, self.get(index)?))
    }

    // Returns the section of a symbol by its index.
    pub(crate) fn section(&self, index: usize) -> Option<SectionHeader> {
        made(sys::goblin_section(&self.file, &self.header, index as u64))
    }

    /// Returns a sorted map of the addresses, for many searches. It is not proved. Making it takes about twice as long
    /// as sorting a vector of the symbols (165,439 in any order).
    #[must_use]
    pub fn address_map(&self) -> AddressMap<'a> {
        AddressMap::of(*self)
    }

    /// Returns the first symbol with a name, which is a text or bytes, from an index on, and its index.
    ///
    /// ```
    /// # let bytes = std::fs::read(std::env::current_exe()?)?;
    /// # let elf = goblin_rs::Elf::parse(&bytes)?;
    /// # if let Some(symbols) = elf.syms()? {
    /// let mut first = 0;
    /// while let Some((index, symbol)) = symbols.symbol_by_name("main", first)? {
    ///     println!("{index}: {:x}", symbol.st_value);
    ///     first = index + 1;
    /// }
    /// # }
    /// # Ok::<(), Box<dyn std::error::Error>>(())
    /// ```
    ///
    /// # Errors
    /// If the string table is not inside the file.
    pub fn symbol_by_name(&self, name: impl AsRef<[u8]>, first: usize) -> Result<Option<(usize, Sym)>> {
        let (table, names, name) = (&self.range, &self.strtab.range, name.as_ref());
        let found = sys::goblin_symbol_by_name(&self.file, &self.header, table, names, name, first as u64)?;
        Ok(found.map(|(index, symbol)| (index as usize, symbol)))
    }
}

table!(Symtab of Sym, "symbol", "symbols", [raw::Symbol; 64]);

impl Batches<Sym> for Symtab<'_> {
    #[inline]
    fn item(&self, symbol: raw::Symbol) -> Sym {
        symbol.into()
    }

    #[inline]
    fn read(&self, index: u64) -> Result<Option<Sym>> {
        sys::goblin_symbol(&self.file, &self.header, &self.range, index)
    }

    fn fill(&self, first: u64, items: &mut [raw::Symbol]) -> Result<Option<u64>> {
        sys::goblin_symbols(&self.file, &self.header, &self.range, first, items)
    }
}

/// Returns the name of a binding, such as `GLOBAL`, or `UNKNOWN_STB`.
#[must_use]
pub fn bind_to_str(binding: u8) -> &'static str {
    name_of(BIND, binding.into())
}

/// Returns the name of a symbol's type, such as `FUNC`, or `UNKNOWN_STT`.
#[must_use]
pub fn type_to_str(type_: u8) -> &'static str {
    name_of(TYPE, type_.into())
}

/// Returns the name of a visibility, such as `HIDDEN`, or `UNKNOWN_STV`.
#[must_use]
pub fn visibility_to_str(visibility: u8) -> &'static str {
    name_of(VISIBILITY, visibility.into())
}
