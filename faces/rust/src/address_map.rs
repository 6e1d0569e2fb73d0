//! A sorted map of the addresses of symbols.
use crate::header::ET_REL;
use crate::section_header::{SectionHeader, SHN_LORESERVE, SHN_UNDEF, SHN_XINDEX};
use crate::sym::{Sym, Symtab, STT_FUNC, STT_GNU_IFUNC, STT_NOTYPE, STT_OBJECT};
use alloc::collections::BinaryHeap;
use alloc::vec::Vec;

/// A sorted map of the addresses of a symbol table, for many searches. It finds what [`Symtab::symbol_by_address`]
/// does, in a time that grows with the logarithm of the number of symbols. It is sorted by Rust's own sort, and is not
/// part of the library: it is compared with that call, but not proved.
///
/// ```
/// # let bytes = std::fs::read(std::env::current_exe()?)?;
/// let elf = goblin_rs::Elf::parse(&bytes)?;
/// if let Some(symbols) = elf.syms()? {
///     let map = symbols.address_map();
///     for address in [elf.entry(), elf.entry() + 4] {
///         if let Some((_, symbol)) = map.symbol_by_address(address) {
///             println!("{address:x} {}+{:#x}", symbols.name(&symbol)?.unwrap_or("?"), address - symbol.st_value);
///         }
///         assert_eq!(map.symbol_by_address(address), symbols.symbol_by_address(address));
///     }
/// }
/// # Ok::<(), Box<dyn std::error::Error>>(())
/// ```
#[derive(Clone, Debug)]
pub struct AddressMap<'a> {
    symbols: Symtab<'a>,
    // The addresses at which the result changes, in order, each with the index of the symbol from there on.
    pieces: Vec<(u64, Option<usize>)>,
}

impl<'a> AddressMap<'a> {
    pub(crate) fn of(symbols: Symtab<'a>) -> Self {
        let holders = Holders::of(&symbols);
        // the symbols that count, each with its size and its section, and those of them whose section begins after
        // their value, by its first address
        let (mut counted, mut early) = (Vec::new(), Vec::new());
        for (index, symbol) in symbols.iter().enumerate().filter(|(_, symbol)| may_contain(symbol)) {
            let rank = Rank::of(index, &symbol);
            counted.push((rank, symbol.st_size, symbol.st_shndx));
            let held = holders.range(symbol.st_value, symbol.st_shndx).filter(|(first, _)| *first > rank.value);
            early.extend(held.map(|(first, last)| (first, rank, last)));
        }
        counted.sort_unstable_by_key(|(rank, _, _)| *rank);
        early.sort_unstable();
        let mut sweep = Sweep { pieces: Vec::with_capacity(2 * counted.len()), ..Sweep::default() };
        let (mut counted, mut early) = (counted.into_iter().peekable(), early.into_iter().peekable());
        let mut next = counted.peek().map(|(rank, _, _)| rank.value);
        while let Some(start) = next {
            while let Some((rank, size, section)) = counted.next_if(|(rank, _, _)| rank.value == start) {
                sweep.begin(rank, size, holders.range(start, section));
            }
            while let Some((_, rank, last)) = early.next_if(|(first, _, _)| *first == start) {
                sweep.early.push((rank, last));
            }
            let (of_counted, of_early) =
                (counted.peek().map(|(rank, _, _)| rank.value), early.peek().map(|place| place.0));
            next = of_counted.into_iter().chain(of_early).min();
            sweep.note(start, next);
        }
        AddressMap { symbols, pieces: sweep.pieces }
    }

    /// Returns the symbol of an address, and its index, as [`Symtab::symbol_by_address`] does.
    #[must_use]
    pub fn symbol_by_address(&self, address: u64) -> Option<(usize, Sym)> {
        let after = self.pieces.partition_point(|piece| piece.0 <= address);
        let index = self.pieces[..after].last()?.1?;
        Some((index, self.symbols.get(index)?))
    }
}

// What decides between two symbols whose section holds an address: the higher value, then the size 0, and then the
// lower index. The last two are one number, whose highest bit is set for the size 0.
#[derive(Clone, Copy, PartialEq, Eq, PartialOrd, Ord)]
struct Rank {
    value: u64,
    order: u64,
}

const LABEL: u64 = 1 << 63;

impl Rank {
    fn of(index: usize, symbol: &Sym) -> Self {
        let order = LABEL - 1 - index as u64;
        Rank { value: symbol.st_value, order: if symbol.st_size == 0 { LABEL | order } else { order } }
    }

    fn is_label(self) -> bool {
        self.order & LABEL != 0
    }

    fn index(self) -> usize {
        (LABEL - 1 - (self.order & !LABEL)) as usize
    }
}

// The first and the last address that each section holds, if it holds some.
struct Holders(Vec<Option<(u64, u64)>>);

impl Holders {
    fn of(symbols: &Symtab<'_>) -> Self {
        let is_object = symbols.header.e_type == ET_REL;
        let range = |section: SectionHeader| {
            let start = if is_object { 0 } else { section.is_alloc().then_some(section.sh_addr)? };
            Some((start, start.saturating_add(section.sh_size.checked_sub(1)?)))
        };
        Holders((0..SHN_LORESERVE).map_while(|index| symbols.section(index)).map(range).collect())
    }

    // Returns the first and the last address from a symbol's own on that its section holds.
    fn range(&self, value: u64, section: usize) -> Option<(u64, u64)> {
        let (first, last) = self.0.get(section).copied().flatten()?;
        Some((first.max(value), last)).filter(|(first, last)| first <= last)
    }
}

// What is known of the symbols at an address, while all addresses are passed in order.
#[derive(Default)]
struct Sweep {
    // The symbols that contain the address, each with its last address. The topmost one has the highest value, and is
    // the first of those with the same one. Those below end later, or have ended.
    sized: Vec<(u64, usize)>,
    // Those whose section holds the address, each with the last one that it holds, in the same way by their rank.
    held: Vec<(u64, Rank)>,
    // Those of these whose section begins after their value: their rank may be below that of the topmost one.
    early: BinaryHeap<(Rank, u64)>,
    pieces: Vec<(u64, Option<usize>)>,
}

impl Sweep {
    // Adds a symbol at its value. It has a higher rank than those that were added before.
    fn begin(&mut self, rank: Rank, size: u64, held: Option<(u64, u64)>) {
        if size > 0 {
            let last = rank.value.saturating_add(size - 1);
            while self.sized.last().map_or(false, |below| below.0 <= last) {
                self.sized.pop();
            }
            self.sized.push((last, rank.index()));
        }
        if let Some((_, last)) = held.filter(|(first, _)| *first == rank.value) {
            while self.held.last().map_or(false, |below| below.0 <= last) {
                self.held.pop();
            }
            self.held.push((last, rank));
        }
    }

    // Notes which symbol is at each address from one on, up to another one that is left out, or to the last address.
    fn note(&mut self, mut from: u64, end: Option<u64>) {
        loop {
            let (index, last) = self.at(from);
            if self.pieces.last().map_or(index.is_some(), |piece| piece.1 != index) {
                self.pieces.push((from, index));
            }
            from = match last.and_then(|last| last.checked_add(1)) {
                Some(next) if end.map_or(true, |end| next < end) => next,
                _ => return,
            };
        }
    }

    // Returns the index of the symbol at an address, and the last address at which what decides on it is the same.
    fn at(&mut self, address: u64) -> (Option<usize>, Option<u64>) {
        while self.sized.last().map_or(false, |(last, _)| *last < address) {
            self.sized.pop();
        }
        while self.held.last().map_or(false, |(last, _)| *last < address) {
            self.held.pop();
        }
        while self.early.peek().map_or(false, |(_, last)| *last < address) {
            self.early.pop();
        }
        if let Some((last, index)) = self.sized.last() {
            return (Some(*index), Some(*last));
        }
        let held = self.held.last().map(|(last, rank)| (*rank, *last)).max(self.early.peek().copied());
        held.map_or((None, None), |(rank, last)| (rank.is_label().then(|| rank.index()), Some(last)))
    }
}

// Reports whether a symbol counts: it is of a section, and has a type whose value is an address.
fn may_contain(symbol: &Sym) -> bool {
    let is_placed = (symbol.st_shndx != SHN_UNDEF && symbol.st_shndx < SHN_LORESERVE) || symbol.st_shndx == SHN_XINDEX;
    is_placed && [STT_NOTYPE, STT_OBJECT, STT_FUNC, STT_GNU_IFUNC].contains(&symbol.st_type())
}
