//! Lists the relocations of an ELF file: the name of each relocation section, and then a line for each relocation, with
//! its offset, the number of its type, the index and the name of its symbol, and its addend.
use goblin_rs::error::Result;
use goblin_rs::reloc::Reloc;
use goblin_rs::section_header::{SectionHeader, SHN_LORESERVE, SHN_XINDEX, SHT_SYMTAB_SHNDX};
use goblin_rs::sym::{Sym, Symtab, STT_SECTION};
use goblin_rs::Elf;
use std::collections::HashMap;
use std::io::{self, Write};
use std::process::ExitCode;

mod common;

/// The section of the indices that don't fit their symbols, for each table of symbols that has one.
type Indices = HashMap<u32, SectionHeader>;

/// Returns the index of the section of a relocation's symbol.
fn section_of(elf: &Elf, indices: Option<&SectionHeader>, reloc: &Reloc, symbol: &Sym) -> Result<Option<usize>> {
    if symbol.st_shndx != SHN_XINDEX {
        return Ok(Some(symbol.st_shndx).filter(|index| *index < SHN_LORESERVE));
    }
    let index = indices.map(|indices| elf.number_in(indices, 4 * reloc.r_sym as u64, 4)).transpose()?;
    Ok(index.flatten().map(|index| index as usize))
}

/// Returns the name of a relocation's symbol. The symbol of a section has the section's name.
fn name_of<'a>(
    elf: &Elf<'a>,
    indices: Option<&SectionHeader>,
    symbols: &Symtab<'a>,
    reloc: &Reloc,
) -> Result<&'a str> {
    let symbol = match symbols.get(reloc.r_sym) {
        Some(symbol) if reloc.r_sym != 0 => symbol,
        _ => return Ok(""),
    };
    let name = symbols.name(&symbol)?.unwrap_or("");
    if symbol.st_type() == STT_SECTION && name.is_empty() {
        let index = section_of(elf, indices, reloc, &symbol)?;
        return match index.map(|index| elf.section_header(index)).transpose()?.flatten() {
            Some(section) => Ok(elf.section_name(&section)?.unwrap_or("")),
            None => Ok(""),
        };
    }
    Ok(name)
}

fn list(elf: &Elf, _: &[u8]) -> common::Result {
    let mut out = io::BufWriter::new(io::stdout().lock());
    let sections = elf.section_headers()?;
    let of_indices = sections.iter().filter(|section| section.sh_type == SHT_SYMTAB_SHNDX);
    let indices: Indices = of_indices.map(|section| (section.sh_link, section)).collect();
    for (index, relocs) in elf.shdr_relocs()? {
        let section = sections.get(index).unwrap_or_default();
        writeln!(out, "{}:", elf.section_name(&section)?.unwrap_or(""))?;
        let linked = elf.section_header(section.sh_link as usize)?.filter(|_| section.sh_link != 0);
        let symbols = linked.map(|linked| elf.symtab(&linked)).transpose()?;
        let indices = indices.get(&section.sh_link);
        for reloc in &relocs {
            let name = symbols.as_ref().map_or(Ok(""), |symbols| name_of(elf, indices, symbols, &reloc))?;
            write!(out, "{:x} {} {} {}", reloc.r_offset, reloc.r_type, reloc.r_sym, name)?;
            match reloc.r_addend {
                Some(addend) if addend < 0 => writeln!(out, " - {:x}", addend.unsigned_abs())?,
                Some(addend) => writeln!(out, " + {:x}", addend)?,
                None => writeln!(out)?,
            }
        }
    }
    Ok(out.flush()?)
}

fn main() -> ExitCode {
    common::run("relocations FILE", list)
}
