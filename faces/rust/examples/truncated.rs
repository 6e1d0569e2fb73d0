//! Shows what is left of an ELF file that ends in its last section header: truncated FILE
//!
//! It reads the file, and then only as many bytes of it. One section header of such a file is not inside it, so
//! `section_headers` fails. `whole` returns a file with the others.
use goblin_rs::section_header::{section_header32, section_header64, sht_to_str};
use goblin_rs::Elf;
use std::io::{self, Write};
use std::process::ExitCode;

mod common;

fn list(elf: &Elf, bytes: &[u8]) -> common::Result {
    let mut out = io::stdout().lock();
    let count = elf.section_headers()?.len();
    if count == 0 {
        return Ok(writeln!(out, "no section headers")?);
    }
    let size = if elf.is_64() { section_header64::SIZEOF_SHDR } else { section_header32::SIZEOF_SHDR };
    let cut = Elf::parse(&bytes[..elf.header.e_shoff as usize + count * size - size / 2])?;
    if let Err(why) = cut.section_headers() {
        writeln!(out, "all headers: {why}")?;
    }
    let sections = cut.whole().section_headers()?;
    writeln!(out, "{} of {count} headers are whole", sections.len())?;
    for (index, section) in sections.iter().enumerate() {
        let left = match cut.readable_data(&section) {
            Some(left) => format!("{} of {} bytes", left.len(), section.sh_size),
            None => "no bytes".to_string(),
        };
        writeln!(out, "{index} {}: {left}", sht_to_str(section.sh_type))?;
    }
    Ok(())
}

fn main() -> ExitCode {
    common::run("truncated FILE", list)
}
