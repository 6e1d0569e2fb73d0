//! Changes a flag of a section in a buffer: flag FILE SECTION
//!
//! It reads the file, turns over `SHF_WRITE` of the first section with that name, and prints the flags before and
//! after. The file stays as it is.
use goblin_rs::section_header::SHF_WRITE;
use goblin_rs::Elf;
use std::env;
use std::io::{self, Write};
use std::process::ExitCode;

mod common;

fn change(elf: &Elf, bytes: &[u8]) -> common::Result {
    let name = env::args_os().nth(2).unwrap_or_default();
    let name = name.to_string_lossy();
    let missing = || format!("there is no section {name}");
    let (index, mut section) = elf.section_by_name(&*name, 0)?.ok_or_else(missing)?;
    let before = section.sh_flags;
    section.sh_flags ^= SHF_WRITE;
    let mut bytes = bytes.to_vec();
    elf.header.put_section_header(&mut bytes, index, &section)?;
    let changed = Elf::parse(&bytes)?.section_header(index)?.ok_or_else(missing)?;
    Ok(writeln!(io::stdout(), "{name}: flags {before:#x}, now {:#x}", changed.sh_flags)?)
}

fn main() -> ExitCode {
    common::run("flag FILE SECTION", change)
}
