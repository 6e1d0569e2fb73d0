//! Lists the segments of an ELF file, each with the names of its sections.
use goblin_rs::program_header::pt_to_str;
use goblin_rs::Elf;
use std::io::{self, Write};
use std::process::ExitCode;

mod common;

fn list(elf: &Elf, _: &[u8]) -> common::Result {
    let mut out = io::BufWriter::new(io::stdout().lock());
    let (names, sections) = (elf.shdr_strtab()?, elf.section_map()?);
    for (index, segment) in elf.program_headers()?.iter().enumerate() {
        write!(out, "{index:02} {}", pt_to_str(segment.p_type))?;
        for section in sections.segment_sections(&segment) {
            write!(out, " {}", names.get(section.sh_name)?.unwrap_or(""))?;
        }
        writeln!(out)?;
    }
    Ok(out.flush()?)
}

fn main() -> ExitCode {
    common::run("segments FILE", list)
}
