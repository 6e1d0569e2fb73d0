//! Lists what an ELF file needs of the dynamic linker, its soname and its search paths: needed FILE
use goblin_rs::dynamic::{DT_NEEDED, DT_RPATH, DT_RUNPATH, DT_SONAME};
use goblin_rs::program_header::PT_INTERP;
use std::ffi::CStr;
use std::io::{self, Write};

mod common;

/// Prints a string, which need not be UTF-8, after its name, or says that it has no end, which a loader needs.
fn print(name: &str, string: Option<&CStr>, offset: u64) -> common::Result {
    match string {
        Some(string) => io::stdout().write_all(&[name.as_bytes(), b" ", string.to_bytes(), b"\n"].concat())?,
        None => writeln!(io::stdout(), "{name}: no zero byte closes a string at offset {offset}")?,
    }
    Ok(())
}

fn main() -> std::process::ExitCode {
    common::run("needed FILE", |elf, _| {
        let interpreter = elf.program_headers()?.iter().find(|segment| segment.p_type == PT_INTERP);
        if let Some(segment) = interpreter.filter(|segment| segment.p_filesz > 0) {
            print("interpreter", elf.strtab(&segment).get_c_str(0)?, 0)?;
        }
        if let Some(dynamic) = elf.dynamic()? {
            let names = [(DT_NEEDED, "needed"), (DT_SONAME, "soname"), (DT_RPATH, "rpath"), (DT_RUNPATH, "runpath")];
            // (each string past the last zero byte would be read up to the end of the table)
            let strings = dynamic.strings()?.unwrap_or_default().closed()?;
            for entry in dynamic.entries() {
                if let Some((_, name)) = names.iter().find(|(tag, _)| *tag == entry.d_tag) {
                    print(name, strings.get_c_str(entry.d_val as usize)?, entry.d_val)?;
                }
            }
        }
        Ok(())
    })
}
