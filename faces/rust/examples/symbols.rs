//! Lists the value and the name of each symbol of an ELF file, first of those for dynamic linking.
use goblin_rs::Elf;
use std::io::{self, Write};
use std::process::ExitCode;
use std::{env, error, ffi, fs};

fn list(path: &ffi::OsStr) -> Result<(), Box<dyn error::Error>> {
    let bytes = fs::read(path)?;
    let elf = Elf::parse(&bytes)?;
    for symbols in [elf.dynsyms()?, elf.syms()?].iter().flatten() {
        for symbol in symbols {
            writeln!(io::stdout(), "{:x} {}", symbol.st_value, symbols.name(&symbol)?.unwrap_or(""))?;
        }
    }
    Ok(())
}

fn main() -> ExitCode {
    let path = match env::args_os().nth(1) {
        Some(path) => path,
        None => {
            eprintln!("usage: symbols FILE");
            return ExitCode::from(2);
        }
    };
    match list(&path) {
        Ok(()) => ExitCode::SUCCESS,
        Err(why) => {
            eprintln!("symbols: {}: {why}", path.to_string_lossy());
            ExitCode::FAILURE
        }
    }
}
