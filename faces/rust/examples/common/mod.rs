//! What the examples share: how they are run, and how they report an error.
use goblin_rs::Elf;
use std::process::ExitCode;
use std::{env, error, ffi, fs};

pub type Result = std::result::Result<(), Box<dyn error::Error>>;

/// Runs an example with the file that is its first argument, and its bytes. `usage` has its name, and a word for each
/// argument.
pub fn run(usage: &str, example: fn(&Elf, &[u8]) -> Result) -> ExitCode {
    let words: Vec<&str> = usage.split(' ').collect();
    let path = match env::args_os().nth(1) {
        Some(path) if env::args_os().len() == words.len() => path,
        _ => {
            eprintln!("usage: {usage}");
            return ExitCode::from(2);
        }
    };
    match read(&path, example) {
        Ok(()) => ExitCode::SUCCESS,
        Err(why) => {
            eprintln!("{}: {}: {why}", words[0], path.to_string_lossy());
            ExitCode::FAILURE
        }
    }
}

fn read(path: &ffi::OsStr, example: fn(&Elf, &[u8]) -> Result) -> Result {
    let bytes = fs::read(path)?;
    example(&Elf::parse(&bytes)?, &bytes)
}
