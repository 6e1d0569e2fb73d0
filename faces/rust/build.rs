//! Links libgoblin_c.a. It looks in the folder that GOBLIN_C_LIB names; a relative name starts from the folder of this
//! file. Without GOBLIN_C_LIB it looks in the libraries of a crate from a registry, where the library is installed with
//! this crate, or where `rt lib` puts it in the repository, and where pkg-config finds it. Beside a copy of this crate
//! elsewhere it doesn't look. It skips a library for another platform.
//!
//! If it finds none, it warns, and says where it looked and how to get the library. Only linking needs the library:
//! without it `cargo check`, `cargo clippy` and `cargo doc` succeed, and a build ends with rustc's error that the
//! native static library is missing.
use std::env;
use std::fs;
use std::path::{Path, PathBuf};
use std::process::Command;

const LIBRARY: &str = "libgoblin_c.a";
const TO_LIB: &str = "GOBLIN_C_LIB to its lib";
const VERSION: &str = env!("CARGO_PKG_VERSION");
const PATH: &str = "PKG_CONFIG_PATH names the folder of goblin_c.pc";
const COPIED: &str = "it is a copy, outside of its installation and its repository";

/// The platforms that the library is made for, each with its `e_machine`. (Windows passes arguments in other registers,
/// and macOS links no ELF file.)
const MACHINES: [(&str, u16); 2] = [("x86_64-linux", 62), ("aarch64-linux", 183)];

fn machine_of(platform: &str) -> Option<u16> {
    MACHINES.iter().find(|(other, _)| *other == platform).map(|(_, machine)| *machine)
}

/// Returns why the library in a folder can't be linked for a platform, if it can't. It reads its first object file.
fn fault(folder: &Path, platform: &str) -> Option<&'static str> {
    if folder.to_str().is_none() {
        return Some("the folder's name isn't UTF-8, which cargo needs");
    }
    let library = folder.join(LIBRARY);
    let bytes = match fs::read(&library) {
        Ok(bytes) => bytes,
        Err(_) if library.exists() => return Some("it can't be read"),
        Err(_) => return Some("it isn't there"),
    };
    let machine = match machine_of(platform) {
        Some(machine) => machine,
        None => return Some("it isn't made for this platform"),
    };
    let header = bytes.windows(4).position(|magic| magic == b"\x7fELF");
    match header.and_then(|start| bytes[start..].get(18..20)) {
        None => Some("it has no object file"),
        Some(other) if other != machine.to_le_bytes() => Some("it is for another processor"),
        Some(_) => None,
    }
}

/// Returns the folder that pkg-config finds of the library of this version. (A space is printed after a backslash.)
fn from_pkg_config() -> Option<PathBuf> {
    let package = concat!("goblin_c = ", env!("CARGO_PKG_VERSION"));
    let output = Command::new("pkg-config").args(["--variable=libdir", package]).output().ok()?;
    let folder = String::from_utf8(output.stdout).ok()?;
    Some(PathBuf::from(folder.trim_end().replace("\\ ", " "))).filter(|_| output.status.success())
}

/// Returns the value of GOBLIN_C_LIB, if it is set and not empty.
fn named() -> Option<PathBuf> {
    env::var_os("GOBLIN_C_LIB").filter(|folder| !folder.is_empty()).map(PathBuf::from)
}

/// Returns the folder of this file, which may have been moved since this program was compiled.
fn here() -> PathBuf {
    PathBuf::from(env::var_os("CARGO_MANIFEST_DIR").unwrap_or_default())
}

/// Returns the folders to look in. They are absolute, since rustc may run in another folder than this program.
fn folders(platform: &str) -> Vec<PathBuf> {
    let here = &here();
    if let Some(folder) = named() {
        return vec![here.join(folder)];
    }
    beside(here, platform).into_iter().chain(from_pkg_config()).collect()
}

/// Returns the library's folder, if this crate has libraries, or is where it is installed with the library, or in the
/// repository. (Its name may be a symbolic link.)
fn beside(here: &Path, platform: &str) -> Option<PathBuf> {
    let here = fs::canonicalize(here).ok()?;
    let above = |levels| here.ancestors().nth(levels);
    let own = Some(here.join("libraries")).filter(|folder| folder.is_dir()).map(|folder| folder.join(platform));
    let installed = above(3).filter(|_| here.ends_with("share/goblin_c/rust")).map(|folder| folder.join("lib"));
    let sources = above(2).map(|folder| folder.join("crates/goblin_c")).filter(|folder| folder.is_dir());
    own.or(installed).or(sources.map(|folder| folder.join("out")))
}

/// Warns that the library is missing, and says where it was looked for and how to get it.
fn warn(folders: &[PathBuf], platform: &str) {
    let by = match named() {
        Some(folder) if folder.is_relative() => format!("GOBLIN_C_LIB={}, which is ", folder.display()),
        Some(_) => "GOBLIN_C_LIB=".to_string(),
        None => String::new(),
    };
    println!("cargo:warning={} is missing for {}: linking this crate will fail", LIBRARY, platform);
    for folder in folders {
        let fault = fault(folder, platform).unwrap_or_default();
        println!("cargo:warning=looked for in {}{}: {}", by, folder.display(), fault);
    }
    if named().is_none() && from_pkg_config().is_none() {
        println!("cargo:warning=looked for by pkg-config: it finds no goblin_c {}; {}", VERSION, PATH);
    }
    if named().is_none() && beside(&here(), platform).is_none() {
        println!("cargo:warning=no folder beside this crate was looked in: {}", COPIED);
    }
    if machine_of(platform).is_none() {
        println!("cargo:warning=it is made for Linux on x86_64 and on aarch64 alone");
        return;
    }
    let target = platform.replace('-', "-unknown-") + "-gnu";
    let archive = format!("goblin_c-{}-{}.tar.gz", VERSION, target);
    println!("cargo:warning=to get it, unpack {}: use its share/goblin_c/rust, or set {}", archive, TO_LIB);
    println!("cargo:warning=in the repository of goblin_c, `make dist TARGET={}` makes that archive", target);
}

/// Makes src/generated.rs, if this crate is in its repository. Elsewhere it has the file.
fn generate() {
    let (here, script) = (here(), "../constants.py");
    if here.join(script).exists() {
        let crates = ["headers/src", "records/src", "dynamic/src", "names/stdout"];
        let sources = crates.iter().map(|source| format!("../../crates/goblin_{}", source));
        let others = [script, "generated.py", "../other_constants.rs", "../c/goblin.h"];
        for source in sources.chain(others.map(String::from)) {
            println!("cargo:rerun-if-changed={}", here.join(source).display());
        }
        let ended = Command::new("python3").arg(here.join("generated.py")).status();
        assert!(ended.map_or(false, |status| status.success()), "src/generated.rs is made by python3, which failed");
    }
}

fn main() {
    generate();
    println!("cargo:rerun-if-env-changed=GOBLIN_C_LIB");
    println!("cargo:rerun-if-env-changed=PKG_CONFIG_PATH");
    println!("cargo:rerun-if-env-changed=PKG_CONFIG_LIBDIR");
    let of_target = |part| env::var(format!("CARGO_CFG_TARGET_{}", part)).unwrap_or_default();
    // (Android is Linux, too)
    let platform = of_target("ARCH") + "-" + &of_target("OS").replace("android", "linux");
    let folders = folders(&platform);
    let found = folders.iter().find(|folder| fault(folder, &platform).is_none());
    for library in folders.iter().map(|folder| folder.join(LIBRARY)) {
        // (cargo compiles all anew as long as one that is named isn't there)
        if found.is_none() || library.exists() {
            println!("cargo:rerun-if-changed={}", library.display());
        }
    }
    match found {
        Some(folder) => println!("cargo:rustc-link-search=native={}", folder.display()),
        None => {
            // (beside this file it is never, so cargo looks again with each build)
            println!("cargo:rerun-if-changed={}", LIBRARY);
            warn(&folders, &platform);
        }
    }
    println!("cargo:rustc-link-lib=static=goblin_c");
}
