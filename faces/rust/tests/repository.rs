//! Tests this crate's source, and what it reads of the stored files. It is installed nowhere: it needs the repository.
use goblin_rs::reloc::RelocSection;
use goblin_rs::{Elf, Result};
use std::fs;
use std::path::Path;

/// Returns a value as the stored lines have it: `-` for none, and `!` if it is refused.
fn shown<T>(value: Result<T>, show: impl Fn(T) -> String) -> String {
    value.map_or_else(|_| "!".to_string(), show)
}

fn sums(relocs: RelocSection<'_>) -> String {
    let symbols: usize = relocs.iter().map(|reloc| reloc.r_sym).sum();
    let offsets: u64 = relocs.iter().map(|reloc| reloc.r_offset).sum();
    format!("{}/{offsets:x}/{symbols}", relocs.len())
}

/// Returns goblin's field of a file, as the stored lines have it.
fn field(elf: &Elf<'_>, name: &str) -> String {
    let count =
        |symbols: Option<goblin_rs::sym::Symtab<'_>>| symbols.map_or("-".into(), |symbols| symbols.len().to_string());
    let counts = |relocs: (usize, RelocSection<'_>)| format!("{}:{}", relocs.0, relocs.1.len());
    match name {
        "class" => if elf.is_64() { "64" } else { "32" }.to_string(),
        "order" => if elf.little_endian() { "little" } else { "big" }.to_string(),
        "object" => u8::from(elf.is_object_file()).to_string(),
        "lib" => shown(elf.is_lib(), |is_lib| u8::from(is_lib).to_string()),
        "entry" => format!("{:x}", elf.entry()),
        "segments" => shown(elf.program_headers(), |all| all.len().to_string()),
        "sections" => shown(elf.section_headers(), |all| all.len().to_string()),
        "syms" => shown(elf.syms(), count),
        "dynsyms" => shown(elf.dynsyms(), count),
        "dynrelas" => shown(elf.dynrelas(), sums),
        "dynrels" => shown(elf.dynrels(), sums),
        "plt" => shown(elf.pltrelocs(), sums),
        "shdr" => shown(elf.shdr_relocs(), |all| all.into_iter().map(counts).collect::<Vec<_>>().join(",")),
        "libraries" => shown(elf.libraries(), |names| names.join(",")),
        "rpaths" => shown(elf.rpaths(), |names| names.join(",")),
        "runpaths" => shown(elf.runpaths(), |names| names.join(",")),
        "soname" => shown(elf.soname(), |name| name.unwrap_or("").to_string()),
        "interpreter" => shown(elf.interpreter(), |path| path.unwrap_or("").to_string()),
        _ => panic!("no field {name}"),
    }
}

// The public fields of goblin's `Elf`, in its order.
const FIELDS: &str =
    "header program_headers section_headers shdr_strtab dynstrtab dynsyms syms strtab dynamic dynrelas \
    dynrels pltrelocs shdr_relocs soname interpreter libraries rpaths runpaths is_64 is_lib entry little_endian versym \
    verdef verneed";

#[test]
fn the_guide_names_each_field_of_goblin() {
    let guide = fs::read_to_string(Path::new(env!("CARGO_MANIFEST_DIR")).join("src/lib.rs")).unwrap();
    let table = guide.split("|field of goblin's `Elf`|here|\n").nth(1).unwrap().split("\n//!\n").next().unwrap();
    let named: Vec<_> = table.lines().skip(1).filter_map(|line| line.split('|').nth(1)).collect();
    let mut named: Vec<_> =
        named.iter().flat_map(|names| names.split(", ")).map(|name| name.trim_matches('`')).collect();
    let mut fields: Vec<_> = FIELDS.split(' ').collect();
    named.sort_unstable();
    fields.sort_unstable();
    assert_eq!(named, fields);
}

#[test]
fn fields_are_goblin_s() {
    let folder = Path::new(env!("CARGO_MANIFEST_DIR")).join("../../checks/files");
    let (mut found, mut wrong) = (0, Vec::new());
    for line in fs::read_to_string(folder.join("goblin")).unwrap().lines() {
        let mut words = line.split(' ');
        let path = words.next().unwrap();
        let bytes = fs::read(folder.join(path)).unwrap();
        let elf = Elf::parse(&bytes).unwrap();
        for (name, value) in words.map(|word| word.split_once('=').unwrap()) {
            found += 1;
            if field(&elf, name) != value {
                wrong.push(format!("{path}: {name} is {value}, and read as {}", field(&elf, name)));
            }
        }
    }
    assert!(wrong.is_empty(), "{wrong:#?}");
    assert!(found > 500, "{found} fields");
}

#[test]
fn build_ids_are_those_of_the_facts() {
    let folder = Path::new(env!("CARGO_MANIFEST_DIR")).join("../../checks/files");
    let facts = fs::read_to_string(folder.join("facts.json")).unwrap();
    let mut found = 0;
    for (path, fields) in facts.lines().filter_map(|line| line.strip_prefix('"')?.split_once("\": {")) {
        let bytes = fs::read(folder.join(path)).unwrap();
        let elf = Elf::parse(&bytes).unwrap();
        // (what is refused has no fact)
        let id = elf.build_id().unwrap_or(None);
        found += usize::from(id.is_some());
        let id: Option<String> = id.map(|id| id.iter().map(|byte| format!("{byte:02x}")).collect());
        let fact = format!("\"build_id\": {},", id.map_or("null".to_string(), |id| format!("{id:?}")));
        assert!(fields.contains(&fact), "{path}: {fact}");
        // (the symbols and the sections of a debug file can be read)
        let is_debug = fields.contains("\"debug file\"") && !path.contains("cut");
        assert!(!is_debug || (elf.syms().is_ok() && elf.section(".text").is_ok()), "{path}");
    }
    assert!(found > 10, "{found}");
}

/// Returns the name and the text of each source in a folder of the repository, without its subfolders.
fn sources(folder: &str) -> Vec<(String, String)> {
    let folder = Path::new(env!("CARGO_MANIFEST_DIR")).join("../..").join(folder);
    let files = fs::read_dir(folder).unwrap().map(|file| file.unwrap()).filter(|file| file.path().is_file());
    files.map(|file| (file.file_name().into_string().unwrap(), fs::read_to_string(file.path()).unwrap())).collect()
}

/// Returns the lines of a source that declare public types. Those that are generated are made public elsewhere, and the
/// types of `raw.rs` and `file.rs` are private to the crate.
fn declarations<'a>(name: &str, source: &'a str) -> Vec<(usize, &'a str)> {
    let words = ["pub struct ", "pub enum ", "pub trait ", "pub use crate::raw::", "pub use crate::generated::"];
    let declares = |line: &str| words.iter().any(|word| line.starts_with(word)) && !line.ends_with("::*;");
    let is_public = !["raw.rs", "file.rs", "generated.rs"].contains(&name);
    source.lines().enumerate().filter(|(_, line)| is_public && declares(line)).collect()
}

#[test]
fn each_type_has_an_example() {
    let mut found = 0;
    for (name, source) in sources("faces/rust/src") {
        let lines: Vec<_> = source.lines().map(str::trim).collect();
        for (number, declaration) in declarations(&name, &source) {
            let mut comment = lines[..number]
                .iter()
                .rev()
                .skip_while(|line| line.starts_with("#["))
                .take_while(|line| line.starts_with("///"));
            assert!(comment.any(|line| *line == "/// ```"), "{name}: {declaration}");
            found += 1;
        }
    }
    assert!(found >= 29, "{found} types");
}
