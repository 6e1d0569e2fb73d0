//! The names of numbers, by the tables that are generated of the library's.

/// Returns the name of a number by a table whose lines have the names of their numbers and of those up to the next one.
pub fn name_of(table: &[(u32, &'static str)], number: u32) -> &'static str {
    let after = table.partition_point(|(first, _)| *first <= number);
    // (each table begins at 0)
    table[after - 1].1
}

#[cfg(test)]
mod tests {
    use crate::generated::ALL;
    use crate::header::{class_to_str, et_to_str, machine_to_str};
    use crate::note::Note;
    use crate::program_header::pt_to_str;
    use crate::section_header::{shf_to_str, sht_to_str};
    use crate::sym::{bind_to_str, type_to_str, visibility_to_str};
    use crate::sys;
    use std::collections::HashMap;
    use std::path::Path;
    use std::prelude::v1::*;
    use std::{format, fs};

    // Returns the lines of a table of the repository, if this crate is there, each as two words.
    fn table(path: &str) -> Vec<(String, String)> {
        let crates = Path::new(env!("CARGO_MANIFEST_DIR")).join("../..");
        if !crates.join("faces/constants.py").exists() {
            return Vec::new();
        }
        let pair = |line: &str| line.split_once(' ').map(|(one, other)| (one.to_string(), other.to_string()));
        fs::read_to_string(crates.join(path)).unwrap().lines().filter_map(pair).collect()
    }

    #[test]
    fn constants_are_the_library_s_and_the_standard_s() {
        let all = ALL.iter().map(|(path, value)| (path.to_string(), format!("{value:?}")));
        let mut ours: HashMap<_, _> = all.collect();
        assert_eq!(ours.len(), ALL.len());
        // (glibc's elf.h has these names, too, and these numbers)
        for (name, number) in table("checks/files/elf_constants") {
            let number = u64::from_str_radix(number.trim_start_matches("0x"), 16).unwrap().to_string();
            let named = ours.iter().filter(|(path, _)| path.rsplit("::").next() == Some(&name));
            assert!(named.map(|(_, value)| value).eq([&number]), "{name} is {number}");
        }
        for (path, value) in table("crates/goblin_names/stdout").into_iter().filter(|(path, _)| path.contains("::")) {
            let path = path.replace("tags::", "dynamic::").replace("entry::", "dynamic::");
            let path = path.replace("whole_part::", "program_header::");
            assert_eq!(ours.remove(&path), Some(value), "{path}");
        }
        assert!(table("crates/goblin_names/stdout").is_empty() || ours.keys().all(|path| path.starts_with("other::")));
    }

    // Asserts that a name is the text that the library writes.
    fn is_written(name: &str, write: impl Fn(&mut [u8]) -> usize) {
        let mut text = [0; 64];
        let len = write(&mut text);
        assert_eq!(std::str::from_utf8(&text[..len]), Ok(name));
    }

    #[test]
    fn names_are_the_library_s() {
        for number in 0..=u16::MAX {
            is_written(machine_to_str(number), |text| sys::goblin_machine_to_str(number, text));
            is_written(et_to_str(number), |text| sys::goblin_et_to_str(number, text));
            let near = [0, 0x6000_0000, 0x6474_e000, 0x6fff_0000, 0x7000_0000, 0x7fff_0000, 0x8000_0000, 0x8fff_0000];
            for number in near.map(|start| start + u32::from(number)) {
                is_written(pt_to_str(number), |text| sys::goblin_pt_to_str(number, text));
                is_written(sht_to_str(number), |text| sys::goblin_sht_to_str(number, text));
                is_written(shf_to_str(number.into()), |text| sys::goblin_shf_to_str(number.into(), text));
            }
        }
        for number in 0..=u8::MAX {
            is_written(class_to_str(number), |text| sys::goblin_class_to_str(number, text));
            is_written(bind_to_str(number), |text| sys::goblin_bind_to_str(number, text));
            is_written(type_to_str(number), |text| sys::goblin_type_to_str(number, text));
            is_written(visibility_to_str(number), |text| sys::goblin_visibility_to_str(number, text));
        }
        for bit in 0..32 {
            is_written(shf_to_str(1 << bit), |text| sys::goblin_shf_to_str(1 << bit, text));
        }
        for name in ["GNU", "CORE", "core", ""] {
            // (the last one is `NT_SIGINFO`, of core files)
            for n_type in (0..256).chain([0x5349_4748, 0x5349_4749, 0x5349_474a, u32::MAX]) {
                let note = Note { n_type, name, desc: b"" };
                is_written(note.type_to_str(), |t| sys::goblin_note_type_to_str(name.as_bytes(), n_type, t));
            }
        }
    }
}
