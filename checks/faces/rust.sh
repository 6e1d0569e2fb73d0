#!/bin/sh
# Tests the crate of faces/rust: sh checks/faces/rust.sh FOLDER, after c.sh
# It runs the crate's tests, its examples over the files that made.c makes, cargo package and cargo doc, and clippy if the machine has it.
# The tests also run by the oldest Rust that the crate names, if the system has that. The examples truncated and flag must print what those
# in C print.
. checks/faces/shared.sh
export GOBLIN_C_LIB="$folder" CARGO_TARGET_DIR="$folder/target"
crate=faces/rust/Cargo.toml

if ! cargo --version > "$folder/output" 2>&1 || ! rustc --version > "$folder/output" 2>&1; then
    left_out "cargo or rustc is not installed, so the Rust crate is not tested"
    exit 0
fi
quietly cargo test --offline --manifest-path $crate
python3 faces/rust/generated.py --check
awk '/^test result: ok\. / { tests += $4 } END { print "the Rust crate passes " tests + 0 " tests"; exit tests < 60 }' "$folder/output"
# Names that nothing closes take little memory, whatever their number.
tests=$(find "$folder/target/debug/deps" -name 'files-*[!.]?')
quietly sh -c 'ulimit -v 262144 && exec "$@"' sh "$tests" reads_no_open_string_for_each_name
grep -q ' 1 passed' "$folder/output" || fail "the Rust crate has no test of such names: $(cat "$folder/output")"
# (cargo has built the examples with the tests)
for file in "$files"/* checks/files/made/x86_64_library; do
    "$folder/values" "$file" > "$folder/wanted"
    prints_wanted "$examples/symbols" "$file"
done
example() { (name=$1; shift; "$examples/$name" "$@"); }
try_examples symbols relocations needed segments truncated flag
for name in symbols relocations needed segments truncated flag; do
    case $name in flag) section=.text ;; *) section= ;; esac
    # shellcheck disable=SC2016 # (they are of the shell that is run)
    ends_with 1 "$name: *: No space left on device *" sh -c '"$@" > /dev/full' sh "$examples/$name" $program_file ${section:+"$section"}
done
# needed reads no name up to the end of strings that no zero byte closes. (It has 100,000 of them, of 8 MB each.)
python3 - "$folder/open" << 'END'
import struct, sys
names, size, start = 100000, 8000000, 64 + 2 * 56
strings = start + 16 * (names + 2)
header = struct.pack('<4s12B2HI3QI6H', b'\x7fELF', 2, 1, 1, *[0] * 9, 3, 62, 1, 0, 64, 0, 0, 64, 56, 2, 64, 0, 0)
segments = struct.pack('<2I6Q2I6Q', 1, 4, 0, 0, 0, strings + size, 0, 1, 2, 4, start, start, 0, strings - start, 0, 8)
entries = struct.pack(f'<{2 * names + 4}Q', *[word for name in range(names) for word in (1, name)], 5, strings, 10, size)
with open(sys.argv[1], 'wb') as file:
    file.write(header + segments + entries + b'a' * size)
END
for program in "$folder/needed" "$examples/needed"; do
    quietly timeout 20 "$program" "$folder/open"
    [ "$(grep -c '^needed: no zero byte' "$folder/output")" -eq 100000 ] || fail "needed lists other names: $(head -n 3 "$folder/output")"
done
# segments doesn't try each section for each segment. (It has 26,000 of both: the file begins with its headers.)
python3 - << 'END' > "$folder/many"
import struct, sys
count = 26000
header = struct.pack('<4s12B2HI3QI6H', b'\x7fELF', 2, 1, 1, *[0] * 9, 3, 62, 1, 0, 64 + 64 * count, 64, 0, 64, 56, count, 64, count, 0)
starts = [index if index % 2 else 1000000 + index for index in range(count + 1)]
sections = [struct.pack('<2I4Q2I2Q', 0, 1, 2, starts[index + 1], starts[index], 1, 0, 0, 1, 0) for index in range(count)]
sys.stdout.buffer.write(header + b''.join(sections) + struct.pack('<2I6Q', 1, 4, 0, 0, 0, count, count, 1) * count)
END
quietly timeout 10 "$examples/segments" "$folder/many"
[ "$(grep -c '^[0-9]* PT_LOAD$' "$folder/output")" -eq 26000 ] || fail "segments lists other segments: $(head -n 3 "$folder/output")"
oldest=$(awk -F '"' '/^rust-version = / { print $2 }' $crate)
if /usr/bin/rustc --version 2> "$folder/output" | grep -qF "rustc $oldest."; then
    quietly env PATH=/usr/bin:/bin CARGO_TARGET_DIR="$folder/oldest" /usr/bin/cargo test --offline --manifest-path $crate
    echo "the Rust crate passes its tests by Rust $oldest"
else
    left_out "/usr/bin/rustc is another one than Rust $oldest or missing, so the Rust crate is not tested by it"
fi
# (it links no library for Linux on another system)
quietly env CARGO_PKG_VERSION="$version" rustc --edition 2021 -o "$folder/script" faces/rust/build.rs
ends_with 0 "*looked for in GOBLIN_C_LIB=$folder: it isn't made for this platform
cargo:warning=it is made for Linux on x86_64 and on aarch64 alone
*" env CARGO_CFG_TARGET_ARCH=x86_64 CARGO_CFG_TARGET_OS=windows "$folder/script"
ends_with 0 "*link-search=native=$folder*" env CARGO_CFG_TARGET_ARCH=x86_64 CARGO_CFG_TARGET_OS=android "$folder/script"
# It says of a library that can't be linked why: in a folder that cargo can't name, of another processor, empty, cut within its list of names,
# and one that is no file.
faulty() {
    ends_with 0 "*looked for in GOBLIN_C_LIB=$folder/*faults: $2
*" env GOBLIN_C_LIB="$faults" CARGO_CFG_TARGET_ARCH="$1" CARGO_CFG_TARGET_OS=linux "$folder/script"
}
faults=$folder/$(printf '\351')faults
mkdir "$faults"
cp "$folder/libgoblin_c.a" "$faults/"
faulty x86_64 "the folder's name isn't UTF-8, which cargo needs"
mv "$faults" "$folder/faults"
faults=$folder/faults
faulty aarch64 'it is for another processor'
for size in 0 100; do
    head -c $size "$folder/libgoblin_c.a" > "$folder/faults/libgoblin_c.a"
    faulty x86_64 'it has no object file'
done
rm "$folder/faults/libgoblin_c.a"
faulty x86_64 "it isn't there"
mkdir "$folder/faults/libgoblin_c.a"
faulty x86_64 "it can't be read"
cp -R faces/rust "$folder/copied"
quietly env -u GOBLIN_C_LIB PKG_CONFIG_LIBDIR="$folder" cargo check --offline --manifest-path "$folder/copied/Cargo.toml"
awk '/looked for in/ { wrong++ } /no folder beside this crate was looked in: it is a copy/ { said++ } END { exit wrong || !said }' "$folder/output" \
    || fail "a copied crate should say that it looks in no folder beside it, and prints: $(cat "$folder/output")"
# Without the feature std a program without an operating system links it, which then has its own allocator, and its own end of a panic.
mkdir -p "$folder/bare/src"
printf '[package]\nname = "bare"\nversion = "1.0.0"\nedition = "2021"\n[lib]\ncrate-type = ["staticlib"]\n[profile.dev]\npanic = "abort"\n' \
    > "$folder/bare/Cargo.toml"
printf '[dependencies]\ngoblin_rs = { path = "../copied", default-features = false }\n' >> "$folder/bare/Cargo.toml"
cat > "$folder/bare/src/lib.rs" << 'END'
#![no_std]
use core::alloc::{GlobalAlloc, Layout};

struct Empty;

unsafe impl GlobalAlloc for Empty {
    unsafe fn alloc(&self, _: Layout) -> *mut u8 { core::ptr::null_mut() }
    unsafe fn dealloc(&self, _: *mut u8, _: Layout) {}
}

#[global_allocator]
static EMPTY: Empty = Empty;

#[panic_handler]
fn end(_: &core::panic::PanicInfo<'_>) -> ! { loop {} }

#[no_mangle]
pub extern "C" fn is_program() -> bool { goblin_rs::Elf::parse(b"\x7fELF").and_then(|elf| elf.is_lib()) == Ok(false) }
END
# (earlier ones ask such a program for a handler that only an unstable feature makes)
if [ "$(rustc -V | sed 's/rustc 1\.\([0-9]*\).*/\1/')" -ge 68 ]; then
    quietly cargo build --offline --manifest-path "$folder/bare/Cargo.toml"
else
    left_out 'rustc is older than 1.68, so no program without an operating system is built'
fi
# It compares the interface of the library before each first call.
if has objcopy 'no library of another interface is linked'; then
    mkdir "$folder/other"
    objcopy --redefine-sym goblin_version=own_version "$folder/libgoblin_c.a" "$folder/other/libgoblin_c.a"
    cat > "$folder/copied/examples/other.rs" << 'END'
use goblin_rs::{header::Header, reloc::RelocSection, strtab::Strtab, Elf};

fn main() {
    let calls: [fn(); 4] = [
        || _ = Elf::parse(&[]),
        || _ = Header::default().put(&mut []),
        || _ = RelocSection::default().get(0),
        || _ = Strtab::default().get(0),
    ];
    for (index, call) in calls.iter().enumerate() {
        assert!(std::panic::catch_unwind(call).is_err(), "call {index} does not panic");
    }
}
END
    interface=$(awk '$2 == "GOBLIN_VERSION" { print $3 }' faces/c/goblin.h)
    for other in $((interface - 1)) $((interface + 1)); do
        echo "unsigned goblin_version(void) { return $other; }" > "$folder/other/version.c"
        quietly cc -c -o "$folder/other/version.o" "$folder/other/version.c"
        quietly ar r "$folder/other/libgoblin_c.a" "$folder/other/version.o"
        quietly env GOBLIN_C_LIB="$folder/other" cargo run --offline --example other --manifest-path "$folder/copied/Cargo.toml"
        [ "$(grep -c 'has another interface' "$folder/output")" -eq 4 ] || fail "interface $other is not reported: $(cat "$folder/output")"
    done
fi
# It finds the library of its own version alone by pkg-config, in any folder, and is then compiled once.
if has pkg-config 'no library is looked for by it'; then
    mkdir "$folder/a folder"
    cp "$folder/libgoblin_c.a" "$folder/a folder/"
    by_pkg_config() {
        # shellcheck disable=SC2016 # (it is pkg-config's)
        printf 'libdir=${pcfiledir}\nName: goblin_c\nDescription: -\nVersion: %s\n' "$1" > "$folder/a folder/goblin_c.pc"
        quietly env -u GOBLIN_C_LIB PKG_CONFIG_LIBDIR="$folder/a folder" cargo "$2" --offline --manifest-path "$folder/copied/Cargo.toml"
    }
    by_pkg_config "$version.1" check
    grep -qF "it finds no goblin_c $version" "$folder/output" || fail "a library of another version is taken: $(cat "$folder/output")"
    by_pkg_config "$version" build
    ! grep -q 'looked for' "$folder/output" || fail "pkg-config's library is not found: $(cat "$folder/output")"
    quietly env -u GOBLIN_C_LIB PKG_CONFIG_LIBDIR="$folder/a folder" cargo build --offline --manifest-path "$folder/copied/Cargo.toml"
    ! grep -q Compiling "$folder/output" || fail "the crate is compiled again: $(cat "$folder/output")"
fi
# It finds the library that it is installed with, also after both were moved, and by a symbolic link.
mkdir -p "$folder/installed/lib" "$folder/installed/share/goblin_c"
cp "$folder/libgoblin_c.a" "$folder/installed/lib/"
cp -R faces/rust "$folder/installed/share/goblin_c/rust"
for place in installed/share/goblin_c/rust moved/share/goblin_c/rust linked; do
    case $place in moved*) mv "$folder/installed" "$folder/moved" ;; linked) ln -s moved/share/goblin_c/rust "$folder/linked" ;; esac
    quietly env -u GOBLIN_C_LIB -u CARGO_TARGET_DIR PKG_CONFIG_LIBDIR="$folder" cargo build --offline --example symbols \
        --manifest-path "$folder/$place/Cargo.toml"
done
# It passes its own tests where goblin.h is not beside it, as in a package.
quietly cargo package --offline --allow-dirty --manifest-path $crate
quietly cargo test --offline --tests --manifest-path "$folder/target/package/goblin_rs-$version/Cargo.toml"
# The lints of Rust 1.95 and before are errors. What a later one finds is printed. (rustdoc and clippy have rustc's version.)
deny=
[ "$(rustc --version | sed 's/^rustc 1[.]\([0-9]*\)[.].*/\1/')" -gt 95 ] || deny=-Dwarnings
quietly env RUSTDOCFLAGS="$deny" cargo doc --offline --manifest-path $crate
sed -n '/^warning/,/^$/p' "$folder/output"
if cargo clippy --version > "$folder/output" 2>&1; then
    quietly cargo clippy --offline --all-targets --manifest-path $crate -- -Wclippy::correctness -Wclippy::missing_errors_doc -Aunknown_lints $deny
    sed -n '/^warning/,/^$/p' "$folder/output"
    echo "rust: clippy reports no lint"
else
    left_out "clippy is not installed, so it doesn't read the Rust crate"
fi
