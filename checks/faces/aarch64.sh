#!/bin/sh
# Tests the library for aarch64, called from C in an emulator: sh checks/faces/aarch64.sh FOLDER, after c.sh
# Its lists of the files that made.c makes and of two of its own programs, and the sum of nearly all its results for damaged files, must be
# those of the library for x86-64. The emulated processor has only the first version of the architecture, ARMv8.0. Then the archive is tested.
. checks/faces/shared.sh
target=aarch64-unknown-linux-gnu
other=$folder/aarch64

has aarch64-linux-gnu-gcc 'the library for aarch64 is not tested' || exit 0
has qemu-aarch64 'the library for aarch64 is not tested' || exit 0
mkdir "$other"
quietly make_library $target "$other"
check_axioms
for program in layout damaged $c_examples; do
    strictly aarch64-linux-gnu-gcc -static -std=c99 -Ifaces/c -I"$folder" -o "$other/$program" faces/c/*/"$program.c" -L"$other" -lgoblin_c
done
emulated() { qemu-aarch64 -cpu cortex-a53 "$@"; }
quietly emulated "$other/layout"
for file in "$files"/* "$other/nm" "$other/damaged"; do
    "$folder/nm" "$file" > "$folder/wanted"
    prints_wanted emulated "$other/nm" "$file"
done
cp "$folder/summed" "$folder/wanted"
prints_wanted emulated "$other/damaged" 1000 "$files"/*
echo "the library for aarch64, in an emulator, has the same results"
quietly env CPU= TARGET=$target LIBRARY="$other/libgoblin_c.a" sh faces/install.sh --archive "$other/goblin_c.tar.gz"
python3 checks/installed.py "$other/goblin_c.tar.gz" 'aarch64-linux-gnu-gcc -static' qemu-aarch64
