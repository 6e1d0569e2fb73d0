#!/bin/sh
# Tests the library's calls from C, Rust, JavaScript and Python: sh checks/faces.sh, from the repository's root
# It runs the scripts of checks/faces, one for each subject, in folders of this run. If the machine lacks a compiler, an emulator or a
# browser, a line says what is left out, and the test passes. No file of the machine decides what comes of it.
. checks/faces/shared.sh
python3 faces/constants.py --check
echo "the constants in C are the library's, and those in Rust, JavaScript and Python are made of it"

sh commands/libraries.sh faces goblin_c
echo "faces: making the library, which takes some minutes if its calls are not proved yet"
mkdir "$folder/library"
sh checks/faces/library.sh "$folder/library"
has cc 'the calls from C, Rust, JavaScript and Python are not tested: install a C compiler' || exit 0
try library/c library/python
python3 checks/surface.py "$folder/python/python"
python3 checks/surface.py --self-test "$folder/python/python"
try c/rust c/webassembly
# (the toolchain makes one library at a time)
try c/aarch64 c/archive webassembly/page
for made in rust/target webassembly/web webassembly/node; do if [ -e "$folder/$made" ]; then mv "$folder/$made" "$folder/c/"; fi; done
python3 checks/faces/comparison.py "$folder/c"
echo "faces: the calls from C, Rust, JavaScript and Python are as expected"
