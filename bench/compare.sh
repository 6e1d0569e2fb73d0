#!/bin/sh
# Compares what the library's programs and its Python package list of files of this machine with what this machine's binutils and pyelftools
# list of them: SHOWN=FILE sh bench/compare.sh. It lists each difference, and fails only if something can't run. The library is made in a
# folder of this run. Run from the repository's root.
. checks/faces/shared.sh
quietly make_library x86_64-unknown-linux-gnu "$folder"
installed=$folder/installed/share/goblin_c
for program in nm size symbolize needed; do build $program -std=c99; done
if has cargo 'the examples in Rust are not compared'; then
    quietly env GOBLIN_C_LIB="$folder" CARGO_TARGET_DIR="$folder/target" cargo build --offline --examples --manifest-path faces/rust/Cargo.toml
fi
find_node
if [ -e "$folder/node" ]; then
    quietly env SHARED= LIBRARY= CPU= LIBDIR= TARGET=wasm64-unknown-unknown sh faces/install.sh "$folder/installed"
    ln -s "$installed/web" "$folder/web"
else
    left_out "node is not installed or has no 64-bit memories, so the examples in JavaScript are not compared"
fi
is_compared=
for python in python3 /usr/bin/python3; do
    if [ -z "$is_compared" ] && "$python" -c 'import elftools' 2> "$folder/output"; then
        PYTHONPATH="$installed/python" "$python" faces/python/tests/beside_pyelftools.py ${SHOWN:+"$SHOWN"}
        is_compared=1
    fi
done
PYTHONPATH="$installed/python" python3 faces/python/tests/beside_readelf.py --files 60 --damaged 200 ${SHOWN:+"$SHOWN"}
[ -n "$is_compared" ] || left_out "pyelftools is not installed, so the Python package is not compared with it"
python3 bench/compare.py "$folder" ${SHOWN:+"$SHOWN"}
