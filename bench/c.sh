#!/bin/sh
# Times the library for C beside libelf, as faces/c/tests/bench.c says, over a FILE, by default this machine's libLLVM or libstdc++, and
# over 300,000 made symbols: SHOWN=FILE CPU=x86-64-v2 sh bench/c.sh. The library is installed in a folder of this run, by
# faces/install.sh, whose variables LIBRARY and CPU may be set. Run from the repository's root.
set -eu
if ! echo '#include <gelf.h>' | cc -E - > /dev/null 2>&1; then
    echo "make bench-faces: nothing is timed, because the header of libelf (gelf.h) is not installed"
    exit 0
fi
folder=$(mktemp -d)
trap 'rm -rf "$folder"' EXIT
trap 'exit 1' HUP INT TERM
TARGET='' SHARED='' LIBDIR='' sh faces/install.sh "$folder/installed" > "$folder/output" || { cat "$folder/output"; exit 2; }
cc -std=c99 -Wall -Wextra -pedantic -O2 -Ifaces/c -o "$folder/bench" faces/c/tests/bench.c "$folder/installed/lib/libgoblin_c.a" -lelf
mkdir "$folder/files"
python3 checks/limits.py "$folder/files"
if [ -z "${SHOWN:-}" ]; then
    for file in /usr/lib*/libLLVM*.so* /usr/lib/*/libLLVM*.so* /usr/lib*/libstdc++.so.6 /usr/lib/*/libstdc++.so.6; do
        if [ -f "$file" ]; then SHOWN=$file; break; fi
    done
fi
"$folder/bench" ${SHOWN:+"$SHOWN"} "$folder/files/symbols"
