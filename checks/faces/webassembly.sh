#!/bin/sh
# Tests the module for WebAssembly, called from JavaScript: sh checks/faces/webassembly.sh FOLDER, after c.sh
# JavaScript reads from whole and damaged files what C reads, and its calls do what their comments say. The archive, which has the package and
# the page, has the same bytes whatever the folder and the time of the sources. If the machine lacks node, a line says what is left out.
. checks/faces/shared.sh
web=$folder/web
dump=$folder/dump

has node 'the module for WebAssembly is not tested: install Node.js 24' || exit 0
quietly env PYTHONIOENCODING=latin-1 LIBRARY= CPU= TARGET=wasm64-unknown-unknown sh faces/install.sh --archive "$folder/goblin_web.tar.gz"
check_axioms
build dump -std=c99
tar -C "$folder" -xzf "$folder/goblin_web.tar.gz"
mv "$folder"/goblin_c-*/share/goblin_c/web "$web"
copy_sources "$folder/sources"
(cd "$folder/sources" && quietly env LIBRARY="$web/goblin_c.wasm" CPU= TARGET=wasm64-unknown-unknown sh faces/install.sh --archive ../again.tar.gz)
quietly cmp "$folder/goblin_web.tar.gz" "$folder/again.tar.gz"
# (what is made of goblin.h is what the script makes)
python3 faces/constants.py --made
for made in constants interface; do cmp "faces/web/$made.js" "$web/$made.js"; done
find_node
call() { node ${flag:+"$flag"} "$@"; }

if [ -e "$folder/node" ]; then
    call faces/web/test.mjs "$web" "$dump" "$files"/* $program_file
    call faces/web/calls.mjs "$web" "$files"/* $program_file
    for part in facts times; do call faces/page/modules.mjs "$web" $part; done
    missing="$folder has no goblin.js and no constants.js and no interface.js and no goblin_c.wasm*python3 faces/constants.py*"
    for script in test calls; do ends_with 2 "$missing" call faces/web/$script.mjs "$folder"; done
    example() { (name=$1; shift; call "$web/examples/$name.mjs" "$@"); }
    try_examples needed segments truncated flag
    for name in needed segments truncated; do
        # shellcheck disable=SC2016 # (they are of the shell that is run)
        ends_with 1 "$name: stdout: ENOSPC: no space left on device*" \
            sh -c '"$@" > /dev/full' sh node ${flag:+"$flag"} "$web/examples/$name.mjs" $program_file
        # shellcheck disable=SC2016
        ends_with 0 '' sh -c '"$@" | true' sh node ${flag:+"$flag"} "$web/examples/$name.mjs" $program_file
    done
    # (a loader reads the program headers, and readelf finds no dynamic section without them)
    ends_with 0 '' example needed checks/files/facts/no_segments
    if has tsc 'goblin.d.ts is not compiled: install TypeScript'; then
        mkdir -p "$folder/app/node_modules"
        ln -s "$web" "$folder/app/node_modules/goblin_c"
        cp faces/web/use.ts "$folder/app/use.mts"
        # (what --strict turns on in TypeScript 4.8)
        set -- --alwaysStrict --noImplicitAny --noImplicitThis --strictBindCallApply --strictFunctionTypes --strictNullChecks \
            --strictPropertyInitialization --useUnknownInCatchVariables --noEmit --target es2020 --lib es2020
        # (of package.json `node` reads `types`, and `nodenext` reads `exports`; these errors say that an option is gone)
        for modules in es2022:node nodenext:nodenext; do
            if tsc "$@" --module ${modules%:*} --moduleResolution ${modules#*:} "$folder/app/use.mts" > "$folder/output"; then
                echo "TypeScript accepts a program over goblin.d.ts by ${modules#*:}, without the types of a browser"
            else
                if grep -v -E '^error TS(5023|5101|5102|5107|5108):|^  ' "$folder/output"; then fail 'TypeScript refuses goblin.d.ts'; fi
                left_out "this TypeScript lacks an option, so goblin.d.ts is not compiled by ${modules#*:}: $(head -n 1 "$folder/output")"
            fi
        done
    fi
else
    left_out "node has no 64-bit memories, so the module for WebAssembly is not called: install Node.js 24"
fi
