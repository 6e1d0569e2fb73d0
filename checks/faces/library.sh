#!/bin/sh
# Makes the proved library for C in a folder: sh checks/faces/library.sh FOLDER
# It may need only memcpy, and have neither unwind tables nor notes for control-flow enforcement. Few of its pointers may be relocated when
# a program is loaded: names of numbers are found without them, and in tables they had more than twice the limit. It may have no instruction
# that only later processors of x86-64 have.
. checks/faces/shared.sh

quietly make_library x86_64-unknown-linux-gnu "$folder"
check_axioms
has nm 'what the library needs is not tested' || exit 0
has readelf 'what the library needs is not tested' || exit 0
nm -u "$folder/libgoblin_c.a" | awk 'NF == 2 { print $2 }' > "$folder/needs"
readelf -SW "$folder/libgoblin_c.a" > "$folder/sections"
if [ "$(cat "$folder/needs")" != memcpy ] || ! grep -q '\.text\.goblin_file ' "$folder/sections" \
    || grep -e '\.eh_frame' -e '\.note\.gnu\.property' "$folder/sections"; then
    fail "the library needs more than memcpy, or has unwind tables or notes; it needs: $(cat "$folder/needs")"
fi
echo "the library needs only memcpy"
pointers=$(readelf -rW "$folder/libgoblin_c.a" | awk '$3 == "R_X86_64_64" { n++ } END { print n + 0 }')
if [ "$pointers" -eq 0 ] || [ "$pointers" -gt 100 ]; then
    fail "of the library's pointers, $pointers are relocated when a program is loaded, and not 1 to 100: names of numbers need none"
fi
echo "of the library's pointers, $pointers are relocated when a program is loaded"
has objdump 'the instructions of the library are not looked at' || exit 0
# (how those of x86-64-v2 and later begin, but tzcnt, which older processors read as bsf)
later='v|addsub|blend|bextr|bls[imr]|bzhi|cmpxchg16b|crc32|dpp|extractps|h(add|sub)p|insertps|[ls]ahf|lddqu|lzcnt|mov(be|ddup|ntdqa|s[hl]dup)'
later="$later|mpsadbw|mulx|p(abs|alignr|blend|dep|h(add|sub|min)|maddubs|mov[sz]x|mul(dq|hrsw|ld)|opcnt|shufb|sign|test)|packusdw|pcmp(eq|gt)q"
later="$later|pcmp[ei]str|pext(r[bdq])? |pinsr[bdq]|pm(ax|in)(s[bd]|u[wd])|(ro|sa|sh)[lr]x|round|andn[lq]? "
objdump -d --no-show-raw-insn "$folder/libgoblin_c.a" | awk -F '\t' 'NF > 1 { print $2 }' > "$folder/instructions"
if ! grep -q '^bswap' "$folder/instructions" || grep -E "^($later)" "$folder/instructions"; then
    fail "the library has no instructions, or those above, which some processors lack"
fi
echo "the library runs on every processor for x86-64"
