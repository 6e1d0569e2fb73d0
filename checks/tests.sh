#!/bin/sh
# Runs all tests of a crate without a proof of their bodies: sh checks/tests.sh CRATE. The library's code runs with checks of its own, such as
# of bounds and overflows, which make some tests slow. Run from the repository's root.
crate=$1
shift
. checks/faces/shared.sh
count=$(grep -rF '#[test]' "crates/$crate/src" | wc -l)
passed="^test result: ok[.] $count passed; 0 failed; 0 ignored"
if ! (cd "./crates/$crate" && rt try --test --seconds 1200) > "$folder/output" 2>&1 || ! grep -q "$passed" "$folder/output"; then
    cat "$folder/output"
    fail "tests: not all $count tests of $crate passed"
fi
echo "$crate: $count tests pass, run without a proof"
