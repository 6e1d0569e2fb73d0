#!/bin/sh
# Proves a crate over those below it, and builds it: sh checks/prove.sh CRATE. A program is built by both compilers of the toolchain, and each
# build must write for the crate's file stdin what its file stdout has; with UNBUILT set this is left to `rt ci`, which does the same. Another
# crate whose name ends with _tests holds tests, which all run.
# (Other crates wait for a library, so its proof uses half of the processors, or JOBS: with more, the work grows faster than the time falls.)
# What the toolchain reports is left in the crate's out/said, and the program of the second compiler beside the first, as CRATE.by-rattle.
# Run from the root of the repository, or of a copy.
set -eu
cd "./crates/$1"
mkdir -p out
fail() {
    cat out/said
    echo "prove: $1"
    exit 1
}
if [ -e src/main.rt ] && [ "${UNBUILT:-}" ]; then
    rt check --jobs 1 > out/said 2>&1 || fail "$1 is not proved"
elif [ -e src/main.rt ]; then
    for compiler in rattle llvm; do
        rt run --jobs 1 --backend $compiler < stdin > out/written 2> out/said || fail "$1 is not proved, or its build by $compiler fails"
        cmp stdout out/written || fail "the build of $1 by $compiler does not write what the file stdout has"
        if [ $compiler = rattle ]; then mv "out/$1" "out/$1.by-rattle"; fi
    done
elif [ "${1%_tests}" != "$1" ]; then
    rt test --jobs 1 > out/said 2>&1 || fail "the tests of $1 are not proved, or do not pass"
    passed=$(grep -rF '#[test]' src | wc -l)
    grep -q "^test result: ok[.] $passed passed; 0 failed; 0 ignored" out/said || fail "not all $passed tests of $1 ran"
else
    rt lib --jobs "${JOBS:-$((($(nproc) + 1) / 2))}" > out/said 2>&1 || fail "$1 is not proved"
fi
count=$(sed -n 's/^logic=proved functions=\([0-9]*\) .*/\1/p' out/said | tail -n 1)
echo "$1: ${count:+$count functions are }proved${passed:+, and $passed tests pass}"
