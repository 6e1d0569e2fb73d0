#!/bin/sh
# Shows a file with the program of this repository: sh commands/show.sh show|try. SHOWN is the name of the file, and MODE may be
# permissive. Both run the proved program if it was built from the present sources. Otherwise `show` first proves each crate, with
# a line for each, and builds the program. `try` compiles it without a proof, unless an earlier `try` did so from the same sources: the
# program is in out/try, or in the user's cache if this folder is read-only. The exit status is 0 also for a refused file, and 2 if something
# can't be read, compiled, proved or written. `sh commands/show.sh built` only notes that the program was proved and built from the
# present sources, and `sh commands/show.sh is_built` only reports by its exit status whether it was. Run from the repository's root.
set -eu
goal=$1
show=crates/goblin_show/out/goblin_show
folder=$(realpath "$(mktemp -d)")
trap 'rm -rf "$folder"' EXIT
trap 'exit 1' HUP INT TERM
said=$folder/said

fail() {
    printf 'make %s: %s\n' "$goal" "$1" >&2
    exit 2
}

# Fails after the last lines of the toolchain's output.
fail_as_said() {
    tail -n 40 "$said" >&2
    fail "$1; the toolchain's messages are above"
}

# Prints checksums of what a program is made of. They are stored beside it with its own: those from before it was made, because the sources may
# change meanwhile.
sources() {
    if [ "$1" = "$show" ]; then python3 checks/crates.py --sum goblin_show; else python3 checks/crates.py --sum goblin_text commands/try.main; fi
}
note() { sha256sum < "$1" | cat "$folder/sources" - > "$1.sources"; }
is_made() { [ -x "$1" ] && [ -f "$1.sources" ] && [ "$(sources "$1" && sha256sum < "$1")" = "$(cat "$1.sources")" ]; }

# Runs a program over the file: run PROGRAM [permissive]
run() {
    program=$1
    shift
    status=0
    "$program" "$@" < "$SHOWN" || status=$?
    [ "$status" -ne 134 ] || fail 'the program stopped at a fault, which is above'
    [ "$status" -lt 2 ] || fail 'the file could not be read, or the output could not be written'
}

# Prints the folder of the program without a proof, which is the first of these that can be written to.
folder_of_try() {
    cache=${XDG_CACHE_HOME:-${HOME:+$HOME/.cache}}
    for place in out/try ${cache:+"$cache/goblin_try"} "$folder/try"; do
        if mkdir -p "$place" 2> "$said" && [ -w "$place" ]; then break; fi
    done
    printf '%s\n' "$place"
}

# Compiles the program without a proof. The toolchain removes the program after it has run, so the program copies itself first.
compile() {
    sh commands/has.sh 'make try' rt
    echo 'make try: compiling the program without a proof, which takes up to a minute' >&2
    sources "$tried" > "$folder/sources"
    python3 checks/crates.py --program 'goblin_try: goblin_text' commands/try.main "$folder"
    (cd "$folder/crates/goblin_try" && rt try --steps 1000 --seconds 300 -- copy "$folder/compiled") < /dev/null > "$said" 2>&1 \
        || fail_as_said 'the program was not compiled'
    mv "$folder/compiled" "$tried" || fail_as_said 'the program was not copied'
    note "$tried"
}

# Proves each crate that the program depends on, and builds the program.
prove_program() {
    sh commands/has.sh 'make show' rt
    [ -w crates ] || fail 'this folder is read-only, and proofs are cached in it. Use a copy, or make try'
    sources "$show" > "$folder/sources"
    sh commands/libraries.sh 'make show' goblin_show
    echo 'make show: proving goblin_show' >&2
    # (the program runs once over its stored input, which shows that it was built)
    (cd ./crates/goblin_show && rt run < stdin) > "$said" 2>&1 || fail_as_said 'the proof of goblin_show failed'
    note "$show"
}

case $goal in
    built)
        sources "$show" > "$folder/sources"
        note "$show"
        exit
        ;;
    is_built)
        is_made "$show"
        exit
        ;;
esac
sh commands/has.sh "make $goal" awk python3
test -n "${SHOWN:-}" || fail "no file is given. For example: make $goal FILE=/bin/true"
! test -d "$SHOWN" || fail "$SHOWN is a folder. FILE must be a file"
test -e "$SHOWN" || fail "$SHOWN does not exist"
test -r "$SHOWN" || fail "$SHOWN can't be read. Check its permissions"
case ${MODE:-strict} in
    strict) set -- ;;
    permissive) set -- permissive ;;
    *) fail "unknown MODE=$MODE. Use MODE=strict or MODE=permissive" ;;
esac

if is_made "$show"; then
    [ "$goal" = show ] || echo 'make try: this is the proved program, built from these sources.' >&2
elif [ "$goal" = try ]; then
    tried=$(folder_of_try)/goblin_try
    if ! is_made "$tried"; then compile; fi
    run "$tried" "$@"
    echo 'make try: this program was not proved. make show proves it first.' >&2
    exit 0
else
    prove_program
fi
run "$show" "$@"
