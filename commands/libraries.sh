#!/bin/sh
# Proves the libraries below a crate, each of which takes some minutes the first time: sh commands/libraries.sh COMMAND CRATE. Prints a line for
# each, that begins with COMMAND, to standard error, and what the toolchain waits for. Run from the repository's root.
set -eu
said=$(mktemp)
follower=
end() {
    kill "$follower" 2> /dev/null || :
    rm -f "$said"
}
trap end EXIT
trap 'echo >&2; exit 1' HUP INT TERM

# Prints a line of the toolchain that it waits for another run, once there is one, between the line that is begun and its repetition.
report_waiting() {
    until line=$(grep -m 1 waiting "$said"); do sleep 1; done
    printf '\n%s\n%s' "$line" "$1" >&2
}

crates=$(python3 checks/crates.py "$2" | sed '$d')
start=$(date +%s) number=0
for crate in $crates; do
    number=$((number + 1))
    doing="$1: proving $crate ($number of $(echo "$crates" | wc -l) libraries)"
    printf %s "$doing" >&2
    : > "$said"
    report_waiting "$doing" &
    follower=$!
    if ! (cd "./crates/$crate" && rt lib) > "$said" 2>&1; then
        echo >&2
        tail -n 40 "$said" >&2
        echo "$1: the proof of $crate failed; the toolchain's messages are above" >&2
        exit 2
    fi
    kill "$follower" 2> /dev/null || :
    printf ', done after %s seconds\n' "$(($(date +%s) - start))" >&2
done
