#!/bin/sh
# Checks that some commands are there, and that python3, if it is one of them, is 3.8 or later: sh commands/has.sh GOAL COMMAND ..
# If not, says in a sentence what to do, and that GOAL needs it.
goal=$1
shift
fail() {
    echo "$goal: $1" >&2
    exit 2
}
for name; do
    case $name-$(command -v "$name") in
    rt-)
        # (sudo has a PATH of its own)
        sudo=${SUDO_UID:+"; then for sudo: sudo env PATH=\"\$PATH\" make .."}
        fail "the command rt was not found. Add the Rattle toolchain to your PATH: export PATH=TOOLCHAIN/bin:\$PATH$sudo"
        ;;
    *-) fail "the command $name was not found. Install it first" ;;
    python3-*)
        status=0
        python3 -c 'import sys; sys.exit(3 * (sys.version_info < (3, 8)))' || status=$?
        case $status in
        0) ;;
        3) fail "python3 is older than 3.8, which rt needs, too. Install a later one, or put it first on your PATH" ;;
        *) fail "the command python3 fails. Repair it, or put another one first on your PATH" ;;
        esac
        ;;
    esac
done
