# Functions of the scripts of checks/faces and of others. Each of checks/faces is run from the repository's root: sh checks/faces/NAME.sh FOLDER
# library.sh puts the library into the folder, and each script puts there what later ones need.
# shellcheck shell=sh disable=SC2034
set -eu
export LC_ALL=C
# The folder that is named, or else one of this run, which is removed at its end.
folder=${1:-}
if [ -z "$folder" ]; then
    folder=$(mktemp -d)
    trap 'rm -rf "$folder"' EXIT
    trap 'exit 1' HUP INT TERM
fi
# The folders of the files that faces/c/tests/made.c makes, and of the examples that cargo builds.
files=$folder/files examples=$folder/target/debug/examples
# A program for x86-64. What readelf prints of it is stored beside it.
program_file=checks/files/made/x86_64_program
# The examples in C.
c_examples=$(basename -s .c faces/c/examples/*.c)
# The version of all that is installed.
version=$(awk -F '"' '/^version = / { print $2; exit }' faces/rust/Cargo.toml)

# Prints which program the machine lacks, and what is not tested for it. The table of checks/gate.py lists these lines.
left_out() { echo "left out: $1"; }

# Whether the machine has a program. If not, prints what follows from that, if it is given: has PROGRAM [CONSEQUENCE]
has() { command -v "$1" > /dev/null 2>&1 || { [ -z "${2:-}" ] || left_out "$1 is not installed, so $2"; false; }; }

fail() {
    echo "$1"
    exit 1
}

# Copies the sources into a new folder, where they have another time.
copy_sources() {
    mkdir "$1"
    tar --exclude=.git --exclude=out --exclude=target -cf - . | tar -C "$1" -xmf -
}

# Runs a command, and prints its output only if it fails.
quietly() { "$@" > "$folder/output" 2>&1 || { cat "$folder/output"; fail "failed: $*"; }; }

# Runs a command as a user for whom the modes of files and folders count, as they don't for root.
restricted() {
    rights=-dac_override,-dac_read_search
    if [ "$(id -u)" -ne 0 ]; then "$@"; else setpriv --bounding-set=$rights --inh-caps=$rights "$@"; fi
}

# Fails unless a command ends with a status and prints a text. Both are patterns of the shell: ends_with STATUS TEXT COMMAND ..
ends_with() {
    wanted=$1 text=$2 status=0
    shift 2
    said=$("$@" < /dev/null 2>&1) || status=$?
    # shellcheck disable=SC2254 # (they are patterns)
    case $status-$said in $wanted-$text) ;; *) fail "it should end with $wanted, '$text', and ends with $status, '$said': $*" ;; esac
}

# Fails unless a command prints what the file wanted of the folder has: prints_wanted COMMAND ..
prints_wanted() {
    "$@" > "$folder/listed" || { cat "$folder/listed"; fail "failed: $*"; }
    diff "$folder/wanted" "$folder/listed" || fail "it prints what the lines with > show, and should print those with <: $*"
}

# Fails unless `example`, which runs an example in another language, prints what that in C prints: as_in_c NAME ARGUMENT ..
as_in_c() { (name=$1; shift; "$folder/$name" "$@") > "$folder/wanted"; prints_wanted example "$@"; }

# Fails unless some examples print what those in C print of the files that made.c makes and of one with names that no zero byte closes, and
# all that are named refuse a short file, and print their usage without one: try_examples NAME ..
try_examples() {
    for file in "$files"/* checks/files/facts/open_names; do
        for name in truncated needed; do as_in_c $name "$file"; done
        for section in .text .data; do as_in_c flag "$file" $section; done
        ends_with 1 "flag: $file: there is no section .no" example flag "$file" .no
    done
    for name; do
        if [ "$name" = flag ]; then section=.text; else section=; fi
        ends_with 1 "$name: $folder/short: Malformed entity: Too small" example "$name" "$folder/short" ${section:+"$section"}
        ends_with 2 "usage: ${name}[. ]*" example "$name"
    done
}

# Runs the scripts of some subjects of checks/faces side by side, each in a folder of its own, which begins as a copy of another one:
# try FROM/SUBJECT ..
try() {
    for each; do
        subject=${each#*/}
        cp -R "$folder/${each%/*}" "$folder/$subject"
        # (a shell that is killed leaves no file)
        { sh "checks/faces/$subject.sh" "$folder/$subject" > "$folder/$subject.said" 2>&1 && touch "$folder/$subject.passed"; } &
    done
    wait
    for each; do
        subject=${each#*/}
        cat "$folder/$subject.said"
        [ -e "$folder/$subject.passed" ] || fail "faces: $subject FAILED"
    done
}

# Runs a compiler. The warnings of gcc 12, clang 14 and those before them are errors, and so are those without a name. Others are printed.
strictly() {
    quietly "$@" -Wall -Wextra -pedantic -O2
    # (what is not defined stays a name)
    versions=$(echo __clang_major__ __GNUC__ | "$1" -E -P -x c -)
    case $versions in [0-9]*) later=$((${versions% *} > 14)) ;; *) later=$((${versions#* } > 12)) ;; esac
    if grep ':[0-9][0-9]*: warning: .*[^]]$' "$folder/output" || { [ $later = 0 ] && grep 'warning: ' "$folder/output"; }; then fail "failed: $*"; fi
    cat "$folder/output"
}

# Compiles an example or a test in C.
build() {
    program=$1
    shift
    strictly cc "$@" -Ifaces/c -I"$folder" -o "$folder/$program" faces/c/*/"$program.c" -L"$folder" -lgoblin_c
}

# Leaves the command that runs node with 64-bit memories in the file node of the folder, if node has them, and sets the flag that it takes.
find_node() {
    # (a module that has only a 64-bit memory)
    memories='process.exit(WebAssembly.validate(new Uint8Array([0, 97, 115, 109, 1, 0, 0, 0, 5, 3, 1, 4, 0])) ? 0 : 1)'
    for flag in '' --experimental-wasm-memory64; do
        if node ${flag:+"$flag"} -e "$memories" > "$folder/output" 2>&1; then echo "node $flag" > "$folder/node"; break; fi
    done
}

# Makes the library for a target in a folder, as it is installed. What checks have not proved yet is proved first, at a low priority, since
# the longest proof of a gate waits for the processors.
make_library() {
    LIBRARY='' CPU='' LIBDIR='' TARGET=$1 nice -n 3 sh faces/install.sh "$2/installed"
    mv "$2/installed/lib/libgoblin_c.a" "$2/"
}

# Fails unless the toolchain reported of the library just made that it reaches no function that the toolchain takes as an axiom: of the
# heap, the system or a C library.
check_axioms() {
    if ! awk '/^axioms / { all++; if ($0 !~ /: none reached of /) reached++ } /^logic=proved / { proved++; if (/ axioms=/) reached++ }
        END { exit proved == 0 || all == 0 || reached > 0 }' "$folder/output"; then
        fail "the library reaches functions that the toolchain takes as axioms: $(grep -e '^axioms ' -e '^logic=' "$folder/output")"
    fi
    echo "the library reaches no function that the toolchain takes as an axiom"
}
