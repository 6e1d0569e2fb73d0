#!/bin/sh
# Tests the library's calls from C: sh checks/faces/c.sh FOLDER, after library.sh
# It compares goblin.h with the library and with glibc's <elf.h>, compiles its examples, and runs the programs of faces/c over whole
# and damaged files that made.c makes.
. checks/faces/shared.sh

# The value, letter, section index and name of each symbol in the files that made.c makes.
symbols_made='0 a 65521 made.c
0 t 1 .text
0 N 5 .debug_info
10 t 1 local_function
8 d 2 local_data
3 n 6 comment
12 T 1 function
4 D 2 data
6 B 3 zeros
2 R 4 constant
14 W 1 weak_function
c V 2 weak_data
0 U 0 undefined
0 w 0 weak_undefined
0 v 0 weak_undefined_data
7654321 A 65521 absolute
20 C 65522 common
14 u 2 unique
16 i 1 indirect
18 T 1 été'

# Compiles goblin.h by each standard, and compares its structs with the library's layout.
check_header() {
    { echo "VERSION_STRING \"$version\""; echo "$version" | awk -F . '{ print "PACKAGE_MAJOR " $1 "\nPACKAGE_MINOR " $2 "\nPACKAGE_PATCH " $3 }'; } \
        | sed 's/^/#define GOBLIN_/' > "$folder/wanted"
    grep -E '^#define GOBLIN_(VERSION_STRING|PACKAGE_[A-Z]+) ' faces/c/goblin.h | quietly diff "$folder/wanted" -
    python3 faces/constants.py --fields > "$folder/fields.h"
    for standard in c99 c11; do
        build layout -std=$standard
        quietly "$folder/layout"
    done
    "$folder/layout" assertions > "$folder/assertions.c"
    strictly cc -std=c11 -Ifaces/c -c -o "$folder/assertions.o" "$folder/assertions.c"
    if has c++ 'goblin.h is not compiled as C++'; then
        strictly c++ -x c++ -std=c++11 -Ifaces/c -I"$folder" -o "$folder/layout" faces/c/tests/layout.c -x none -L"$folder" -lgoblin_c
        strictly c++ -x c++ -std=c++11 -Ifaces/c -c -o "$folder/assertions.o" "$folder/assertions.c"
        for example in $c_examples; do
            strictly c++ -x c++ -std=c++11 -Ifaces/c -c -o "$folder/example.o" "faces/c/examples/$example.c"
        done
        echo "the examples can be compiled as C++"
    fi
    "$folder/layout"
}

# Compiles by each standard and compiler the example of each call in goblin.h, with the variables that its first comment declares. Then
# follow comparisons with the constants of <elf.h> of glibc 2.36, which are stored: if both have a name, both have the same number.
# (Counts of types and machines are not stored, since they differ from version to version.)
check_examples() {
    awk 'BEGIN { print "#include \"goblin.h\"\n#include <stdio.h>" }
        /All are compiled with these variables:$/ { is_variables = 1; next }
        is_variables { gsub(/^ +/, "static "); is_variables = !sub(/ *\*\/$/, ""); gsub(/; /, ";\nstatic "); print
            if (!is_variables) print "extern int run_examples(void);\nint run_examples(void) {" }
        /^(bool|size_t|uint(32|64)_t|void) goblin_/ { calls++ }
        sub(/^ *Example: /, "") { examples++; is_example = 1; printf "    { " }
        is_example { is_example = !sub(/ \*\/$/, ""); print $0 (is_example ? "" : " }") }
        END { print "    if (goblin_file(bytes, len, &file, GOBLIN_UNREAD)) return 1;"
            print "    return range.size + string.size + value + note.n_type + count > 0;\n}"
            exit calls == 0 || calls != examples }' \
        faces/c/goblin.h > "$folder/examples.c" || fail "each call in goblin.h must have one example"
    awk '{ print "#if !defined GOBLIN_" $1 " || GOBLIN_" $1 " != " $2 "\n#error " $1 " is another number in elf.h\n#endif" }' \
        checks/files/elf_constants >> "$folder/examples.c"
    for compiler in cc clang; do
        has $compiler "the examples of goblin.h are not compiled by it" || continue
        # (a program may have a macro with the name of an attribute)
        for standard in c89 c99 c11; do
            strictly $compiler -std=$standard -Dnonnull= -Ifaces/c -c -o "$folder/examples.o" "$folder/examples.c"
        done
    done
    echo "the $(grep -c '^    { ' "$folder/examples.c") examples of goblin.h can be compiled"
    python3 faces/constants.py --nulls > "$folder/nulls.c"
    # (how many arguments the declarations list in all)
    listed() { grep -o -E "GOBLIN_($1)\(\([0-9, ]+\)\)" faces/c/goblin.h | grep -o -w -E '[0-9]+' | wc -l; }
    for compiler in cc clang 'c++ -x c++'; do
        has "${compiler%% *}" 'its warnings of null pointers are not looked for' || continue
        $compiler -Wall -Ifaces/c -c -o "$folder/nulls.o" "$folder/nulls.c" 2> "$folder/output" || fail "$(cat "$folder/output")"
        warned="$(grep -c Wnonnull "$folder/output") $(grep -c Wunused-result "$folder/output")"
        [ "$warned" = "$(listed 'STATUS|GIVEN') $(listed STATUS)" ] || fail "$compiler warns of other nulls and statuses than are listed: $warned"
    done
    echo "$(wc -l < checks/files/elf_constants) constants have the same number in goblin.h and elf.h"
}

# Fails unless cost.c makes each call of goblin.h that is passed a file, so that each has a limit on its time.
check_cost() {
    awk '/^[a-z0-9_]+ goblin_[a-z0-9_]*\((const goblin_file_t \*file|(const )?void \*bytes)/ { sub(/\(.*/, ""); print $NF }' \
        faces/c/goblin.h > "$folder/calls"
    [ -s "$folder/calls" ] || fail "goblin.h has no calls that are passed a file"
    while read -r call; do
        grep -qE "\b$call(\(|, )(&[a-z]+|bytes, len)," faces/c/tests/cost.c || fail "$call is passed a file and has no row in cost.c"
    done < "$folder/calls"
    quietly "$folder/cost"
    lists=$(wc -l < "$folder/output") calls=$(wc -l < "$folder/calls")
    echo "c: $lists lists, searches and repeated calls, among them the $calls that are passed a file, take less than their limit (cost.c)"
}

# Of each call for one item the most instructions that it may take over a program, and of some over the names that single.c makes: at most a
# tenth more than were counted. So a function that is no longer put into its caller, or a refusal that is prepared before it is needed, costs
# more. goblin_symbol_by_address is counted for each symbol of the table, so a second reading of them all costs more, too.
instructions='goblin_file 79
goblin_section 52
goblin_symbol 33
goblin_symbol_by_address 48
goblin_reloc 34
goblin_note 63
goblin_note_utf8 76
goblin_string 49 70
goblin_string_utf8 64
goblin_string_is 35 82
goblin_string_starts 38'

# Counts the instructions of these calls, by callgrind, over a program and over names that single.c makes. Of 64 strings at once one may take
# seven tenths of what it takes alone, and a comparison one and a half times what a client's own takes, with its memcmp.
check_instructions() {
    has valgrind 'the instructions of calls for one item are not counted' || return 0
    # (what gcc makes of a client's own comparison is counted, and clang makes fewer instructions)
    case $(cc --version) in *clang*) left_out "cc is clang, so the instructions of calls for one item are not counted" && return 0 ;; esac
    build single -std=c99
    for file in $program_file ''; do
        # shellcheck disable=SC2086 # (no argument for the names that are made)
        quietly valgrind --tool=callgrind --callgrind-out-file="$folder/counts" "$folder/single" $file
        # shellcheck disable=SC2086
        if ! "$folder/single" $file > "$folder/calls" || [ ! -s "$folder/calls" ]; then fail "single.c reads nothing of ${file:-its names}"; fi
        callgrind_annotate --inclusive=yes --threshold=100 "$folder/counts" > "$folder/listed"
        while read -r call times; do
            all=$(awk -v call="$call" '$0 ~ ":" call " " { gsub(/,/, "", $1); print $1; exit }' "$folder/listed")
            each=$((${all:-0} / times))
            limit=$(echo "$instructions" | awk -v call="$call" -v made="${file:+no}" '$1 == call { print made ? $2 : $3 }')
            case $call in plain_is) own=$each limit=$each ;; *strings) limit=$((alone * 7 / 10)) ;; *string) alone=$each ;; esac
            case $call in *_is | *starts) [ "$each" -le $((own * 3 / 2)) ] || fail "$call takes $each instructions, and a client $own" ;; esac
            if [ "$each" -eq 0 ] || [ "$each" -gt "$limit" ]; then fail "$call takes $each instructions, and its limit is $limit"; fi
            printf '%s %s of %s, ' "$call" "$each" "$limit" >> "$folder/counted"
        done < "$folder/calls"
    done
    echo "c: instructions of a call: $(sed 's/, $//' "$folder/counted")"
}

check_bench() {
    echo '#include <gelf.h>' | cc -E - > "$folder/output" 2>&1 \
        || { left_out "the header of libelf is not installed, so bench.c is not compiled"; return; }
    strictly cc -std=c99 -Ifaces/c -o "$folder/bench" faces/c/tests/bench.c -L"$folder" -lgoblin_c -lelf
    quietly "$folder/bench" $program_file
    echo "bench.c reads what libelf reads"
}

# Runs flag.c and truncated.c over a file that made.c makes. Its sections .text and .data have the flags 6 and 3. It has 11 section
# headers, after the bytes of all sections.
check_places() {
    case $1 in *64) size=64 symbols=504 rela=48 ;; *) size=40 symbols=336 rela=24 ;; esac
    ends_with 0 '.text: flags 0x6, now 0x7' "$folder/flag" "$1" .text
    ends_with 0 '.data: flags 0x3, now 0x2' "$folder/flag" "$1" .data
    ends_with 1 'flag: there is no section .no' "$folder/flag" "$1" .no
    lines=$(printf '%s\n' "all headers: type is too big ($size) for $((size / 2))" '10 of 11 headers are whole' '0 SHT_NULL: no bytes' \
        '1 SHT_PROGBITS: 64 of 64 bytes' '2 SHT_PROGBITS: 64 of 64 bytes' '3 SHT_NOBITS: no bytes' '4 SHT_PROGBITS: 64 of 64 bytes' \
        '5 SHT_PROGBITS: 64 of 64 bytes' '6 SHT_PROGBITS: 64 of 64 bytes' "7 SHT_SYMTAB: $symbols of $symbols bytes" '8 *' \
        "9 SHT_RELA: $rela of $rela bytes")
    ends_with 0 "$lines" "$folder/truncated" "$1"
}

# Writes bytes into the copy of a file: put OFFSET BYTES ..
put() {
    while [ $# -gt 0 ]; do
        printf %b "$2" | dd of="$folder/copy" bs=1 seek=$(($1)) conv=notrunc 2> "$folder/output"
        shift 2
    done
}

# Runs execstack.c over a program, in which it changes one bit of one flag. The file $1 has no such program header.
check_execstack() {
    cp $program_file "$folder/stack"
    cp $program_file "$folder/copy"
    for flag in c s c; do
        case $flag in s) shown=X byte=7 ;; *) shown=- byte=6 ;; esac
        ends_with 0 "$shown $folder/stack" "$folder/execstack" -$flag "$folder/stack"
        ends_with 0 "$shown $folder/stack" "$folder/execstack" "$folder/stack"
        # (p_flags of the program header at index 11)
        put 64+56*11+4 "\\000$byte"
        quietly cmp "$folder/copy" "$folder/stack"
    done
    quietly cmp $program_file "$folder/stack"
    ends_with 1 "execstack: $1: there is no program header of type PT_GNU_STACK" "$folder/execstack" -c "$1"
    ends_with 0 "[?] $1" "$folder/execstack" "$1"
    echo "execstack.c changes one flag"
}

# Runs pread.c over a program, of which readelf lists the parts of memory and the notes, and over a copy whose section header 0 has the number
# of program headers.
check_pread() {
    awk '$1 == "LOAD" { sub(/^0x0*/, "0x", $5); sub(/^0x0*/, "0x", $6); print $3, $5, "of", $6 }
        $1 == "GNU" && $3 ~ /^NT_/ { sub("TYPE_0", "0", $3); print $1, $2, $3 }' $program_file.listed > "$folder/wanted"
    prints_wanted "$folder/pread" $program_file
    cp $program_file "$folder/copy"
    at() { od -An -tu"$2" -j"$1" -N"$2" $program_file | tr -d ' '; }
    put "$(at 40 8)+44" "$(printf '\\0%o' "$(at 56 2)")" 56 '\0377\0377'
    prints_wanted "$folder/pread" "$folder/copy"
    head -c 600 $program_file > "$folder/copy"
    ends_with 1 "pread: the program headers can't be read" "$folder/pread" "$folder/copy"
    ends_with 1 "*pread: the notes can't be read*" "$folder/pread" checks/files/made/x86_64_core
    echo "pread.c reads parts of a file"
}

# Fails unless nm.c lists a line of the copy: nm_lists PATTERN WHAT
nm_lists() {
    "$folder/nm" "$folder/copy" > "$folder/listed"
    grep -q "^0*$1\$" "$folder/listed" || fail "nm.c does not list $2: $(cat "$folder/listed")"
}

# Changes a copy of a 64-bit file that made.c makes. Its section 10 is made a table of section indices, of 4 bytes, for the symbols of section
# 7. So the index of symbol 16, which would be 1, is after the table, and is not taken.
check_indices() {
    cp "$1" "$folder/copy"
    table=$((0x1800 + 64 * 10))
    put $((table + 4)) '\0022' $((table + 32)) '\0004' $((table + 40)) '\0007' 0x700+24*16+6 '\0377\0377' 0xa00+4*16 '\0001'
    nm_lists '7654321 A 65535 absolute' 'a symbol whose index is past a table of indices'
    put 0x700+24*17+6 '\0002\0377'
    nm_lists '20 C 65282 common' 'a large common symbol of x86-64'
    # (a second table of symbols, a binding without a meaning, and a weak block)
    dd if="$1" of="$folder/copy" bs=1 skip=$((0x1800 + 64 * 7)) seek=$table count=64 conv=notrunc 2> "$folder/output"
    put 0x700+24*16+4 '\0120' 0x700+24*12+4 '\0045'
    nm_lists '7654321 [?] 65535 absolute' 'a symbol of an unknown binding with ?'
    [ "$(grep -c -e ' V 2 weak_data$' -e ' absolute$' "$folder/listed")" -eq 2 ] || fail "nm.c lists another table: $(cat "$folder/listed")"
    # (in an object file the address of a section counts; only of .gdb_index the whole name does)
    put $((table - 64 * 9 + 16)) '\0000\0020'
    for name in .gdb_index2 .gdb_index; do
        put "$(grep -abo -e '\.debug_info' -e '\.gdb_index2' "$folder/copy" | head -n 1 | cut -d : -f 1)" "$name\\0000"
        case $name in *2) letter=n ;; *) letter=N ;; esac
        nm_lists '1012 T 1 function' 'a symbol with the address of its section'
        nm_lists " $letter 5 $name" 'a section by its name'
    done
    # (the first byte of été, so that the name is not UTF-8: nm prints it as it stands)
    put 0x10ac '\0377'
    nm_lists "1018 T 1 $(printf '\377\251')t.*" 'a name that is not UTF-8'
}

# Runs the programs over each file that made.c makes, and over its first bytes.
check_programs() {
    mkdir "$files"
    "$folder/made" "$files"
    for file in "$files"/*; do
        case $file in *64) digits=16 ;; *) digits=8 ;; esac
        echo "$symbols_made" | awk -v digits=$digits '{ while (length($1) < digits) $1 = "0" $1; print }' > "$folder/wanted"
        prints_wanted "$folder/nm" "$file"
        "$folder/values" "$file" > "$folder/listed"
        [ "$(grep -c -x -e '12 function' -e '18 été' "$folder/listed")" -eq 2 ] || fail "values.c does not list the symbols of $file"
        "$folder/strings" "$file" .strtab > "$folder/listed"
        [ "$(sed 's/^ *[0-9a-f]*  //' "$folder/listed" | grep -c -x -e made.c -e function -e été)" -eq 3 ] \
            || fail "strings.c does not list the strings of $file"
        check_places "$file"
    done
    sed -n "/^String dump of section '.comment'/,\$ s/^ *\[ *\([0-9a-f]*\)\]  /\1  /p" $program_file.listed > "$folder/wanted"
    "$folder/strings" $program_file .comment | sed 's/^ *//' > "$folder/listed"
    quietly diff "$folder/wanted" "$folder/listed"
    short=$folder/short
    head -c 15 "$file" > "$short"
    for program in $c_examples; do
        case $program in flag | strings) section=.text ;; *) section= ;; esac
        case $program in nm | symbolize) subject='header: ' ;; execstack | size) subject="$short: " ;; *) subject= ;; esac
        # (strings.c adds an offset, and size.c has printed the heads of its columns)
        case $program in strings) more=', at offset 0' ;; size) more='*' ;; *) more= ;; esac
        ends_with 1 "$program: ${subject}Malformed entity: Too small$more" "$folder/$program" "$short" ${section:+"$section"}
        ends_with '[12]' "$folder/none: No such file or directory*" "$folder/$program" "$folder/none" ${section:+"$section"}
        ends_with '[12]' "$folder: Is a directory*" "$folder/$program" "$folder" ${section:+"$section"}
        ends_with 2 "usage: $program *" "$folder/$program"
    done
    ends_with 1 'strings: there is no section .no' "$folder/strings" "$file" .no
    ends_with 1 'strings: the section .bss has no bytes in the file' "$folder/strings" "$file" .bss
    ends_with 0 'strings: no zero byte closes the last string
*' "$folder/strings" "$file" .note
    check_execstack "$file"
    check_indices "$files/little64"
    check_pread
    # (comparison.py compares what needed.c lists of the whole file, and of x86_64_stripped, which has no section headers)
    "$folder/needed" $program_file > "$folder/wanted"
    head -c -1 $program_file > "$folder/cut"
    prints_wanted "$folder/needed" "$folder/cut"
    ends_with 0 'int*needed libf*needed: no zero byte closes a string *1048576*runpath: no zero *60' "$folder/needed" checks/files/facts/open_names
    echo "needed.c lists the same by the program headers if the last section header is cut, and says which names are not closed"
    for program in nm needed pread truncated size values strings; do
        if [ $program = strings ]; then section=.comment; else section=; fi
        # shellcheck disable=SC2016 # (they are of the shell that is run)
        ends_with 2 'stdout: No space left on device' \
            sh -c '"$@" > /dev/full' sh "$folder/$program" $program_file ${section:+"$section"}
    done
    # (in which there is no such program header)
    # shellcheck disable=SC2016
    ends_with 2 'stdout: No space left on device' sh -c '"$0" "$1" > /dev/full' "$folder/execstack" "$file"
    # (a folder is opened, and can't be read)
    # shellcheck disable=SC2016
    ends_with 1 "*	$program_file" sh -c 'ulimit -n 16 && exec "$@"' sh "$folder/size" . . . . . . . . . . . . . . . . . . . . $program_file
    # (values.c shares no code with the others; its main is called many times)
    {
        cat faces/c/examples/values.c
        echo '#undef main'
        echo 'int main(int argc, char **argv) { for (int i = 0; i < 20; i++) values(argc, argv); return values(argc, argv); }'
    } > "$folder/often.c"
    strictly cc -std=c99 -Dmain=values -Ifaces/c -o "$folder/often" "$folder/often.c" -L"$folder" -lgoblin_c
    # shellcheck disable=SC2016
    ends_with 2 '*: Is a directory' sh -c 'ulimit -n 16 && exec "$@"' sh "$folder/often" .
    echo "nm.c lists $(echo "$symbols_made" | wc -l) symbols in each class and byte order"
}

# Reads damaged files, with sanitizers if the compiler has them, by the calls and by the same in plain C.
check_damaged() {
    echo 'int main(void) { return 0; }' > "$folder/empty.c"
    set -- -fsanitize=address,undefined -fno-sanitize-recover=all
    if ! { cc "$@" -o "$folder/empty" "$folder/empty.c" && "$folder/empty"; } > "$folder/output" 2>&1; then
        left_out "cc has no sanitizers, so damaged files are read without them"
        set --
    fi
    build damaged -std=c99 "$@"
    strictly cc -std=c99 -Ifaces/c -DPLAIN -o "$folder/plain" faces/c/tests/damaged.c faces/c/tests/plain.c
    for file in checks/files/made/s390x_program checks/files/made/mips_program "$folder/nm" "$folder/made" "$files"; do
        if [ -d "$file" ]; then set -- "$file"/*; else set -- "$file"; fi
        quietly "$folder/plain" 1000 "$@"
        mv "$folder/output" "$folder/wanted"
        prints_wanted "$folder/damaged" 1000 "$@"
    done
    tee "$folder/summed" < "$folder/listed"
    echo "plain.c, a plain reading of goblin.h, has the same results"
}

check_header
check_examples
for program in $c_examples made cost; do build "$program" -std=c99; done
check_cost
check_instructions
check_bench
check_programs
check_damaged
