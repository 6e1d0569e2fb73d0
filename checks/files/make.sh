#!/bin/sh
# Makes the files of checks/files/made and what binutils prints of each: sh checks/files/make.sh checks/files/made
# Above that folder it makes symbols.listed; elf_constants, the constants of glibc's <elf.h> that goblin.h has too; relocation_names, readelf's
# names of types of relocations by machines; mangled, some names of libstdc++ and what c++filt makes of them; and pyelftools, sums of what
# pyelftools 0.29 reads, which needs the installed Python package on PYTHONPATH.
# They were made on Debian 12 for x86-64 by clang and lld 14.0.6, binutils 2.40 with its linkers for powerpc and s390x, and for x86_64_program
# by gcc 12.2.0: the packages clang, lld, llvm, gcc, g++, binutils, binutils-powerpc-linux-gnu, binutils-s390x-linux-gnu and
# python3-pyelftools. Nothing in them is anybody else's but what gcc adds to each program. x86_64_core is not made here: it is the first 512
# bytes of the core of a program that crashed. No check runs this script. Run it from the repository's root.
set -eu
export LC_ALL=C
to=$(cd "$1" && pwd)
above=$(dirname "$to")
root=$PWD
folder=$(mktemp -d)
trap 'rm -rf "$folder"' EXIT
trap 'exit 1' HUP INT TERM
cp checks/files/library.c checks/files/program.c faces/c/goblin.h faces/c/tests/damaged.c faces/c/tests/plain.c "$folder"
cd "$folder"
printf '%s\n' 'MADE_1 { };' 'MADE_2 { } MADE_1;' > versions

# Compiles a source for a machine: object MACHINE SOURCE [FLAG ..]
object() {
    case $1 in arm) triple=arm-linux-gnueabihf ;; mips64el) triple=mips64el-linux-gnuabi64 ;; *) triple=$1-linux-gnu ;; esac
    machine=$1 source=$2
    shift 2
    clang --target="$triple" -fintegrated-as -O1 -fPIC -ffreestanding -fno-stack-protector -fno-asynchronous-unwind-tables -fcommon -fdebug-prefix-map="$PWD=/made" "$@" \
        -c -o "${machine}_$source.o" "$source.c"
}

# Links for a machine, by lld, or where it can't by GNU ld: link MACHINE FLAG ..
link() {
    case $1 in
    x86_64 | i386) linker="ld -m elf_$1" table=gnu ;;
    powerpc | s390x) linker=$1-linux-gnu-ld table=gnu ;;
    *) linker=ld.lld table=sysv ;;
    esac
    shift
    $linker -nostdlib -z max-page-size=4096 -z noseparate-code --hash-style=$table --allow-shlib-undefined "$@" 2> warnings
}

# Machines whose linkers know symbols that a function resolves: with -DIFUNC.
for machine in aarch64 arm i386 mips powerpc powerpc64 powerpc64le riscv64 s390x x86_64; do
    case $machine in aarch64 | i386 | powerpc64le | s390x | x86_64) more=-DIFUNC ;; *) more= ;; esac
    object "$machine" library -DVERSIONS $more
    object "$machine" program
    link "$machine" -shared -soname libmade.so.1 --version-script=versions --enable-new-dtags -rpath /made/runpath --build-id=sha1 \
        -o "${machine}_library" "${machine}_library.o"
    link "$machine" -pie -e _start -dynamic-linker /lib/ld-made.so.1 -rpath /made/rpath --disable-new-dtags -o "${machine}_program" \
        "${machine}_program.o" "${machine}_library"
done
# Objects, the last one with debugging information.
for machine in mips64el powerpc riscv64 sparc64; do
    object "$machine" library
    cp "${machine}_library.o" "${machine}_object"
done
object i386 library -g -DIFUNC
cp i386_library.o i386_object
# A program without section headers, and its debugging information.
object x86_64 program -g
link x86_64 -pie -e _start -dynamic-linker /lib/ld-made.so.1 -rpath /made/rpath --build-id=sha1 -o whole x86_64_program.o x86_64_library
llvm-objcopy-14 --strip-sections whole x86_64_stripped
objcopy --only-keep-debug whole x86_64_debug
# A program as gcc makes it by default on Debian.
gcc -Os -fstack-protector-strong -I. -DPLAIN -o x86_64_program damaged.c plain.c
cp "$root/checks/files/made/x86_64_core" .

for file in *_library *_object *_core *_stripped *_debug x86_64_program i386_program aarch64_program arm_program mips_program \
    powerpc64le_program riscv64_program s390x_program; do
    case $file in mips_library | powerpc64le_library | riscv64_library) continue ;; esac
    chmod 644 "$file"
    cp "$file" "$to/"
    (cd "$root" && python3 bench/compare.py --list "$folder/$file" > "$to/$file.listed")
done
cp "$root/checks/files/symbols" .
(cd "$root" && python3 bench/compare.py --list "$folder/symbols" > "$above/symbols.listed")

awk '/---- constants ----/ { is_constant = 1 }
    is_constant && /^#define GOBLIN_/ && !/"|_NUM |_FLAGS / { name = substr($2, 8)
        print "#ifdef " name "\nprintf(\"" name " %#llx\\n\", (unsigned long long)" name ");\n#endif" }' goblin.h > constants
printf '%s\n' '#include <elf.h>' '#include <stdio.h>' 'int main(void) {' '#include "constants"' '}' > constants.c
cc -o listing constants.c
./listing > "$above/elf_constants"

# An object with a relocation of each type, for each machine whose names the page has.
python3 - << 'END'
import struct
for machine in (62, 3, 183, 40, 243, 22, 21):
    relocations = b''.join(struct.pack('<QQq', 0, kind, 0) for kind in range(1040))
    head = struct.pack('<16sHHIQQQIHHHHHH', b'\x7fELF\2\1\1', 1, machine, 1, 0, 0, 64, 0, 64, 0, 0, 64, 2, 0)
    sections = bytes(64) + struct.pack('<IIQQQQIIQQ', 0, 4, 0, 0, 192, len(relocations), 0, 0, 8, 24)
    with open(f'types.{machine}', 'wb') as file:
        file.write(head + sections + relocations)
END
for file in types.*; do
    readelf -rW "$file" 2> warnings | while read -r _ info name _; do
        case $name in R_*) echo "${file#types.} $((0x$info)) $name" ;; esac
    done
done > "$above/relocation_names"

# The names that the page's test reads in any case, and some of libstdc++.
{ sed -n "/^const READ = /,/;/p" "$root/faces/page/browser.mjs" | grep -o "_Z[^']*"
    readelf -W --dyn-syms /usr/lib/x86_64-linux-gnu/libstdc++.so.6 | grep -o '_Z[^ @]*' | sort -u | awk 'NR % 32 == 0'; } > names
c++filt -n < names > filtered
paste names filtered > "$above/mangled"

cd "$root"
find "$to" -type f ! -name '*.listed' | sort | xargs /usr/bin/python3 faces/python/tests/beside_pyelftools.py --sums > "$above/pyelftools"
