#!/bin/sh
# Makes the files of checks/files/facts, each of which shows a fact that few files show: sh checks/files/facts.sh checks/files/facts
# They were made on Debian 12 for x86-64 by gcc 12.2.0, clang and lld 14.0.6 and binutils 2.40. Nothing in them is anybody else's. No check
# runs this script. facts.py beside it says what their facts are. Run it from the repository's root.
set -eu
export LC_ALL=C
to=$(cd "$1" && pwd)
folder=$(mktemp -d)
trap 'rm -rf "$folder"' EXIT
trap 'exit 1' HUP INT TERM
cd "$folder"

cat > code.c << 'C'
int first(int), second(int);
static int data = 7;
int *const pointer __attribute__((section(".data.rel.ro"))) = &data;
__attribute__((noinline)) int called(int given) { volatile char room[16]; room[given & 15] = 1; return room[0] + *pointer; }
#ifdef INTERPRETER
const char interpreter[] __attribute__((section(".interp"))) = "/lib/ld-made.so.1";
#endif
#ifdef LIBRARIES
void _start(void) { for (;;) called(first(1) + second(2)); }
#else
void _start(void) { for (;;) called(1); }
#endif
C
# A program that calls through a slot which it writes at its start, as libc does of its indirect functions: then it protects what PT_GNU_RELRO
# holds, and writes the slot again.
cat > slots.c << 'C'
#include <elf.h>
typedef int function_t(void);
extern char start[] __asm__("__ehdr_start") __attribute__((visibility("hidden")));
extern Elf64_Dyn _DYNAMIC[] __attribute__((visibility("hidden")));
extern Elf64_Rela __rela_iplt_start[];
static int one(void) { return 1; }
static function_t *choose(void) { return one; }
int chosen(void) __attribute__((ifunc("choose")));
int *const pointer __attribute__((section(".data.rel.ro"), used)) = (int *)start;
static void call(long number, long first, long second, long third) {
    __asm__ volatile("syscall" : "+a"(number) : "D"(first), "S"(second), "d"(third) : "rcx", "r11", "memory");
}
void _start(void) {
    Elf64_Ehdr *header = (Elf64_Ehdr *)start;
    Elf64_Phdr *segment = (Elf64_Phdr *)(start + header->e_phoff), *end = segment + header->e_phnum;
#ifdef __PIE__
    char *base = start;
    Elf64_Dyn *entry = _DYNAMIC;
    while (entry->d_tag != DT_JMPREL) entry++;
    Elf64_Rela *slot = (Elf64_Rela *)(base + entry->d_un.d_ptr);
#else
    char *base = 0;
    Elf64_Rela *slot = __rela_iplt_start;
#endif
    function_t **place = (function_t **)(base + slot->r_offset);
    *place = ((function_t * (*)(void))(base + slot->r_addend))();
    for (; segment < end; segment++) {
        long from = (long)base + segment->p_vaddr, to = from + segment->p_memsz;
        if (segment->p_type == PT_GNU_RELRO) call(10, from & -4096, (to & -4096) - (from & -4096), 1);
    }
    *place = one;
    call(60, chosen() - 1, 0, 0);
}
C
echo 'int first(int given) { return given; }' > first.c
echo 'int second(int given) { return given; } void __stack_chk_fail(void) { for (;;); }' > second.c
# Compiles and links small files.
small() {
    gcc -O1 -nostdlib -ffreestanding -fno-asynchronous-unwind-tables -Wl,-z,max-page-size=256,-z,common-page-size=256,-z,noseparate-code \
        -Wl,--build-id=none -fno-stack-protector -fcf-protection=none "$@"
}

for name in first second; do small -fPIC -shared -Wl,-soname,lib$name.so.1 -o $name.so $name.c; done

# Static programs: stripped; with symbols, code that can be written and a stack that can be executed; and position-independent.
small -fno-pie -static -no-pie -s -Wl,-z,relro -o static_program code.c
small -fno-pie -static -no-pie -Wl,-N -Wl,-z,norelro -Wl,-z,execstack -o writable_code code.c
small -fpie -static-pie -s -Wl,-z,relro -o static_pie code.c
# With a slot outside of PT_GNU_RELRO and inside. Those of pages of 4,096 bytes, which are too large to be stored, show it: one of them ends
# by SIGSEGV (139) as it writes its slot again.
slots() {
    name=$1 expected=$2 status=0
    shift 2
    small "$@" -s -Wl,-z,max-page-size=4096,-z,common-page-size=4096 -o large slots.c
    ./large || status=$?
    [ $status -eq "$expected" ] || { echo "$name: the program of large pages ends with $status, and not with $expected"; exit 1; }
    small "$@" -s -o "$name" slots.c
}
slots open_slots 0 -fno-pie -static -no-pie -Wl,-z,relro,-z,lazy
slots closed_slots 139 -fno-pie -static -no-pie -Wl,-z,relro,-z,now
slots open_slots_pie 0 -fpie -static-pie -Wl,-z,relro,-z,lazy
slots closed_slots_pie 139 -fpie -static-pie -Wl,-z,relro,-z,now
# A program bound at its start, with a canary, marks of control-flow enforcement, a search path and two libraries.
full() {
    small -DLIBRARIES -fpie -pie -s -fcf-protection=full -fstack-protector-all -Wl,-z,relro,-z,now,--enable-new-dtags,-rpath,/made/runpath \
        -Wl,-z,ibt,-z,shstk,--build-id=0x00112233445566778899aabbccddeeff01234567,--dynamic-linker,/lib/ld-made.so.1 "$@" code.c first.so second.so
}
full -o full
# A library with an interpreter, as libc has, of two compilers and a linker that say their names, and one of another machine.
small -DINTERPRETER -fPIC -c -o gcc.o code.c
clang -O1 -ffreestanding -fPIC -c -o clang.o first.c
ld.lld -shared -soname libtwo.so.1 -z max-page-size=256 -z noseparate-code --no-rosegment -o two_compilers gcc.o clang.o
clang --target=aarch64-linux-gnu -O1 -ffreestanding -fPIC -mbranch-protection=standard -c -o aarch64.o first.c
ld.lld -shared -soname libfirst.so.1 -z max-page-size=256 -z noseparate-code -z force-bti -z now -o branch_targets aarch64.o
# An object whose symbols have versions in their names.
gcc -O1 -ffreestanding -fno-asynchronous-unwind-tables -fPIC -fstack-protector-all -fcf-protection=branch -c -o canary.o code.c
objcopy --redefine-sym __stack_chk_fail=__stack_chk_fail@GLIBC_2.4 canary.o object
# Separate debug files, as objcopy makes them, and below as elfutils does: with the sizes of the segments, which end past the end of the file.
full -Wl,-z,max-page-size=4096,-z,common-page-size=4096 -o paged
objcopy --only-keep-debug paged debug

python3 - << 'PYTHON'
import struct

FILE = {32: '>16sHHIIIIIHHHHHH', 64: '<16sHHIQQQIHHHHHH'}


def put(name, content):
    with open(name, 'wb') as file:
        file.write(content)


def segments(content):
    """Yields the offset of each program header and its fields: p_type, p_flags, p_offset, p_vaddr, p_paddr, p_filesz, p_memsz, p_align."""
    start, count = struct.unpack_from('<Q', content, 32)[0], struct.unpack_from('<H', content, 56)[0]
    for at in range(start, start + 56 * count, 56):
        yield at, struct.unpack_from('<IIQQQQQQ', content, at)


full, paged, debug, thing = (bytearray(open(name, 'rb').read()) for name in ('full', 'paged', 'debug', 'object'))
dynamic_at, dynamic = next((at, fields) for at, fields in segments(full) if fields[0] == 2)
# cut inside the dynamic section, and inside the section headers; and whole, with a dynamic section that is said to go on past the end
put('cut_dynamic', full[:dynamic[2] + 40])
put('cut_headers', full[:-10])
# (and without the PT_NOTE of its build ID, as programs in Go)
long = full[:]
struct.pack_into('<Q', long, dynamic_at + 32, len(full))
struct.pack_into('<I', long, [at for at, fields in segments(full) if fields[0] == 4][1], 0)
put('long_dynamic', long)
put('cut_debug', debug[:-10])
for (_, fields), (at, _) in zip(segments(paged), segments(debug)):
    struct.pack_into('<Q', debug, at + 8, fields[2])
    struct.pack_into('<Q', debug, at + 32, fields[5])
put('debug_with_sizes', debug)
# without DT_STRTAB, and without program headers
bare = bytearray(open('two_compilers', 'rb').read())
start, size = next(fields[2::3] for _, fields in segments(bare) if fields[0] == 2)
unnamed = bare[:]
strings = next(at for at in range(start, start + size, 16) if struct.unpack_from('<Q', bare, at)[0] == 5)
struct.pack_into('<Q', unnamed, strings, 0x60000000)
put('no_strings', unnamed)
struct.pack_into('<Q', bare, 32, 0)
struct.pack_into('<HH', bare, 54, 0, 0)
put('no_segments', bare)
# with strings that end before the zero byte of the last one, and with a name past them
opened = full[:]
for at in range(dynamic[2], dynamic[2] + dynamic[5], 16):
    tag, value = struct.unpack_from('<QQ', full, at)
    struct.pack_into('<Q', opened, at + 8, {10: value - 1, 1: value if value == 31 else 1 << 20}.get(tag, value))
put('open_names', opened)
# with a name of a note that is not UTF-8
odd = full[:]
odd[odd.index(b'GNU\0')] = 0xff
put('odd_note', odd)
# with program headers past the end, of a machine without marks of control-flow enforcement
unmarked = bytearray(open('two_compilers', 'rb').read())
struct.pack_into('<H', unmarked, 18, 243)
struct.pack_into('<Q', unmarked, 32, 1 << 20)
put('far_segments', unmarked)
# with a SHT_SYMTAB past the end, and without a canary and with one in the other table: that of a section without bytes
for name, kind in (('two_compilers', 2), ('full', 1)):
    content = bytearray(open(name, 'rb').read())
    start, count = struct.unpack_from('<Q', content, 40)[0], struct.unpack_from('<H', content, 60)[0]
    at = next(at for at in range(start + 64, start + 64 * count, 64) if struct.unpack_from('<I', content, at + 4)[0] == kind
              and (kind == 2 or struct.unpack_from('<Q', content, at + 32)[0] == 0))
    struct.pack_into('<I', content, at + 4, 2)
    struct.pack_into('<QQ', content, at + 24, 1 << 20, 48)
    struct.pack_into('<Q', content, at + 56, 24)
    put('far_symbols' if kind == 2 else 'far_symbols_canary', content)
# a debug file with program headers past the end
lost = bytearray(open('debug', 'rb').read())
struct.pack_into('<Q', lost, 32, 1 << 20)
put('far_segments_debug', lost)
# the number of sections in the first section header, as where there are more than 0xfeff
start, count = struct.unpack_from('<Q', thing, 40)[0], struct.unpack_from('<H', thing, 60)[0]
struct.pack_into('<Q', thing, start + 32, count)
struct.pack_into('<H', thing, 60, 0)
put('many_sections', thing)
# a core with a note and a segment that is loaded
note = struct.pack('>III', 5, 4, 1) + b'CORE\0\0\0\0' + bytes(4)
head = struct.pack(FILE[32], b'\x7fELF\1\2\1', 4, 20, 1, 0, 52, 0, 0, 52, 32, 2, 0, 0, 0)
place = 52 + 2 * 32
heads = struct.pack('>8I', 4, place, 0, 0, len(note), 0, 0, 4) + struct.pack('>8I', 1, place + len(note), 0x1000, 0, 16, 16, 6, 4)
put('core', head + heads + note + bytes(16))
PYTHON
chmod 644 ./*
cp static_program writable_code static_pie open_slots closed_slots open_slots_pie closed_slots_pie full two_compilers branch_targets \
    object debug_with_sizes debug cut_debug cut_dynamic cut_headers long_dynamic no_segments no_strings many_sections core open_names \
    odd_note far_segments far_symbols far_symbols_canary far_segments_debug "$to/"
