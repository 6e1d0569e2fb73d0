/* Tests goblin.h against the library: layout [assertions]
   Each field of each struct has the library's offset, by goblin_layout. Each field that is read from files of both
   classes and byte orders, whose fields all differ, is the number that was written there. Each refusal has the number
   of its name, and its numbers. With the argument `assertions` it prints the offsets as static assertions.
   faces/constants.py makes fields.h from goblin.h, so no field is left out. It has STRUCT(name) for each struct and
   FIELD(struct, field, number) for each of its fields. */
#include "goblin.h"
#include <stdio.h>
#include <stdlib.h>
#include <string.h>

/* Where the file has program headers, section headers, symbols, relocations, notes and dynamic entries. */
enum { SEGMENTS = 0x123, SECTIONS = 0x456, SYMBOLS = 0x700, RELOCS = 0x800, NOTES = 0x900, ENTRIES = 0xe00 };

static uint8_t file[0x1000], first[sizeof file], before[sizeof file];
static size_t end, wide;
static bool is_big;
static int compared, wrong;
static goblin_file_t f; /* what the calls are passed: the first bytes of the file, and a header */
static goblin_refusal_t why;
static goblin_layout_t wanted, got;
static goblin_range_t symbols, relocs; /* tables of two items each */
static goblin_header_t none;           /* each field is 0 */

/* Passes the first bytes of the file with a header to the next calls. */
static void over(size_t len, const goblin_header_t *h) {
    f.bytes = file, f.len = len, f.header = *h;
}

static void same(int line, const char *what, uint64_t is, uint64_t should) {
    compared++;
    if (is == should) return;
    printf("line %d: %s is 0x%llx (expected 0x%llx)\n", line, what, (unsigned long long)is, (unsigned long long)should);
    wrong++;
}
#define SAME(is, should) same(__LINE__, #is, (uint64_t)(is), (uint64_t)(should))

/* Tests what a call over `f` returns, or one that writes into the file. */
#define IS(status, call, ...) SAME(call(&f, __VA_ARGS__, &why), status)
#define PUTS(status, call, ...) SAME(call(file, sizeof file, __VA_ARGS__, &why), status)

/* Tests a status and all of the refusal. */
static void refused(int line, uint32_t status, uint32_t kind, uint32_t item, uint64_t a, uint64_t b, uint64_t c,
                    uint64_t d, uint64_t offset) {
    same(line, "the status", status, kind), same(line, "kind", why.kind, kind), same(line, "item", why.item, item);
    same(line, "first", why.first, a), same(line, "second", why.second, b), same(line, "third", why.third, c);
    same(line, "fourth", why.fourth, d), same(line, "offset", why.offset, offset);
}
#define REFUSED(kind, item, a, b, offset, call) REFUSED_BY_FOUR(kind, item, a, b, 0, 0, offset, call)
#define REFUSED_BY_FOUR(kind, item, a, b, c, d, offset, call) \
    (memset(&why, 0xee, sizeof why), refused(__LINE__, call, GOBLIN_REFUSED_##kind, item, a, b, c, d, offset))

/* Returns one of two numbers by the class. */
static size_t by_class(size_t of_64, size_t of_32) { return wide == 8 ? of_64 : of_32; }

/* Writes a number of `width` bytes after the bytes that were written last. */
static uint64_t put(size_t width, uint64_t value) {
    for (size_t i = 0; i < width; i++) file[end + (is_big ? width - 1 - i : i)] = (uint8_t)(value >> (8 * i));
    end += width;
    return value;
}

/* Writes a number whose bytes differ from those around it, and returns it. */
static uint64_t any(size_t width) {
    static uint8_t last;
    uint64_t value = 0;
    for (size_t i = 0; i < width; i++) value = value << 8 | (last = (uint8_t)(last % 250 + 3));
    return put(width, value);
}
#define ANY1(x) ((x) = (uint8_t)any(1))
#define ANY2(x) ((x) = (uint16_t)any(2))
#define ANY4(x) ((x) = (uint32_t)any(4))
#define ANY(x) ((x) = any(wide))

static void header(goblin_header_t *h) {
    memset(file, 0xee, sizeof file);
    memcpy(file, "\177ELF", 4);
    end = 4;
    h->ei_class = (uint8_t)put(1, wide / 4), h->ei_data = (uint8_t)put(1, is_big ? 2 : 1);
    ANY1(h->ei_version), ANY1(h->ei_osabi), ANY1(h->ei_abiversion);
    end = 16;
    ANY2(h->e_type), ANY2(h->e_machine), ANY4(h->e_version), ANY(h->e_entry), h->e_phoff = put(wide, SEGMENTS);
    h->e_shoff = put(wide, SECTIONS), ANY4(h->e_flags), ANY2(h->e_ehsize), ANY2(h->e_phentsize);
    h->e_phnum = (uint16_t)put(2, 2), ANY2(h->e_shentsize), h->e_shnum = (uint16_t)put(2, 3);
    h->e_shstrndx = (uint16_t)put(2, 1);
}

/* Writes a program header, a section header, a symbol and a relocation, each as the second of its table. */
static void records(void) {
    goblin_segment_t *p = &wanted.segment;
    goblin_section_t *s = &wanted.section;
    goblin_symbol_t *y = &wanted.symbol;
    goblin_reloc_t *r = &wanted.reloc;
    end = SEGMENTS + by_class(56, 32);
    ANY4(p->p_type);
    if (wide == 8) ANY4(p->p_flags);
    ANY(p->file.offset), ANY(p->p_vaddr), ANY(p->p_paddr), ANY(p->file.size), ANY(p->p_memsz);
    if (wide == 4) ANY4(p->p_flags);
    ANY(p->p_align);
    end = SECTIONS + by_class(64, 40);
    ANY4(s->sh_name), ANY4(s->sh_type), ANY(s->sh_flags), ANY(s->sh_addr), ANY(s->file.offset), ANY(s->file.size);
    ANY4(s->sh_link), ANY4(s->sh_info), ANY(s->sh_addralign), ANY(s->sh_entsize);
    end = SYMBOLS + by_class(24, 16);
    ANY4(y->st_name);
    if (wide == 4) ANY(y->st_value), ANY(y->st_size);
    ANY1(y->st_info), ANY1(y->st_other), ANY2(y->st_shndx);
    if (wide == 8) ANY(y->st_value), ANY(y->st_size);
    end = RELOCS + 3 * wide;
    r->r_offset = any(wide);
    uint64_t info = any(wide), addend = any(wide);
    r->r_sym = (uint32_t)(wide == 8 ? info >> 32 : info >> 8), r->r_type = (uint32_t)(wide == 8 ? info : info & 0xff);
    r->r_addend = wide == 8 ? (int64_t)addend : (int32_t)addend;
}

/* Writes a note. Its name has seven bytes and a zero byte, its descriptor five and three of padding. */
static void note(goblin_note_t *n) {
    end = NOTES;
    put(4, 8), n->desc.size = put(4, 5), ANY4(n->n_type);
    memcpy(file + end, "goblins", 8);
    n->name.offset = end, n->name.size = 7, n->desc.offset = end + 8, n->next = end + 16;
}

/* Tests which note is a build ID: the first of the first section, whose range may go on after it. A segment may have
   the same note, but ends before the descriptor. */
static void build_ids(void) {
    static const struct { const char *name; uint32_t size, n_type, desc, range, in_section, in_segment; } rows[] = {
        {"GNU", 4, 3, 8, 28, GOBLIN_OK, GOBLIN_REFUSED_BAD_OFFSET}, {"GNU", 4, 3, 0, 28, GOBLIN_OK, GOBLIN_OK},
        {"GNU", 4, 4, 8, 24, GOBLIN_END, GOBLIN_REFUSED_BAD_OFFSET},
        {"GNU", 4, 4, 8, 28, GOBLIN_REFUSED_TOO_BIG, GOBLIN_REFUSED_BAD_OFFSET},
        {"GNU", 3, 3, 8, 24, GOBLIN_END, GOBLIN_REFUSED_BAD_OFFSET},
        {"GNU\0", 5, 3, 8, 28, GOBLIN_END, GOBLIN_REFUSED_TOO_BIG},
        {"GNUx", 4, 3, 8, 24, GOBLIN_END, GOBLIN_REFUSED_BAD_OFFSET},
        {"gnu", 4, 3, 8, 24, GOBLIN_END, GOBLIN_REFUSED_BAD_OFFSET},
        {"GNU", 4, 3, 0xfff, 28, GOBLIN_REFUSED_TOO_BIG, GOBLIN_REFUSED_BAD_OFFSET},
        {"gnu", 4, 3, 0, 16, GOBLIN_END, GOBLIN_END}};
    goblin_range_t found = {0, 0};
    for (size_t i = 0; i < sizeof rows / sizeof *rows; i++)
        for (int has_segment = 0; has_segment < 2; has_segment++) {
            memset(file, 0, sizeof file);
            end = SECTIONS + 4, put(4, GOBLIN_SHT_NOTE), put(2 * wide, 0), put(wide, NOTES), put(wide, rows[i].range);
            end = SEGMENTS, put(4, has_segment ? GOBLIN_PT_NOTE : GOBLIN_PT_LOAD);
            end = SEGMENTS + wide, put(wide, NOTES), end = SEGMENTS + 4 * wide, put(wide, 16);
            end = NOTES, put(4, rows[i].size), put(4, rows[i].desc), put(4, rows[i].n_type);
            memcpy(file + end, rows[i].name, rows[i].size);
            uint32_t status = has_segment ? rows[i].in_segment : rows[i].in_section;
            /* (for a build ID in a segment no section headers are read) */
            f.header.e_shoff = has_segment && status == GOBLIN_OK ? sizeof file : (size_t)SECTIONS;
            SAME(goblin_build_id(&f, &found, &why), status);
            if (status == GOBLIN_OK) SAME(found.offset, NOTES + 16), SAME(found.size, rows[i].desc);
        }
}

/* Tests the build ID after another note of 20 bytes: the next one starts at a multiple of the alignment. */
static void build_ids_after_a_note(void) {
    goblin_range_t found = {0, 0};
    for (uint32_t alignment = 4; alignment <= 8; alignment += 4)
        for (int has_segment = 0; has_segment < 2; has_segment++) {
            size_t at = alignment == 8 ? NOTES + 24 : NOTES + 20;
            memset(file, 0, sizeof file);
            end = SECTIONS + 4, put(4, has_segment ? GOBLIN_SHT_PROGBITS : GOBLIN_SHT_NOTE), put(2 * wide, 0);
            put(wide, NOTES), put(wide, 48), put(8, 0), put(wide, alignment);
            end = SEGMENTS, put(4, has_segment ? GOBLIN_PT_NOTE : GOBLIN_PT_LOAD);
            end = SEGMENTS + wide, put(wide, NOTES), end = SEGMENTS + 4 * wide, put(wide, 48);
            end = SEGMENTS + (wide == 4 ? 28 : 48), put(wide, alignment);
            end = NOTES, put(4, 4), put(4, 4), put(4, 1), memcpy(file + end, "ABC", 4);
            end = at, put(4, 4), put(4, 8), put(4, 3), memcpy(file + end, "GNU", 4);
            f.header.e_shoff = SECTIONS;
            SAME(goblin_build_id(&f, &found, &why), GOBLIN_OK);
            SAME(found.offset, at + 16), SAME(found.size, 8);
        }
}

/* Tests the calls for the dynamic section: an entry, `wanted.dyn`, and the one that ends them. The file has no segment
   of it. */
static void dynamic_all(void) {
    goblin_range_t dynamic = {ENTRIES, 8 * wide}, found;
    goblin_dyn_t both[3];
    uint64_t number = 0, index = 0;
    end = ENTRIES;
    put(wide, GOBLIN_DT_SONAME), put(wide, 0x21);
    wanted.dyn.d_tag = any(wide), wanted.dyn.d_val = any(wide);
    put(wide, GOBLIN_DT_NULL), put(wide, 7);
    SAME(goblin_dynamic(&f, &found, &why), GOBLIN_END);
    IS(GOBLIN_OK, goblin_dynamic_entries, &dynamic, 1, &got.dyn, 1, &number);
    IS(GOBLIN_OK, goblin_dynamic_entries, &dynamic, 0, both, 3, &number);
    SAME(number, 2), SAME(both[1].d_val, wanted.dyn.d_val);
    IS(GOBLIN_END, goblin_dynamic_entries, &dynamic, 2, both, 3, &number);
    IS(GOBLIN_OK, goblin_dynamic_count, &dynamic, &number), SAME(number, 2);
    IS(GOBLIN_OK, goblin_dynamic_value, &dynamic, wanted.dyn.d_tag, 0, &index, &number);
    SAME(number, wanted.dyn.d_val), SAME(index, 1);
    IS(GOBLIN_END, goblin_dynamic_value, &dynamic, GOBLIN_DT_NULL, 0, &index, &number);
    IS(GOBLIN_END, goblin_dynamic_strings, &dynamic, &found);
    dynamic.size = sizeof file;
    for (size_t capacity = 0; capacity <= 3; capacity += 3)
        REFUSED(TOO_BIG, 0, sizeof file, sizeof file - ENTRIES, ENTRIES,
                goblin_dynamic_entries(&f, &dynamic, 0, both, capacity, &number, &why));
}

/* Tests the calls for numbers of items and for sections of a type. */
static void count_all(void) {
    goblin_section_t second, same_section;
    uint64_t number;
    SAME(goblin_segment_count(&f, &number, &why), GOBLIN_OK), SAME(number, 2);
    IS(GOBLIN_OK, goblin_symbol_count, &symbols, &number), SAME(number, 2);
    IS(GOBLIN_OK, goblin_reloc_count, &relocs, true, &number), SAME(number, 2);
    IS(GOBLIN_OK, goblin_section, 1, &second);
    IS(GOBLIN_OK, goblin_section_by_type, second.sh_type, 0, &number, &same_section);
    SAME(number, 1), SAME(same_section.sh_info, second.sh_info);
    IS(GOBLIN_END, goblin_section_by_type, second.sh_type, 2, &number, &same_section);
    for (size_t width = 1; width <= 8; width *= 2) {
        uint64_t value = (end = 0xd00, any(width));
        IS(GOBLIN_OK, goblin_number, 0xd00, width, &number), SAME(number, value);
    }
    IS(GOBLIN_END, goblin_number, 0xd00, 3, &number);
    REFUSED(TOO_BIG, 0, 2, 1, sizeof file - 1, goblin_number(&f, sizeof file - 1, 2, &number, &why));
}

/* Tests the header that counts what is whole in a cut file, a number of segments that the first section has, and calls
   for ranges. */
static void whole_all(void) {
    const goblin_header_t *h = &got.header;
    goblin_file_t whole;
    goblin_header_t many = *h;
    goblin_section_t s;
    goblin_segment_t p;
    goblin_range_t part = {0, 0}, all = {0, sizeof file}, past = {sizeof file - 3, 9};
    uint64_t number = 0;
    memset(&s, 0, sizeof s), memset(&whole, 0, sizeof whole);
    over(SECTIONS + 2 * by_class(64, 40) + 1, h);
    IS(GOBLIN_REFUSED_TOO_BIG, goblin_section, 1, &s);
    goblin_whole_header(&f, &whole);
    SAME(whole.header.e_shnum, 2), SAME(whole.header.e_shoff, h->e_shoff), SAME(whole.header.e_phnum, 2);
    SAME(whole.len, f.len), SAME(whole.header.e_entry, h->e_entry), SAME(whole.bytes == file, 1);
    SAME(goblin_section(&whole, 1, &s, &why), GOBLIN_OK), SAME(s.file.offset, wanted.section.file.offset);
    SAME(goblin_section(&whole, 2, &s, &why), GOBLIN_END);
    f.len = SEGMENTS + 2 * by_class(56, 32) - 1;
    IS(GOBLIN_REFUSED_TOO_BIG, goblin_segment, 0, &p);
    goblin_whole_header(&f, &whole);
    SAME(whole.header.e_phnum, 1), SAME(whole.header.e_shoff + whole.header.e_shnum, 0);
    SAME(goblin_segment(&whole, 0, &p, &why), GOBLIN_OK), SAME(goblin_segment(&whole, 1, &p, &why), GOBLIN_END);
    SAME(goblin_section(&whole, 0, &s, &why), GOBLIN_END);
    /* sh_info of the first section is the number of segments if e_phnum is 0xffff. */
    size_t at = SECTIONS + by_class(44, 28);
    uint64_t kept = 0;
    many.e_phnum = 0xffff;
    over(sizeof file, &many);
    IS(GOBLIN_OK, goblin_number, at, 4, &kept);
    PUTS(GOBLIN_OK, goblin_put_number, h, at, 4, 3);
    SAME(goblin_segment_count(&f, &number, &why), GOBLIN_OK), SAME(number, 3);
    IS(GOBLIN_OK, goblin_segment, 2, &p), IS(GOBLIN_END, goblin_segment, 3, &p);
    PUTS(GOBLIN_OK, goblin_put_number, h, at, 4, kept);
    f.len = SECTIONS + 10;
    REFUSED(TOO_BIG, 0, by_class(64, 40), 10, SECTIONS, goblin_segment_count(&f, &number, &why));
    f.len = sizeof file, f.header.e_shoff = 0;
    REFUSED(BUFFER_TOO_SHORT, GOBLIN_ITEM_PROGRAM_HEADERS, 0xffff, 0, SEGMENTS,
            goblin_segment_count(&f, &number, &why));
    over(sizeof file, h);
    IS(GOBLIN_OK, goblin_number_in, &all, 4, 1, &number), SAME(number, wide / 4);
    part.offset = SYMBOLS, part.size = 9;
    REFUSED(BAD_OFFSET, 0, 9, 0, SYMBOLS + 9, goblin_number_in(&f, &part, part.size, 1, &number, &why));
    goblin_range_in_file(&f, &past, &part);
    SAME(part.offset, sizeof file - 3), SAME(part.size, 3);
    IS(GOBLIN_END, goblin_address_to_offset, 0, &number);
}

/* Tests that a call has written `size` bytes at an offset as they were in the first file, and that no other byte of the
   file is changed from what it was after `before` was made. */
static void written(int line, size_t offset, size_t size) {
    same(line, "what is written", (uint64_t)memcmp(file + offset, first + offset, size), 0);
    same(line, "what is before it", (uint64_t)memcmp(file, before, offset), 0);
    same(line, "what is after it", (uint64_t)memcmp(file + offset + size, before + offset + size,
                                                    sizeof file - offset - size), 0);
}

/* Tests each call that writes: it brings back the bytes of a record that are lost, of a table with two of each. */
static void write_all(void) {
    const goblin_header_t *h = &wanted.header;
    size_t header_size = by_class(64, 52), p = by_class(56, 32), s = by_class(64, 40), y = by_class(24, 16);
    memcpy(first, file, sizeof file);
#define WRITES(offset, size, call, ...) \
    (memset(file + (offset), 0xdd, size), memcpy(before, file, sizeof file), \
     PUTS(GOBLIN_OK, call, __VA_ARGS__), written(__LINE__, offset, size))
    WRITES(SEGMENTS + p, p, goblin_put_segment, h, 1, &wanted.segment);
    WRITES(SECTIONS + s, s, goblin_put_section, h, 1, &wanted.section);
    WRITES(SYMBOLS + y, y, goblin_put_symbol, h, &symbols, 1, &wanted.symbol);
    WRITES(RELOCS + 3 * wide, 3 * wide, goblin_put_reloc, h, &relocs, true, 1, &wanted.reloc);
    WRITES(4, 2, goblin_put_number, h, 4, 2, is_big ? (uint64_t)(wide / 4 << 8 | 2) : (uint64_t)(wide / 4 | 1 << 8));
    /* (the padding of the identification stays) */
    memset(file + 16, 0xdd, header_size - 16), memset(file, 0xdd, 9), memcpy(before, file, sizeof file);
    PUTS(GOBLIN_OK, goblin_put_header, h);
    written(__LINE__, 0, header_size);
#undef WRITES
    PUTS(GOBLIN_END, goblin_put_segment, h, 2, &wanted.segment);
    PUTS(GOBLIN_END, goblin_put_section, h, 3, &wanted.section);
    PUTS(GOBLIN_END, goblin_put_symbol, h, &symbols, 2, &wanted.symbol);
    PUTS(GOBLIN_END, goblin_put_reloc, h, &relocs, true, 2, &wanted.reloc);
    PUTS(GOBLIN_END, goblin_put_number, h, 0, 3, 0);
    SAME(memcmp(file, first, sizeof file), 0);
}

/* Tests that a record with numbers that don't fit 32 bits is refused in a 32-bit file, by the first of them in the
   order of the file, and that nothing is written. In a 64-bit file it is written. */
static void misfits(int line, uint32_t status, uint64_t number, uint64_t offset) {
    if (wide == 4) refused(line, status, GOBLIN_REFUSED_INTEGER_FIT, 0, number, 0, 0, 0, offset);
    else same(line, "the status", status, GOBLIN_OK), memcpy(file, first, sizeof file);
    same(line, "nothing is written", (uint64_t)memcmp(file, first, sizeof file), 0);
}
#define MISFITS(number, offset, call, ...) \
    (memset(&why, 0xee, sizeof why), misfits(__LINE__, call(file, sizeof file, __VA_ARGS__, &why), number, offset))

/* Tests what the calls that write refuse: what does not fit. */
static void write_too_wide(void) {
    const uint64_t high = (uint64_t)1 << 32;
    const goblin_header_t *h = &wanted.header;
    goblin_layout_t items = wanted;
    goblin_range_t part = {SYMBOLS, 9}, dynamic = {ENTRIES, 8 * wide};
    memcpy(first, file, sizeof file);
    /* (the fields of a 32-bit header, two of which don't fit from the second on) */
    uint64_t *const fields[] = {&items.header.e_shoff, &items.header.e_phoff, &items.header.e_entry};
    for (size_t i = 0; i < 3; i++)
        *fields[i] = high + i, MISFITS(high + i, 32 - 4 * i, goblin_put_header, &items.header);
    items.section.sh_flags = items.symbol.st_size = items.segment.p_align = high;
    MISFITS(high, SECTIONS + 40 + 8, goblin_put_section, h, 1, &items.section);
    MISFITS(high, SYMBOLS + 16 + 8, goblin_put_symbol, h, &symbols, 1, &items.symbol);
    MISFITS(high, SEGMENTS + 32 + 28, goblin_put_segment, h, 1, &items.segment);
    items.dyn.d_val = high + 1;
    MISFITS(high + 1, ENTRIES + 8 + 4, goblin_put_dynamic_entry, h, &dynamic, 1, &items.dyn);
    items.dyn.d_tag = high;
    MISFITS(high, ENTRIES + 8, goblin_put_dynamic_entry, h, &dynamic, 1, &items.dyn);
    items.reloc.r_addend = (int64_t)1 << 31;
    MISFITS((uint64_t)1 << 31, RELOCS + 20, goblin_put_reloc, h, &relocs, true, 1, &items.reloc);
    items.reloc.r_type = 0x100;
    MISFITS(0x100, RELOCS + 16, goblin_put_reloc, h, &relocs, true, 1, &items.reloc);
    items.reloc.r_sym = 0x1000000;
    MISFITS(0x1000000, RELOCS + 16, goblin_put_reloc, h, &relocs, true, 1, &items.reloc);
    items.reloc.r_offset = high;
    MISFITS(high, RELOCS + 12, goblin_put_reloc, h, &relocs, true, 1, &items.reloc);
    REFUSED(INTEGER_FIT, GOBLIN_ITEM_ADDEND, (uint64_t)wanted.reloc.r_addend, 0, RELOCS + 2 * wide,
            goblin_put_reloc(file, sizeof file, h, &relocs, false, 0, &wanted.reloc, &why));
    REFUSED(INTEGER_FIT, 0, 0x10000, 0, 0x10, goblin_put_number(file, sizeof file, h, 0x10, 2, 0x10000, &why));
    REFUSED(INTEGER_FIT, 0, 0x100, 0, SYMBOLS + 8,
            goblin_put_number_in(file, sizeof file, h, &part, 8, 1, 0x100, &why));
    SAME(memcmp(file, first, sizeof file), 0);
}

/* Tests what these calls refuse, too: what is not there. */
static void write_outside(void) {
    const goblin_header_t *h = &wanted.header;
    goblin_header_t odd = *h;
    odd.ei_class = 3, odd.ei_data = 3;
    REFUSED(INVALID_CLASS, 0, 3, 0, 0, goblin_put_header(file, sizeof file, &odd, &why));
    odd.ei_class = h->ei_class;
    REFUSED(DATA, 0, 3, 0, 0, goblin_put_header(file, sizeof file, &odd, &why));
    REFUSED(BAD_OFFSET, 0, 0, 0, 0, goblin_put_header(file, 0, h, &why));
    REFUSED(TOO_BIG, 0, by_class(64, 52), 51, 0, goblin_put_header(file, 51, h, &why));
    REFUSED(BAD_OFFSET, 0, SECTIONS, 0, SECTIONS, goblin_put_section(file, SECTIONS, h, 0, &wanted.section, &why));
    REFUSED(BAD_OFFSET, 0, SEGMENTS, 0, SEGMENTS, goblin_put_segment(file, SEGMENTS, h, 0, &wanted.segment, &why));
    REFUSED(SYMTAB_OFFSET, 0, SYMBOLS, SYMBOLS - 1, SYMBOLS,
            goblin_put_symbol(file, SYMBOLS - 1, h, &symbols, 0, &wanted.symbol, &why));
    REFUSED(TOO_BIG, 0, 6 * wide, 1, RELOCS,
            goblin_put_reloc(file, RELOCS + 1, h, &relocs, true, 0, &wanted.reloc, &why));
    REFUSED(TOO_BIG, 0, 4, 3, 4, goblin_put_number(file, 7, h, 4, 4, 0, &why));
    SAME(memcmp(file, first, sizeof file), 0);
}

/* Tests the calls for bytes of sections, segments and strings. */
static void range_all(void) {
    goblin_section_t s = wanted.section;
    goblin_segment_t p = wanted.segment;
    goblin_range_t found = {0, 0}, names = {0xc00, 4};
    s.sh_type = 1, s.file.offset = p.file.offset = 0xa00, s.file.size = p.file.size = 0x33, p.p_type = 1;
    IS(GOBLIN_OK, goblin_section_range, &s, &found), SAME(found.offset, 0xa00), SAME(found.size, 0x33);
    found.size = 0;
    IS(GOBLIN_OK, goblin_segment_range, &p, &found), SAME(found.offset, 0xa00), SAME(found.size, 0x33);
    IS(GOBLIN_OK, goblin_string, &names, 1, &found), SAME(found.offset, 0xc01), SAME(found.size, 3);
    s.file.size = p.file.size = sizeof file;
    REFUSED(TOO_BIG, 0, sizeof file, 0x600, 0xa00, goblin_section_range(&f, &s, &found, &why));
    REFUSED(TOO_BIG, 0, sizeof file, 0x600, 0xa00, goblin_segment_range(&f, &p, &found, &why));
    s.sh_type = 8, p.p_type = 0;
    IS(GOBLIN_END, goblin_section_range, &s, &found), IS(GOBLIN_END, goblin_segment_range, &p, &found);
}

/* Reads the header of the first bytes of the file. */
static uint32_t read_header(size_t len, goblin_header_t *h) {
    goblin_file_t read;
    memset(&read, 0, sizeof read);
    uint32_t status = goblin_file(file, len, &read, &why);
    if (status == GOBLIN_OK) SAME(read.bytes == file && read.len == len, 1), *h = read.header;
    else SAME((uintptr_t)read.bytes + read.len + read.header.ei_class, 0);
    return status;
}

/* Reads each item of a file, and compares it with what was written. */
static void read_all(void) {
    memset(&wanted, 0, sizeof wanted), memset(&got, 0, sizeof got);
    header(&wanted.header), records(), note(&wanted.note);
    symbols.offset = SYMBOLS, symbols.size = by_class(48, 32), relocs.offset = RELOCS, relocs.size = 6 * wide;
    SAME(read_header(sizeof file, &got.header), GOBLIN_OK);
    over(sizeof file, &got.header);
    IS(GOBLIN_OK, goblin_segment, 1, &got.segment), IS(GOBLIN_END, goblin_segment, 2, &got.segment);
    SAME(goblin_names_section(&f, &got.section, &why), GOBLIN_OK);
    IS(GOBLIN_OK, goblin_section, 1, &got.section), IS(GOBLIN_END, goblin_section, 3, &got.section);
    count_all(), range_all(), whole_all(), dynamic_all();
    IS(GOBLIN_OK, goblin_symbol, &symbols, 1, &got.symbol), IS(GOBLIN_END, goblin_symbol, &symbols, 2, &got.symbol);
    IS(GOBLIN_OK, goblin_reloc, &relocs, true, 1, &got.reloc);
    IS(GOBLIN_END, goblin_reloc, &relocs, true, 2, &got.reloc);
    goblin_range_t notes = {NOTES, 28};
    goblin_note_t whole;
    IS(GOBLIN_OK, goblin_note_utf8, &notes, 4, NOTES, &got.note);
    IS(GOBLIN_END, goblin_note_utf8, &notes, 4, got.note.next, &got.note);
    IS(GOBLIN_OK, goblin_note_whole, &notes, 4, NOTES, &whole);
    SAME(whole.name.offset, wanted.note.name.offset), SAME(whole.name.size, 7), SAME(whole.desc.size, 5);
    SAME(whole.desc.offset, wanted.note.desc.offset), SAME(whole.next, wanted.note.next);
    SAME(whole.n_type, wanted.note.n_type);
    /* In a little-endian MIPS64 file the bytes of the type are in the other order. */
    goblin_reloc_t pair;
    f.header.e_machine = 8;
    IS(GOBLIN_OK, goblin_reloc, &relocs, true, 1, &pair);
    if (wide == 8 && !is_big) {
        uint32_t type = wanted.reloc.r_sym;
        SAME(pair.r_sym, wanted.reloc.r_type);
        SAME(pair.r_type, type << 24 | (type & 0xff00) << 8 | (type >> 8 & 0xff00) | type >> 24);
    }
    memcpy(first, file, sizeof file);
    PUTS(GOBLIN_OK, goblin_put_reloc, &f.header, &relocs, true, 1, &pair);
    SAME(memcmp(file, first, sizeof file), 0);
    write_all(), write_too_wide(), write_outside();
    /* A refusal with four different numbers: its size, its offset, the file's length and 1. Its table begins at
       the offset. */
    goblin_range_t past = {0x321, UINT64_MAX}, names = {wanted.note.name.offset - 1, 9};
    goblin_refusal_t refusal = {GOBLIN_REFUSED_STRTAB_RANGE, 0, past.size, past.offset, sizeof file, 1, past.offset};
    wanted.refusal = refusal;
    IS(GOBLIN_REFUSED_STRTAB_RANGE, goblin_string_utf8, &past, 0, &got.range);
    got.refusal = why;
    wanted.range.offset = names.offset + 3, wanted.range.size = 5;
    IS(GOBLIN_OK, goblin_string_utf8, &names, 3, &got.range);
#define STRUCT(name)
#define FIELD(name, field, number) SAME(got.name.field, wanted.name.field);
#include "fields.h"
#undef FIELD
#undef STRUCT
}

/* Tests each refusal that these calls return, by its name. */
static void refuse_all(void) {
    goblin_header_t h;
    goblin_section_t s;
    goblin_segment_t p;
    goblin_symbol_t y;
    goblin_note_t n;
    goblin_range_t text, names = {0xc00, 4}, range = {sizeof file, 0}, cut = {NOTES, 0};
    header(&h);
    SAME(read_header(sizeof file, &h), GOBLIN_OK);
    over(sizeof file, &h);
    f.header.e_shoff = sizeof file;
    REFUSED(BAD_OFFSET, 0, sizeof file, 0, sizeof file, goblin_section(&f, 0, &s, &why));
    f.header.e_shoff = SECTIONS, f.header.e_shnum = 0xffff, f.header.e_phnum = 0xfffe;
    REFUSED(BUFFER_TOO_SHORT, GOBLIN_ITEM_SECTION_HEADERS, 0xffff, 0, SECTIONS, goblin_section(&f, 0, &s, &why));
    REFUSED(BUFFER_TOO_SHORT, GOBLIN_ITEM_PROGRAM_HEADERS, 0xfffe, 0, SEGMENTS, goblin_segment(&f, 0, &p, &why));
    f.header.e_phnum = 0xffff; /* (sh_info of section 0 is made of the bytes 0xee) */
    REFUSED(BUFFER_TOO_SHORT, GOBLIN_ITEM_PROGRAM_HEADERS, 0xeeeeeeee, 0, SEGMENTS, goblin_segment(&f, 0, &p, &why));
    REFUSED(BAD_INPUT, GOBLIN_ITEM_INVALID_UTF8, 4, 0, 0xc00, goblin_string_utf8(&f, &names, 0, &text, &why));
    REFUSED(NOTE_ALIGN, 0, 16, 0, 0xc00, goblin_note_utf8(&f, &names, 16, 0xc00, &n, &why));
    note(&n);
    static const struct { uint64_t size; uint32_t status, item; uint64_t a, b; } cuts[] = {
        {11, GOBLIN_REFUSED_TOO_BIG, GOBLIN_ITEM_NOTE_HEADER, 12, 11},
        {12, GOBLIN_REFUSED_BAD_OFFSET, GOBLIN_ITEM_NOTE_NAME, 12, 0},
        {19, GOBLIN_REFUSED_TOO_BIG, GOBLIN_ITEM_NOTE_NAME, 8, 7},
        {20, GOBLIN_REFUSED_BAD_OFFSET, GOBLIN_ITEM_NOTE_DESC, 20, 0},
        {24, GOBLIN_REFUSED_TOO_BIG, GOBLIN_ITEM_NOTE_DESC, 5, 4}};
    for (size_t i = 0; i < sizeof cuts / sizeof *cuts; i++) {
        cut.size = cuts[i].size;
        refused(__LINE__, goblin_note_whole(&f, &cut, 4, NOTES, &n, &why), cuts[i].status, cuts[i].item, cuts[i].a,
                cuts[i].b, 0, 0, NOTES);
    }
    cut.size = 25, file[NOTES + 12] = 0xee;
    REFUSED(BAD_INPUT, GOBLIN_ITEM_INVALID_UTF8, sizeof file - NOTES - 12, 0, NOTES,
            goblin_note_utf8(&f, &cut, 4, NOTES, &n, &why));
    IS(GOBLIN_OK, goblin_note_whole, &cut, 4, NOTES, &n);
    REFUSED(NOTE_ALIGN, 0, 16, 0, NOTES, goblin_note_whole(&f, &cut, 16, NOTES, &n, &why));
    REFUSED(SYMTAB_OFFSET, 0, sizeof file, sizeof file, sizeof file, goblin_symbol(&f, &range, 0, &y, &why));
    range.offset--, range.size = 24;
    REFUSED(SYMTAB_PAST, 0, by_class(24, 16), 1, range.offset, goblin_symbol(&f, &range, 0, &y, &why));
    REFUSED_BY_FOUR(STRTAB_RANGE, 0, 24, range.offset, sizeof file, 0, range.offset,
                    goblin_string_utf8(&f, &range, 0, &text, &why));
    range.offset += 2;
    REFUSED(STRTAB_OFFSET, 0, range.offset, sizeof file, range.offset,
            goblin_string_utf8(&f, &range, 0, &text, &why));
    REFUSED(TOO_SMALL, 0, 0, 0, 0, read_header(15, &h));
    REFUSED(TOO_BIG, 0, by_class(64, 52), 51, 0, read_header(51, &h));
    file[5] = 3;
    REFUSED(DATA_TYPE, 0, 3, 0, 0, read_header(sizeof file, &h));
    file[4] = 3;
    REFUSED(ELF_CLASS, 0, 3, 0, 0, read_header(sizeof file, &h));
    memcpy(file, "\3ELF\4\5\6\7", 8);
    REFUSED(BAD_MAGIC, 0, 0x07060504464c4503, 0, 0, read_header(sizeof file, &h));
}

/* Tests each call with null pointers for empty files, names and arrays. */
static void call_with_nulls(void) {
    const uint32_t OK = GOBLIN_OK, END = GOBLIN_END, BAD = GOBLIN_REFUSED_BAD_OFFSET,
        SYMTAB = GOBLIN_REFUSED_SYMTAB_OFFSET, STRTAB = GOBLIN_REFUSED_STRTAB_RANGE;
    goblin_header_t h;
    goblin_file_t whole;
    goblin_dyn_t d = {0, 0};
    goblin_section_t s;
    goblin_segment_t p;
    goblin_symbol_t y;
    goblin_reloc_t r;
    goblin_note_t n;
    goblin_range_t text, nothing = {0, 0}, some = {0, 1};
    uint64_t number;
    memset(&h, 0, sizeof h), memset(&s, 0, sizeof s), memset(&p, 0, sizeof p), memset(&y, 0, sizeof y),
        memset(&r, 0, sizeof r);
    memset(&f, 0, sizeof f);
    SAME(goblin_file(NULL, 0, &f, &why), GOBLIN_REFUSED_TOO_SMALL);
    SAME(goblin_layout((goblin_layout_t *)(void *)&f, sizeof f), 0);
    for (uint64_t i = 0; i < 2; i++) {
        uint32_t end_or_bad = i ? BAD : END;
        h.e_shoff = f.header.e_shoff = i;
        SAME(goblin_section_count(&f, &number, &why), i ? BAD : OK);
        SAME(goblin_names_section(&f, &s, &why), end_or_bad), IS(end_or_bad, goblin_section, 0, &s);
        IS(end_or_bad, goblin_linked_section, 1, &s), IS(end_or_bad, goblin_sections, 0, NULL, 0, &number);
        IS(end_or_bad, goblin_section_by_name, &nothing, NULL, 0, 0, &number, &s);
        IS(end_or_bad, goblin_section_by_type, 3, 0, &number, &s);
        SAME(goblin_put_section(NULL, 0, &h, 0, &s, &why), end_or_bad);
        goblin_whole_header(&f, &whole);
        SAME(whole.header.e_shoff + whole.len, 0);
    }
    SAME(goblin_segment_count(&f, &number, &why), OK), IS(END, goblin_segment, 0, &p);
    IS(END, goblin_segments, 0, NULL, 0, &number), IS(END, goblin_address_to_offset, 0, &number);
    SAME(goblin_dynamic(&f, &text, &why), BAD), SAME(goblin_build_id(&f, &text, &why), BAD);
    IS(BAD, goblin_number, 0, 8, &number);
    /* (a range of no bytes, and one of a byte) */
#define BOTH(of_none, of_one, call, ...) \
    (IS(of_none, call, &nothing, __VA_ARGS__), IS(of_one, call, &some, __VA_ARGS__))
    BOTH(SYMTAB, SYMTAB, goblin_symbol, 0, &y), BOTH(SYMTAB, SYMTAB, goblin_symbols, 0, NULL, 0, &number);
    BOTH(SYMTAB, SYMTAB, goblin_symbol_count, &number), BOTH(SYMTAB, SYMTAB, goblin_symbol_by_address, 0, &number);
    BOTH(SYMTAB, SYMTAB, goblin_symbol_by_name, &nothing, NULL, 0, 0, &number, &y);
    BOTH(END, BAD, goblin_reloc, true, 0, &r), BOTH(END, BAD, goblin_relocs, false, 0, NULL, 0, &number);
    BOTH(OK, BAD, goblin_reloc_count, true, &number), BOTH(END, BAD, goblin_note, 4, 0, &n);
    BOTH(END, BAD, goblin_note_utf8, 4, 0, &n), BOTH(END, BAD, goblin_note_whole, 4, 0, &n);
    BOTH(END, BAD, goblin_dynamic_entries, 0, NULL, 0, &number), BOTH(OK, BAD, goblin_dynamic_count, &number);
    BOTH(END, BAD, goblin_dynamic_value, 1, 0, &number, &number), BOTH(BAD, BAD, goblin_dynamic_strings, &text);
    BOTH(BAD, BAD, goblin_number_in, 0, 1, &number), BOTH(END, STRTAB, goblin_string, 0, &text);
    BOTH(END, STRTAB, goblin_string_closed, 0, &text), BOTH(OK, STRTAB, goblin_closed_strings, &text);
    BOTH(OK, OK, goblin_strings, NULL, 0, NULL, 0, &number), SAME(number, 0);
#undef BOTH
    SAME(goblin_string_is(&f, &nothing, 0, NULL, 0), false), SAME(goblin_string_starts(&f, &some, 0, NULL, 0), false);
    goblin_range_in_file(&f, &some, &text);
    SAME(text.size, 0);
    SAME(goblin_put_header(NULL, 0, &h, &why), GOBLIN_REFUSED_INVALID_CLASS);
    SAME(goblin_put_segment(NULL, 0, &h, 0, &p, &why), END);
    SAME(goblin_put_symbol(NULL, 0, &h, &nothing, 0, &y, &why), SYMTAB);
    SAME(goblin_put_reloc(NULL, 0, &h, &nothing, true, 0, &r, &why), END);
    SAME(goblin_put_dynamic_entry(NULL, 0, &h, &nothing, 0, &d, &why), END);
    SAME(goblin_put_number(NULL, 0, &h, 0, 8, 0, &why), BAD);
    SAME(goblin_put_number_in(NULL, 0, &h, &some, 0, 1, 0, &why), BAD);
    SAME(goblin_class_to_str(1, NULL, 0), strlen("ELF32")), SAME(goblin_et_to_str(3, NULL, 0), strlen("DYN"));
    SAME(goblin_machine_to_str(62, NULL, 0), strlen("X86_64")), SAME(goblin_pt_to_str(1, NULL, 0), strlen("PT_LOAD"));
    SAME(goblin_sht_to_str(1, NULL, 0), strlen("SHT_PROGBITS"));
    SAME(goblin_shf_to_str(1, NULL, 0), strlen("SHF_WRITE")), SAME(goblin_bind_to_str(1, NULL, 0), strlen("GLOBAL"));
    SAME(goblin_type_to_str(2, NULL, 0), strlen("FUNC"));
    SAME(goblin_visibility_to_str(0, NULL, 0), strlen("DEFAULT"));
    SAME(goblin_note_type_to_str(NULL, 0, 3, NULL, 0), strlen("NT_GNU_BUILD_ID"));
    IS(END, goblin_string_utf8, &nothing, 0, &text), IS(STRTAB, goblin_string_utf8, &some, 0, &text);
    SAME(goblin_refusal_to_str(&why, NULL, 0),
         strlen("Malformed entity: Strtable size (1) + offset (0) is out of bounds for 0 #bytes. Overflowed: false"));
    header(&h), note(&n);
    goblin_range_t empty = {n.name.offset + 7, 1};
    SAME(read_header(sizeof file, &h), GOBLIN_OK);
    over(sizeof file, &h);
    IS(GOBLIN_OK, goblin_sections, 1, NULL, 0, &number), SAME(number, 0);
    IS(GOBLIN_OK, goblin_segments, 1, NULL, 0, &number), SAME(number, 0);
    IS(GOBLIN_OK, goblin_symbols, &symbols, 1, NULL, 0, &number), SAME(number, 0);
    IS(GOBLIN_OK, goblin_relocs, &relocs, true, 1, NULL, 0, &number), SAME(number, 0);
    /* The offset of each symbol's name is 0xeeeeeeee, which is past these names. */
    IS(GOBLIN_END, goblin_symbol_by_name, &symbols, &empty, NULL, 0, 0, &number, &y);
}

/* Tests that 160 bytes hold the longest text of each kind of refusal and the zero byte after it, and that a text that
   fills the buffer has none. */
static void close_texts(void) {
    char text[161];
    goblin_refusal_t longest = {0, 0, UINT64_MAX, UINT64_MAX, UINT64_MAX, 0, UINT64_MAX};
    goblin_refusal_t misfit = {GOBLIN_REFUSED_INTEGER_FIT, 0, (uint64_t)1 << 32, 0, 0, 0, 24};
    for (longest.kind = 0; longest.kind <= GOBLIN_REFUSED_INTEGER_FIT + 1; longest.kind++)
        for (longest.item = 0; longest.item <= GOBLIN_ITEM_PROGRAM_HEADERS; longest.item++) {
            memset(text, 0xee, sizeof text);
            uint64_t size = goblin_refusal_to_str(&longest, text, 160);
            SAME(size < 160, true), SAME(strlen(text), size);
            memset(text, 0xee, sizeof text);
            goblin_refusal_to_str(&longest, text, (size_t)size);
            SAME((uint8_t)text[size], 0xee);
        }
    for (misfit.item = 0; misfit.item <= GOBLIN_ITEM_ADDEND; misfit.item += GOBLIN_ITEM_ADDEND) {
        goblin_refusal_to_str(&misfit, text, 160);
        SAME(strcmp(text, "Malformed entity: Integer do not fit: out of range integral type conversion attempted: "
                          "4294967296 at offset 24"), 0);
    }
    memset(text, 0xee, sizeof text);
    SAME(goblin_class_to_str(2, text, 6), strlen("ELF64")), SAME(strcmp(text, "ELF64"), 0);
}

/* Tests the macros for sizes of records, as both classes have them, and for the parts of a symbol. */
static void use_macros(void) {
    goblin_header_t h = none;
    for (int i = 0; i < 2; i++, h.ei_class = GOBLIN_ELFCLASS64) {
        SAME(GOBLIN_SIZEOF_SHDR(&h), i ? 64 : 40), SAME(GOBLIN_SIZEOF_PHDR(&h), i ? 56 : 32);
        SAME(GOBLIN_SIZEOF_SYM(&h), i ? 24 : 16), SAME(GOBLIN_SIZEOF_REL(&h), i ? 16 : 8);
        SAME(GOBLIN_SIZEOF_RELA(&h), i ? 24 : 12), SAME(GOBLIN_SIZEOF_DYN(&h), i ? 16 : 8);
    }
    SAME(GOBLIN_ST_INFO(GOBLIN_STB_WEAK, GOBLIN_STT_FUNC), 0x22);
    SAME(GOBLIN_ST_BIND(0xa5), 10), SAME(GOBLIN_ST_TYPE(0xa5), 5), SAME(GOBLIN_ST_VISIBILITY(0xea), 2);
}

/* Compares strings, and finds those that are closed, over "", "ab", "abc" and "x", whose end is that of the table. */
static void compare_strings(void) {
    static const uint8_t strings[] = "\0ab\0abc\0x";
    static const goblin_range_t table = {0, 9}, past = {8, 9}, outside = {12, 0};
    goblin_range_t unread = {0, 0};
    const goblin_file_t all = {strings, sizeof strings, none}, short_one = {strings, 10, none};
    static const struct { uint64_t at; const char *text; size_t size; bool is, starts; } rows[] = {
        {1, "ab", 2, true, true}, {1, "abc", 3, false, false}, {4, "ab", 2, false, true}, {5, "bc", 2, true, true},
        {0, "", 0, true, true}, {1, "", 0, false, true}, {8, "x", 1, true, true}, {8, "x", 2, false, false},
        {1, "ab", 3, false, false}, {9, "", 0, false, false}, {UINT64_MAX, "", 0, false, false},
        {4, "abc", 3, true, true}, {4, "ac", 2, false, false}, {8, "", 0, false, true}, {0, NULL, 0, true, true},
        {1, NULL, 0, false, true}};
    for (size_t i = 0; i < sizeof rows / sizeof *rows; i++) {
        SAME(goblin_string_is(&all, &table, rows[i].at, rows[i].text, rows[i].size), rows[i].is);
        SAME(goblin_string_starts(&all, &table, rows[i].at, rows[i].text, rows[i].size), rows[i].starts);
    }
    SAME(goblin_string_is(&all, &table, 1, GOBLIN_LITERAL("ab")), true);
    SAME(goblin_string_starts(&all, &table, 4, GOBLIN_LITERAL("abc")), true);
    SAME(goblin_string_is(&short_one, &past, 0, "x", 1), false);
    SAME(goblin_string_is(&short_one, &table, 9, "", 0), false);
    SAME(goblin_string_starts(&short_one, &outside, 0, "", 0), false);
    static const struct { uint64_t at; uint32_t status; uint64_t size; } closed[] = {
        {1, GOBLIN_OK, 2}, {4, GOBLIN_OK, 3}, {7, GOBLIN_OK, 0}, {8, GOBLIN_END, 0}, {9, GOBLIN_END, 0}};
    for (size_t i = 0; i < sizeof closed / sizeof *closed; i++) {
        SAME(goblin_string_closed(&all, &table, closed[i].at, &unread, &why), closed[i].status);
        if (closed[i].status == GOBLIN_OK)
            SAME(unread.offset, closed[i].at), SAME(unread.size, closed[i].size),
                SAME(strlen((const char *)strings + unread.offset), closed[i].size);
    }
    SAME(goblin_string_closed(&short_one, &past, 0, &unread, &why), GOBLIN_REFUSED_STRTAB_RANGE);
    static const struct { uint64_t offset, size, closed; } parts[] = {{0, 9, 8}, {0, 8, 8}, {4, 3, 0}, {9, 0, 0}};
    for (size_t i = 0; i < sizeof parts / sizeof *parts; i++) {
        goblin_range_t part = {parts[i].offset, parts[i].size}, found = {77, 77};
        SAME(goblin_closed_strings(&all, &part, &found, &why), GOBLIN_OK);
        SAME(found.offset, part.offset), SAME(found.size, parts[i].closed);
    }
    SAME(goblin_closed_strings(&short_one, &past, &unread, &why), GOBLIN_REFUSED_STRTAB_RANGE);
}

/* Tests what goblin_strings returns and writes, over the strings "", "ab", "abc", one that is not UTF-8, and "x". */
static void find_strings(void) {
    static const uint8_t named[] = "\0ab\0abc\0\xff\0x";
    static const goblin_range_t table = {0, 11}, past = {1, 12}, unread = {77, 77};
    static const struct {
        uint64_t offsets[3];
        size_t asked, capacity;
        uint32_t status;
        uint64_t filled, sizes[3];
    } rows[] = {
        {{1, 4, 10}, 3, 3, GOBLIN_OK, 3, {2, 3, 1}}, {{5, 11, 4}, 3, 3, GOBLIN_END, 1, {2}},
        {{0, 4, 8}, 3, 3, GOBLIN_OK, 3, {0, 3, 1}}, {{1, 4, 11}, 3, 2, GOBLIN_OK, 2, {2, 3}},
        {{1, 4, 11}, 2, 3, GOBLIN_OK, 2, {2, 3}}, {{8}, 0, 3, GOBLIN_OK, 0, {0}}};
    const goblin_file_t all = {named, 12, none};
    goblin_range_t ranges[3];
    uint64_t filled;
    for (size_t i = 0; i < sizeof rows / sizeof *rows; i++) {
        for (size_t k = 0; k < 3; k++) ranges[k] = unread;
        memset(&why, 0, sizeof why);
        SAME(goblin_strings(&all, &table, rows[i].offsets, rows[i].asked, ranges, rows[i].capacity, &filled, &why),
             rows[i].status);
        SAME(filled, rows[i].filled), SAME(why.kind, 0);
        for (size_t k = 0; k < 3; k++) {
            SAME(ranges[k].offset, k < rows[i].filled ? rows[i].offsets[k] : unread.offset);
            SAME(ranges[k].size, k < rows[i].filled ? rows[i].sizes[k] : unread.size);
        }
    }
    REFUSED_BY_FOUR(STRTAB_RANGE, 0, 12, 1, 12, 0, 1,
                    goblin_strings(&all, &past, rows[0].offsets, 3, ranges, 3, &filled, &why));
    SAME(filled, 0);
    SAME(goblin_strings(&all, &past, rows[0].offsets, 3, ranges, 0, &filled, &why), GOBLIN_OK);
}

/* Tests each byte of a field that goblin_layout has filled. */
static void filled(const char *what, const void *field, size_t size, uint8_t number) {
    for (size_t i = 0; i < size; i++) same(__LINE__, what, ((const uint8_t *)field)[i], number);
}

/* Prints a static assertion of a field's offset and size in the library. */
static void asserted(const char *name, const char *field, const void *item, uint64_t size, uint8_t number) {
    const uint8_t *bytes = (const uint8_t *)item;
    uint64_t offset = 0, width = 0;
    while (offset < size && bytes[offset] != number) offset++;
    while (offset + width < size && bytes[offset + width] == number) width++;
    printf("static_assert(offsetof(goblin_%s_t, %s) == %d, \"%s.%s\");\n", name, field, (int)offset, name, field);
    printf("static_assert(sizeof ((goblin_%s_t *)0)->%s == %d, \"%s.%s\");\n", name, field, (int)width, name, field);
}

/* Prints static assertions of the library's structs over goblin.h, for C11 and C++. */
static void assert_all(const goblin_layout_t *layout) {
    printf("#include \"goblin.h\"\n#include <assert.h>\n");
#define STRUCT(name) \
    printf("static_assert(sizeof(goblin_" #name "_t) == %d, \"" #name "\");\n", (int)layout->size_of_##name);
#define FIELD(name, field, number) asserted(#name, #field, &layout->name, layout->size_of_##name, number);
#include "fields.h"
#undef FIELD
#undef STRUCT
}

int main(int argc, char **argv) {
    goblin_layout_t layout;
    memset(&layout, 0xee, sizeof layout);
    SAME(goblin_layout(&layout, sizeof layout - 1), 0);
    filled("a short layout", &layout, sizeof layout, 0xee);
    SAME(goblin_layout(&layout, sizeof layout), sizeof layout);
    if (argc == 2 && !strcmp(argv[1], "assertions")) {
        assert_all(&layout);
        return EXIT_SUCCESS;
    }
    /* (one type for compilers of C++, some of which warn of two) */
    SAME(layout.size_of_file, sizeof(goblin_file_t));
    SAME(argc > 9 ? GOBLIN_END : goblin_version(), GOBLIN_VERSION);
#define STRUCT(name) SAME(layout.size_of_##name, sizeof layout.name);
#define FIELD(name, field, number) filled(#name "." #field, &layout.name.field, sizeof layout.name.field, number);
#include "fields.h"
#undef FIELD
#undef STRUCT
    close_texts();
    use_macros();
    compare_strings();
    find_strings();
    for (int kind = 0; kind < 4; kind++) {
        wide = kind < 2 ? 8 : 4, is_big = kind % 2;
        read_all();
        build_ids();
        build_ids_after_a_note();
        refuse_all();
        call_with_nulls();
    }
    if (wrong) return EXIT_FAILURE;
    printf("goblin.h and the library agree in %d comparisons\n", compared);
    return EXIT_SUCCESS;
}
