/* Calls the whole library over damaged copies of files: damaged COUNT FILE..
   It makes COUNT copies of each file, with bytes changed or the end cut off. Each copy is between pages that can't be
   read, at the start or at the end of its own pages, so a call that reads outside the copy ends the program. A call may
   write its result only at GOBLIN_OK and `*why` only at a refusal, and a range that it returns is inside the file. What
   goblin.h says else is computed by plain.c: checks/faces/c.sh links this program with it and with the library, and
   both must print the same sum of all that the calls return and write, but for names of numbers and padding. The sum is
   the same on all little-endian machines. With TRACE in the environment it is printed after each call, so that the
   first call that differs can be found. */
#define _DEFAULT_SOURCE
#include "goblin.h"
#include <stdio.h>
#include <stdlib.h>
#include <string.h>
#include <sys/mman.h>

enum { PAGE = 0x10000, ROOM = 16 * PAGE, BATCH = 5, BLOCK = 0x400 };
/* The sizes of two structs without the padding at their end. */
enum { HEADER = offsetof(goblin_header_t, ei_abiversion) + 1, NOTE = offsetof(goblin_note_t, n_type) + 4 };

static uint8_t *bytes, saved[ROOM]; /* the copy, and its bytes before a call that writes */
static size_t len;
static unsigned long statuses[3], broken;
static uint64_t sum = 0xcbf29ce484222325;
static goblin_refusal_t why;
static bool is_traced;

/* Returns the next number, below a limit, of a sequence that is the same in each run. */
static uint64_t any(uint64_t below) {
    static uint64_t state = 88172645463325252;
    state ^= state << 13, state ^= state >> 7, state ^= state << 17;
    return state % below;
}

/* Adds a result to the sum. */
static void add(const void *item, size_t size) {
    for (size_t i = 0; i < size; i++) sum = (sum ^ ((const uint8_t *)item)[i]) * 0x100000001b3;
}

/* Returns a number that is near a limit, or another one. */
static uint64_t odd(void) {
    static const uint64_t ends[] = {0, 1, 2, 4, 8, 0x7fffffff, 0xffffffff, 0x7fffffffffffffff, UINT64_MAX};
    switch (any(4)) {
    case 0: return ends[any(9)];
    case 1: return len - ends[any(5)];
    case 2: return any(len + 1);
    default: return any(64);
    }
}

/* Returns an offset inside the file or at its end. The files that made.c makes have something at each
   multiple of 256. */
static uint64_t any_offset(uint64_t end) {
    uint64_t offset = any(end + 1);
    return any(2) ? offset : offset / 0x100 * 0x100;
}

/* Returns a range that ends near the end of the file, or another one. */
static goblin_range_t odd_range(void) {
    goblin_range_t range = {any(4) ? any_offset(len) : odd(), 0};
    uint64_t times = any(3), more = times * any(5);
    range.size = any(4) ? len - range.offset + more : odd();
    return range;
}

/* Returns the index of an item of a table of a size: one of the first, one near the end, or any. */
static uint64_t any_index(uint64_t size) { return any(2) ? any(9) : any(2) ? any(size / 8 % 0x1000 + 2) : odd(); }

static void wrong(const char *what, uint32_t status) {
    if (broken++ < 10) printf("%s, status %u\n", what, (unsigned)status);
}

/* Returns whether blank() has written all these bytes. */
static bool is_blank(const void *item, size_t size) {
    for (size_t i = 0; i < size; i++)
        if (((const uint8_t *)item)[i] != 0x5a) return false;
    return true;
}

static void *blank(void *item, size_t size) {
    memset(&why, 0x5a, sizeof why);
    return memset(item, 0x5a, size);
}

static void inside(const char *what, goblin_range_t range) {
    if (range.offset > len || range.size > len - range.offset) wrong(what, GOBLIN_OK);
}

/* Checks what a call returned and wrote, and adds it to the sum. */
static bool check(const char *what, uint32_t status, const void *item, size_t size) {
    statuses[status > GOBLIN_END ? 2 : status]++;
    if (status != GOBLIN_OK && !is_blank(item, size)) wrong(what, status);
    if (status <= GOBLIN_END ? !is_blank(&why, sizeof why) : why.kind != status) wrong("goblin_refusal_t", status);
    add(&status, sizeof status), add(item, size == sizeof(goblin_note_t) ? NOTE : size);
    if (status > GOBLIN_END) {
        uint8_t text[64];
        size_t capacity = (size_t)any(60);
        memset(text, 0x5a, sizeof text);
        uint64_t full = goblin_refusal_to_str(&why, text, capacity);
        if (!is_blank(text + capacity, sizeof text - capacity)) wrong("a text", status);
        add(&why, sizeof why), add(&full, sizeof full), add(text, capacity);
    }
    if (is_traced) printf("%s %u %016llx\n", what, (unsigned)status, (unsigned long long)sum);
    return status == GOBLIN_OK;
}

/* Checks a call that writes a number before its result. */
static bool check_two(const char *what, uint32_t status, const uint64_t *number, const void *item, size_t size) {
    if (status != GOBLIN_OK && !is_blank(number, sizeof *number)) wrong(what, status);
    add(number, sizeof *number);
    return check(what, status, item, size);
}

/* Makes a call, whose last arguments are the result and `why`. Returns whether it has a result. */
#define READS(call, item, ...) \
    (blank(&(item), sizeof(item)), check(#call, call(__VA_ARGS__, &(item), &why), &(item), sizeof(item)))

/* Makes a call that returns a range. */
#define FINDS_RANGE(call, range, ...) (READS(call, range, __VA_ARGS__) && (inside(#call, range), true))

/* Makes a call that finds an item. Its last arguments are the index, the item and `why`. */
#define FINDS(call, index, item, ...) \
    (blank(&(index), sizeof(index)), blank(&(item), sizeof(item)), \
     check_two(#call, call(__VA_ARGS__, &(index), &(item), &why), &(index), &(item), sizeof(item)))

/* Reads some items of a list of a size at once. */
#define SEVERAL(call, type, size, ...) \
    do { \
        type items[BATCH]; \
        uint64_t first = any_index(size), filled; \
        size_t capacity = (size_t)any(BATCH + 1); \
        blank(items, sizeof items), blank(&filled, sizeof filled); \
        uint32_t status = call(__VA_ARGS__, first, items, capacity, &filled, &why); \
        check_two(#call, status, &filled, items, sizeof items); \
    } while (0)

/* Makes a call that writes, whose last argument is `why`. Returns whether it has written. */
#define WRITES(call, ...) \
    (memset(&why, 0x5a, sizeof why), check(#call, call(bytes, len, __VA_ARGS__, &why), NULL, 0))

/* Adds what a call has written to the sum, and brings back the bytes. Returns whether any was changed. */
static bool restore(void) {
    bool is_changed = false;
    for (uint64_t at = 0; at < len; at += BLOCK) {
        size_t size = len - at < BLOCK ? (size_t)(len - at) : BLOCK;
        if (memcmp(bytes + at, saved + at, size) == 0) continue;
        add(&at, sizeof at), add(bytes + at, size);
        memcpy(bytes + at, saved + at, size), is_changed = true;
    }
    return is_changed;
}

/* Reads a record and writes it as it was, which changes nothing. Then writes another one, and reads it. */
#define PUTS(put, get, type, record, make, f, ...) \
    do { \
        type made, after; \
        if (READS(get, made, f, __VA_ARGS__) && (!WRITES(put, &(f)->header, __VA_ARGS__, record) || restore())) \
            wrong(#put ": what was read", GOBLIN_OK); \
        make; \
        bool is_written = WRITES(put, &(f)->header, __VA_ARGS__, record); \
        if (is_written) (void)READS(get, after, f, __VA_ARGS__); \
        if (restore() && !is_written) wrong(#put ": bytes are changed", GOBLIN_END); \
    } while (0)

/* Returns a number that mostly has 32 bits. */
static uint64_t some(void) {
    uint64_t number = any(UINT64_MAX), shift = any(64);
    return any(8) ? number >> 32 >> shift % 32 : number >> shift;
}

/* Fills a record with such numbers. In each word whose bit is set in `halves` are fields of 32 bits or less. */
static void fill(void *record, size_t size, unsigned halves) {
    for (size_t i = 0; i < size / 8; i++) {
        uint64_t number = halves >> i & 1 ? any(UINT64_MAX) : some();
        memcpy((uint8_t *)record + 8 * i, &number, 8);
    }
}

static void fill_reloc(goblin_reloc_t *r, bool is_rela) {
    fill(r, sizeof *r, 2);
    if (any(2)) r->r_sym &= 0xffffff, r->r_type &= 0xff;
    if (any(2)) r->r_addend = any(2) ? -(int64_t)any(0x80000003) : INT32_MAX - 2 + (int64_t)any(5);
    if (!is_rela && any(4)) r->r_addend = 0;
}

#ifndef PLAIN
/* Reads names of numbers, which plain.c doesn't have, and checks that no byte after the buffer is changed. */
static void names_of_numbers(void) {
    static unsigned turn;
    uint8_t text[64], number = (uint8_t)++turn;
    size_t capacity = turn / 7 % 30;
    blank(text, sizeof text);
    uint64_t sizes = goblin_class_to_str(number % 4, text, capacity) * goblin_et_to_str(number % 6, text, capacity)
        * goblin_machine_to_str(number, text, capacity) * goblin_pt_to_str(number % 9, text, capacity)
        * goblin_sht_to_str(number % 20, text, capacity) * goblin_shf_to_str(1U << number % 12, text, capacity)
        * goblin_bind_to_str(number % 12, text, capacity) * goblin_type_to_str(number % 12, text, capacity)
        * goblin_visibility_to_str(number % 8, text, capacity);
    if (sizes == 0 || goblin_note_type_to_str(bytes, len, number, text, capacity) == 0) wrong("a name's size", number);
    if (!is_blank(text + capacity, sizeof text - capacity)) wrong("a name", number);
}
#else
#define names_of_numbers() ((void)0)
#endif

/* Reads the notes of a range, with any alignment. */
static void notes(const goblin_file_t *f, goblin_range_t range) {
    goblin_note_t note, same;
    uint64_t offset = any(8) ? range.offset : odd(), alignment = any(8) ? 4 + any(2) * 4 : odd();
    for (int i = 0; i < 9; i++, offset = note.next) {
        (void)READS(goblin_note_whole, same, f, &range, alignment, offset);
        (void)READS(goblin_note_utf8, same, f, &range, alignment, offset);
        if (!READS(goblin_note, note, f, &range, alignment, offset)) return;
        inside("name", note.name), inside("desc", note.desc);
        if (note.next < offset + 12) wrong("next", GOBLIN_OK);
    }
}

/* Compares the string at an offset with some bytes, and finds it if it is closed. */
static void compare(const goblin_file_t *f, goblin_range_t names, uint64_t offset, bool is_string,
                    goblin_range_t string) {
    goblin_range_t closed;
    uint64_t from = is_string && any(4) ? string.offset : any(len + 1);
    uint64_t size = is_string && any(2) ? string.size : any(20);
    if (size > len - from) size = len - from;
    bool is = goblin_string_is(f, &names, offset, bytes + from, (size_t)size);
    bool starts = goblin_string_starts(f, &names, offset, bytes + from, (size_t)size);
    add(&is, sizeof is), add(&starts, sizeof starts);
    (void)FINDS_RANGE(goblin_string_closed, closed, f, &names, offset);
}

/* Finds several strings at once. */
static void several_strings(const goblin_file_t *f, goblin_range_t names) {
    uint64_t offsets[BATCH], filled, end = names.size < len ? names.size : len;
    goblin_range_t ranges[BATCH];
    size_t asked = (size_t)any(BATCH + 1), capacity = (size_t)any(BATCH + 1);
    for (size_t i = 0; i < BATCH; i++) offsets[i] = any(8) ? any(end + 1) : odd();
    blank(ranges, sizeof ranges), blank(&filled, sizeof filled);
    check("goblin_strings", goblin_strings(f, &names, offsets, asked, ranges, capacity, &filled, &why), NULL, 0);
    add(ranges, sizeof ranges), add(&filled, sizeof filled);
}

static void by_address(const goblin_file_t *f, goblin_range_t range) {
    uint64_t index, size, address = any(2) ? any(0x100) : odd();
    goblin_symbol_t near;
    goblin_section_t section;
    bool has_symbol = any(4) > 0 && goblin_symbol(f, &range, any(30), &near, &why) == GOBLIN_OK;
    if (any(2) && goblin_section(f, has_symbol ? near.st_shndx : any(12), &section, &why) == GOBLIN_OK) {
        size = any(2) ? section.file.size : 0;
        address = section.sh_addr + size - any(2);
    } else if (has_symbol) {
        size = any(2) ? near.st_size : 0;
        address = near.st_value + size - any(2);
    }
    (void)READS(goblin_symbol_by_address, index, f, &range, address);
}

/* Counts the headers, and makes the header that counts what is whole. With it no list is refused, and those that were
   not are the same. */
static void whole(const goblin_file_t *f) {
    goblin_file_t w;
    goblin_section_t section;
    goblin_segment_t segment;
    uint64_t number, same, at = any(12);
    blank(&w, sizeof w);
    goblin_whole_header(f, &w);
    if (w.bytes != bytes || w.len != len) wrong("goblin_whole_header", GOBLIN_OK);
    add(&w.header, HEADER);
    bool is_read = READS(goblin_section_count, number, f);
    if (!READS(goblin_section_count, same, &w) || (is_read && same != number))
        wrong("goblin_whole_header: sections", is_read);
    is_read = READS(goblin_segment_count, number, f);
    if (!READS(goblin_segment_count, same, &w) || (is_read && same != number))
        wrong("goblin_whole_header: segments", is_read);
    (void)READS(goblin_section, section, f, at), (void)READS(goblin_section, section, &w, at);
    (void)READS(goblin_segment, segment, f, at), (void)READS(goblin_segment, segment, &w, at);
}

/* Converts addresses to offsets. */
static void addresses(const goblin_file_t *f) {
    for (int i = 0; i < 8; i++) {
        goblin_segment_t segment;
        uint64_t offset, address = READS(goblin_segment, segment, f, any(12)) ? segment.p_vaddr + any(0x100) : odd();
        if (READS(goblin_address_to_offset, offset, f, address) && offset >= len)
            wrong("goblin_address_to_offset", GOBLIN_OK);
    }
}

/* Reads a range as the dynamic section. */
static void dynamic(const goblin_file_t *f, goblin_range_t range) {
    goblin_range_t strings;
    uint64_t index, value, number, tag = any(4) ? any(32) : odd(), first = any(2) ? 0 : any_index(range.size);
    SEVERAL(goblin_dynamic_entries, goblin_dyn_t, range.size, f, &range);
    (void)READS(goblin_dynamic_count, number, f, &range);
    (void)FINDS(goblin_dynamic_value, index, value, f, &range, tag, first);
    (void)FINDS_RANGE(goblin_dynamic_strings, strings, f, &range);
}

/* Writes the header: one that was read, and another one. */
static void put_header(void) {
    goblin_header_t changed;
    goblin_file_t before, after;
    if (goblin_file(bytes, len, &before, &why) == GOBLIN_OK
        && (!WRITES(goblin_put_header, &before.header) || restore()))
        wrong("goblin_put_header: what was read", GOBLIN_OK);
    fill(&changed, sizeof changed, 0x78);
    changed.ei_class = (uint8_t)(any(8) ? 1 + any(2) : any(4));
    changed.ei_data = (uint8_t)(any(8) ? 1 + any(2) : any(4));
    bool is_written = WRITES(goblin_put_header, &changed);
    if (is_written && goblin_file(bytes, len, &after, &why) == GOBLIN_OK) add(&after.header, HEADER);
    if (restore() && !is_written) wrong("goblin_put_header: bytes are changed", GOBLIN_END);
}

/* Writes section and program headers, symbols, relocations, entries and numbers. */
static void put_records(const goblin_file_t *f, goblin_range_t range) {
    bool is_rela = any(2);
    uint64_t at = any(4) ? any(12) : odd(), width = any(10);
    PUTS(goblin_put_section, goblin_section, goblin_section_t, &made, fill(&made, sizeof made, 0x21), f, at);
    PUTS(goblin_put_segment, goblin_segment, goblin_segment_t, &made, fill(&made, sizeof made, 1), f, at);
    at = any(4) ? any(30) : odd();
    PUTS(goblin_put_symbol, goblin_symbol, goblin_symbol_t, &made, fill(&made, sizeof made, 1), f, &range, at);
    PUTS(goblin_put_reloc, goblin_reloc, goblin_reloc_t, &made, fill_reloc(&made, is_rela), f, &range, is_rela, at);
    goblin_dyn_t entry = {some(), some()};
    at = any(4) ? any(range.size / 8 % 0x1000 + 2) : odd();
    (void)WRITES(goblin_put_dynamic_entry, &f->header, &range, at, &entry);
    SEVERAL(goblin_dynamic_entries, goblin_dyn_t, range.size, f, &range);
    restore();
    at = any(2) ? any_offset(len) : odd();
    PUTS(goblin_put_number, goblin_number, uint64_t, made, made = some(), f, at, width);
    at = any(2) ? any(range.size % 0x1000 + 9) : odd();
    PUTS(goblin_put_number_in, goblin_number_in, uint64_t, made, made = some(), f, &range, at, width);
}

/* Reads a range as symbols, as relocations and as notes, and searches for the names. */
static void table(const goblin_file_t *f, goblin_range_t range, goblin_range_t names) {
    goblin_range_t name, string, part;
    uint64_t number, index;
    if (any(4) == 0) range = odd_range();
    if (any(4) == 0) names = odd_range();
    for (uint64_t i = 0; i < 8; i++) {
        goblin_symbol_t symbol, found;
        goblin_reloc_t reloc;
        /* An index: one of the first, any, or near the last of items of 8, 12, 16 or 24 bytes. */
        static const uint64_t sizes[] = {8, 12, 16, 24};
        uint64_t at = i < 3 ? any(30) : i == 3 ? odd() : range.size / sizes[i - 4] - any(3), near = names.size - any(9);
        bool has_addends = any(2);
        (void)READS(goblin_reloc, reloc, f, &range, has_addends, at);
        bool is_string = FINDS_RANGE(goblin_string, string, f, &names, near);
        compare(f, names, near, is_string, string);
        (void)FINDS_RANGE(goblin_string_utf8, name, f, &names, near);
        if (!READS(goblin_symbol, symbol, f, &range, at)) continue;
        if (!FINDS_RANGE(goblin_string_utf8, name, f, &names, symbol.st_name)) continue;
        const uint8_t *text = bytes + name.offset;
        for (uint64_t first = 0; first < 3; first++)
            (void)FINDS(goblin_symbol_by_name, index, found, f, &range, &names, text, (size_t)name.size,
                        first == 2 ? at + 1 : first * at);
        /* (names in another range, which may be refused, also where no symbol is left) */
        goblin_range_t other = {odd(), odd()};
        number = odd();
        (void)FINDS(goblin_symbol_by_name, index, found, f, &range, &other, text, (size_t)name.size, number);
    }
    several_strings(f, names);
    bool is_rela = any(2);
    goblin_symbol_t symbol;
    goblin_reloc_t reloc;
    bool is_counted = READS(goblin_symbol_count, number, f, &range);
    for (uint64_t i = 0; is_counted && i < 2; i++) (void)READS(goblin_symbol, symbol, f, &range, number - i);
    is_counted = READS(goblin_reloc_count, number, f, &range, is_rela);
    for (uint64_t i = 0; is_counted && i < 2; i++) (void)READS(goblin_reloc, reloc, f, &range, is_rela, number - i);
    by_address(f, range);
    uint64_t offset = any(2) ? any_offset(len) : odd(), width = any(10);
    (void)READS(goblin_number, number, f, offset, width);
    offset = any(2) ? any(range.size % 0x1000 + 9) : odd();
    (void)READS(goblin_number_in, number, f, &range, offset, width);
    goblin_range_in_file(f, &range, &part);
    inside("goblin_range_in_file", part), add(&part, sizeof part);
    (void)FINDS_RANGE(goblin_closed_strings, part, f, &range);
    SEVERAL(goblin_symbols, goblin_symbol_t, range.size, f, &range);
    SEVERAL(goblin_relocs, goblin_reloc_t, range.size, f, &range, is_rela);
    notes(f, range);
    dynamic(f, range);
    put_records(f, range);
}

/* Reads the header, and changes it in some files. */
static goblin_header_t any_header(void) {
    goblin_file_t read;
    blank(&read, sizeof read);
    uint32_t status = goblin_file(bytes, len, &read, &why);
    if (status == GOBLIN_OK && (read.bytes != bytes || read.len != len)) wrong("goblin_file: its bytes", status);
    if (status != GOBLIN_OK && !is_blank(&read, sizeof read)) wrong("goblin_file", status);
    goblin_header_t h = read.header;
    if (!check("goblin_file", status, &h, HEADER)) memset(&h, (int)any(256), sizeof h);
    if (any(4) == 0) h.e_shoff = odd(), h.e_phoff = odd(), h.e_phnum = (uint16_t)odd(), h.e_shnum = (uint16_t)odd();
    if (any(4) == 0) { /* headers that end near the end of the file */
        h.e_phnum = (uint16_t)any(5), h.e_phoff = len + any(4) - h.e_phnum * GOBLIN_SIZEOF_PHDR(&h);
        h.e_shnum = (uint16_t)any(5), h.e_shoff = len + any(4) - h.e_shnum * GOBLIN_SIZEOF_SHDR(&h);
    }
    if (any(4) == 0) { /* a number of segments that the first section has */
        if (any(2)) h.e_phoff = any_offset(len), h.e_shoff = any_offset(len);
        h.e_phnum = GOBLIN_PN_XNUM;
        uint64_t place = h.e_shoff + (h.ei_class == GOBLIN_ELFCLASS64 ? 44 : 28), number = any(4) ? any(6) : odd();
        (void)WRITES(goblin_put_number, &h, place, 4, number);
    }
    return h;
}

static void file(void) {
    const goblin_file_t own = {bytes, len, any_header()}, *f = &own;
    memcpy(saved, bytes, len);
    goblin_section_t section, names, found;
    goblin_segment_t segment;
    goblin_range_t name, within;
    if (!READS(goblin_names_section, names, f)) names.file = odd_range();
    for (uint64_t i = 0; i < 12; i++) {
        uint64_t at = i < 9 ? i : odd(), index;
        (void)READS(goblin_linked_section, found, f, at);
        bool is_there = READS(goblin_section, section, f, at);
        table(f, is_there ? section.file : odd_range(), names.file);
        if (is_there && FINDS_RANGE(goblin_string_utf8, name, f, &names.file, section.sh_name))
            for (uint64_t first = 0; first <= 1; first++)
                (void)FINDS(goblin_section_by_name, index, found, f, &names.file, bytes + name.offset,
                            (size_t)name.size, first * at);
        (void)FINDS(goblin_section_by_name, index, found, f, &names.file, "none", 4, at);
        if (is_there) (void)FINDS_RANGE(goblin_section_range, within, f, &section);
        (void)FINDS(goblin_section_by_type, index, found, f, is_there ? section.sh_type : (uint32_t)any(12), at);
        if (!READS(goblin_segment, segment, f, at)) continue;
        notes(f, segment.file);
        (void)FINDS_RANGE(goblin_segment_range, within, f, &segment);
    }
    whole(f);
    addresses(f);
    (void)FINDS_RANGE(goblin_build_id, within, f);
    if (FINDS_RANGE(goblin_dynamic, within, f)) dynamic(f, within);
    put_header();
    SEVERAL(goblin_sections, goblin_section_t, 0, f);
    SEVERAL(goblin_segments, goblin_segment_t, 0, f);
    names_of_numbers();
}

/* Changes some bytes, most of them among those that hold offsets and sizes. */
static void damage(uint8_t *copy) {
    static const uint8_t ends[] = {0, 1, 0x7f, 0x80, 0xff};
    for (uint64_t changes = any(9); changes > 0 && len > 0; changes--) {
        uint64_t at = any(3) ? any(len) : any(2) ? any(len < 64 ? len : 64) : len - 1 - any(len < 0x800 ? len : 0x800);
        if (any(8) == 0 && len - at >= 4) memcpy(copy + at, "\360\237\230\200", 4); /* (a character of four bytes) */
        else copy[at] = any(2) ? ends[any(5)] : (uint8_t)any(256);
    }
}

int main(int argc, char **argv) {
    uint8_t *pages = mmap(NULL, PAGE + ROOM + PAGE, PROT_NONE, MAP_PRIVATE | MAP_ANONYMOUS, -1, 0);
    uint8_t *first = malloc(ROOM);
    if (argc < 3 || pages == MAP_FAILED || !first || mprotect(pages + PAGE, ROOM, PROT_READ | PROT_WRITE))
        return EXIT_FAILURE;
    unsigned long copies = 0, wanted = strtoul(argv[1], NULL, 10);
    is_traced = getenv("TRACE") != NULL;
    for (int i = 2; i < argc; i++) {
        FILE *from = fopen(argv[i], "rb");
        if (!from) return EXIT_FAILURE;
        size_t size = fread(first, 1, ROOM, from);
        fclose(from);
        for (unsigned long n = 0; n < wanted; n++, copies++) {
            uint64_t end = any(2) ? any_offset(size) : 0;
            end += any(80);
            len = any(4) == 0 && end < size ? (size_t)end : size;
            uint8_t *own = malloc(len ? len : 1);
            uint8_t *copy = n % 3 == 0 ? own : n % 3 == 1 ? pages + PAGE : pages + PAGE + ROOM - len;
            if (!own) return EXIT_FAILURE;
            memcpy(copy, first, len);
            damage(copy);
            bytes = copy;
            file();
            free(own);
        }
    }
    free(first);
    printf("%lu damaged copies: %lu results, %lu past the end, %lu refusals, %lu calls wrong; the sum is %016llx\n",
           copies, statuses[0], statuses[1], statuses[2], broken, (unsigned long long)sum);
    return broken == 0 && statuses[0] > copies && statuses[1] > copies && statuses[2] > copies
        ? EXIT_SUCCESS : EXIT_FAILURE;
}
