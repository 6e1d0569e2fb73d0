/* Prints all that the library reads of files, for faces/web/test.mjs: dump FILE..
   Each line is a result, with all fields of its struct. faces/constants.py makes fields.h from goblin.h. */
#include "goblin.h"
#include "examples/example.h"
#include <elf.h>

/* How many items are read of sections of another type and written of each list, how many headers are read of what is
   whole, and how many bytes are printed of a section. */
enum { FEW = 3, WHOLE = 20, FIRST = 16 };

static uint8_t *saved;

/* Defines put_NAME(item) for each struct, which prints its fields. */
#define STRUCT(name) } static void put_##name(const goblin_##name##_t *item) {
#define FIELD(name, field, number) printf(" " #field "=%" PRIx64, (uint64_t)item->field);
static void put_nothing(void) {
#include "fields.h"
}
#undef FIELD
#undef STRUCT
static void put_number(const uint64_t *number) { printf(" %" PRIx64, *number); }

/* Prints the text of a call. */
#define TEXT(call, ...) \
    do { \
        uint8_t text[256]; \
        uint64_t size = call(__VA_ARGS__, text, sizeof text); \
        printf(" %.*s", (int)size, (const char *)text); \
    } while (0)

static void put_bytes(goblin_range_t range) {
    putchar(' ');
    for (uint64_t i = 0; i < range.size; i++) printf("%02x", bytes[range.offset + i]);
}

/* Prints the name of a call, and GOBLIN_END or the refusal if it returned one. Returns whether it has a result. */
static bool put_status(const char *what, uint32_t status) {
    printf("%s", what);
    if (status == GOBLIN_END) puts(" none");
    if (status > GOBLIN_END) {
        put_refusal(&why);
        TEXT(goblin_refusal_to_str, &why);
        putchar('\n');
    }
    return status == GOBLIN_OK;
}

#define ASK(call, item, ...) put_status(#call, call(__VA_ARGS__, &(item), &why))
#define PUT(kind, item) (put_##kind(&(item)), putchar('\n'))
#define SHOW(call, kind, item, ...) (ASK(call, item, __VA_ARGS__) && (PUT(kind, item), true))

/* Prints the index and the section or the symbol that a search finds. */
#define SEARCH(call, kind, ...) \
    do { \
        uint64_t place; \
        goblin_##kind##_t found; \
        if (put_status(#call, call(__VA_ARGS__, &place, &found, &why))) \
            printf(" %" PRIx64, place), PUT(kind, found); \
    } while (0)

/* Makes a call that writes, prints a sum of the file's bytes, and brings them back. */
#define WRITE(call, ...) (put_sum(#call, call(bytes, len, __VA_ARGS__, &why)), memcpy(bytes, saved, len))
static void put_sum(const char *what, uint32_t status) {
    uint32_t sum = 0x811c9dc5;
    if (!put_status(what, status)) return;
    for (size_t i = 0; i < len; i++) sum = (sum ^ bytes[i]) * 0x1000193;
    printf(" %" PRIx32 "\n", sum);
}

static goblin_range_t range_of(const goblin_section_t *section) {
    goblin_range_t none = {0, 0};
    return section->sh_type == SHT_NOBITS ? none : section->file;
}

/* Finds and prints the range of the strings in a section that a call returned. It is empty if there is no section. */
static bool put_strings(const char *what, uint32_t status, const goblin_section_t *section, goblin_range_t *strings) {
    if (status > GOBLIN_END) return put_status(what, status);
    goblin_range_t none = {0, 0};
    *strings = status == GOBLIN_OK ? range_of(section) : none;
    printf("%s", what);
    PUT(range, *strings);
    return true;
}

/* Writes numbers in a range, one of which doesn't fit. */
static void write_numbers_in(goblin_range_t range) {
    WRITE(goblin_put_number_in, &file.header, &range, 0, 8, 0x7f);
    WRITE(goblin_put_number_in, &file.header, &range, range.size / 2, 2, 0x7f000);
    WRITE(goblin_put_number_in, &file.header, &range, range.size - 1, 1, 0x7f);
}

/* Prints whether a string of a table matches, or why the table is refused. */
static void put_match(const char *what, bool matches, goblin_range_t strings) {
    goblin_range_t none;
    uint32_t status = matches ? GOBLIN_OK : goblin_string(&file, &strings, strings.size, &none, &why);
    if (put_status(what, status)) putchar('\n');
}

/* Prints whether the string at an offset is some of its own bytes, from the first on, and whether it starts with
   them. */
static void compare(goblin_range_t strings, uint64_t offset, goblin_range_t found, uint64_t size) {
    const uint8_t *name = bytes + found.offset;
    put_match("goblin_string_is", goblin_string_is(&file, &strings, offset, name, (size_t)size), strings);
    put_match("goblin_string_starts", goblin_string_starts(&file, &strings, offset, name, (size_t)size), strings);
}

/* Prints the string at an offset, as UTF-8, as bytes, and if it is closed. */
static void string(goblin_range_t strings, uint64_t offset) {
    goblin_range_t found = {0, 0};
    if (ASK(goblin_string_utf8, found, &file, &strings, offset)) put_bytes(found), putchar('\n');
    if (ASK(goblin_string_closed, found, &file, &strings, offset)) put_bytes(found), putchar('\n');
    if (ASK(goblin_string, found, &file, &strings, offset)) put_bytes(found), putchar('\n');
    compare(strings, offset, found, found.size);
    compare(strings, offset, found, found.size / 2);
}

/* Returns a number that does not fit in 32 bits for the item at index 1, else 0. */
static uint64_t any_high(uint64_t at) { return at == 1 ? UINT64_C(1) << 32 : 0; }

static void one_symbol(goblin_range_t table, goblin_range_t names, uint64_t at) {
    goblin_symbol_t symbol;
    goblin_range_t name;
    uint64_t index;
    if (!ASK(goblin_symbol, symbol, &file, &table, at)) return;
    put_symbol(&symbol);
    TEXT(goblin_bind_to_str, symbol.st_info >> 4);
    TEXT(goblin_type_to_str, symbol.st_info & 15);
    TEXT(goblin_visibility_to_str, symbol.st_other & 7);
    putchar('\n');
    string(names, symbol.st_name);
    if (goblin_string_utf8(&file, &names, symbol.st_name, &name, &why) == GOBLIN_OK)
        for (uint64_t first = 0; first < 2; first++)
            SEARCH(goblin_symbol_by_name, symbol, &file, &table, &names, bytes + name.offset, (size_t)name.size,
                   first * (at + 1));
    SHOW(goblin_symbol_by_address, number, index, &file, &table, symbol.st_value);
    SHOW(goblin_symbol_by_address, number, index, &file, &table, symbol.st_value + symbol.st_size);
    if (at >= FEW) return;
    symbol.st_value ^= 1, symbol.st_size ^= any_high(at);
    WRITE(goblin_put_symbol, &file.header, &table, at, &symbol);
}

static void symbols(const goblin_section_t *section) {
    goblin_section_t strings;
    goblin_range_t table = range_of(section), names;
    uint64_t count;
    uint32_t status = goblin_linked_section(&file, section->sh_link, &strings, &why);
    if (!put_strings("goblin_linked_section", status, &strings, &names)) return;
    if (!SHOW(goblin_symbol_count, number, count, &file, &table)) return;
    bool is_table = section->sh_type == SHT_SYMTAB || section->sh_type == SHT_DYNSYM;
    for (uint64_t i = 0; i < count && (is_table || i < FEW); i++) one_symbol(table, names, i);
    one_symbol(table, names, count - (count > 0)), one_symbol(table, names, count);
}

static void one_reloc(goblin_range_t range, bool is_rela, uint64_t at) {
    goblin_reloc_t reloc;
    if (!ASK(goblin_reloc, reloc, &file, &range, is_rela, at)) return;
    put_reloc(&reloc);
    printf(" %" PRId64 "\n", reloc.r_addend);
    if (at >= FEW) return;
    reloc.r_offset ^= 1, reloc.r_sym ^= (uint32_t)(any_high(at) >> 8); /* (3 bytes hold it in a 32-bit file) */
    WRITE(goblin_put_reloc, &file.header, &range, is_rela, at, &reloc);
}

static void relocs(const goblin_section_t *section) {
    goblin_range_t range = range_of(section);
    bool is_rela = section->sh_type == SHT_RELA, is_list = is_rela || section->sh_type == SHT_REL;
    uint64_t count;
    if (!SHOW(goblin_reloc_count, number, count, &file, &range, is_rela)) return;
    for (uint64_t i = 0; i < count && (is_list || i < FEW); i++) one_reloc(range, is_rela, i);
    one_reloc(range, is_rela, count);
}

/* Prints the notes of a range by two calls, of which the first reads names that are UTF-8. */
static void notes(goblin_range_t range, uint64_t alignment) {
    goblin_note_t note;
    uint64_t next = range.offset;
    for (; ASK(goblin_note_utf8, note, &file, &range, alignment, next); next = note.next) {
        put_note(&note);
        TEXT(goblin_note_type_to_str, bytes + note.name.offset, (size_t)note.name.size, note.n_type);
        put_bytes(note.name), put_bytes(note.desc), putchar('\n');
    }
    for (next = range.offset; ASK(goblin_note_whole, note, &file, &range, alignment, next); next = note.next)
        put_note(&note), put_bytes(note.name), put_bytes(note.desc), putchar('\n');
}

/* Prints the part that is inside the file of the bytes of a section or a segment, for which the call for all of them
   returned a status and perhaps their range, and some numbers of it. */
static void part(uint32_t status, goblin_range_t found, goblin_range_t range) {
    goblin_range_t cut = found;
    uint64_t number;
    if (status > GOBLIN_END) goblin_range_in_file(&file, &range, &cut);
    printf("goblin_range_in_file");
    goblin_range_t first = {cut.offset, cut.size < FIRST ? cut.size : FIRST};
    if (status == GOBLIN_END) puts(" none");
    else printf(" %" PRIx64, cut.size), put_bytes(first), putchar('\n');
    SHOW(goblin_number_in, number, number, &file, &range, 0, 8);
    SHOW(goblin_number_in, number, number, &file, &range, range.size / 2, 2);
    SHOW(goblin_number_in, number, number, &file, &range, range.size - 1, 1);
}

static void segments(void) {
    uint64_t count, offset;
    if (!SHOW(goblin_segment_count, number, count, &file)) return;
    for (uint64_t i = 0; i <= count; i++) {
        goblin_segment_t segment;
        goblin_range_t range;
        if (!ASK(goblin_segment, segment, &file, i)) return;
        put_segment(&segment);
        TEXT(goblin_pt_to_str, segment.p_type);
        putchar('\n');
        SHOW(goblin_segment_range, range, range, &file, &segment);
        uint32_t status = goblin_segment_range(&file, &segment, &range, &why);
        part(status, range, segment.file);
        for (uint64_t k = 0; k < 3; k++)
            SHOW(goblin_address_to_offset, number, offset, &file, segment.p_vaddr + k * (segment.file.size / 2));
        notes(segment.file, segment.p_align);
        if (i >= FEW) continue;
        segment.p_flags ^= GOBLIN_PF_X, segment.p_memsz += any_high(i);
        WRITE(goblin_put_segment, &file.header, i, &segment);
        write_numbers_in(segment.file);
    }
}

static void sections(void) {
    uint64_t count;
    goblin_section_t names, section;
    goblin_range_t strings, range, name;
    if (!SHOW(goblin_section_count, number, count, &file)) return;
    uint32_t status = goblin_names_section(&file, &names, &why);
    if (!put_strings("goblin_names_section", status, &names, &strings)) return;
    for (uint64_t i = 0; i <= count; i++) {
        if (!ASK(goblin_section, section, &file, i)) return;
        put_section(&section);
        TEXT(goblin_sht_to_str, section.sh_type);
        for (int bit = 0; bit < 32; bit++)
            if (section.sh_flags >> bit & 1) TEXT(goblin_shf_to_str, UINT64_C(1) << bit);
        putchar('\n');
        string(strings, section.sh_name);
        if (goblin_string_utf8(&file, &strings, section.sh_name, &name, &why) == GOBLIN_OK)
            for (uint64_t first = 0; first < 3; first++)
                SEARCH(goblin_section_by_name, section, &file, &strings, bytes + name.offset, (size_t)name.size,
                       first * i);
        SEARCH(goblin_section_by_type, section, &file, section.sh_type, i / 2);
        SEARCH(goblin_section_by_type, section, &file, section.sh_type, i + 1);
        SHOW(goblin_section_range, range, range, &file, &section);
        status = goblin_section_range(&file, &section, &range, &why);
        part(status, range, range_of(&section));
        symbols(&section), relocs(&section), notes(range_of(&section), section.sh_addralign);
        if (i >= FEW) continue;
        section.sh_flags ^= GOBLIN_SHF_WRITE, section.file.size ^= any_high(i);
        WRITE(goblin_put_section, &file.header, i, &section);
    }
}

/* Prints the entries of the dynamic section, its strings, and the values of some tags with the strings there. */
static void dynamic(void) {
    static const uint64_t tags[] = {DT_NULL, DT_NEEDED, DT_STRTAB, DT_SONAME, DT_FLAGS_1};
    goblin_range_t range, strings = {0, 0};
    goblin_dyn_t entry;
    uint64_t filled, index, value;
    uint32_t found = goblin_dynamic(&file, &range, &why), status = found;
    if (found > GOBLIN_END) { put_status("goblin_dynamic_entries", found); return; }
    printf("goblin_dynamic_entries");
    for (uint64_t i = 0; status == GOBLIN_OK; i++) {
        status = goblin_dynamic_entries(&file, &range, i, &entry, 1, &filled, &why);
        if (status == GOBLIN_OK) put_dyn(&entry);
    }
    putchar('\n');
    status = found == GOBLIN_OK ? goblin_dynamic_strings(&file, &range, &strings, &why) : found;
    if (status > GOBLIN_END) { put_status("goblin_dynamic_strings", status); return; }
    printf("goblin_dynamic_strings"), PUT(range, strings);
    for (size_t i = 0; i < sizeof tags / sizeof *tags; i++) {
        status = found == GOBLIN_OK ? goblin_dynamic_value(&file, &range, tags[i], 0, &index, &value, &why) : found;
        if (put_status("goblin_dynamic_value", status)) PUT(number, value), string(strings, value);
    }
}

/* Prints the header that counts what is whole, the headers that it counts, and then the result for the first one that
   it does not. */
static void whole(void) {
    uint64_t count;
    goblin_file_t w;
    goblin_section_t section;
    goblin_segment_t segment;
    goblin_range_t strings;
    goblin_whole_header(&file, &w);
    printf("goblin_whole_header");
    PUT(header, w.header);
#define FIRST_OF(call, kind, item) \
    for (uint64_t i = 0; i < count && i < WHOLE; i++) SHOW(call, kind, item, &w, i); \
    SHOW(call, kind, item, &w, count); \
    SHOW(call, kind, item, &w, UINT64_MAX)
    if (!SHOW(goblin_section_count, number, count, &w)) return;
    FIRST_OF(goblin_section, section, section);
    put_strings("goblin_names_section", goblin_names_section(&w, &section, &why), &section, &strings);
    if (!SHOW(goblin_segment_count, number, count, &w)) return;
    FIRST_OF(goblin_segment, segment, segment);
}

/* Writes the header and numbers. */
static void writing(void) {
    goblin_header_t changed = file.header;
    changed.e_type ^= 1, changed.e_entry ^= 1;
    WRITE(goblin_put_header, &changed);
    changed.e_entry += any_high(1);
    WRITE(goblin_put_header, &changed);
    changed.ei_data = 3;
    WRITE(goblin_put_header, &changed);
    for (uint64_t width = 1; width <= 8; width *= 2) {
        WRITE(goblin_put_number, &file.header, len / 2, width, 0x7f);
        WRITE(goblin_put_number, &file.header, len - 4, width, 0x7f00);
    }
}

static void numbers(void) {
    uint64_t number;
    for (uint64_t width = 0; width <= 9; width++)
        for (uint64_t i = 0; i < 3; i++)
            SHOW(goblin_number, number, number, &file, i * (len / 2) - (i == 2) * 4, width);
}

int main(int argc, char **argv) {
    put_nothing();
    for (int i = 1; i < argc; free(bytes), free(saved), i++) {
        if (!load(argv[i]) || !(saved = (uint8_t *)malloc(len + 1))) return EXIT_FAILURE;
        printf("file %d\n", i);
        if (!put_status("goblin_file", goblin_file(bytes, len, &file, &why))) continue;
        put_header(&file.header);
        TEXT(goblin_class_to_str, file.header.ei_class);
        TEXT(goblin_et_to_str, file.header.e_type);
        TEXT(goblin_machine_to_str, file.header.e_machine);
        putchar('\n');
        memcpy(saved, bytes, len);
        segments(), sections(), dynamic(), whole(), writing(), numbers();
    }
    return argc > 1 ? EXIT_SUCCESS : EXIT_FAILURE;
}
