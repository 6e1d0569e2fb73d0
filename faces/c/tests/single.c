/* Makes calls for one item, for checks/faces/c.sh, which counts their instructions: single [FILE]
   It reads the header of a 64-bit file, each section header, each symbol and each relocation of its longest tables, its
   first note, and the first name of a section, and finds the symbol of its entry, for which all symbols are read. It
   finds the names of the symbols one by one and 64 at once, and compares each with a name and with a start. It prints
   each call and how many items it found, read or compared.
   Without a FILE it makes names of 4 to 67 bytes. It finds them in both ways, and compares each with itself. */
#include "goblin.h"
#include "examples/example.h"

enum { ROUNDS = 100, ROOM = 1 << 24, MOST = 1 << 16, LEAST = 4, LENGTHS = 64, NAMES = 1 << 10 };

/* The name that others are compared with, which the compiler doesn't know. */
static const char *volatile wanted = "main";
static volatile size_t wanted_size = 4;
static bool is_right = true;

/* Prints a call and the number of items that it found or read, which may not be 0. */
static void counted(const char *call, uint64_t count) {
    printf("%s %" PRIu64 "\n", call, count);
    is_right &= count > 0;
}

/* Compares the string at an offset with a name, as a client does by itself. (As a call does, it stands apart.) */
static __attribute__((noinline)) bool plain_is(goblin_range_t strings, uint64_t offset, const void *name, size_t size) {
    const uint8_t *text = bytes + strings.offset;
    return strings.offset <= len && strings.size <= len - strings.offset && offset < strings.size
        && strings.size - offset > size && memcmp(text + offset, name, size) == 0 && text[offset + size] == 0;
}

/* Finds the longest section of a type, or one without bytes. */
static goblin_section_t longest(uint32_t type) {
    goblin_section_t most, section;
    memset(&most, 0, sizeof most);
    for (uint64_t i = 0; goblin_sections(&file, i, &section, 1, &(uint64_t){0}, &why) == GOBLIN_OK; i++)
        if (section.sh_type == type && section.file.size > most.file.size) most = section;
    return most;
}

/* Finds strings, and compares each with a name and with a start, or if there is no name with itself. */
static void count_strings(goblin_range_t strings, const uint64_t *offsets, uint64_t count, const char *name) {
    goblin_range_t string, ranges[64];
    uint64_t found = 0, filled = 0, same[3] = {0, 0, 0};
    size_t size = wanted_size;
    for (uint64_t i = 0; i < count; i++) {
        is_right &= goblin_string(&file, &strings, offsets[i], &string, &why) == GOBLIN_OK;
        const void *other = name ? name : (const char *)bytes + string.offset;
        if (!name) size = (size_t)string.size;
        same[0] += goblin_string_is(&file, &strings, offsets[i], other, size);
        if (name) same[1] += goblin_string_starts(&file, &strings, offsets[i], other, size);
        same[2] += plain_is(strings, offsets[i], other, size);
    }
    while (found < count && !goblin_strings(&file, &strings, offsets + found, count - found, ranges, 64, &filled, &why))
        found += filled;
    is_right &= found == count && same[0] == same[2] && same[0] == (name ? 1 : count) && same[1] == (name ? 1 : 0);
    counted("plain_is", count), counted("goblin_string", count), counted("goblin_strings", count);
    counted("goblin_string_is", count);
    if (name) counted("goblin_string_starts", count);
}

static void count_made(void) {
    uint64_t offsets[NAMES];
    goblin_range_t all = {0, len = ROOM};
    bytes = (uint8_t *)calloc(1, ROOM);
    if (!bytes) exit(EXIT_FAILURE);
    file.bytes = bytes, file.len = len;
    for (size_t i = 0, place = 0; i < NAMES; i++) {
        offsets[i] = place;
        memset(bytes + place, 'a', LEAST + i % LENGTHS);
        place += LEAST + i % LENGTHS + 1;
    }
    count_strings(all, offsets, NAMES, NULL);
}

/* Makes calls for one item of the file. */
static void count_calls(void) {
    static uint64_t offsets[MOST];
    uint64_t count = 0, sums[8] = {0, 0, 0, 0, 0, 0, 0, 0}, index;
    goblin_section_t section, names, strings, table = longest(GOBLIN_SHT_SYMTAB), relas = longest(GOBLIN_SHT_RELA),
        noted = longest(GOBLIN_SHT_NOTE);
    goblin_symbol_t symbol;
    goblin_reloc_t reloc;
    goblin_note_t note;
    goblin_range_t name;
    uint64_t symbols = table.file.size / GOBLIN_SIZEOF_SYM64, align = noted.sh_addralign, first = noted.file.offset;
    if (goblin_names_section(&file, &names, &why) || goblin_linked_section(&file, table.sh_link, &strings, &why))
        exit(EXIT_FAILURE);
    for (int i = 0; i < ROUNDS; i++) {
        sums[0] += goblin_file(bytes, len, &file, &why) == GOBLIN_OK;
        sums[1] += goblin_note(&file, &noted.file, align, first, &note, &why) == GOBLIN_OK;
        sums[2] += goblin_note_utf8(&file, &noted.file, align, first, &note, &why) == GOBLIN_OK;
        sums[3] += goblin_string_utf8(&file, &names.file, 1, &name, &why) == GOBLIN_OK;
        if (!goblin_symbol_by_address(&file, &table.file, file.header.e_entry, &index, &why)) sums[4] += symbols;
    }
    for (uint64_t i = 0; i < file.header.e_shnum; i++) sums[5] += goblin_section(&file, i, &section, &why) == GOBLIN_OK;
    for (uint64_t i = 0; i < symbols && i < MOST && !goblin_symbol(&file, &table.file, i, &symbol, &why); i++)
        offsets[count++] = symbol.st_name;
    for (uint64_t i = 0; i < relas.file.size / GOBLIN_SIZEOF_RELA64; i++)
        sums[6] += goblin_reloc(&file, &relas.file, true, i, &reloc, &why) == GOBLIN_OK;
    count_strings(strings.file, offsets, count, wanted);
    counted("goblin_file", sums[0]), counted("goblin_section", sums[5]), counted("goblin_symbol", count);
    counted("goblin_reloc", sums[6]), counted("goblin_note", sums[1]), counted("goblin_note_utf8", sums[2]);
    counted("goblin_string_utf8", sums[3]), counted("goblin_symbol_by_address", sums[4]);
}

int main(int argc, char **argv) {
    if (argc == 1) count_made();
    else if (!load(argv[1]) || goblin_file(bytes, len, &file, &why) || file.header.ei_class != GOBLIN_ELFCLASS64)
        return EXIT_FAILURE;
    else count_calls();
    free(bytes);
    return is_right ? EXIT_SUCCESS : EXIT_FAILURE;
}
