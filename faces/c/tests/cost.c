/* Tests that calls over many items take a time in proportion to the number of items, and calls for one item a time that
   doesn't depend on it: cost
   It makes a file with a header and zero bytes, in which each range can be read as sections, symbols, relocations,
   segments, notes or empty strings, and with long strings after them. Each call of goblin.h that is passed a file is
   made here; checks/faces/c.sh compares the two.
   A search by a name takes no longer than its comparisons.
   A library that was changed to walk from the first symbol to each other one took more than ten times the limit. */
#include "goblin.h"
#include <elf.h>
#include <inttypes.h>
#include <stdio.h>
#include <stdlib.h>
#include <string.h>
#include <time.h>

/* The numbers of items, and the limit for a row in microseconds. */
enum { ITEMS = 100000, SEGMENTS = 65534, LIMIT = 500000 };

/* Where the long strings are, and their size with the zero byte before each. The first byte of their range is the last
   zero byte before them. */
enum { LONG_AT = 64 + ITEMS * 64, LONG_SIZE = 4000000 };
static const goblin_range_t long_strings = {LONG_AT, 4 * LONG_SIZE};

static uint8_t *bytes;
static size_t len;
static bool is_right = true;
static goblin_file_t file, named, many, other, cut, part;
static goblin_refusal_t why;
/* What the calls are passed and write: `array` for lists of items. */
static void *array;
static goblin_section_t section;
static goblin_segment_t segment;
static goblin_symbol_t symbol;
static goblin_reloc_t reloc;
static goblin_note_t note;
static goblin_dyn_t entry;
static goblin_range_t table, range, string;
static uint64_t number, index_of;

/* Returns a range for a number of items of a size. It starts after the header of the file and that of the
   first section. */
static goblin_range_t range_of(uint64_t items, uint64_t size) {
    goblin_range_t made = {128, 0};
    made.size = items * size;
    return made;
}

/* Tests whether as many items as there are were found, within the limit. */
static void takes_little(const char *what, clock_t start, uint64_t found, uint64_t items) {
    double took = 1e6 * (double)(clock() - start) / CLOCKS_PER_SEC;
    printf("%s: %" PRIu64 " of %" PRIu64 " items in %.0f microseconds\n", what, found, items, took);
    is_right &= found == items && took < LIMIT;
}

/* Makes a call as long as something is so, at most `most` times. This must be so for a number of items. In the call `i`
   is the number of calls before. */
#define WHILE(what, items, most, is_so) \
    do { \
        uint64_t i = 0; \
        clock_t start = clock(); \
        while (i < (most) && (is_so)) i++; \
        takes_little(what, start, i, items); \
    } while (0)
/* Makes a call for each item of a list, up to its end, or a call for one item as often as there are items, or one. */
#define EACH(what, items, call) WHILE(what, items, UINT64_MAX, (call) == GOBLIN_OK)
#define REPEATED(what, call) WHILE(what, ITEMS, ITEMS, (call) == GOBLIN_OK)
#define ONCE(what, is_so) WHILE(what, 1, 1, is_so)
#define ALL(what, type, call, ...) \
    ONCE(what, call(__VA_ARGS__, (type *)array, ITEMS, &number, &why) == GOBLIN_OK && number == ITEMS)

/* Lists of all items. */
static void lists(void) {
    static uint64_t offsets[ITEMS];
    EACH("each section", ITEMS, goblin_section(&file, i, &section, &why));
    ALL("all sections", goblin_section_t, goblin_sections, &file, 0);
    ONCE("a section of a type that none has",
         goblin_section_by_type(&file, 1, 0, &number, &section, &why) == GOBLIN_END);
    EACH("each segment", SEGMENTS, goblin_segment(&file, i, &segment, &why));
    ONCE("the offset of an address that no segment has",
         goblin_address_to_offset(&file, 1, &number, &why) == GOBLIN_END);
    EACH("each symbol", ITEMS, goblin_symbol(&file, &table, i, &symbol, &why));
    ALL("all symbols", goblin_symbol_t, goblin_symbols, &file, &table, 0);
    ONCE("a symbol at an address that none has",
         goblin_symbol_by_address(&file, &table, 1, &number, &why) == GOBLIN_END);
    EACH("each relocation", ITEMS, goblin_reloc(&file, &table, true, i, &reloc, &why));
    ALL("all relocations", goblin_reloc_t, goblin_relocs, &file, &table, true, 0);
    range = range_of(ITEMS, sizeof(Elf64_Nhdr)), note.next = range.offset;
    EACH("each note", ITEMS, goblin_note_utf8(&file, &range, 4, note.next, &note, &why));
    note.next = range.offset;
    EACH("each note, UTF-8 or not", ITEMS, goblin_note(&file, &range, 4, note.next, &note, &why));
    note.next = range.offset;
    EACH("each note that is whole", ITEMS, goblin_note_whole(&file, &range, 4, note.next, &note, &why));
    range = range_of(ITEMS, 8);
    EACH("each number in a range", ITEMS, goblin_number_in(&file, &range, 8 * i, 8, &number, &why));
    range = range_of(ITEMS, 1);
    EACH("each string", ITEMS, goblin_string_utf8(&file, &range, i, &string, &why));
    for (uint64_t i = 0; i < ITEMS; i++) offsets[i] = i;
    ALL("all strings", goblin_range_t, goblin_strings, &file, &range, offsets, ITEMS);
    EACH("the bytes of each string", ITEMS, goblin_string(&file, &range, i, &string, &why));
    range.size++;
    REPEATED("each closed string", goblin_string_closed(&file, &range, i, &string, &why));
}

/* Calls that read one item, or count. */
static void repeated_calls(void) {
    Elf64_Phdr load;
    memset(&load, 0, sizeof load);
    load.p_type = PT_LOAD, load.p_filesz = 1;
    named = file;
    REPEATED("the header", goblin_file(bytes, len, &named, &why));
    REPEATED("the number of sections", goblin_section_count(&file, &number, &why));
    many = file, many.header.e_phnum = 0xffff;
    WHILE("the whole headers of files that are cut", ITEMS, ITEMS,
          (cut = many, cut.len = len - 200 * i, goblin_whole_header(&cut, &part), true));
    REPEATED("each of the segments whose number the first section has", goblin_segment(&many, i, &segment, &why));
    REPEATED("sections one by one", goblin_sections(&file, i, &section, 1, &number, &why));
    WHILE("each linked section", ITEMS, ITEMS,
          goblin_linked_section(&file, i, &section, &why) == (i ? GOBLIN_OK : GOBLIN_END));
    REPEATED("the section names", goblin_names_section(&named, &section, &why));
    named.header.e_shstrndx = 0xffff, bytes[64 + offsetof(Elf64_Shdr, sh_link)] = 1;
    REPEATED("the section names by the first section", goblin_names_section(&named, &section, &why));
    REPEATED("each section by its name", goblin_section_by_name(&file, &table, "", 0, i, &number, &section, &why));
    REPEATED("each section by its type", goblin_section_by_type(&file, 0, i, &number, &section, &why));
    section.sh_type = SHT_PROGBITS, section.file = table, segment.p_type = PT_LOAD, segment.file = table;
    REPEATED("the bytes of a section", goblin_section_range(&file, &section, &range, &why));
    REPEATED("the bytes of a segment", goblin_segment_range(&file, &segment, &range, &why));
    REPEATED("segments one by one", goblin_segments(&file, i % SEGMENTS, &segment, 1, &number, &why));
    REPEATED("the number of segments", goblin_segment_count(&file, &number, &why));
    REPEATED("the number of segments that the first section has", goblin_segment_count(&many, &number, &why));
    memcpy(bytes + 128, &load, sizeof load);
    REPEATED("the offset of an address in the first segment", goblin_address_to_offset(&file, 0, &number, &why));
    memset(bytes + 128, 0, sizeof load);
    REPEATED("the number of symbols", goblin_symbol_count(&file, &table, &number, &why));
    REPEATED("symbols one by one", goblin_symbols(&file, &table, i, &symbol, 1, &number, &why));
    other = file, other.header.ei_class = ELFCLASS32;
    REPEATED("each symbol of a 32-bit file", goblin_symbol(&other, &table, i, &symbol, &why));
    other = file, other.header.ei_data = ELFDATA2MSB;
    REPEATED("each symbol of a big-endian file", goblin_symbol(&other, &table, i, &symbol, &why));
    REPEATED("each symbol by its name", goblin_symbol_by_name(&file, &table, &table, "", 0, i, &number, &symbol, &why));
    REPEATED("the number of relocations", goblin_reloc_count(&file, &table, true, &number, &why));
    REPEATED("relocations one by one", goblin_relocs(&file, &table, true, i, &reloc, 1, &number, &why));
    REPEATED("each number of the file", goblin_number(&file, i * 8, 8, &number, &why));
    segment.file.size = UINT64_MAX;
    WHILE("a range cut to the file", ITEMS, ITEMS, (goblin_range_in_file(&file, &segment.file, &range), true));
}

/* The dynamic section: one whose entries are in the long strings, none of which is zero, and one of three entries,
   which the first segment has. The second segment loads its string. */
static void dynamic(void) {
    static const uint64_t few[] = {DT_NEEDED, 0, DT_STRTAB, 0, DT_STRSZ, 1};
    Elf64_Phdr two[2];
    memset(two, 0, sizeof two);
    two[0].p_type = PT_DYNAMIC, two[0].p_offset = LONG_AT - sizeof few, two[0].p_filesz = sizeof few;
    two[1].p_type = PT_LOAD, two[1].p_filesz = 1;
    memcpy(bytes + two[0].p_offset, few, sizeof few), memcpy(bytes + 128, two, sizeof two);
    table.offset = LONG_AT, table.size = ITEMS * sizeof(Elf64_Dyn);
    ALL("all entries of the dynamic section", goblin_dyn_t, goblin_dynamic_entries, &file, &table, 0);
    REPEATED("its entries one by one", goblin_dynamic_entries(&file, &table, i, &entry, 1, &number, &why));
    ONCE("the number of its entries",
         goblin_dynamic_count(&file, &table, &number, &why) == GOBLIN_OK && number == ITEMS);
    ONCE("the value of a tag that no entry has",
         goblin_dynamic_value(&file, &table, 1, 0, &index_of, &number, &why) == GOBLIN_END);
    REPEATED("the dynamic section", goblin_dynamic(&file, &range, &why));
    REPEATED("the number of a few entries", goblin_dynamic_count(&file, &range, &number, &why));
    REPEATED("the value of a tag", goblin_dynamic_value(&file, &range, DT_STRSZ, 0, &index_of, &number, &why));
    REPEATED("the strings of the dynamic section", goblin_dynamic_strings(&file, &range, &string, &why));
    memset(bytes + 128, 0, sizeof two), memset(bytes + two[0].p_offset, 0, sizeof few);
    table = range_of(ITEMS, sizeof(Elf64_Sym));
}

/* Writes the same header for each segment. */
static void fill_segments(const Elf64_Phdr *header) {
    for (uint64_t i = 0; i < SEGMENTS; i++) memcpy(bytes + 128 + i * sizeof *header, header, sizeof *header);
}

/* A build ID after as many notes as are read, or one more, in a segment and in a section; and the same notes in each
   segment, or one whose name and descriptor are long. */
static void build_id(void) {
    enum { READ = 65536, NOTES_AT = LONG_AT - (READ + 2) * sizeof(Elf64_Nhdr) };
    Elf64_Nhdr own = {4, 0, NT_GNU_BUILD_ID};
    Elf64_Phdr notes;
    Elf64_Shdr own_section;
    uint8_t *last = bytes + NOTES_AT + READ * sizeof own;
    memset(&notes, 0, sizeof notes), notes.p_type = PT_NOTE, notes.p_align = 4;
    memset(&own_section, 0, sizeof own_section);
    memcpy(last, &own, sizeof own), memcpy(last + sizeof own, "GNU", 4);
    notes.p_filesz = READ * sizeof own + 4, notes.p_offset = NOTES_AT + sizeof own;
    memcpy(bytes + 128, &notes, sizeof notes);
    ONCE("the build ID in the last note that is read",
         goblin_build_id(&file, &range, &why) == GOBLIN_OK && range.offset == (uint64_t)(last - bytes) + 16);
    notes.p_filesz += sizeof own, notes.p_offset -= sizeof own;
    memcpy(bytes + 128, &notes, sizeof notes);
    ONCE("a build ID after the notes that are read", goblin_build_id(&file, &range, &why) == GOBLIN_END);
    /* (the section headers are counted also if no notes of sections are read) */
    cut = file, cut.len = LONG_AT - 1;
    ONCE("that of a file whose section headers are cut",
         goblin_build_id(&cut, &range, &why) == GOBLIN_REFUSED_TOO_BIG && why.offset == 64);
    /* (the third section's header is not in that of the first segment) */
    own_section.sh_type = SHT_NOTE, own_section.sh_offset = (uint64_t)(last - bytes);
    own_section.sh_size = sizeof own + 4;
    memcpy(bytes + 64 + 2 * sizeof own_section, &own_section, sizeof own_section);
    notes.p_filesz -= 2 * sizeof own + 4, notes.p_offset += sizeof own;
    memcpy(bytes + 128, &notes, sizeof notes);
    ONCE("the build ID of a section in the last note that is read",
         goblin_build_id(&file, &range, &why) == GOBLIN_OK && range.offset == (uint64_t)(last - bytes) + 16);
    notes.p_filesz += sizeof own, notes.p_offset -= sizeof own;
    memcpy(bytes + 128, &notes, sizeof notes);
    ONCE("that of a section after the notes that are read", goblin_build_id(&file, &range, &why) == GOBLIN_END);
    fill_segments(&notes);
    ONCE("the same notes in each segment", goblin_build_id(&file, &range, &why) == GOBLIN_END);
    memset(last, 0, sizeof own + 4);
    own.n_namesz = own.n_descsz = 2 * LONG_SIZE, notes.p_offset = LONG_AT - sizeof own;
    notes.p_filesz = sizeof own + 4 * LONG_SIZE;
    memcpy(bytes + notes.p_offset, &own, sizeof own);
    fill_segments(&notes);
    ONCE("a long note in each segment", goblin_build_id(&file, &range, &why) == GOBLIN_END);
    memset(bytes + 128, 0, SEGMENTS * sizeof notes), memset(bytes + notes.p_offset, 0, sizeof own);
}

/* Fills each of the strings with two bytes in turn, and a last byte. */
static void fill_strings(uint8_t first, uint8_t second, uint8_t last) {
    for (size_t i = 0; i < 4 * LONG_SIZE; i++) {
        size_t place = i % LONG_SIZE;
        bytes[LONG_AT + i] = place == 0 ? 0 : place == LONG_SIZE - 1 ? last : place % 2 ? first : second;
    }
}

/* Long strings, of one or two bytes for each character, the last one with half of one at its end. */
static void strings(void) {
#define AT (i % 4 * LONG_SIZE + 1)
    WHILE("each long string", 4, 4, goblin_string_utf8(&file, &long_strings, AT, &string, &why) == GOBLIN_OK);
    WHILE("each long string that is closed", 4, 4,
          goblin_string_closed(&file, &long_strings, AT, &string, &why) == (i < 3 ? GOBLIN_OK : GOBLIN_END));
    range.offset = LONG_AT + 1, range.size = LONG_SIZE - 1;
    REPEATED("the end of a table whose first string is long",
             goblin_string(&file, &range, LONG_SIZE - 2, &string, &why));
    ONCE("the last long string that is closed", goblin_closed_strings(&file, &long_strings, &range, &why) == GOBLIN_OK
         && range.size == 3 * LONG_SIZE + 1);
    WHILE("long strings compared with a short name", ITEMS, ITEMS,
          !goblin_string_is(&file, &long_strings, AT, "aaa", 3));
    WHILE("long strings compared with a short start", ITEMS, ITEMS,
          goblin_string_starts(&file, &long_strings, AT, "aaa", 3));
    fill_strings(0xc3, 0xa9, 'a');
    WHILE("each such string", 4, 4, goblin_string_utf8(&file, &long_strings, AT, &string, &why) == GOBLIN_OK);
    fill_strings(0xc3, 0xa9, 0xc3);
    WHILE("each string with a bad byte", 4, 4,
          goblin_string_utf8(&file, &long_strings, AT, &string, &why) == GOBLIN_REFUSED_BAD_INPUT);
    WHILE("the bytes of each string with a bad byte", 4, 4,
          goblin_string(&file, &long_strings, AT, &string, &why) == GOBLIN_OK);
#undef AT
}

/* Searches for a name that no section and no symbol has. Their names begin at different offsets of one string. */
enum { NAMED_SECTIONS = 30000, NAMED_SYMBOLS = 20000 };
static void search(const char *what, const void *name, size_t size) {
    ONCE(what, goblin_section_by_name(&other, &range, name, size, 0, &number, &section, &why) == GOBLIN_END
         && goblin_symbol_by_name(&other, &table, &range, name, size, 0, &number, &symbol, &why) == GOBLIN_END);
}

static void searches(void) {
    uint8_t *text = bytes + LONG_AT, *name = (uint8_t *)malloc(LONG_SIZE);
    if (!name) exit(2);
    other = file, other.header.e_shnum = NAMED_SECTIONS, range.offset = LONG_AT, range.size = LONG_SIZE;
    table.offset = 64 + NAMED_SECTIONS * sizeof(Elf64_Shdr), table.size = NAMED_SYMBOLS * sizeof(Elf64_Sym);
    for (uint32_t i = 0; i < NAMED_SECTIONS; i++) memcpy(bytes + 64 + i * sizeof(Elf64_Shdr), &i, sizeof i);
    for (uint32_t i = 0; i < NAMED_SYMBOLS; i++) memcpy(bytes + table.offset + i * sizeof(Elf64_Sym), &i, sizeof i);
    memset(text, 'a', LONG_SIZE - 1), text[LONG_SIZE - 1] = 0;
    search("a search for a short name", "aaab", 4);
    /* (each string begins with it and goes on, which one byte after it shows) */
    memset(name, 'a', LONG_SIZE / 2);
    search("one for a long name that each string begins with", name, LONG_SIZE / 2);
    memset(name, 'b', LONG_SIZE);
    search("one for a name as long", name, LONG_SIZE);
    name[LONG_SIZE - 1] = 0xff;
    search("one for a name that is not UTF-8", name, LONG_SIZE);
    name[LONG_SIZE - 1] = 0;
    search("one for a name with a zero byte", name, LONG_SIZE);
    /* Characters of two bytes, and half of one at the end. */
    for (size_t i = 0; i < LONG_SIZE - 1; i++) text[i] = i % 2 ? 0xa9 : 0xc3;
    search("one for a short name of two bytes a character", "\303\251\303\251b", 5);
    for (size_t i = 0; i < LONG_SIZE; i++) name[i] = i % 2 ? 0xaa : 0xc3;
    search("one for a name as long of two bytes a character", name, LONG_SIZE);
    free(name);
}

/* The section of the symbols, which begins at the address 0. Its header is after the symbols. */
enum { SYMBOLS_SECTION = SHN_LORESERVE - 1 };

/* Where the symbol at an index begins: each address once in no order, one for all, or each address. */
enum { SCATTERED, ONE, RISING };
static uint64_t start_of(int kind, uint64_t i) {
    return kind == SCATTERED ? i * 7919 % ITEMS + 1 : kind == ONE ? 1 : i + 1;
}

/* Makes each symbol a function of that section, of one byte, of as many as its index, or of none. Then finds the last
   of them by an address. */
static void find(const char *what, int kind, uint64_t address) {
    Elf64_Shdr holder;
    memset(&holder, 0, sizeof holder), holder.sh_flags = SHF_ALLOC, holder.sh_size = 2 * ITEMS;
    memcpy(bytes + 64 + SYMBOLS_SECTION * sizeof holder, &holder, sizeof holder);
    for (uint64_t i = 0; i < ITEMS; i++) {
        Elf64_Sym made;
        memset(&made, 0, sizeof made);
        made.st_info = STT_FUNC, made.st_shndx = SYMBOLS_SECTION, made.st_value = start_of(kind, i);
        made.st_size = kind == SCATTERED ? 1 : kind == ONE ? i + 1 : 0;
        memcpy(bytes + 128 + i * sizeof made, &made, sizeof made);
    }
    ONCE(what, goblin_symbol_by_address(&file, &table, address, &number, &why) == GOBLIN_OK && number == ITEMS - 1);
}

/* Calls that write. The file is zero bytes up to the strings, which stay: items of any kind can be written there. */
static void writing(void) {
    const goblin_header_t *header = &file.header;
    memset(&section, 0, sizeof section), memset(&segment, 0, sizeof segment), memset(&symbol, 0, sizeof symbol);
    memset(&reloc, 0, sizeof reloc), section.file.size = ITEMS, reloc.r_addend = 1;
    REPEATED("the header written", goblin_put_header(bytes, len, header, &why));
    REPEATED("each section written", goblin_put_section(bytes, len, header, i, &section, &why));
    REPEATED("segments written", goblin_put_segment(bytes, len, header, i % SEGMENTS, &segment, &why));
    REPEATED("each symbol written", goblin_put_symbol(bytes, len, header, &table, i, &symbol, &why));
    REPEATED("each relocation written", goblin_put_reloc(bytes, len, header, &table, true, i, &reloc, &why));
    REPEATED("each entry written", goblin_put_dynamic_entry(bytes, len, header, &table, i, &entry, &why));
    REPEATED("each number written", goblin_put_number(bytes, len, header, 128 + i * 8, 8, i, &why));
    REPEATED("each number of a range written", goblin_put_number_in(bytes, len, header, &table, i * 8, 8, i, &why));
}

/* Makes the file, with a header whose section names are the last section that e_shstrndx can say. */
static bool make_file(void) {
    Elf64_Ehdr first = {{0x7f, 'E', 'L', 'F', ELFCLASS64, ELFDATA2LSB}, 0, 0, 0, 0, 0, 0, 0, 0, 0, 0, 0, 0, 0};
    Elf64_Shdr counted;
    memset(&counted, 0, sizeof counted);
    counted.sh_size = counted.sh_info = ITEMS;
    first.e_shoff = 64, first.e_phoff = 128, first.e_phnum = SEGMENTS, first.e_shstrndx = 0xfffe;
    len = LONG_AT + 4 * LONG_SIZE;
    bytes = (uint8_t *)calloc(1, len);
    array = malloc(ITEMS * sizeof(goblin_section_t));
    if (!bytes || !array) return false;
    memcpy(bytes, &first, sizeof first);
    memcpy(bytes + 64, &counted, sizeof counted);
    fill_strings('a', 'a', 'a');
    table = range_of(ITEMS, sizeof(Elf64_Sym)); /* (a relocation has the size of a symbol) */
    return goblin_file(bytes, len, &file, &why) == GOBLIN_OK;
}

int main(void) {
    if (!make_file()) return 2;
    lists();
    repeated_calls();
    dynamic();
    build_id();
    strings();
    find("the last of symbols in no order", SCATTERED, start_of(SCATTERED, ITEMS - 1));
    find("the last of symbols at one address", ONE, ITEMS);
    find("the last of labels", RISING, 2 * ITEMS - 1);
    memset(bytes + 128, 0, LONG_AT - 128);
    writing();
    memset(bytes + 128, 0, LONG_AT - 128);
    searches();
    free(array);
    free(bytes);
    return is_right ? 0 : 1;
}
