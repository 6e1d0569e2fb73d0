/* Times the library beside libelf and plain C, in one process: bench FILE..
   It uses the longest symbol table of each file, which must be 64-bit and little endian, its longest table of
   relocations with addends, and its first note, if it has them. Each time is the best of nine runs; the runs of two
   that are compared alternate. The rows that write bring back what was read. */
#define _POSIX_C_SOURCE 199309L
#include "goblin.h"
#include "examples/example.h"
#include <gelf.h>
#include <time.h>

enum { RUNS = 9, MOST = 4096, CALLS = 100000 };

/* Marks a function that is called like one of another file: the compiler does not put its code into a loop. */
#define APART __attribute__((noinline))

static const uint8_t none[] = "_ZNSt8no_suchD0Ev"; /* a name that no symbol has */
static goblin_section_t table, strings, relas, notes, names, sections[MOST];
static goblin_symbol_t symbols[MOST];
static uint64_t *offsets, *sizes, *addresses; /* of the symbols' names, in the strings, and the symbols' addresses */
static const char *text;                      /* the strings */
static goblin_range_t ranges[MOST], titles[MOST]; /* the ranges of the sections, and their names that are not empty */
static Elf *elf;
static Elf_Data *data, *rela_data, *note_data;

/* How many items there are: symbols, sections, their ranges and names; and how many an action goes over. It goes over a
   short list several times, so that reading the clock is a small part of its time. */
static uint64_t count, headers, ranged, titled, relocs, noted, loaded, all_headers, all_ranged, all_titled;
static const uint64_t calls = CALLS, once = 1;

/* What the calls write. */
static goblin_range_t string, batch[64];
static goblin_reloc_t reloc;
static goblin_note_t note;
static goblin_file_t cut, whole;
static uint64_t number, n;
static GElf_Sym sym;
static GElf_Rela rela;
static GElf_Nhdr nhdr;
static GElf_Ehdr ehdr;
static GElf_Shdr shdr;
static size_t own_name, own_desc;

static uint64_t rounds(uint64_t items) { return items ? MOST / items + 1 : 0; }

/* Defines an action: a function that returns the sum of what it reads. Two that are compared have the same sum. */
#define ACTION(name, ...) \
    static uint64_t name(void) { \
        uint64_t sum = 0; \
        __VA_ARGS__; \
        return sum; \
    }
/* Defines one that goes on as long as there is an item, over all of a list, or over a short one several times. */
#define WHILE(name, has_item, value) ACTION(name, for (uint64_t i = 0; has_item; i++) sum += (value))
#define EACH(name, items, value) WHILE(name, i < (items), value)
#define OFTEN(name, items, value) \
    ACTION(name, for (uint64_t round = rounds(items); round > 0; round--) \
        for (uint64_t i = 0; i < (items); i++) sum += (value))
/* Defines one that reads several items at once into an array. */
#define BATCHES(name, value, status) \
    ACTION(name, for (uint64_t i = 0; !(status); i += n) \
        for (uint64_t k = 0; k < n; k++) sum += (value))

/* Finds the offset of the byte that is loaded at an address, by libelf, or returns 0 if the file has none. */
static uint64_t gelf_offset(uint64_t address) {
    GElf_Phdr segment;
    for (int i = 0; i < file.header.e_phnum; i++) {
        if (!gelf_getphdr(elf, i, &segment) || segment.p_type != PT_LOAD) continue;
        if (address < segment.p_vaddr || address - segment.p_vaddr >= segment.p_filesz) continue;
        uint64_t past = address - segment.p_vaddr;
        return segment.p_offset < len && past < len - segment.p_offset ? segment.p_offset + past : 0;
    }
    return 0;
}

/* Finds the bytes of the first section with a name, by the calls or by libelf. Returns the sum of their offset and
   size, or 0 if there are none. */
static uint64_t named(goblin_range_t name) {
    return goblin_section_by_name(&file, &names.file, bytes + name.offset, name.size, 0, &n, sections, &why)
        || goblin_section_range(&file, sections, &string, &why) ? 0 : string.offset + string.size;
}
static uint64_t elf_named(size_t of_names, const char *name) {
    for (Elf_Scn *s = NULL; (s = elf_nextscn(elf, s));) {
        const char *own = gelf_getshdr(s, &shdr) ? elf_strptr(elf, of_names, shdr.sh_name) : NULL;
        if (!own || strcmp(own, name) != 0) continue;
        Elf_Data *raw = shdr.sh_type == SHT_NOBITS ? NULL : elf_rawdata(s, NULL);
        return raw && raw->d_size ? shdr.sh_offset + raw->d_size : 0;
    }
    return 0;
}

/* Cuts a range to a file of so many bytes, by plain C. */
static APART void plain_cut(uint64_t length, const goblin_range_t *range, goblin_range_t *part) {
    part->offset = range->offset < length ? range->offset : length;
    part->size = range->size < length - part->offset ? range->size : length - part->offset;
}

/* Counts the headers in a file of so many bytes whose numbers are in its header, by plain C. */
static APART void plain_whole(uint64_t length, const goblin_header_t *all, goblin_header_t *counted) {
    uint64_t most = all->e_shoff > length ? 0 : (length - all->e_shoff) / sizeof(Elf64_Shdr);
    uint64_t segments = all->e_phoff > length ? 0 : (length - all->e_phoff) / sizeof(Elf64_Phdr);
    *counted = *all;
    if (most < all->e_shnum) counted->e_shnum = (uint16_t)most;
    if (most == 0) counted->e_shoff = 0;
    if (segments < all->e_phnum) counted->e_phnum = (uint16_t)segments;
}

/* Compares the string at an offset with a name or with a start, by plain C, as a client does that knows its strings. */
static APART bool plain_is(uint64_t offset, const void *name, uint64_t size) {
    return offset < strings.file.size && strings.file.size - offset > size && memcmp(text + offset, name, size) == 0
        && text[offset + size] == 0;
}
static APART bool plain_starts(uint64_t offset, const void *start, uint64_t size) {
    return offset < strings.file.size && strings.file.size - offset >= size && memcmp(text + offset, start, size) == 0;
}

WHILE(symbol_one, !goblin_symbol(&file, &table.file, i, symbols, &why), symbols->st_value + symbols->st_name)
BATCHES(symbol_64, symbols[k].st_value + symbols[k].st_name,
    goblin_symbols(&file, &table.file, i, symbols, 64, &n, &why))
BATCHES(symbol_4096, symbols[k].st_value + symbols[k].st_name,
    goblin_symbols(&file, &table.file, i, symbols, MOST, &n, &why))
WHILE(symbol_gelf, gelf_getsym(data, (int)i, &sym), sym.st_value + sym.st_name)
EACH(name_utf8, count, goblin_string_utf8(&file, &strings.file, offsets[i], &string, &why) ? 0 : string.size)
EACH(name_bytes, count, goblin_string(&file, &strings.file, offsets[i], &string, &why) ? 0 : string.size)
BATCHES(name_64, batch[k].size,
    i >= count || goblin_strings(&file, &strings.file, offsets + i, count - i, batch, 64, &n, &why))
EACH(name_strlen, count, strlen(text + offsets[i]))
EACH(name_strptr, count, strlen(elf_strptr(elf, table.sh_link, offsets[i])))
EACH(is_other, count, goblin_string_is(&file, &strings.file, offsets[i], text + offsets[count / 2], sizes[count / 2]))
EACH(is_other_plain, count, plain_is(offsets[i], text + offsets[count / 2], sizes[count / 2]))
EACH(is_itself, count, goblin_string_is(&file, &strings.file, offsets[i], text + offsets[i], sizes[i]))
EACH(is_itself_plain, count, plain_is(offsets[i], text + offsets[i], sizes[i]))
EACH(starts, count, goblin_string_starts(&file, &strings.file, offsets[i], none, 6))
EACH(starts_plain, count, plain_starts(offsets[i], none, 6))
ACTION(search,
    sum = goblin_symbol_by_name(&file, &table.file, &strings.file, none, sizeof none - 1, 0, &n, symbols, &why))
ACTION(search_strcmp, const Elf64_Sym *s = (const Elf64_Sym *)data->d_buf; n = 0;
    while (n < count && strcmp(text + s[n].st_name, (const char *)none) != 0) n++;
    sum = n == count ? GOBLIN_END : GOBLIN_OK)
ACTION(file_sections, if (!goblin_file(bytes, len, &file, &why) && !goblin_sections(&file, 1, sections, MOST, &n, &why))
    while (n > 0) sum += sections[--n].file.size)
ACTION(file_elf, Elf *own = elf_memory((char *)bytes, len);
    for (Elf_Scn *s = NULL; (s = elf_nextscn(own, s));) sum += gelf_getshdr(s, &shdr)->sh_size;
    elf_end(own))
WHILE(reloc_one, !goblin_reloc(&file, &relas.file, true, i, &reloc, &why),
    reloc.r_offset + (uint64_t)reloc.r_addend + reloc.r_sym)
WHILE(reloc_gelf, gelf_getrela(rela_data, (int)i, &rela),
    rela.r_offset + (uint64_t)rela.r_addend + GELF_R_SYM(rela.r_info))
#define NOTE(call) \
    call(&file, &notes.file, notes.sh_addralign, notes.file.offset, &note, &why) ? 0 : note.desc.size + note.n_type
EACH(note_one, CALLS, NOTE(goblin_note))
EACH(note_utf8, CALLS, NOTE(goblin_note_utf8))
EACH(note_whole, CALLS, NOTE(goblin_note_whole))
EACH(note_gelf, CALLS, gelf_getnote(note_data, 0, &nhdr, &own_name, &own_desc) ? nhdr.n_descsz + nhdr.n_type : 0)
EACH(header, CALLS, goblin_file(bytes, len, &cut, &why) ? 0 : cut.header.e_shoff + cut.header.e_shnum)
EACH(header_gelf, CALLS, gelf_getehdr(elf, &ehdr) ? ehdr.e_shoff + ehdr.e_shnum : 0)
OFTEN(section, headers, goblin_section(&file, i, sections, &why) ? 0 : sections->file.size)
OFTEN(section_gelf, headers, gelf_getshdr(elf_getscn(elf, i), &shdr)->sh_size)
EACH(number_in, count, goblin_number_in(&file, &table.file, 24 * i + 8, 8, &number, &why) ? 0 : number)
EACH(number_memcpy, count, (memcpy(&number, bytes + table.file.offset + 24 * i + 8, 8), number))
EACH(offset, count, goblin_address_to_offset(&file, addresses[i], &number, &why) ? 0 : number)
EACH(offset_gelf, count, gelf_offset(addresses[i]))
OFTEN(bytes_of_named, titled, named(titles[i]))
ACTION(bytes_of_named_elf, size_t of_names = 0; bool has_names = !elf_getshdrstrndx(elf, &of_names);
    for (uint64_t round = has_names ? rounds(titled) : 0; round > 0; round--)
        for (uint64_t i = 0; i < titled; i++) sum += elf_named(of_names, (const char *)bytes + titles[i].offset))
OFTEN(range_cut, ranged,
    (cut.len = len / 2, goblin_range_in_file(&cut, ranges + i, &string), string.offset + string.size))
OFTEN(range_plain, ranged, (plain_cut(len / 2, ranges + i, &string), string.offset + string.size))
/* (files that are cut in the middle of a header) */
#define CUT (cut.len = file.header.e_shoff + sizeof(Elf64_Shdr) / 2 + sizeof(Elf64_Shdr) * i)
#define COUNTED whole.header.e_shnum + whole.header.e_phnum
OFTEN(whole_header, headers, (CUT, goblin_whole_header(&cut, &whole), COUNTED))
OFTEN(whole_plain, headers, (CUT, plain_whole(cut.len, &file.header, &whole.header), COUNTED))
WHILE(symbol_put, !goblin_symbol(&file, &table.file, i, symbols, &why),
    !goblin_put_symbol(bytes, len, &file.header, &table.file, i, symbols, &why))
WHILE(symbol_update, gelf_getsym(data, (int)i, &sym), gelf_update_sym(data, (int)i, &sym) != 0)
WHILE(reloc_put, !goblin_reloc(&file, &relas.file, true, i, &reloc, &why),
    !goblin_put_reloc(bytes, len, &file.header, &relas.file, true, i, &reloc, &why))
WHILE(reloc_update, gelf_getrela(rela_data, (int)i, &rela), gelf_update_rela(rela_data, (int)i, &rela) != 0)

/* What is timed, beside what, by which actions, and the number of items that they go over. */
static const struct {
    const char *what, *than;
    uint64_t (*ours)(void), (*theirs)(void);
    const uint64_t *items;
} rows[] = {
    {"a symbol by one call", "gelf_getsym", symbol_one, symbol_gelf, &count},
    {"a symbol, 64 at once", "gelf_getsym", symbol_64, symbol_gelf, &count},
    {"a symbol, 4,096 at once", "gelf_getsym", symbol_4096, symbol_gelf, &count},
    {"a name", "strlen", name_utf8, name_strlen, &count},
    {"a name", "elf_strptr and strlen", name_utf8, name_strptr, &count},
    {"a name, 64 at once", "strlen", name_64, name_strlen, &count},
    {"a name that may not be UTF-8", "strlen", name_bytes, name_strlen, &count},
    {"a name, 64 at once", "goblin_string", name_64, name_bytes, &count},
    {"a name compared with another", "memcmp and a zero test", is_other, is_other_plain, &count},
    {"a name compared with itself", "memcmp and a zero test", is_itself, is_itself_plain, &count},
    {"a name's start compared", "memcmp", starts, starts_plain, &count},
    {"a symbol passed in a search", "strcmp", search, search_strcmp, &count},
    {"header and sections of a file", "elf_memory and gelf_getshdr", file_sections, file_elf, &once},
    {"a relocation by one call", "gelf_getrela", reloc_one, reloc_gelf, &relocs},
    {"a note by one call", "gelf_getnote", note_one, note_gelf, &noted},
    {"a note whose name is UTF-8", "gelf_getnote", note_utf8, note_gelf, &noted},
    {"a note that is whole", "gelf_getnote", note_whole, note_gelf, &noted},
    {"the header by one call", "gelf_getehdr", header, header_gelf, &calls},
    {"a section by one call", "elf_getscn and gelf_getshdr", section, section_gelf, &all_headers},
    {"a number in a range", "memcpy", number_in, number_memcpy, &count},
    {"the offset of an address", "gelf_getphdr", offset, offset_gelf, &loaded},
    {"a section's bytes by its name", "elf_strptr and elf_rawdata", bytes_of_named, bytes_of_named_elf, &all_titled},
    {"a range cut to the file", "plain C", range_cut, range_plain, &all_ranged},
    {"what is whole in a cut file", "plain C", whole_header, whole_plain, &all_headers},
    {"a symbol read and written", "gelf_update_sym", symbol_put, symbol_update, &count},
    {"a relocation read and written", "gelf_update_rela", reloc_put, reloc_update, &relocs},
};

static double time_of(uint64_t (*action)(void), uint64_t *sum) {
    struct timespec start, end;
    clock_gettime(CLOCK_MONOTONIC, &start);
    *sum = action();
    clock_gettime(CLOCK_MONOTONIC, &end);
    return 1e9 * (double)(end.tv_sec - start.tv_sec) + (double)(end.tv_nsec - start.tv_nsec);
}

/* Finds the longest of the sections of two types, and what libelf has of it. */
static goblin_section_t longest(uint32_t one, uint32_t other, Elf_Data **found) {
    goblin_section_t section, most;
    uint64_t index = 0;
    memset(&most, 0, sizeof most);
    for (uint64_t i = 0; !goblin_section(&file, i, &section, &why); i++)
        if ((section.sh_type == one || section.sh_type == other) && section.file.size > most.file.size)
            most = section, index = i;
    *found = elf_getdata(elf_getscn(elf, index), NULL);
    return most;
}

/* Finds the tables of the file, the ranges of its sections, and their names, and counts them. */
static bool prepare(void) {
    if (goblin_file(bytes, len, &file, &why) || file.header.ei_class != 2 || file.header.ei_data != 1) return false;
    elf = elf_memory((char *)bytes, len);
    cut = whole = file, headers = file.header.e_shnum, ranged = titled = 0;
    table = longest(SHT_SYMTAB, SHT_DYNSYM, &data);
    relas = longest(SHT_RELA, SHT_RELA, &rela_data);
    notes = longest(SHT_NOTE, SHT_NOTE, &note_data);
    if (goblin_linked_section(&file, table.sh_link, &strings, &why)) return false;
    if (goblin_symbol_count(&file, &table.file, &count, &why)) return false;
    text = (const char *)bytes + strings.file.offset;
    /* (strlen must end inside the table) */
    if (strings.file.size == 0 || text[strings.file.size - 1] != 0) return false;
    if (!(offsets = malloc(3 * (count + 1) * sizeof *offsets))) return false;
    addresses = offsets + count + 1, sizes = addresses + count + 1;
    for (uint64_t i = 0; i < count && !goblin_symbol(&file, &table.file, i, symbols, &why); i++)
        if (symbols->st_name >= strings.file.size) return false;
        else offsets[i] = symbols->st_name, addresses[i] = symbols->st_value, sizes[i] = strlen(text + offsets[i]);
    bool has_names = !goblin_names_section(&file, &names, &why);
    if (goblin_sections(&file, 0, sections, MOST, &ranged, &why)) ranged = 0;
    for (uint64_t i = 0; i < ranged; i++) {
        ranges[i] = sections[i].file;
        if (has_names && !goblin_string_utf8(&file, &names.file, sections[i].sh_name, titles + titled, &why))
            titled += titles[titled].size > 0;
    }
    relocs = relas.file.size / 24, noted = notes.file.size ? CALLS : 0, loaded = file.header.e_phnum ? count : 0;
    all_headers = rounds(headers) * headers, all_ranged = rounds(ranged) * ranged, all_titled = rounds(titled) * titled;
    return true;
}

static int bench(const char *path) {
    uint64_t sums[2];
    if (!prepare()) return 1;
    printf("%s, %llu symbols, nanoseconds each:\n", path, (unsigned long long)count);
    for (size_t row = 0; row < sizeof rows / sizeof *rows; row++) {
        double least[2] = {1e18, 1e18}, each = (double)*rows[row].items;
        if (each < 1) continue;
        for (int turn = 0; turn < 2 * RUNS; turn++) {
            double took = time_of(turn % 2 ? rows[row].theirs : rows[row].ours, &sums[turn % 2]) / each;
            if (took < least[turn % 2]) least[turn % 2] = took;
        }
        printf("  %-32s %9.1f  by %-28s %9.1f  %5.2f times\n", rows[row].what, least[0], rows[row].than, least[1],
               least[0] / least[1]);
        if (sums[0] != sums[1]) return 1;
    }
    return elf_end(elf);
}

int main(int argc, char **argv) {
    for (int i = 1; i < argc; i++)
        if (elf_version(EV_CURRENT) == EV_NONE || !load(argv[i])) return 2;
        else if (bench(argv[i])) return 1;
    return argc < 2;
}
