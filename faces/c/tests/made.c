/* Writes object files with symbols of each kind into a folder, one of each class and byte order: made FOLDER
   They are little64, big64, little32 and big32. checks/faces/c.sh has what nm.c must list of them. */
#include <elf.h>
#include <stdbool.h>
#include <stdint.h>
#include <stdio.h>
#include <stdlib.h>
#include <string.h>

enum { STRINGS = 0x1000, HEADERS = 0x1800, SIZE = 0x2000 };

/* Each section has 0x100 bytes of the file. The strings have the rest, up to the section headers. */
static const struct {
    const char *name;
    uint32_t type, flags, link, info;
} sections[] = {
    {"", SHT_NULL, 0, 0, 0}, {".text", SHT_PROGBITS, SHF_ALLOC | SHF_EXECINSTR, 0, 0},
    {".data", SHT_PROGBITS, SHF_ALLOC | SHF_WRITE, 0, 0}, {".bss", SHT_NOBITS, SHF_ALLOC | SHF_WRITE, 0, 0},
    {".rodata", SHT_PROGBITS, SHF_ALLOC, 0, 0}, {".debug_info", SHT_PROGBITS, 0, 0, 0},
    {".comment", SHT_PROGBITS, 0, 0, 0}, {".symtab", SHT_SYMTAB, 0, 8, 7}, {".strtab", SHT_STRTAB, 0, 0, 0},
    {".rela.text", SHT_RELA, SHF_INFO_LINK, 7, 1}, {".note", SHT_NOTE, 0, 0, 0},
};

static const struct {
    const char *name;
    uint32_t value, size;
    uint8_t bind, type;
    uint16_t section;
} symbols[] = {
    {"", 0, 0, STB_LOCAL, STT_NOTYPE, SHN_UNDEF}, {"made.c", 0, 0, STB_LOCAL, STT_FILE, SHN_ABS},
    {"", 0, 0, STB_LOCAL, STT_SECTION, 1}, {"", 0, 0, STB_LOCAL, STT_SECTION, 5},
    {"local_function", 0x10, 2, STB_LOCAL, STT_FUNC, 1}, {"local_data", 0x8, 4, STB_LOCAL, STT_OBJECT, 2},
    {"comment", 0x3, 0, STB_LOCAL, STT_NOTYPE, 6}, {"function", 0x12, 2, STB_GLOBAL, STT_FUNC, 1},
    {"data", 0x4, 4, STB_GLOBAL, STT_OBJECT, 2}, {"zeros", 0x6, 16, STB_GLOBAL, STT_OBJECT, 3},
    {"constant", 0x2, 1, STB_GLOBAL, STT_OBJECT, 4}, {"weak_function", 0x14, 2, STB_WEAK, STT_FUNC, 1},
    {"weak_data", 0xc, 4, STB_WEAK, STT_OBJECT, 2}, {"undefined", 0, 0, STB_GLOBAL, STT_NOTYPE, SHN_UNDEF},
    {"weak_undefined", 0, 0, STB_WEAK, STT_NOTYPE, SHN_UNDEF},
    {"weak_undefined_data", 0, 0, STB_WEAK, STT_OBJECT, SHN_UNDEF},
    {"absolute", 0x7654321, 0, STB_GLOBAL, STT_NOTYPE, SHN_ABS},
    {"common", 8, 0x20, STB_GLOBAL, STT_OBJECT, SHN_COMMON}, {"unique", 0x14, 4, STB_GNU_UNIQUE, STT_OBJECT, 2},
    {"indirect", 0x16, 2, STB_GLOBAL, STT_GNU_IFUNC, 1}, {"\303\251t\303\251", 0x18, 2, STB_GLOBAL, STT_FUNC, 1},
};
enum { COUNT = sizeof sections / sizeof *sections, SYMBOLS = sizeof symbols / sizeof *symbols };

static uint8_t file[SIZE];
static size_t end, strings, wide;
static bool is_big;

static void put(size_t width, uint64_t value) {
    for (size_t i = 0; i < width; i++) file[end + (is_big ? width - 1 - i : i)] = (uint8_t)(value >> (8 * i));
    end += width;
}

/* Writes a name after those before it, and returns its offset. */
static uint64_t named(const char *name) {
    if (*name == 0) return 0;
    size_t at = strings;
    memcpy(file + STRINGS + at, name, strlen(name));
    strings += strlen(name) + 1;
    return at;
}

/* Writes what the sections hold. The bytes of code and data are zeros. */
static void fill(void) {
    end = 0x700;
    for (size_t i = 0; i < SYMBOLS; i++) {
        put(4, named(symbols[i].name));
        if (wide == 4) put(4, symbols[i].value), put(4, symbols[i].size);
        put(1, symbols[i].bind << 4 | symbols[i].type), put(1, STV_DEFAULT), put(2, symbols[i].section);
        if (wide == 8) put(8, symbols[i].value), put(8, symbols[i].size);
    }
    end = 0x900;
    for (size_t symbol = 7; symbol < 9; symbol++)
        put(wide, 2 * symbol), put(wide, wide == 8 ? symbol << 32 | 1 : symbol << 8 | 1), put(wide, (uint64_t)-4);
    end = 0xa00;
    put(4, 4), put(4, 4), put(4, 3);
    memcpy(file + end, "GNU\0abcd", 8);
}

static uint64_t size_of(size_t section) {
    switch (sections[section].type) {
    case SHT_NULL: return 0;
    case SHT_SYMTAB: return SYMBOLS * (wide == 8 ? 24 : 16);
    case SHT_STRTAB: return strings;
    case SHT_RELA: return 2 * 3 * wide;
    case SHT_NOTE: return 20;
    default: return 0x40;
    }
}

static void put_headers(void) {
    memcpy(file, "\177ELF", 4);
    end = 4;
    put(1, wide / 4), put(1, is_big ? 2 : 1), put(1, 1), put(1, ELFOSABI_GNU);
    end = 16;
    put(2, ET_REL), put(2, is_big ? (wide == 8 ? EM_PPC64 : EM_PPC) : (wide == 8 ? EM_X86_64 : EM_386));
    put(4, 1), put(wide, 0), put(wide, 0), put(wide, HEADERS), put(4, 0), put(2, wide == 8 ? 64 : 52);
    put(2, 0), put(2, 0), put(2, wide == 8 ? 64 : 40), put(2, COUNT), put(2, 8);
    uint64_t names[COUNT];
    for (size_t i = 0; i < COUNT; i++) names[i] = named(sections[i].name);
    end = HEADERS;
    for (size_t i = 0; i < COUNT; i++) {
        uint64_t entry = sections[i].type == SHT_SYMTAB ? size_of(i) / SYMBOLS
            : sections[i].type == SHT_RELA ? 3 * wide : 0;
        put(4, names[i]), put(4, sections[i].type), put(wide, sections[i].flags), put(wide, 0);
        put(wide, sections[i].type == SHT_STRTAB ? STRINGS : 0x100 * i), put(wide, size_of(i));
        put(4, sections[i].link), put(4, sections[i].info), put(wide, i ? 4 : 0), put(wide, entry);
    }
}

int main(int argc, char **argv) {
    static const char *const names[] = {"little64", "big64", "little32", "big32"};
    for (int kind = 0; argc == 2 && kind < 4; kind++) {
        memset(file, 0, sizeof file);
        strings = 1, wide = kind < 2 ? 8 : 4, is_big = kind % 2;
        fill();
        put_headers();
        char path[4096];
        bool is_short = (size_t)snprintf(path, sizeof path, "%s/%s", argv[1], names[kind]) < sizeof path;
        FILE *to = is_short ? fopen(path, "wb") : NULL;
        if (!to || fwrite(file, 1, sizeof file, to) != sizeof file || fclose(to)) return EXIT_FAILURE;
    }
    return argc == 2 ? EXIT_SUCCESS : EXIT_FAILURE;
}
