/* Lists the symbols of an ELF file, in most files as `nm -a -p --special-syms` does: nm [-D] FILE
   With -D it lists the dynamic symbol table. A line has the value of a symbol (the size of a common symbol),
   its letter, the index of its section and its name. nm lists no values of undefined symbols, Thumb functions without
   the lowest bit of their values, versions after names with -D, and other letters for small common symbols of MIPS and
   for sections with names of PE, such as .pdata. With a plugin it lists the compiler's symbols of files for link-time
   optimization.
   In a file of 65,280 or more sections an index may not fit in its symbol; then it is read from the section of
   type SHT_SYMTAB_SHNDX. */
#include "goblin.h"
#include "example.h"
#include <ctype.h>

static goblin_section_t names_of_sections;

/* Returns the string at an offset, which need not be UTF-8, or an empty one if there is none. */
static goblin_range_t string(const goblin_section_t *strings, uint64_t offset) {
    goblin_range_t found = {0, 0};
    uint32_t status = goblin_string(&file, &strings->file, offset, &found, GOBLIN_UNREAD);
    if (status != GOBLIN_OK) found.size = 0;
    return found;
}

/* Returns whether the name of a section starts with a text. */
static bool starts(const goblin_section_t *section, const char *with) {
    return goblin_string_starts(&file, &names_of_sections.file, section->sh_name, with, strlen(with));
}

static int section_letter(const goblin_section_t *section) {
    static const char *const debugging[] = {".debug", ".zdebug", ".gnu.debuglto_.debug_", ".line",
                                            ".stab", ".gnu.linkonce.wi."};
    if (section->sh_flags & GOBLIN_SHF_EXECINSTR) return 't';
    if (section->sh_type == GOBLIN_SHT_NOBITS) return 'b';
    if (section->sh_flags & GOBLIN_SHF_ALLOC) return section->sh_flags & GOBLIN_SHF_WRITE ? 'd' : 'r';
    for (size_t i = 0; i < sizeof debugging / sizeof *debugging; i++)
        if (starts(section, debugging[i])) return 'N';
    if (goblin_string_is(&file, &names_of_sections.file, section->sh_name, GOBLIN_LITERAL(".gdb_index"))) return 'N';
    return section->sh_flags & GOBLIN_SHF_WRITE ? '?' : 'n';
}

/* Returns whether a symbol is common. Large ones of x86-64 have an index of their own, SHN_X86_64_LCOMMON. */
static bool is_common(const goblin_symbol_t *symbol) {
    return symbol->st_shndx == GOBLIN_SHN_COMMON
        || (symbol->st_shndx == GOBLIN_SHN_LOPROC + 2 && file.header.e_machine == GOBLIN_EM_X86_64);
}

/* Returns the letter of a symbol in a section, or in none if that is null. */
static int letter(const goblin_symbol_t *symbol, const goblin_section_t *section) {
    unsigned bind = GOBLIN_ST_BIND(symbol->st_info), type = GOBLIN_ST_TYPE(symbol->st_info);
    bool is_object = type == GOBLIN_STT_OBJECT || type == GOBLIN_STT_COMMON;
    if (is_common(symbol)) return 'C';
    if (symbol->st_shndx == GOBLIN_SHN_UNDEF && bind != GOBLIN_STB_WEAK) return 'U';
    if (symbol->st_shndx == GOBLIN_SHN_UNDEF) return is_object ? 'v' : 'w';
    if (type == GOBLIN_STT_GNU_IFUNC) return 'i';
    if (bind == GOBLIN_STB_WEAK) return is_object ? 'V' : 'W';
    if (bind == GOBLIN_STB_GNU_UNIQUE) return 'u';
    if (bind > GOBLIN_STB_WEAK) return '?';
    int of_section = section ? section_letter(section) : 'a';
    return bind == GOBLIN_STB_LOCAL ? of_section : toupper(of_section);
}

/* Finds the section of type SHT_SYMTAB_SHNDX that belongs to the symbol table with this index, if there is one. */
static bool find_indices(uint64_t table, goblin_section_t *indices) {
    for (uint64_t i = 0; goblin_section_by_type(&file, GOBLIN_SHT_SYMTAB_SHNDX, i, &i, indices, &why) == GOBLIN_OK; i++)
        if (indices->sh_link == table) return true;
    return false;
}

static int list(uint64_t index_of_table, const goblin_section_t *table) {
    goblin_section_t indices, names;
    bool has_indices = find_indices(index_of_table, &indices);
    memset(&names, 0, sizeof names);
    if (goblin_linked_section(&file, table->sh_link, &names, &why) > GOBLIN_END)
        return print_refusal("nm: string table");
    goblin_symbol_t symbol;
    uint32_t status;
    for (uint64_t i = 1; (status = goblin_symbol(&file, &table->file, i, &symbol, &why)) == GOBLIN_OK; i++) {
        goblin_section_t section;
        uint64_t index = symbol.st_shndx;
        bool is_index = index < GOBLIN_SHN_LORESERVE || (index == GOBLIN_SHN_XINDEX && has_indices
            && goblin_number_in(&file, &indices.file, 4 * i, 4, &index, &why) == GOBLIN_OK);
        bool has_section = is_index && goblin_section(&file, index, &section, &why) == GOBLIN_OK;
        goblin_range_t name = string(&names, symbol.st_name);
        if (name.size == 0 && has_section && GOBLIN_ST_TYPE(symbol.st_info) == GOBLIN_STT_SECTION)
            name = string(&names_of_sections, section.sh_name);
        uint64_t value = is_common(&symbol) ? symbol.st_size : symbol.st_value;
        bool is_64 = file.header.ei_class == GOBLIN_ELFCLASS64;
        /* (in an object file a value is an offset in its section, which may have an address) */
        if (has_section && file.header.e_type == GOBLIN_ET_REL) value += section.sh_addr;
        printf("%0*" PRIx64 " %c %" PRIu64 " ", is_64 ? 16 : 8, is_64 ? value : value & UINT32_MAX,
               letter(&symbol, has_section ? &section : NULL), index);
        fwrite(bytes + name.offset, 1, (size_t)name.size, stdout);
        putchar('\n');
    }
    return status == GOBLIN_END ? 0 : print_refusal("nm: symbols");
}

int main(int argc, char **argv) {
    bool is_dynamic = argc == 3 && strcmp(argv[1], "-D") == 0;
    if (argc != 2 + is_dynamic) return fputs("usage: nm [-D] FILE\n", stderr), 2;
    if (!load(argv[argc - 1])) return perror(argv[argc - 1]), 2;
    if (goblin_file(bytes, len, &file, &why) != GOBLIN_OK) return print_refusal("nm: header");
    if (goblin_names_section(&file, &names_of_sections, &why) > GOBLIN_END) return print_refusal("nm: sections");
    uint32_t type = is_dynamic ? GOBLIN_SHT_DYNSYM : GOBLIN_SHT_SYMTAB;
    goblin_section_t table;
    uint64_t index;
    bool is_there = goblin_section_by_type(&file, type, 0, &index, &table, &why) == GOBLIN_OK;
    return written(is_there ? list(index, &table) : 0);
}
