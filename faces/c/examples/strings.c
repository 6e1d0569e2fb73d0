/* Lists the strings of a section, such as .comment: strings FILE SECTION
   Each is printed as it stands, UTF-8 or not, after its offset in the section. Strings without bytes are left out. If
   no zero byte closes the last string, a line says so. */
#include "goblin.h"
#include "example.h"

/* Prints the strings of a range, one after another. Each ends at a zero byte or at the end of the range. */
static uint32_t list_strings(const goblin_range_t *strings) {
    goblin_range_t string;
    uint32_t status;
    for (uint64_t at = 0; (status = goblin_string(&file, strings, at, &string, &why)) == GOBLIN_OK;
         at += string.size + 1) {
        bool is_closed = string.offset + string.size < strings->offset + strings->size;
        if (string.size > 0) {
            printf("%6" PRIx64 "  ", at);
            fwrite(bytes + string.offset, 1, (size_t)string.size, stdout);
            putchar('\n');
        }
        if (!is_closed) fputs("strings: no zero byte closes the last string\n", stderr);
    }
    return status;
}

int main(int argc, char **argv) {
    if (argc != 3) return fputs("usage: strings FILE SECTION\n", stderr), 2;
    if (!load(argv[1])) return perror(argv[1]), 2;
    const char *name = argv[2];
    goblin_section_t names, section;
    goblin_range_t strings;
    uint64_t index;
    uint32_t status = goblin_file(bytes, len, &file, &why);
    if (status == GOBLIN_OK) status = goblin_names_section(&file, &names, &why);
    if (status == GOBLIN_OK)
        status = goblin_section_by_name(&file, &names.file, name, strlen(name), 0, &index, &section, &why);
    if (status == GOBLIN_END) return fprintf(stderr, "strings: there is no section %s\n", name), 1;
    if (status == GOBLIN_OK) status = goblin_section_range(&file, &section, &strings, &why);
    if (status == GOBLIN_END) return fprintf(stderr, "strings: the section %s has no bytes in the file\n", name), 1;
    if (status == GOBLIN_OK) status = list_strings(&strings);
    if (status <= GOBLIN_END) return written(0);
    return fprintf(stderr, "strings: %s, at offset %" PRIu64 "\n", refusal_text(), why.offset), 1;
}
