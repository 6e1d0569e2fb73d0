/* Changes a flag of a section in a buffer: flag FILE SECTION
   It reads the file, turns over GOBLIN_SHF_WRITE of the first section with that name, and prints the flags before and
   after. The file stays as it is. */
#include "goblin.h"
#include "example.h"

int main(int argc, char **argv) {
    if (argc != 3) return fputs("usage: flag FILE SECTION\n", stderr), 2;
    if (!load(argv[1])) return perror(argv[1]), 2;
    const char *name = argv[2];
    goblin_section_t names, section;
    uint64_t index = 0;
    uint32_t status = goblin_file(bytes, len, &file, &why);
    if (status == GOBLIN_OK) status = goblin_names_section(&file, &names, &why);
    if (status == GOBLIN_OK)
        status = goblin_section_by_name(&file, &names.file, name, strlen(name), 0, &index, &section, &why);
    if (status == GOBLIN_END) return fprintf(stderr, "flag: there is no section %s\n", name), 1;
    if (status != GOBLIN_OK) return print_refusal("flag");
    uint64_t before = section.sh_flags;
    section.sh_flags ^= GOBLIN_SHF_WRITE;
    if (goblin_put_section(bytes, len, &file.header, index, &section, &why) != GOBLIN_OK
        || goblin_section(&file, index, &section, &why) != GOBLIN_OK)
        return print_refusal("flag");
    printf("%s: flags 0x%" PRIx64 ", now 0x%" PRIx64 "\n", name, before, section.sh_flags);
    return written(0);
}
