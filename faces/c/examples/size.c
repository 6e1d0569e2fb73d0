/* Adds up the sizes of the loaded sections of ELF files, as `size` does: size FILE..
   Sections that are executable or not writable count as text, others with bytes in the file as data, and the
   rest as bss. */
#include "goblin.h"
#include "example.h"

enum { BATCH = 64 };

/* Prints the line of a file, or its refusal. */
static int add_up(const char *path) {
    goblin_section_t sections[BATCH];
    uint64_t text = 0, data = 0, bss = 0, filled = 0;
    uint32_t status = goblin_file(bytes, len, &file, &why);
    for (uint64_t first = 0; status == GOBLIN_OK; first += filled) {
        status = goblin_sections(&file, first, sections, BATCH, &filled, &why);
        for (uint64_t i = 0; status == GOBLIN_OK && i < filled; i++) {
            const goblin_section_t *section = &sections[i];
            if (section->sh_type == GOBLIN_SHT_NULL || !(section->sh_flags & GOBLIN_SHF_ALLOC)) continue;
            bool is_text = (section->sh_flags & GOBLIN_SHF_EXECINSTR) || !(section->sh_flags & GOBLIN_SHF_WRITE);
            *(is_text ? &text : section->sh_type == GOBLIN_SHT_NOBITS ? &bss : &data) += section->file.size;
        }
    }
    if (status != GOBLIN_END) return fprintf(stderr, "size: %s: %s\n", path, refusal_text()), 1;
    printf("%7" PRIu64 "\t%7" PRIu64 "\t%7" PRIu64 "\t%7" PRIu64 "\t%7" PRIx64 "\t%s\n", text, data, bss,
           text + data + bss, text + data + bss, path);
    return 0;
}

int main(int argc, char **argv) {
    int failed = 0;
    if (argc < 2) return fputs("usage: size FILE..\n", stderr), 2;
    puts("   text\t   data\t    bss\t    dec\t    hex\tfilename");
    for (int i = 1; i < argc; i++) {
        failed |= load(argv[i]) ? add_up(argv[i]) : (perror(argv[i]), 1);
        free(bytes);
    }
    return written(failed);
}
