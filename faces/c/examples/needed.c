/* Lists what an ELF file needs of the dynamic linker, its soname and its search paths: needed FILE */
#include "goblin.h"
#include "example.h"

/* Prints a string, which need not be UTF-8, after its name, or says that it has no end, which a loader needs. */
static uint32_t print(const char *name, const goblin_range_t *strings, uint64_t offset) {
    goblin_range_t string;
    uint32_t status = goblin_string_closed(&file, strings, offset, &string, &why);
    if (status == GOBLIN_OK) printf("%s %s\n", name, (const char *)bytes + string.offset);
    if (status == GOBLIN_END) printf("%s: no zero byte closes a string at offset %" PRIu64 "\n", name, offset);
    return status;
}

int main(int argc, char **argv) {
    if (argc != 2) return fputs("usage: needed FILE\n", stderr), 2;
    if (!load(argv[1])) return perror(argv[1]), 2;
    goblin_segment_t interpreter;
    goblin_range_t dynamic = {0, 0}, all = {0, 0}, strings = {0, 0}; /* (they stay empty if there are none) */
    goblin_dyn_t entry;
    uint64_t filled, i;
    uint32_t status = find_segment(GOBLIN_PT_INTERP, &i, &interpreter);
    if (status == GOBLIN_OK && interpreter.file.size > 0) status = print("interpreter", &interpreter.file, 0);
    if (status <= GOBLIN_END) status = goblin_dynamic(&file, &dynamic, &why);
    if (status <= GOBLIN_END) status = goblin_dynamic_strings(&file, &dynamic, &all, &why);
    /* (of strings that no zero byte closes each would be read up to the end) */
    if (status <= GOBLIN_END) status = goblin_closed_strings(&file, &all, &strings, &why);
    for (i = 0; status <= GOBLIN_END; i++) {
        status = goblin_dynamic_entries(&file, &dynamic, i, &entry, 1, &filled, &why);
        if (status != GOBLIN_OK) break;
        const char *name = entry.d_tag == GOBLIN_DT_NEEDED ? "needed" : entry.d_tag == GOBLIN_DT_SONAME ? "soname"
            : entry.d_tag == GOBLIN_DT_RPATH ? "rpath" : entry.d_tag == GOBLIN_DT_RUNPATH ? "runpath" : NULL;
        if (name) status = print(name, &strings, entry.d_val);
    }
    return written(status <= GOBLIN_END ? 0 : print_refusal("needed"));
}
