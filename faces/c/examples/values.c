/* Lists the value and the name of each symbol of an ELF file: values FILE */
#include "goblin.h"
#include <errno.h>
#include <inttypes.h>
#include <stdio.h>
#include <stdlib.h>

static uint8_t *bytes;
static size_t len;
static goblin_file_t file;
static goblin_refusal_t why;
static goblin_section_t none; /* (for symbols without names) */

static int refused(void) {
    char text[160];
    goblin_refusal_to_str(&why, text, sizeof text);
    fprintf(stderr, "values: %s\n", text);
    return 1;
}

static int list(void) {
    goblin_section_t table;
    goblin_symbol_t symbol;
    uint32_t status;
    if (goblin_file(bytes, len, &file, &why) != GOBLIN_OK) return refused();
    for (uint64_t i = 0; (status = goblin_section(&file, i, &table, &why)) == GOBLIN_OK; i++) {
        if (table.sh_type != GOBLIN_SHT_SYMTAB && table.sh_type != GOBLIN_SHT_DYNSYM) continue;
        goblin_section_t strings = none;
        if (goblin_linked_section(&file, table.sh_link, &strings, &why) > GOBLIN_END) return refused();
        for (uint64_t k = 0; (status = goblin_symbol(&file, &table.file, k, &symbol, &why)) == GOBLIN_OK; k++) {
            goblin_range_t name = {0, 0};
            if (goblin_string_utf8(&file, &strings.file, symbol.st_name, &name, &why) > GOBLIN_END) return refused();
            printf("%" PRIx64 " ", symbol.st_value),
                fwrite(bytes + name.offset, 1, (size_t)name.size, stdout), puts("");
        }
        if (status != GOBLIN_END) return refused();
    }
    return status == GOBLIN_END ? 0 : refused();
}

/* Reads a file into memory of malloc. Returns whether all of it is read. */
static bool load(const char *path) {
    FILE *stream = fopen(path, "rb");
    bytes = NULL, len = 0;
    for (size_t room = 1 << 16; stream; room *= 2) {
        uint8_t *more = (uint8_t *)realloc(bytes, room);
        if (!more) break;
        len += fread((bytes = more) + len, 1, room - len, stream);
        if (len == room) continue;
        int reason = ferror(stream) ? errno : 0; /* (a folder can be opened, and not read) */
        return fclose(stream) == 0 && (errno = reason) == 0;
    }
    if (stream) fclose(stream), errno = ENOMEM;
    return false;
}

int main(int argc, char **argv) {
    if (argc != 2) return fputs("usage: values FILE\n", stderr), 2;
    if (!load(argv[1])) return perror(argv[1]), 2;
    int status = list();
    return fflush(stdout) == 0 && !ferror(stdout) ? status : (perror("stdout"), 2);
}
