/* Shows what is left of a file that ends in its last section header: truncated FILE
   It reads the file, and then only as many bytes of it. Then one section header is not inside the file, so all of them
   are refused. The file that goblin_whole_header makes counts only the others. */
#include "goblin.h"
#include "example.h"

/* Prints the type of a section, and how many of its bytes are left in a file. */
static void show(const goblin_file_t *cut, uint64_t index, const goblin_section_t *section) {
    char type[64];
    goblin_range_t left;
    bool has_bytes = goblin_section_range(cut, section, &left, &why) != GOBLIN_END;
    goblin_sht_to_str(section->sh_type, type, sizeof type);
    goblin_range_in_file(cut, &section->file, &left);
    printf("%" PRIu64 " %s: ", index, type);
    if (has_bytes) printf("%" PRIu64 " of %" PRIu64 " bytes\n", left.size, section->file.size);
    else puts("no bytes");
}

int main(int argc, char **argv) {
    if (argc != 2) return fputs("usage: truncated FILE\n", stderr), 2;
    if (!load(argv[1])) return perror(argv[1]), 2;
    goblin_file_t cut, whole;
    goblin_section_t section;
    uint64_t count = 0, left = 0;
    if (goblin_file(bytes, len, &file, &why) || goblin_section_count(&file, &count, &why))
        return print_refusal("truncated");
    if (count == 0) return puts("no section headers"), written(0);
    uint64_t size = GOBLIN_SIZEOF_SHDR(&file.header);
    cut = file, cut.len = (size_t)(file.header.e_shoff + count * size - size / 2);
    if (goblin_section_count(&cut, &left, &why)) printf("all headers: %s\n", refusal_text());
    goblin_whole_header(&cut, &whole);
    if (goblin_section_count(&whole, &left, &why)) return print_refusal("truncated");
    printf("%" PRIu64 " of %" PRIu64 " headers are whole\n", left, count);
    for (uint64_t i = 0; goblin_section(&whole, i, &section, &why) == GOBLIN_OK; i++) show(&whole, i, &section);
    return written(0);
}
