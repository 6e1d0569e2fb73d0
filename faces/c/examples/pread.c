/* Shows the parts of memory and the notes of a core file: pread FILE
   It reads the first bytes, the program headers and the notes, each into memory of its own, and none of the rest, since
   a core file may be larger than memory. */
#define _XOPEN_SOURCE 700
#include "goblin.h"
#include "example.h"
#include <fcntl.h>
#include <unistd.h>

/* Before the program headers: the size of a header and of section header 0, of which there may be one. */
enum { BEFORE = 128, AT = 64 };

static int source;

/* Reads a range of the file into memory of malloc, after some zero bytes. Returns its bytes, or NULL. */
static uint8_t *read_range(goblin_range_t range, size_t before) {
    off_t end = lseek(source, 0, SEEK_END);
    if (end < 0 || range.offset > (uint64_t)end || range.size > (uint64_t)end - range.offset) return NULL;
    uint8_t *read_bytes = (uint8_t *)calloc(1, before + (size_t)range.size + 1);
    for (uint64_t done = 0; read_bytes && done < range.size;) {
        ssize_t count = pread(source, read_bytes + before + done, (size_t)(range.size - done),
                              (off_t)(range.offset + done));
        if (count <= 0) return free(read_bytes), (uint8_t *)NULL;
        done += (uint64_t)count;
    }
    return read_bytes;
}

/* Reads section header 0. */
static bool read_first_section(goblin_section_t *first) {
    goblin_range_t range = {file.header.e_shoff, GOBLIN_SIZEOF_SHDR(&file.header)};
    goblin_file_t part = file;
    uint8_t *own = read_range(range, AT);
    part.bytes = own, part.len = AT + (size_t)range.size, part.header.e_shoff = AT, part.header.e_shnum = 1;
    bool is_read = own && goblin_section(&part, 0, first, &why) == GOBLIN_OK;
    return free(own), is_read;
}

/* Makes a file of the program headers. If section header 0 has their number, it is before them. */
static bool read_segments(goblin_file_t *part) {
    bool has_first = file.header.e_phnum == GOBLIN_PN_XNUM && file.header.e_shoff > 0;
    goblin_section_t first;
    if (has_first && !read_first_section(&first)) return false;
    uint64_t count = has_first ? first.sh_info : file.header.e_phnum;
    goblin_range_t range = {file.header.e_phoff, count * GOBLIN_SIZEOF_PHDR(&file.header)};
    uint8_t *own = read_range(range, BEFORE);
    if (!own) return false;
    *part = file, part->bytes = own, part->len = BEFORE + (size_t)range.size, part->header.e_phoff = BEFORE;
    part->header.e_shoff = has_first ? AT : 0, part->header.e_shnum = 1;
    return !has_first || goblin_put_section(own, part->len, &part->header, 0, &first, &why) == GOBLIN_OK;
}

/* Prints the notes of a range: the owner, the size of the descriptor, and the type. */
static int print_notes(goblin_range_t range, uint64_t alignment) {
    goblin_range_t notes = {0, range.size};
    goblin_note_t note;
    uint8_t *read_bytes = read_range(range, 0);
    goblin_file_t part = {read_bytes, (size_t)range.size, file.header};
    uint32_t status = GOBLIN_OK;
    if (!read_bytes) return fputs("pread: the notes can't be read\n", stderr), 1;
    for (note.next = 0; !(status = goblin_note(&part, &notes, alignment, note.next, &note, &why));) {
        char type[64];
        goblin_note_type_to_str(read_bytes + note.name.offset, (size_t)note.name.size, note.n_type, type, sizeof type);
        fwrite(read_bytes + note.name.offset, 1, (size_t)note.name.size, stdout);
        printf(" 0x%08" PRIx64 " %s\n", note.desc.size, type);
    }
    free(read_bytes);
    return status == GOBLIN_END ? 0 : print_refusal("pread: a note");
}

int main(int argc, char **argv) {
    if (argc != 2) return fputs("usage: pread FILE\n", stderr), 2;
    uint8_t first[64];
    source = open(argv[1], O_RDONLY);
    ssize_t size = source < 0 ? -1 : pread(source, first, sizeof first, 0);
    if (size < 0) return perror(argv[1]), 2;
    if (goblin_file(first, (size_t)size, &file, &why)) return print_refusal("pread");
    goblin_file_t part;
    if (!read_segments(&part)) return fputs("pread: the program headers can't be read\n", stderr), 1;
    goblin_segment_t segment;
    int wrong = 0;
    for (uint64_t i = 0; goblin_segment(&part, i, &segment, &why) == GOBLIN_OK; i++) {
        if (segment.p_type == GOBLIN_PT_LOAD)
            printf("0x%016" PRIx64 " 0x%" PRIx64 " of 0x%" PRIx64 "\n", segment.p_vaddr, segment.file.size,
                   segment.p_memsz);
        else if (segment.p_type == GOBLIN_PT_NOTE) wrong |= print_notes(segment.file, segment.p_align);
    }
    free((void *)(uintptr_t)part.bytes);
    close(source);
    return written(wrong);
}
