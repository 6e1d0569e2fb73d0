/* Shows or changes whether the stack of a program may be executed: execstack [-c | -s] FILE
   This is the flag GOBLIN_PF_X of the program header of type GOBLIN_PT_GNU_STACK. -c clears it in the file, and -s sets
   it. Prints X if it is set, - if it is not, and ? if there is no such program file.header. Then -c and -s fail. */
#include "goblin.h"
#include "example.h"

static bool store(const char *path) {
    FILE *stream = fopen(path, "r+b");
    if (!stream) return false;
    bool is_written = fwrite(bytes, 1, len, stream) == len;
    return fclose(stream) == 0 && is_written;
}

int main(int argc, char **argv) {
    bool clears = argc == 3 && strcmp(argv[1], "-c") == 0, sets = argc == 3 && strcmp(argv[1], "-s") == 0;
    if (argc != 2 + (clears || sets)) return fputs("usage: execstack [-c | -s] FILE\n", stderr), 2;
    const char *path = argv[argc - 1];
    if (!load(path)) return perror(path), 2;
    goblin_segment_t stack;
    uint64_t index;
    uint32_t status = find_segment(GOBLIN_PT_GNU_STACK, &index, &stack);
    if (status > GOBLIN_END) return fprintf(stderr, "execstack: %s: %s\n", path, refusal_text()), 1;
    if (status == GOBLIN_END && !(clears || sets)) return printf("? %s\n", path), written(0);
    if (status == GOBLIN_END)
        return fprintf(stderr, "execstack: %s: there is no program header of type PT_GNU_STACK\n", path), 1;
    uint32_t flags = clears ? stack.p_flags & ~GOBLIN_PF_X : sets ? stack.p_flags | GOBLIN_PF_X : stack.p_flags;
    if (flags != stack.p_flags) {
        stack.p_flags = flags;
        if (goblin_put_segment(bytes, len, &file.header, index, &stack, &why) != GOBLIN_OK)
            return fprintf(stderr, "execstack: %s: %s\n", path, refusal_text()), 1;
        if (!store(path)) return perror(path), 2;
    }
    printf("%c %s\n", flags & GOBLIN_PF_X ? 'X' : '-', path);
    return written(0);
}
