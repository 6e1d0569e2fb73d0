/* What the examples share: the file that is read, why a call refused it, and how that is printed. */
#include "goblin.h"
#include <errno.h>
#include <inttypes.h>
#include <stdio.h>
#include <stdlib.h>
#include <string.h>

static uint8_t *bytes;
static size_t len;
static goblin_file_t file;
static goblin_refusal_t why;

/* Reads a file into memory of malloc. Returns whether all of it is read. */
static inline bool load(const char *path) {
    FILE *stream = fopen(path, "rb");
    bytes = NULL, len = 0;
    for (size_t room = 1 << 16; stream; room *= 2) {
        uint8_t *more = (uint8_t *)realloc(bytes, room);
        if (!more) break;
        len += fread((bytes = more) + len, 1, room - len, stream);
        if (len == room) continue;
        int reason = ferror(stream) ? errno : 0; /* (a folder can be opened, and not read) */
        return fclose(stream) == 0 && (errno = reason) == 0;
    }
    if (stream) fclose(stream), errno = ENOMEM;
    return false;
}

/* Reads the header of the file, and finds the first program header of a type, and its index. */
static inline uint32_t find_segment(uint32_t p_type, uint64_t *index, goblin_segment_t *segment) {
    uint32_t status = goblin_file(bytes, len, &file, &why);
    for (*index = 0; status == GOBLIN_OK; ++*index) {
        status = goblin_segment(&file, *index, segment, &why);
        if (status != GOBLIN_OK || segment->p_type == p_type) break;
    }
    return status;
}

/* Returns the text of the last refusal, up to the next call. */
static inline const char *refusal_text(void) {
    static char text[160];
    goblin_refusal_to_str(&why, text, sizeof text);
    return text;
}

/* Prints the last refusal after what is refused, and returns the exit status. */
static inline int print_refusal(const char *what) {
    return fprintf(stderr, "%s: %s\n", what, refusal_text()), 1;
}

/* Returns the exit status, or 2 if the output can't be written. */
static inline int written(int status) {
    return fflush(stdout) == 0 && !ferror(stdout) ? status : (perror("stdout"), 2);
}
