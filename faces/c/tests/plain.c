/* The calls of goblin.h in plain C, written from its comments alone and not proved: checks/faces/c.sh compares what
   damaged.c finds with it and with the library. Those for the library itself are left out, and names of numbers. It
   needs no C library. */
#include "goblin.h"

enum { NOTE_SIZE = 12 };

/* ---- bytes ---- */

static uint64_t get(const uint8_t *at, unsigned width, bool is_big) {
    uint64_t value = 0;
    for (unsigned i = 0; i < width; i++) value = value << 8 | at[is_big ? i : width - 1 - i];
    return value;
}

static void put(uint8_t *at, unsigned width, bool is_big, uint64_t value) {
    for (unsigned i = 0; i < width; i++) at[is_big ? width - 1 - i : i] = (uint8_t)(value >> (8 * i));
}

static bool is_64(const goblin_header_t *h) { return h->ei_class == GOBLIN_ELFCLASS64; }
static bool is_big(const goblin_header_t *h) { return h->ei_data == GOBLIN_ELFDATA2MSB; }

static uint32_t refuse_item(goblin_refusal_t *why, uint32_t kind, uint32_t item, uint64_t first, uint64_t offset) {
    goblin_refusal_t refusal = {kind, item, first, 0, 0, 0, offset};
    return *why = refusal, kind;
}
static uint32_t refuse(goblin_refusal_t *why, uint32_t kind, uint64_t first, uint64_t second, uint64_t offset) {
    return refuse_item(why, kind, 0, first, offset), why->second = second, kind;
}

/* Tests whether some bytes at an offset are inside the first `end` ones. `from` is where the refused thing begins. */
static uint32_t inside(uint64_t end, uint64_t offset, uint64_t size, uint64_t from, goblin_refusal_t *why) {
    if (offset > end || (offset == end && size > 0)) return refuse(why, GOBLIN_REFUSED_BAD_OFFSET, offset, 0, from);
    return size > end - offset ? refuse(why, GOBLIN_REFUSED_TOO_BIG, size, end - offset, from) : (uint32_t)GOBLIN_OK;
}

/* A record is read or written field by field: `at` is the next field, and a writer has `out` there. `done` bytes lie
   before it. The first number that doesn't fit is noted, where its field is, and the item of its refusal. */
typedef struct {
    const uint8_t *at;
    uint8_t *out;
    bool is_big, is_64, fits;
    uint32_t what;
    uint64_t done, misfit, misfit_at;
} cursor_t;

static cursor_t cursor(const uint8_t *at, const goblin_header_t *h) {
    cursor_t cursor = {at, NULL, is_big(h), is_64(h), true, 0, 0, 0, 0};
    return cursor;
}

static void note(cursor_t *c, bool fits, uint64_t value) {
    if (c->fits && !fits) c->fits = false, c->misfit = value, c->misfit_at = c->done;
}

/* Returns a field's value: the one in the bytes, or, if a record is written, the given one. Without `out` it is
   only tested. */
static uint64_t field(cursor_t *c, unsigned width, uint64_t value) {
    if (c->at) {
        value = get(c->at, width, c->is_big);
        c->at += width;
    } else {
        note(c, width >= 8 || value >> (8 * width) == 0, value);
        if (c->out) put(c->out, width, c->is_big, value), c->out += width;
    }
    c->done += width;
    return value;
}
static uint64_t wide(cursor_t *c, uint64_t value) { return field(c, c->is_64 ? 8 : 4, value); }

/* The next field of a record, by its width. */
#define F1(x) ((x) = (uint8_t)field(c, 1, x))
#define F2(x) ((x) = (uint16_t)field(c, 2, x))
#define F4(x) ((x) = (uint32_t)field(c, 4, x))
#define WIDE(x) ((x) = wide(c, x))

static void each_of_header(cursor_t *c, goblin_header_t *h) {
    F2(h->e_type), F2(h->e_machine), F4(h->e_version), WIDE(h->e_entry), WIDE(h->e_phoff), WIDE(h->e_shoff);
    F4(h->e_flags), F2(h->e_ehsize), F2(h->e_phentsize), F2(h->e_phnum), F2(h->e_shentsize), F2(h->e_shnum);
    F2(h->e_shstrndx);
}

static void each_of_section(cursor_t *c, goblin_section_t *s) {
    F4(s->sh_name), F4(s->sh_type), WIDE(s->sh_flags), WIDE(s->sh_addr), WIDE(s->file.offset), WIDE(s->file.size);
    F4(s->sh_link), F4(s->sh_info), WIDE(s->sh_addralign), WIDE(s->sh_entsize);
}

static void each_of_segment(cursor_t *c, goblin_segment_t *p) {
    F4(p->p_type);
    if (c->is_64) F4(p->p_flags);
    WIDE(p->file.offset), WIDE(p->p_vaddr), WIDE(p->p_paddr), WIDE(p->file.size), WIDE(p->p_memsz);
    if (!c->is_64) F4(p->p_flags);
    WIDE(p->p_align);
}

static void each_of_symbol(cursor_t *c, goblin_symbol_t *s) {
    F4(s->st_name);
    if (!c->is_64) WIDE(s->st_value), WIDE(s->st_size);
    F1(s->st_info), F1(s->st_other), F2(s->st_shndx);
    if (c->is_64) WIDE(s->st_value), WIDE(s->st_size);
}

static void each_of_entry(cursor_t *c, goblin_dyn_t *d) { WIDE(d->d_tag), WIDE(d->d_val); }

static uint64_t reversed(uint64_t type) {
    return type >> 24 | (type >> 8 & 0xff00) | (type << 8 & 0xff0000) | (type << 24 & 0xff000000);
}

/* r_info of the 32-bit class has the type in its low byte, and that of the 64-bit class in its low half. In a
   little-endian MIPS64 file the symbol comes first, and then the bytes of the type in the other order. */
static void each_of_reloc(cursor_t *c, const goblin_header_t *h, bool is_rela, goblin_reloc_t *r) {
    bool is_pair = h->e_machine == GOBLIN_EM_MIPS && c->is_64 && !c->is_big;
    uint64_t sym = r->r_sym, info = !c->is_64 ? sym << 8 | r->r_type : is_pair ? reversed(r->r_type) << 32 | sym
        : sym << 32 | r->r_type;
    WIDE(r->r_offset);
    if (!c->at) note(c, c->is_64 || !(sym >> 24), sym);
    if (!c->at) note(c, c->is_64 || !(r->r_type >> 8), r->r_type);
    info = c->is_64 ? field(c, 8, info) : field(c, 4, info & 0xffffffff);
    r->r_sym = (uint32_t)(!c->is_64 ? info >> 8 : is_pair ? info & 0xffffffff : info >> 32);
    r->r_type = (uint32_t)(!c->is_64 ? info & 0xff : is_pair ? reversed(info >> 32) : info & 0xffffffff);
    if (c->at) r->r_addend = 0;
    bool is_small = r->r_addend >= INT32_MIN && r->r_addend <= INT32_MAX, fitted = c->fits;
    if (!c->at) note(c, is_rela ? c->is_64 || is_small : r->r_addend == 0, (uint64_t)r->r_addend);
    if (fitted && !c->fits && !is_rela) c->what = GOBLIN_ITEM_ADDEND;
    if (!is_rela) return;
    uint64_t addend = c->is_64 ? wide(c, (uint64_t)r->r_addend) : wide(c, (uint64_t)r->r_addend & 0xffffffff);
    r->r_addend = c->is_64 ? (int64_t)addend : (int32_t)addend;
}

/* The body of a call that writes a record: `read` is the status of the call that reads it, `each` one of the functions
   above over the cursor `c` and the copy `own` of the caller's record. */
#define PUT(type, record, place, read, each) \
    { \
        goblin_file_t file = {bytes, len, *h}; \
        type unread, own = *(record); \
        cursor_t c = cursor(NULL, h); \
        uint32_t status = ((void)file, (void)unread, read); \
        if (status) return status; \
        each; \
        if (!c.fits) return refuse_item(why, GOBLIN_REFUSED_INTEGER_FIT, c.what, c.misfit, (place) + c.misfit_at); \
        c.out = bytes + (place); \
        each; \
        return GOBLIN_OK; \
    }

/* The body of a call that fills an array by the call for one item. */
#define PLURAL(type, one, ...) \
    { \
        type unread; \
        uint64_t number = 0; \
        uint32_t status = one(__VA_ARGS__, first, &unread, why); \
        while (!status && number < capacity && !one(__VA_ARGS__, first + number, items + number, why)) number++; \
        if (!status) *filled = number; \
        return status; \
    }

/* ---- the header ---- */

uint32_t goblin_file(const uint8_t *bytes, size_t len, goblin_file_t *file, goblin_refusal_t *why) {
    goblin_header_t h;
    if (len < 16) return refuse(why, GOBLIN_REFUSED_TOO_SMALL, 0, 0, 0);
    if (get(bytes, 4, true) != 0x7f454c46) return refuse(why, GOBLIN_REFUSED_BAD_MAGIC, get(bytes, 8, false), 0, 0);
    if (bytes[4] != 1 && bytes[4] != 2) return refuse(why, GOBLIN_REFUSED_ELF_CLASS, bytes[4], 0, 0);
    if (bytes[5] != 1 && bytes[5] != 2) return refuse(why, GOBLIN_REFUSED_DATA_TYPE, bytes[5], 0, 0);
    uint32_t status = inside(len, 0, bytes[4] == 2 ? GOBLIN_SIZEOF_EHDR64 : GOBLIN_SIZEOF_EHDR32, 0, why);
    if (status) return status;
    h.ei_class = bytes[4], h.ei_data = bytes[5], h.ei_version = bytes[6], h.ei_osabi = bytes[7],
        h.ei_abiversion = bytes[8];
    cursor_t c = cursor(bytes + 16, &h);
    each_of_header(&c, &h);
    file->bytes = bytes, file->len = len, file->header = h;
    return GOBLIN_OK;
}

uint32_t goblin_put_header(uint8_t *bytes, size_t len, const goblin_header_t *header, goblin_refusal_t *why) {
    goblin_header_t h = *header;
    if (h.ei_class != 1 && h.ei_class != 2) return refuse(why, GOBLIN_REFUSED_INVALID_CLASS, h.ei_class, 0, 0);
    if (h.ei_data != 1 && h.ei_data != 2) return refuse(why, GOBLIN_REFUSED_DATA, h.ei_data, 0, 0);
    uint32_t status = inside(len, 0, GOBLIN_SIZEOF(&h, EHDR), 0, why);
    if (status) return status;
    cursor_t c = cursor(NULL, &h);
    each_of_header(&c, &h);
    if (!c.fits) return refuse(why, GOBLIN_REFUSED_INTEGER_FIT, c.misfit, 0, 16 + c.misfit_at);
    c.out = bytes + 16;
    each_of_header(&c, &h);
    put(bytes, 4, true, 0x7f454c46);
    bytes[4] = h.ei_class, bytes[5] = h.ei_data, bytes[6] = h.ei_version, bytes[7] = h.ei_osabi,
        bytes[8] = h.ei_abiversion;
    return GOBLIN_OK;
}

/* ---- lists of headers ---- */

static uint64_t section_size(const goblin_header_t *h) { return GOBLIN_SIZEOF_SHDR(h); }
static uint64_t segment_size(const goblin_header_t *h) { return GOBLIN_SIZEOF_PHDR(h); }

static goblin_section_t section_at(const uint8_t *bytes, const goblin_header_t *h, uint64_t index) {
    goblin_section_t s;
    cursor_t c = cursor(bytes + h->e_shoff + index * section_size(h), h);
    each_of_section(&c, &s);
    return s;
}

/* Returns how many headers are inside the file. */
static uint64_t whole(size_t len, uint64_t start, uint64_t size) { return start > len ? 0 : (len - start) / size; }

/* Tests whether a number of headers is inside the file. */
static uint32_t list(size_t len, uint64_t start, uint64_t size, uint64_t number, uint32_t item, goblin_refusal_t *why) {
    uint64_t in_file = whole(len, start, size);
    if (number > len / size) return refuse_item(why, GOBLIN_REFUSED_BUFFER_TOO_SHORT, item, number, start);
    return number <= in_file ? (uint32_t)GOBLIN_OK : inside(len, start + in_file * size, size, start, why);
}

static uint32_t sections_stated(const uint8_t *bytes, size_t len, const goblin_header_t *h, uint64_t *number,
                                goblin_refusal_t *why) {
    *number = 0;
    if (h->e_shoff == 0) return GOBLIN_OK;
    uint32_t status = inside(len, h->e_shoff, section_size(h), h->e_shoff, why);
    if (status) return status;
    *number = h->e_shnum ? h->e_shnum : section_at(bytes, h, 0).file.size;
    if (*number == 0) *number = 1;
    return GOBLIN_OK;
}

static uint32_t segments_stated(const uint8_t *bytes, size_t len, const goblin_header_t *h, uint64_t *number,
                                goblin_refusal_t *why) {
    *number = h->e_phnum;
    if (h->e_phnum != 0xffff || h->e_shoff == 0) return GOBLIN_OK;
    uint32_t status = inside(len, h->e_shoff, section_size(h), h->e_shoff, why);
    if (!status) *number = section_at(bytes, h, 0).sh_info;
    return status;
}

void goblin_whole_header(const goblin_file_t *file, goblin_file_t *result) {
    goblin_refusal_t unread;
    const goblin_header_t *header = &file->header;
    uint64_t number, sections = whole(file->len, header->e_shoff, section_size(header)),
        segments = whole(file->len, header->e_phoff, segment_size(header));
    *result = *file;
    if (sections_stated(file->bytes, file->len, header, &number, &unread) || number > sections) {
        result->header.e_shnum = (uint16_t)(sections > 0xffff ? 0xffff : sections);
        if (sections == 0) result->header.e_shoff = 0;
    }
    bool is_stated = !segments_stated(file->bytes, file->len, header, &number, &unread);
    if (!is_stated || number > segments) {
        uint64_t counted = !is_stated && segments > 0xffff ? 0xffff : segments;
        result->header.e_phnum = (uint16_t)(counted > 0xfffe ? 0xfffe : counted);
    }
}

uint32_t goblin_section_count(const goblin_file_t *file, uint64_t *count, goblin_refusal_t *why) {
    uint64_t number;
    uint32_t status = sections_stated(file->bytes, file->len, &file->header, &number, why);
    if (!status && number) status = list(file->len, file->header.e_shoff, section_size(&file->header), number,
        GOBLIN_ITEM_SECTION_HEADERS, why);
    if (!status) *count = number;
    return status;
}

uint32_t goblin_section(const goblin_file_t *file, uint64_t index, goblin_section_t *section, goblin_refusal_t *why) {
    uint64_t count;
    uint32_t status = goblin_section_count(file, &count, why);
    if (status || index >= count) return status ? status : (uint32_t)GOBLIN_END;
    *section = section_at(file->bytes, &file->header, index);
    return GOBLIN_OK;
}

uint32_t goblin_put_section(uint8_t *bytes, size_t len, const goblin_header_t *h, uint64_t index,
                            const goblin_section_t *section, goblin_refusal_t *why)
    PUT(goblin_section_t, section, h->e_shoff + index * section_size(h), goblin_section(&file, index, &unread, why),
        each_of_section(&c, &own))

uint32_t goblin_sections(const goblin_file_t *file, uint64_t first, goblin_section_t *items, size_t capacity,
                         uint64_t *filled, goblin_refusal_t *why) PLURAL(goblin_section_t, goblin_section, file)

uint32_t goblin_linked_section(const goblin_file_t *file, uint64_t index, goblin_section_t *section,
                               goblin_refusal_t *why) {
    goblin_section_t s;
    uint32_t status = goblin_section(file, index, &s, why);
    if (status || index == 0 || s.sh_type == GOBLIN_SHT_NOBITS) return status ? status : (uint32_t)GOBLIN_END;
    *section = s;
    return GOBLIN_OK;
}

uint32_t goblin_names_section(const goblin_file_t *file, goblin_section_t *section, goblin_refusal_t *why) {
    goblin_section_t first;
    uint32_t status = goblin_section(file, 0, &first, why);
    return status ? status
        : goblin_linked_section(file, file->header.e_shstrndx == 0xffff ? first.sh_link : file->header.e_shstrndx,
            section, why);
}

/* ---- strings ---- */

static bool is_utf8(const uint8_t *at, uint64_t size) {
    for (uint64_t i = 0; i < size;) {
        unsigned lead = at[i++], more = lead < 0x80 ? 0 : lead < 0xc2 ? 9 : lead < 0xe0 ? 1 : lead < 0xf0 ? 2
            : lead < 0xf5 ? 3 : 9;
        unsigned least = lead == 0xe0 ? 0xa0 : lead == 0xf0 ? 0x90 : 0x80,
            most = lead == 0xed ? 0x9f : lead == 0xf4 ? 0x8f : 0xbf;
        for (; more > 0; more--, i++, least = 0x80, most = 0xbf)
            if (more > 3 || i >= size || at[i] < least || at[i] > most) return false;
    }
    return true;
}

static uint32_t strings_inside(size_t len, const goblin_range_t *strings, goblin_refusal_t *why) {
    if (strings->offset > len) return refuse(why, GOBLIN_REFUSED_STRTAB_OFFSET, strings->offset, len, strings->offset);
    if (strings->size <= len - strings->offset) return GOBLIN_OK;
    refuse(why, GOBLIN_REFUSED_STRTAB_RANGE, strings->size, strings->offset, strings->offset);
    why->third = len, why->fourth = strings->size > UINT64_MAX - strings->offset;
    return GOBLIN_REFUSED_STRTAB_RANGE;
}

uint32_t goblin_string(const goblin_file_t *file, const goblin_range_t *strings, uint64_t offset,
                       goblin_range_t *string, goblin_refusal_t *why) {
    uint64_t end = offset;
    uint32_t status = strings_inside(file->len, strings, why);
    if (status || offset >= strings->size) return status ? status : (uint32_t)GOBLIN_END;
    while (end < strings->size && file->bytes[strings->offset + end]) end++;
    string->offset = strings->offset + offset, string->size = end - offset;
    return GOBLIN_OK;
}

uint32_t goblin_string_utf8(const goblin_file_t *file, const goblin_range_t *strings, uint64_t offset,
                            goblin_range_t *string, goblin_refusal_t *why) {
    goblin_range_t found;
    uint32_t status = goblin_string(file, strings, offset, &found, why);
    if (status) return status;
    if (!is_utf8(file->bytes + found.offset, found.size))
        return refuse_item(why, GOBLIN_REFUSED_BAD_INPUT, GOBLIN_ITEM_INVALID_UTF8, strings->size - offset,
                           found.offset);
    *string = found;
    return GOBLIN_OK;
}

uint32_t goblin_strings(const goblin_file_t *file, const goblin_range_t *strings, const uint64_t *offsets,
                        size_t offsets_len, goblin_range_t *ranges, size_t capacity, uint64_t *filled,
                        goblin_refusal_t *why) {
    uint32_t status = GOBLIN_OK;
    for (*filled = 0; *filled < offsets_len && *filled < capacity; ++*filled) {
        status = goblin_string(file, strings, offsets[*filled], &ranges[*filled], why);
        if (status) break;
    }
    return status;
}

uint32_t goblin_string_closed(const goblin_file_t *file, const goblin_range_t *strings, uint64_t offset,
                              goblin_range_t *string, goblin_refusal_t *why) {
    goblin_range_t found;
    uint32_t status = goblin_string(file, strings, offset, &found, why);
    if (!status && found.size == strings->size - offset) status = GOBLIN_END;
    if (!status) *string = found;
    return status;
}

uint32_t goblin_closed_strings(const goblin_file_t *file, const goblin_range_t *strings, goblin_range_t *closed,
                               goblin_refusal_t *why) {
    goblin_range_t found = *strings;
    uint32_t status = strings_inside(file->len, strings, why);
    if (status) return status;
    while (found.size > 0 && file->bytes[found.offset + found.size - 1]) found.size--;
    *closed = found;
    return GOBLIN_OK;
}

bool goblin_string_starts(const goblin_file_t *file, const goblin_range_t *strings, uint64_t offset, const void *start,
                          size_t start_len) {
    goblin_range_t found;
    goblin_refusal_t unread;
    if (goblin_string(file, strings, offset, &found, &unread) || found.size < start_len) return false;
    for (size_t i = 0; i < start_len; i++)
        if (file->bytes[found.offset + i] != ((const uint8_t *)start)[i]) return false;
    return true;
}

bool goblin_string_is(const goblin_file_t *file, const goblin_range_t *strings, uint64_t offset, const void *name,
                      size_t name_len) {
    goblin_range_t found;
    goblin_refusal_t unread;
    return goblin_string_starts(file, strings, offset, name, name_len)
        && !goblin_string(file, strings, offset, &found, &unread) && found.size == name_len;
}

uint32_t goblin_section_by_name(const goblin_file_t *file, const goblin_range_t *names, const void *name,
                                size_t name_len, uint64_t first, uint64_t *index, goblin_section_t *section,
                                goblin_refusal_t *why) {
    uint64_t count;
    uint32_t status = goblin_section_count(file, &count, why);
    if (!status) status = strings_inside(file->len, names, why);
    for (uint64_t i = first; !status && i < count; i++) {
        goblin_section_t s = section_at(file->bytes, &file->header, i);
        if (goblin_string_is(file, names, s.sh_name, name, name_len)) return *index = i, *section = s, GOBLIN_OK;
    }
    return status ? status : (uint32_t)GOBLIN_END;
}

uint32_t goblin_section_by_type(const goblin_file_t *file, uint32_t sh_type, uint64_t first, uint64_t *index,
                                goblin_section_t *section, goblin_refusal_t *why) {
    uint64_t count;
    uint32_t status = goblin_section_count(file, &count, why);
    for (uint64_t i = first; !status && i < count; i++) {
        goblin_section_t s = section_at(file->bytes, &file->header, i);
        if (s.sh_type == sh_type) return *index = i, *section = s, GOBLIN_OK;
    }
    return status ? status : (uint32_t)GOBLIN_END;
}

static uint32_t bytes_of(size_t len, bool has_bytes, const goblin_range_t *file, goblin_range_t *range,
                         goblin_refusal_t *why) {
    if (!has_bytes || file->size == 0) return GOBLIN_END;
    uint32_t status = inside(len, file->offset, file->size, file->offset, why);
    if (!status) *range = *file;
    return status;
}

uint32_t goblin_section_range(const goblin_file_t *file, const goblin_section_t *s, goblin_range_t *range,
                              goblin_refusal_t *why) {
    return bytes_of(file->len, s->sh_type != GOBLIN_SHT_NULL && s->sh_type != GOBLIN_SHT_NOBITS, &s->file, range, why);
}

uint32_t goblin_segment_range(const goblin_file_t *file, const goblin_segment_t *p, goblin_range_t *range,
                              goblin_refusal_t *why) {
    return bytes_of(file->len, p->p_type != GOBLIN_PT_NULL, &p->file, range, why);
}

/* ---- segments ---- */

uint32_t goblin_segment_count(const goblin_file_t *file, uint64_t *count, goblin_refusal_t *why) {
    uint64_t number;
    uint32_t status = segments_stated(file->bytes, file->len, &file->header, &number, why);
    if (!status && number) status = list(file->len, file->header.e_phoff, segment_size(&file->header), number,
        GOBLIN_ITEM_PROGRAM_HEADERS, why);
    if (!status) *count = number;
    return status;
}

uint32_t goblin_segment(const goblin_file_t *file, uint64_t index, goblin_segment_t *segment, goblin_refusal_t *why) {
    uint64_t count;
    uint32_t status = goblin_segment_count(file, &count, why);
    if (status || index >= count) return status ? status : (uint32_t)GOBLIN_END;
    cursor_t c = cursor(file->bytes + file->header.e_phoff + index * segment_size(&file->header), &file->header);
    each_of_segment(&c, segment);
    return GOBLIN_OK;
}

uint32_t goblin_segments(const goblin_file_t *file, uint64_t first, goblin_segment_t *items, size_t capacity,
                         uint64_t *filled, goblin_refusal_t *why) PLURAL(goblin_segment_t, goblin_segment, file)

uint32_t goblin_put_segment(uint8_t *bytes, size_t len, const goblin_header_t *h, uint64_t index,
                            const goblin_segment_t *segment, goblin_refusal_t *why)
    PUT(goblin_segment_t, segment, h->e_phoff + index * segment_size(h), goblin_segment(&file, index, &unread, why),
        each_of_segment(&c, &own))

/* Finds the offset of the byte that is loaded at an address, in the file or not. */
static uint32_t loaded(const goblin_file_t *file, uint64_t address, uint64_t *offset, goblin_refusal_t *why) {
    goblin_segment_t p;
    uint32_t status;
    for (uint64_t i = 0; (status = goblin_segment(file, i, &p, why)) == GOBLIN_OK; i++) {
        if (p.p_type != GOBLIN_PT_LOAD || p.p_vaddr > address || address - p.p_vaddr >= p.file.size) continue;
        uint64_t past = address - p.p_vaddr;
        *offset = past > UINT64_MAX - p.file.offset ? UINT64_MAX : p.file.offset + past;
        break;
    }
    return status;
}

uint32_t goblin_address_to_offset(const goblin_file_t *file, uint64_t address, uint64_t *offset,
                                  goblin_refusal_t *why) {
    uint64_t found;
    uint32_t status = loaded(file, address, &found, why);
    if (!status) status = inside(file->len, found, 1, found, why);
    if (!status) *offset = found;
    return status;
}

/* ---- symbols ---- */

static uint64_t symbol_size(const goblin_header_t *h) { return GOBLIN_SIZEOF_SYM(h); }

uint32_t goblin_symbol_count(const goblin_file_t *file, const goblin_range_t *table, uint64_t *count,
                             goblin_refusal_t *why) {
    uint64_t number = table->size / symbol_size(&file->header), size = number * symbol_size(&file->header);
    if (table->offset >= file->len) return refuse(why, GOBLIN_REFUSED_SYMTAB_OFFSET, table->offset, file->len,
        table->offset);
    if (size > file->len - table->offset) return refuse(why, GOBLIN_REFUSED_SYMTAB_PAST, size,
        file->len - table->offset, table->offset);
    *count = number;
    return GOBLIN_OK;
}

uint32_t goblin_symbol(const goblin_file_t *file, const goblin_range_t *table, uint64_t index, goblin_symbol_t *symbol,
                       goblin_refusal_t *why) {
    uint64_t count;
    uint32_t status = goblin_symbol_count(file, table, &count, why);
    if (status || index >= count) return status ? status : (uint32_t)GOBLIN_END;
    cursor_t c = cursor(file->bytes + table->offset + index * symbol_size(&file->header), &file->header);
    each_of_symbol(&c, symbol);
    return GOBLIN_OK;
}

uint32_t goblin_put_symbol(uint8_t *bytes, size_t len, const goblin_header_t *h, const goblin_range_t *table,
                           uint64_t index, const goblin_symbol_t *symbol, goblin_refusal_t *why)
    PUT(goblin_symbol_t, symbol, table->offset + index * symbol_size(h),
        goblin_symbol(&file, table, index, &unread, why), each_of_symbol(&c, &own))

uint32_t goblin_symbols(const goblin_file_t *file, const goblin_range_t *table, uint64_t first, goblin_symbol_t *items,
                        size_t capacity, uint64_t *filled, goblin_refusal_t *why)
    PLURAL(goblin_symbol_t, goblin_symbol, file, table)

uint32_t goblin_symbol_by_name(const goblin_file_t *file, const goblin_range_t *table, const goblin_range_t *names,
                               const void *name, size_t name_len, uint64_t first, uint64_t *index,
                               goblin_symbol_t *symbol, goblin_refusal_t *why) {
    uint64_t count;
    goblin_symbol_t s;
    uint32_t status = goblin_symbol_count(file, table, &count, why);
    if (!status) status = strings_inside(file->len, names, why);
    for (uint64_t i = first; !status && i < count; i++)
        if (goblin_symbol(file, table, i, &s, why) == GOBLIN_OK
            && goblin_string_is(file, names, s.st_name, name, name_len))
            return *index = i, *symbol = s, GOBLIN_OK;
    return status ? status : (uint32_t)GOBLIN_END;
}

/* Tests whether the section of a symbol holds an address. */
static bool is_held(const uint8_t *bytes, const goblin_header_t *h, uint64_t count, const goblin_symbol_t *s,
                    uint64_t address) {
    if (s->st_shndx >= 0xff00 || s->st_shndx >= count) return false;
    goblin_section_t section = section_at(bytes, h, s->st_shndx);
    if (h->e_type == GOBLIN_ET_REL) return address < section.file.size;
    return (section.sh_flags & GOBLIN_SHF_ALLOC) && section.sh_addr <= address
        && address - section.sh_addr < section.file.size;
}

uint32_t goblin_symbol_by_address(const goblin_file_t *file, const goblin_range_t *table, uint64_t address,
                                  uint64_t *index, goblin_refusal_t *why) {
    goblin_symbol_t s;
    uint64_t count, sections, best = 0, best_start = 0, label = 0, label_start = 0;
    bool has_best = false, has_label = false, has_start = false;
    uint32_t status = goblin_symbol_count(file, table, &count, why);
    if (!status) status = goblin_section_count(file, &sections, why);
    for (uint64_t i = 0; !status && i < count; i++) {
        if (goblin_symbol(file, table, i, &s, why)) break;
        unsigned type = s.st_info & 15;
        if (!(s.st_shndx >= 1 && s.st_shndx <= 0xfeff) && s.st_shndx != 0xffff) continue;
        if ((type > GOBLIN_STT_FUNC && type != GOBLIN_STT_GNU_IFUNC) || s.st_value > address) continue;
        if (address - s.st_value < s.st_size && (!has_best || s.st_value > best_start))
            has_best = true, best = i, best_start = s.st_value;
        if (!is_held(file->bytes, &file->header, sections, &s, address)) continue;
        if (!has_start || s.st_value > label_start) has_start = true, label_start = s.st_value, has_label = false;
        if (s.st_value == label_start && s.st_size == 0 && !has_label) has_label = true, label = i;
    }
    if (status || (!has_best && !has_label)) return status ? status : (uint32_t)GOBLIN_END;
    *index = has_best ? best : label;
    return GOBLIN_OK;
}

/* ---- relocations ---- */

static uint64_t reloc_size(const goblin_header_t *h, bool is_rela) {
    return is_rela ? GOBLIN_SIZEOF_RELA(h) : GOBLIN_SIZEOF_REL(h);
}

uint32_t goblin_reloc_count(const goblin_file_t *file, const goblin_range_t *table, bool is_rela, uint64_t *count,
                            goblin_refusal_t *why) {
    uint32_t status = table->size ? inside(file->len, table->offset, table->size, table->offset, why)
        : (uint32_t)GOBLIN_OK;
    if (!status) *count = table->size / reloc_size(&file->header, is_rela);
    return status;
}

uint32_t goblin_reloc(const goblin_file_t *file, const goblin_range_t *table, bool is_rela, uint64_t index,
                      goblin_reloc_t *reloc, goblin_refusal_t *why) {
    uint64_t count;
    goblin_reloc_t r = {0, 0, 0, 0};
    uint32_t status = goblin_reloc_count(file, table, is_rela, &count, why);
    if (status || index >= count) return status ? status : (uint32_t)GOBLIN_END;
    cursor_t c = cursor(file->bytes + table->offset + index * reloc_size(&file->header, is_rela), &file->header);
    each_of_reloc(&c, &file->header, is_rela, &r);
    *reloc = r;
    return GOBLIN_OK;
}

uint32_t goblin_put_reloc(uint8_t *bytes, size_t len, const goblin_header_t *h, const goblin_range_t *table,
                          bool is_rela, uint64_t index, const goblin_reloc_t *reloc, goblin_refusal_t *why)
    PUT(goblin_reloc_t, reloc, table->offset + index * reloc_size(h, is_rela),
        goblin_reloc(&file, table, is_rela, index, &unread, why), each_of_reloc(&c, h, is_rela, &own))

uint32_t goblin_relocs(const goblin_file_t *file, const goblin_range_t *table, bool is_rela, uint64_t first,
                       goblin_reloc_t *items, size_t capacity, uint64_t *filled, goblin_refusal_t *why)
    PLURAL(goblin_reloc_t, goblin_reloc, file, table, is_rela)

/* ---- notes ---- */

static bool is_past(const goblin_range_t *range, uint64_t offset) {
    return offset >= range->offset && offset - range->offset >= range->size;
}

static uint64_t aligned(uint64_t offset, uint64_t alignment) {
    return (offset + alignment - 1) / alignment * alignment;
}

/* Reads a note in the bytes from `offset` to `end`. Refusals have the part that is not there, if the note must be
   whole: else the last byte of its name may lie outside. */
static uint32_t read_note(const uint8_t *bytes, uint64_t end, const goblin_header_t *h, uint64_t alignment,
                          uint64_t offset, bool is_whole, bool is_text, goblin_note_t *note, goblin_refusal_t *why) {
    uint64_t left = end - offset;
    uint32_t status;
    if (alignment < 4) alignment = 4;
    if (alignment != 4 && alignment != 8) return refuse(why, GOBLIN_REFUSED_NOTE_ALIGN, alignment, 0, offset);
    if ((status = inside(left, 0, NOTE_SIZE, offset, why)))
        return why->item = is_whole ? GOBLIN_ITEM_NOTE_HEADER : 0, status;
    uint64_t name = get(bytes + offset, 4, is_big(h)), desc = get(bytes + offset + 4, 4, is_big(h));
    uint64_t at = aligned(NOTE_SIZE + name, alignment), name_size = name ? name - 1 : 0;
    if ((status = inside(left, NOTE_SIZE, is_whole ? name : name_size, offset, why)))
        return why->item = is_whole ? GOBLIN_ITEM_NOTE_NAME : 0, status;
    if (is_text && !is_utf8(bytes + offset + NOTE_SIZE, name_size))
        return refuse_item(why, GOBLIN_REFUSED_BAD_INPUT, GOBLIN_ITEM_INVALID_UTF8, left - NOTE_SIZE, offset);
    if ((status = inside(left, at, desc, offset, why))) return why->item = is_whole ? GOBLIN_ITEM_NOTE_DESC : 0, status;
    note->n_type = (uint32_t)get(bytes + offset + 8, 4, is_big(h));
    note->name.offset = offset + NOTE_SIZE, note->name.size = name_size;
    note->desc.offset = offset + at, note->desc.size = desc;
    note->next = offset + aligned(at + desc, alignment);
    return GOBLIN_OK;
}

static uint32_t any_note(const goblin_file_t *file, const goblin_range_t *notes, uint64_t alignment, uint64_t offset,
                         bool is_text, goblin_note_t *note, goblin_refusal_t *why) {
    if (is_past(notes, offset)) return GOBLIN_END;
    if (offset >= file->len) return refuse(why, GOBLIN_REFUSED_BAD_OFFSET, offset, 0, offset);
    return read_note(file->bytes, file->len, &file->header, alignment, offset, false, is_text, note, why);
}

uint32_t goblin_note(const goblin_file_t *file, const goblin_range_t *notes, uint64_t alignment, uint64_t offset,
                     goblin_note_t *note, goblin_refusal_t *why) {
    return any_note(file, notes, alignment, offset, false, note, why);
}

uint32_t goblin_note_utf8(const goblin_file_t *file, const goblin_range_t *notes, uint64_t alignment, uint64_t offset,
                          goblin_note_t *note, goblin_refusal_t *why) {
    return any_note(file, notes, alignment, offset, true, note, why);
}

uint32_t goblin_note_whole(const goblin_file_t *file, const goblin_range_t *notes, uint64_t alignment, uint64_t offset,
                           goblin_note_t *note, goblin_refusal_t *why) {
    uint64_t end = notes->size > UINT64_MAX - notes->offset || notes->offset + notes->size > file->len ? file->len
        : notes->offset + notes->size;
    if (is_past(notes, offset)) return GOBLIN_END;
    return read_note(file->bytes, end < offset ? offset : end, &file->header, alignment, offset, true, false, note,
                     why);
}

/* Reads the notes of a range up to a build ID, of which so many may be read. Returns whether the search ends here. */
static bool ends_search(const goblin_file_t *file, goblin_range_t notes, uint64_t alignment, uint64_t *left,
                        goblin_range_t *desc, uint32_t *status, goblin_refusal_t *why) {
    goblin_note_t n;
    for (n.next = notes.offset; *left > 0 && !is_past(&notes, n.next); *left -= 1) {
        if ((*status = goblin_note_whole(file, &notes, alignment, n.next, &n, why))) return true;
        if (n.n_type == 3 && n.name.size == 3 && get(file->bytes + n.name.offset, 4, true) == 0x474e5500)
            return *desc = n.desc, true;
    }
    return false;
}

uint32_t goblin_build_id(const goblin_file_t *file, goblin_range_t *desc, goblin_refusal_t *why) {
    uint64_t count, left = 65536;
    goblin_segment_t p;
    goblin_section_t s;
    uint32_t status = goblin_segment_count(file, &count, why);
    for (uint64_t i = 0; !status && i < count; i++)
        if (!goblin_segment(file, i, &p, why) && p.p_type == GOBLIN_PT_NOTE
            && ends_search(file, p.file, p.p_align, &left, desc, &status, why))
            return status;
    if (!status) status = goblin_section_count(file, &count, why);
    for (uint64_t i = 0; !status && i < count; i++)
        if (!goblin_section(file, i, &s, why) && s.sh_type == GOBLIN_SHT_NOTE
            && ends_search(file, s.file, s.sh_addralign, &left, desc, &status, why))
            return status;
    return status ? status : (uint32_t)GOBLIN_END;
}

/* ---- the dynamic section ---- */

/* Finds the first section of type GOBLIN_SHT_DYNAMIC in a file without segments, and sets `*is_by_sections`. */
static uint32_t by_sections(const goblin_file_t *file, bool *is_by_sections, goblin_section_t *section,
                            goblin_refusal_t *why) {
    uint64_t count, index;
    uint32_t status = goblin_segment_count(file, &count, why);
    *is_by_sections = !status && count == 0;
    return *is_by_sections ? goblin_section_by_type(file, GOBLIN_SHT_DYNAMIC, 0, &index, section, why) : status;
}

uint32_t goblin_dynamic(const goblin_file_t *file, goblin_range_t *dynamic, goblin_refusal_t *why) {
    goblin_segment_t p;
    goblin_section_t s;
    bool is_by_sections;
    uint32_t status = by_sections(file, &is_by_sections, &s, why);
    for (uint64_t i = 0; !is_by_sections && !status && !(status = goblin_segment(file, i, &p, why)); i++)
        if (p.p_type == GOBLIN_PT_DYNAMIC) break;
    if (status) return status;
    goblin_range_t found = is_by_sections ? s.file : p.file;
    status = inside(file->len, found.offset, found.size, found.offset, why);
    if (!status) *dynamic = found;
    return status;
}

/* Reads the entry at an index, and returns whether there is one that doesn't end the entries. */
static bool has_entry(const uint8_t *bytes, const goblin_header_t *h, const goblin_range_t *dynamic, uint64_t index,
                      goblin_dyn_t *entry) {
    uint64_t size = GOBLIN_SIZEOF_DYN(h);
    if (index >= dynamic->size / size) return false;
    cursor_t c = cursor(bytes + dynamic->offset + index * size, h);
    entry->d_tag = entry->d_val = 0;
    each_of_entry(&c, entry);
    return entry->d_tag != GOBLIN_DT_NULL;
}

uint32_t goblin_dynamic_entries(const goblin_file_t *file, const goblin_range_t *dynamic, uint64_t first,
                                goblin_dyn_t *entries, size_t capacity, uint64_t *filled, goblin_refusal_t *why) {
    goblin_dyn_t entry;
    uint64_t number = 0;
    uint32_t status = inside(file->len, dynamic->offset, dynamic->size, dynamic->offset, why);
    if (status) return status;
    if (!has_entry(file->bytes, &file->header, dynamic, first, &entry)) return GOBLIN_END;
    for (; number < capacity && has_entry(file->bytes, &file->header, dynamic, first + number, &entry); number++)
        entries[number] = entry;
    *filled = number;
    return GOBLIN_OK;
}

uint32_t goblin_dynamic_count(const goblin_file_t *file, const goblin_range_t *dynamic, uint64_t *count,
                              goblin_refusal_t *why) {
    goblin_dyn_t entry;
    uint64_t number = 0;
    uint32_t status = inside(file->len, dynamic->offset, dynamic->size, dynamic->offset, why);
    while (!status && has_entry(file->bytes, &file->header, dynamic, number, &entry)) number++;
    if (!status) *count = number;
    return status;
}

uint32_t goblin_dynamic_value(const goblin_file_t *file, const goblin_range_t *dynamic, uint64_t tag, uint64_t first,
                              uint64_t *index, uint64_t *value, goblin_refusal_t *why) {
    goblin_dyn_t entry;
    uint64_t count;
    uint32_t status = goblin_dynamic_count(file, dynamic, &count, why);
    for (uint64_t i = first; !status && i < count; i++)
        if (has_entry(file->bytes, &file->header, dynamic, i, &entry) && entry.d_tag == tag)
            return *index = i, *value = entry.d_val, GOBLIN_OK;
    return status ? status : (uint32_t)GOBLIN_END;
}

static uint32_t entry_inside(const goblin_file_t *file, const goblin_range_t *dynamic, uint64_t index,
                             goblin_refusal_t *why) {
    uint32_t status = inside(file->len, dynamic->offset, dynamic->size, dynamic->offset, why);
    return !status && index >= dynamic->size / GOBLIN_SIZEOF_DYN(&file->header) ? (uint32_t)GOBLIN_END : status;
}

uint32_t goblin_put_dynamic_entry(uint8_t *bytes, size_t len, const goblin_header_t *h, const goblin_range_t *dynamic,
                                  uint64_t index, const goblin_dyn_t *entry, goblin_refusal_t *why)
    PUT(goblin_dyn_t, entry, dynamic->offset + index * GOBLIN_SIZEOF_DYN(h), entry_inside(&file, dynamic, index, why),
        each_of_entry(&c, &own))

uint32_t goblin_dynamic_strings(const goblin_file_t *file, const goblin_range_t *dynamic, goblin_range_t *strings,
                                goblin_refusal_t *why) {
    uint64_t address, index;
    bool is_by_sections;
    goblin_range_t found;
    goblin_section_t s, linked;
    uint32_t no_address = goblin_dynamic_value(file, dynamic, GOBLIN_DT_STRTAB, 0, &index, &address, why);
    uint32_t no_size = goblin_dynamic_value(file, dynamic, GOBLIN_DT_STRSZ, 0, &index, &found.size, why);
    if (no_address > GOBLIN_END) return no_address;
    uint32_t status = by_sections(file, &is_by_sections, &s, why);
    if (is_by_sections) {
        if (!status) status = goblin_linked_section(file, s.sh_link, &linked, why);
        if (!status) status = inside(file->len, linked.file.offset, linked.file.size, linked.file.offset, why);
        if (!status) *strings = linked.file;
        return status;
    }
    if (!status && (no_address || no_size)) status = GOBLIN_END;
    if (!status) status = loaded(file, address, &found.offset, why);
    if (!status) status = inside(file->len, found.offset, found.size, found.offset, why);
    if (!status) *strings = found;
    return status;
}

/* ---- numbers and ranges ---- */

static bool is_width(uint64_t width) { return width == 1 || width == 2 || width == 4 || width == 8; }

uint32_t goblin_number(const goblin_file_t *file, uint64_t offset, uint64_t width, uint64_t *value,
                       goblin_refusal_t *why) {
    if (!is_width(width)) return GOBLIN_END;
    uint32_t status = inside(file->len, offset, width, offset, why);
    if (!status) *value = get(file->bytes + offset, (unsigned)width, is_big(&file->header));
    return status;
}

uint32_t goblin_number_in(const goblin_file_t *file, const goblin_range_t *range, uint64_t offset, uint64_t width,
                          uint64_t *value, goblin_refusal_t *why) {
    if (!is_width(width)) return GOBLIN_END;
    uint64_t from = offset > UINT64_MAX - range->offset ? UINT64_MAX : range->offset + offset;
    uint32_t status = inside(file->len, range->offset, range->size, range->offset, why);
    if (!status) status = inside(range->size, offset, width, from, why);
    if (!status) *value = get(file->bytes + from, (unsigned)width, is_big(&file->header));
    return status;
}

uint32_t goblin_put_number(uint8_t *bytes, size_t len, const goblin_header_t *h, uint64_t offset, uint64_t width,
                           uint64_t value, goblin_refusal_t *why) {
    goblin_file_t file = {bytes, len, *h};
    uint64_t unread;
    uint32_t status = goblin_number(&file, offset, width, &unread, why);
    if (status) return status;
    if (width < 8 && value >> (8 * width)) return refuse(why, GOBLIN_REFUSED_INTEGER_FIT, value, 0, offset);
    put(bytes + offset, (unsigned)width, is_big(h), value);
    return GOBLIN_OK;
}

uint32_t goblin_put_number_in(uint8_t *bytes, size_t len, const goblin_header_t *h, const goblin_range_t *range,
                              uint64_t offset, uint64_t width, uint64_t value, goblin_refusal_t *why) {
    goblin_file_t file = {bytes, len, *h};
    uint64_t unread;
    uint32_t status = goblin_number_in(&file, range, offset, width, &unread, why);
    return status ? status : goblin_put_number(bytes, len, h, range->offset + offset, width, value, why);
}

void goblin_range_in_file(const goblin_file_t *file, const goblin_range_t *range, goblin_range_t *part) {
    goblin_range_t found = *range;
    if (found.offset >= file->len) found.offset = file->len, found.size = 0;
    if (found.size > file->len - found.offset) found.size = file->len - found.offset;
    *part = found;
}

/* ---- texts ---- */

typedef struct {
    uint8_t *text;
    size_t capacity;
    uint64_t size;
} out_t;

static void sign(out_t *out, char c) {
    if (out->size < out->capacity) out->text[out->size] = (uint8_t)c;
    out->size++;
}
static void word(out_t *out, const char *text) {
    while (*text) sign(out, *text++);
}
static void number(out_t *out, uint64_t value, unsigned base) {
    if (value >= base) number(out, value / base, base);
    sign(out, "0123456789abcdef"[value % base]);
}

/* Writes a format, in which %d and %x stand for the next number, %s for the item, and %o for the offset. */
static void write(out_t *out, const char *format, const goblin_refusal_t *why) {
    static const char *const items[] = {"", "invalid utf8", "section headers", "program headers"};
    const uint64_t numbers[] = {why->first, why->second, why->third};
    for (unsigned next = 0; *format; format++) {
        if (*format != '%') sign(out, *format);
        else if (*++format == 's') word(out, why->item < 4 ? items[why->item] : "");
        else if (*format == 'b') word(out, why->fourth ? "true" : "false");
        else if (*format == 'o') number(out, why->offset, 10);
        else number(out, numbers[next++], *format == 'd' ? 10 : 16);
    }
}

uint64_t goblin_refusal_to_str(const goblin_refusal_t *why, void *text, size_t capacity) {
    static const char *const formats[] = {
        NULL, NULL, "Invalid magic number: 0x%x", "type is too big (%d) for %d", "bad offset %d", "bad input %s (%d)",
        "Buffer is too short for %d %s", "Out of memory", NULL, NULL, "Invalid class in Header: %d",
        "Invalid endianness in Header: %d", "Too small", "invalid ELF class %x", "invalid ELF endianness DATA type %x",
        "invalid ELF DATA type %x", "Notes has unimplemented alignment requirement: 0x%x",
        "Symbol table offset (%d) is beyond file boundary (%d)", "Too many ELF symbols (offset 0x%x, count %d)",
        "Symbol table extends beyond file boundary (requested: %d, available: %d)",
        "String table offset (%d) is beyond file boundary (%d)",
        "Strtable size (%d) + offset (%d) is out of bounds for %d #bytes. Overflowed: %b",
        "Section %d size (%d) + offset (%d) is out of bounds. Overflowed: %b",
        "Section %d size (%d) + addr (%d) is out of bounds. Overflowed: %b",
        "Integer do not fit: out of range integral type conversion attempted: %d at offset %o"};
    out_t out = {(uint8_t *)text, capacity, 0};
    const char *format = why->kind < sizeof formats / sizeof *formats ? formats[why->kind] : NULL;
    if (format && why->kind >= 10) word(&out, "Malformed entity: ");
    if (format) write(&out, format, why);
    if (out.size < capacity) out.text[out.size] = 0;
    return out.size;
}
