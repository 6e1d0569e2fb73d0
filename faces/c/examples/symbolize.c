/* Prints the symbol that goblin_symbol_by_address finds for each address: symbolize [-1] FILE ADDRESS..
   For each address there is a line with the symbol's name, or ?? if there is none, and a line ??:0. Of a file without
   debug information `addr2line -fs` prints the same, but also names a function at addresses past its end.
   It reads and sorts the symbols once. With -1 it calls goblin_symbol_by_address for each address, which reads all
   symbols each time. */
#include "goblin.h"
#include "example.h"

enum { NONE = -1, BATCH = 64 };

/* The addresses, from the first to the last, for which a symbol counts: those that it contains, or those of its section
   from its own address on. */
typedef struct {
    uint64_t first, last;
    uint64_t start, index; /* the symbol's own address, and its index in the table */
    bool is_contained, has_size;
} span_t;

/* The addresses from one on up to the next piece, which all have the same symbol. */
typedef struct {
    uint64_t start;
    int64_t index; /* the symbol's index in the table, or NONE */
    size_t next;   /* the piece itself if no span has taken it, or else a later one */
} piece_t;

static size_t spans_len, pieces_len;
static span_t *spans;
static piece_t *pieces;

/* Compares spans by which one decides on an address in both: the one whose symbol contains it, that of the higher
   symbol, that of a symbol without a size, and that of the first symbol in the table. */
static int compare_spans(const void *one, const void *other) {
    const span_t *a = (const span_t *)one, *b = (const span_t *)other;
    if (a->is_contained != b->is_contained) return a->is_contained ? -1 : 1;
    if (a->start != b->start) return a->start > b->start ? -1 : 1;
    if (a->has_size != b->has_size) return b->has_size ? -1 : 1;
    return a->index < b->index ? -1 : a->index > b->index;
}

static int compare_pieces(const void *one, const void *other) {
    uint64_t a = ((const piece_t *)one)->start, b = ((const piece_t *)other)->start;
    return a < b ? -1 : a > b;
}

/* Adds a span of a symbol: of `size` addresses from `first` on those that are not below the symbol's own. */
static void add_span(const goblin_symbol_t *symbol, uint64_t index, uint64_t first, uint64_t size, bool is_contained) {
    uint64_t most = UINT64_MAX - first, last = size > most ? UINT64_MAX : first + size - 1;
    if (first < symbol->st_value) first = symbol->st_value;
    span_t span = {first, last, symbol->st_value, index, is_contained, symbol->st_size > 0};
    if (size > 0 && first <= last) spans[spans_len++] = span;
}

/* Adds the spans of a symbol, if it is of a section and has one of the types that can contain an address. There is one
   in its section if that is in memory. In a relocatable file addresses are offsets in any section. */
static void add(const goblin_symbol_t *symbol, uint64_t index) {
    unsigned type = GOBLIN_ST_TYPE(symbol->st_info);
    bool is_index = symbol->st_shndx < GOBLIN_SHN_LORESERVE, is_object = file.header.e_type == GOBLIN_ET_REL;
    if (symbol->st_shndx == GOBLIN_SHN_UNDEF || !(is_index || symbol->st_shndx == GOBLIN_SHN_XINDEX)) return;
    if (type > GOBLIN_STT_FUNC && type != GOBLIN_STT_GNU_IFUNC) return;
    add_span(symbol, index, symbol->st_value, symbol->st_size, true);
    goblin_section_t section;
    if (is_index && goblin_section(&file, symbol->st_shndx, &section, &why) == GOBLIN_OK
        && (is_object || section.sh_flags & GOBLIN_SHF_ALLOC))
        add_span(symbol, index, is_object ? 0 : section.sh_addr, section.file.size, false);
}

/* Returns how many pieces begin at an address or below it. */
static size_t pieces_up_to(uint64_t address) {
    size_t low = 0, high = pieces_len;
    while (low < high) {
        size_t middle = low + (high - low) / 2;
        if (pieces[middle].start <= address) low = middle + 1;
        else high = middle;
    }
    return low;
}

/* Returns the first piece from one on that no span has taken. It also shortens the way to it. */
static size_t next_free(size_t piece) {
    while (pieces[piece].next != piece) piece = pieces[piece].next = pieces[pieces[piece].next].next;
    return piece;
}

/* Makes the pieces, which begin at the start of a span or after its end. The spans take their pieces in the order in
   which they decide. A symbol with a size takes those in its section that it does not contain from the labels below
   it, without being found. */
static void make_pieces(void) {
    for (size_t i = 0; i < spans_len; i++) {
        pieces[pieces_len++].start = spans[i].first;
        if (spans[i].last < UINT64_MAX) pieces[pieces_len++].start = spans[i].last + 1;
    }
    qsort(pieces, pieces_len, sizeof *pieces, compare_pieces);
    qsort(spans, spans_len, sizeof *spans, compare_spans);
    for (size_t i = 0; i <= pieces_len; i++) pieces[i].index = NONE, pieces[i].next = i;
    for (const span_t *span = spans; span < spans + spans_len; span++) {
        size_t i = next_free(pieces_up_to(span->first) - 1);
        for (; i < pieces_len && pieces[i].start <= span->last; i = next_free(i)) {
            if (span->is_contained || !span->has_size) pieces[i].index = (int64_t)span->index;
            pieces[i].next = i + 1;
        }
    }
}

/* Reads all symbols of a table, and makes the pieces. */
static uint32_t read_symbols(const goblin_range_t *table) {
    goblin_symbol_t symbols[BATCH];
    uint64_t count, filled = 0;
    uint32_t status = goblin_symbol_count(&file, table, &count, &why);
    if (status != GOBLIN_OK) return status;
    spans = (span_t *)malloc((size_t)(2 * count + 1) * sizeof *spans);
    pieces = (piece_t *)malloc((size_t)(4 * count + 1) * sizeof *pieces);
    if (!spans || !pieces) perror("symbolize"), exit(2);
    for (uint64_t first = 0;
         goblin_symbols(&file, table, first, symbols, BATCH, &filled, &why) == GOBLIN_OK; first += filled)
        for (uint64_t i = 0; i < filled; i++) add(&symbols[i], first + i);
    make_pieces();
    return GOBLIN_OK;
}

/* Finds the symbol for an address in the last piece that is not above it. */
static uint32_t find(uint64_t address, uint64_t *index) {
    size_t count = pieces_up_to(address);
    if (count == 0 || pieces[count - 1].index == NONE) return GOBLIN_END;
    *index = (uint64_t)pieces[count - 1].index;
    return GOBLIN_OK;
}

/* Finds the symbol table, or the dynamic one if there is none, and its strings. */
static uint32_t find_table(goblin_section_t *table, goblin_section_t *names) {
    uint64_t index;
    uint32_t status = goblin_section_by_type(&file, GOBLIN_SHT_SYMTAB, 0, &index, table, &why);
    if (status == GOBLIN_END) status = goblin_section_by_type(&file, GOBLIN_SHT_DYNSYM, 0, &index, table, &why);
    return status == GOBLIN_OK ? goblin_linked_section(&file, table->sh_link, names, &why) : status;
}

int main(int argc, char **argv) {
    bool one_by_one = argc > 2 && strcmp(argv[1], "-1") == 0;
    if (argc < 2 + one_by_one) return fputs("usage: symbolize [-1] FILE ADDRESS..\n", stderr), 2;
    if (!load(argv[1 + one_by_one])) return perror(argv[1 + one_by_one]), 2;
    if (goblin_file(bytes, len, &file, &why) != GOBLIN_OK) return print_refusal("symbolize: header");
    goblin_section_t table, names;
    uint32_t found = find_table(&table, &names);
    if (found == GOBLIN_OK && !one_by_one) found = read_symbols(&table.file);
    if (found > GOBLIN_END) return print_refusal("symbolize: symbols");
    for (int i = 2 + one_by_one; i < argc; i++) {
        uint64_t address = strtoull(argv[i], NULL, 16), index;
        uint32_t status = found;
        goblin_symbol_t symbol;
        goblin_range_t name;
        if (status == GOBLIN_OK)
            status = one_by_one ? goblin_symbol_by_address(&file, &table.file, address, &index, &why)
                : find(address, &index);
        if (status == GOBLIN_OK) status = goblin_symbol(&file, &table.file, index, &symbol, &why);
        if (status == GOBLIN_OK) status = goblin_string_closed(&file, &names.file, symbol.st_name, &name, &why);
        if (status > GOBLIN_END) return print_refusal("symbolize: symbols");
        printf("%s\n??:0\n", status == GOBLIN_OK ? (const char *)bytes + name.offset : "??");
    }
    return written(0);
}
