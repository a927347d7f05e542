/*
 * table STREAM LAYOUT: reads the type table of STREAM (little-endian words of 64 bits) and the data layout string of LAYOUT with the
 * library to link, prints both, and shows a refusal of each. Every buffer is lent by this program; the library allocates nothing.
 */
#include <inttypes.h>
#include <stdio.h>
#include <string.h>

#include "reckonferry.h"

/* Room for 1,024 entries: docs/BUFFERS.md says how to choose these. */
enum { WORDS = 8192, ENTRIES = 1024, REFS = 8192, NAMES = 8192, VALUE = 4096 };

static uint8_t input[WORDS * 8];
static uint64_t words[WORDS];
static uint64_t rows[ENTRIES * RECKONFERRY_ROW_WORDS];
static uint64_t refs[REFS];
static uint8_t names[NAMES];
static uint64_t witness[ENTRIES];
static uint64_t layout[RECKONFERRY_LAYOUT_WORDS];
static uint64_t answer[RECKONFERRY_ANSWER_WORDS];

#define LEN(buffer) (sizeof(buffer) / sizeof((buffer)[0]))

static const char *kinds[] = {
    "half", "bfloat", "float", "double", "x86_fp80", "fp128", "ppc_fp128", "void", "label", "metadata", "x86_mmx",
    "x86_amx", "token", "integer", "function", "pointer", "struct", "array", "vector", "scalable vector", "opaque pointer",
};

static size_t read_file(const char *path, uint8_t *into, size_t room) {
    FILE *file = fopen(path, "rb");
    size_t got = file ? fread(into, 1, room, file) : 0;
    if (file) fclose(file);
    return got;
}

static void read_table(const uint64_t *stream, size_t len) {
    reckonferry_read_table(stream, len, rows, LEN(rows), refs, LEN(refs), names, LEN(names), witness, LEN(witness), answer, LEN(answer));
}

static void print_entry(uint64_t entry) {
    const uint64_t *row = rows + entry * RECKONFERRY_ROW_WORDS;
    printf("%" PRIu64 " %s %" PRIu64 " flag %" PRIu64 " references", entry, kinds[row[0]], row[1], row[2]);
    for (uint64_t i = 0; i < row[4]; i++) printf(" %" PRIu64, refs[row[3] + i]);
    if (reckonferry_has_name(rows, LEN(rows), names, LEN(names), entry)) {
        size_t start = reckonferry_name_start(rows, LEN(rows), names, LEN(names), entry);
        size_t len = reckonferry_name_len(rows, LEN(rows), names, LEN(names), entry);
        printf(" name %.*s", (int)len, (const char *)names + start);
    }
    printf(" rank %" PRIu64 "\n", witness[entry]);
}

static void print_table(void) {
    if (answer[0] != 0) {
        printf("table refused %" PRIu64 " %" PRIu64 " %" PRIu64 "\n", answer[0], answer[1], answer[2]);
        return;
    }
    uint64_t entries = answer[1];
    bool checked = reckonferry_check_table(rows, LEN(rows), refs, LEN(refs), names, LEN(names), witness, LEN(witness), entries);
    printf("table of %" PRIu64 " entries, checked: %s\n", entries, checked ? "yes" : "no");
    for (uint64_t entry = 0; entry < entries; entry++) print_entry(entry);
}

static size_t read_layout(const uint8_t *value, size_t len) {
    return reckonferry_read_layout(value, len, answer, LEN(answer), layout, LEN(layout));
}

static void print_layout(size_t count) {
    if (answer[0] != 0) {
        printf("layout refused %" PRIu64 " %" PRIu64 " %" PRIu64 "\n", answer[0], answer[1], answer[2]);
        return;
    }
    printf("layout of %zu words: %s endian, stack alignment %" PRIu64 " bits\n", count, layout[0] == 0 ? "big" : "little", layout[1]);
    const uint64_t *list = layout + 9;
    printf("native widths");
    for (uint64_t i = 0; i < list[0]; i++) printf(" %" PRIu64, list[1 + i]);
    list += 1 + list[0];
    printf("\nnon-integral spaces");
    for (uint64_t i = 0; i < list[0]; i++) printf(" %" PRIu64, list[1 + i]);
    list += 1 + list[0];
    printf("\n");
    for (uint64_t i = 0; i < list[0]; i++) {
        const uint64_t *row = list + 1 + i * 4;
        printf("%c%" PRIu64 " aligned to %" PRIu64 ", preferred %" PRIu64 "\n", "ivfa"[row[0]], row[1], row[2], row[3]);
    }
    list += 1 + list[0] * 4;
    for (uint64_t i = 0; i < list[0]; i++) {
        const uint64_t *row = list + 1 + i * 5;
        printf("pointer of space %" PRIu64 ": %" PRIu64 " bits, aligned to %" PRIu64 ", preferred %" PRIu64 ", index %" PRIu64 "\n",
               row[0], row[1], row[2], row[3], row[4]);
    }
}

int main(int argc, char **argv) {
    if (argc != 3) {
        fprintf(stderr, "usage: table STREAM LAYOUT\n");
        return 2;
    }

    size_t bytes = read_file(argv[1], input, sizeof input);
    for (size_t i = 0; i < bytes / 8; i++)
        for (size_t k = 8; k-- > 0;) words[i] = words[i] << 8 | input[i * 8 + k];
    read_table(words, bytes / 8);
    print_table();

    /* A pointer to itself: refusal 19, whose ring stands at the front of the witness. */
    static const uint64_t ring[] = {1, 1, 1, 8, 2, 0, 0};
    read_table(ring, LEN(ring));
    print_table();
    printf("the ring starts with %" PRIu64 "\n", witness[0]);

    /* No words at all, and a null pointer for them: refusal 2. */
    read_table(NULL, 0);
    print_table();

    size_t len = read_file(argv[2], input, VALUE);
    print_layout(read_layout(input, len));

    /* `q` is no spec: refusal 23 at its place. */
    print_layout(read_layout((const uint8_t *)"e-q", 3));
    return 0;
}
