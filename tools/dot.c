/* A card's links as a Graphviz graph: objects by number and class with their labels, who guards whom, missing ones in red.
 * A dump on standard input; the services of ../include/adarbukoi.h do the work, and this prints. A refused card gives a line on
 * standard error, and the status 2. */
#include "../include/adarbukoi.h"
#include <stdio.h>

static uint8_t dump[ADARBUKOI_DUMP_MOST + 1], book[ADARBUKOI_BOOK_MOST];
static uint32_t rows[1 << 20];
static uint64_t book_len;

/* whether object i has a record of this kind, and where its payload is */
static int field(uint32_t i, uint32_t kind, uint64_t *at, uint64_t *length) {
    return adarbukoi_field(book, book_len, i, kind, at, length) == 0;
}

static int has(uint32_t i, uint32_t kind) {
    uint64_t at, length;
    return field(i, kind, &at, &length);
}

/* an object's class by what it bears: a key its iD, a certificate its iD, a container its contents, others a type; no class, no object */
static const char *class_of(uint32_t i) {
    if (has(i, ADARBUKOI_KEY_ID)) return "key";
    if (has(i, ADARBUKOI_CERTIFICATE_ID)) return "certificate";
    if (has(i, ADARBUKOI_CONTAINER)) return "data container";
    if (has(i, ADARBUKOI_PWD_FLAGS)) return "password";
    if (has(i, ADARBUKOI_OTHER_TYPE)) return "authentication object";
    return 0;
}

/* a byte of text inside a quoted string of Graphviz's: quotes, backslashes and & marked */
static void put_byte(uint8_t c) {
    if (c == '"' || c == '\\') putchar('\\');
    putchar(c);
    if (c == '&') printf("amp;");
}

/* a label, control characters (U+0000 to U+001F, U+007F to U+009F) left out; a line of 40 characters or more ends behind
 * its next space */
static void put_text(const uint8_t *s, uint64_t n) {
    unsigned line = 0;
    for (uint64_t i = 0; i < n; i++) {
        if (s[i] < 32 || s[i] == 127) continue;
        if (s[i] == 0xC2 && s[i + 1] < 0xA0) {
            i++;
            continue;
        }
        put_byte(s[i]);
        line += (s[i] & 0xC0) != 0x80;
        if (s[i] == ' ' && line >= 40) {
            printf("\\n");
            line = 0;
        }
    }
}

static void put_object(uint32_t i, const char *class) {
    uint64_t at, length;
    printf("  o%u [label=\"%u %s", i, i, class);
    if (field(i, ADARBUKOI_LABEL, &at, &length)) {
        printf("\\n");
        put_text(book + at, length);
    }
    printf("\"];\n");
}

/* an object that should bear the identifier of the record at this book offset, and none does */
static void put_missing(uint32_t row, uint32_t offset) {
    unsigned end = offset + 2 + book[offset] + 256 * book[offset + 1];
    printf("  m%u [label=\"missing\\n", row);
    for (unsigned i = offset + 4; i < end; i++) printf("%02X", book[i]);
    printf("\", color=red, fontcolor=red];\n");
}

static const char *const words[] = { "", "guards", "is a condition of", "belongs to" };

static void put_link(uint32_t n, const uint32_t *row) {
    const char *word = words[row[0] <= 3 ? row[0] : 0];
    if (row[3] == ADARBUKOI_UNANSWERED) {
        put_missing(n, row[2]);
        printf("  m%u -> o%u [label=\"%s\", color=red, fontcolor=red];\n", n, row[1], word);
    } else printf("  o%u -> o%u [label=\"%s\"];\n", row[3], row[1], word);
}

static int refused(uint32_t no, uint64_t place) {
    fprintf(stderr, "refused %u %llu\n", no, (unsigned long long)place);
    return 2;
}

int main(void) {
    uint64_t told;
    size_t n = fread(dump, 1, sizeof dump, stdin);
    uint32_t no = adarbukoi_read(dump, n, book, sizeof book, &book_len);
    if (no) return refused(no, book_len);
    no = adarbukoi_list(book, book_len, rows, sizeof rows / sizeof *rows, &told);
    if (no) return refused(no, told);
    printf("digraph card {\n  rankdir=LR;\n  node [shape=box];\n");
    for (uint32_t i = 0; i < ADARBUKOI_OBJECTS_MOST; i++) {
        const char *class = class_of(i);
        if (class) put_object(i, class);
    }
    for (uint32_t k = 0; k < told / 4; k++) put_link(k, rows + 4 * k);
    printf("}\n");
    return 0;
}
