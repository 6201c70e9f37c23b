/* Nanoseconds for each service, and of the like beside it; what is printed are tables. bench/run calls it. */
#include "../include/adarbukoi.h"
#include <stdio.h>
#include <stdlib.h>
#include <string.h>
#include <time.h>

static uint8_t dump[65536], book[131072], back[32768], copy[32768];
static uint32_t rows[65536];
static size_t dump_len;
static uint64_t book_len, row_count, told, length;
static uint32_t answer, kind;
static volatile uint64_t sink;
static double low[256][7];

/* every tag and length from a to e, constructed ones inside */
static uint64_t walk(const uint8_t *s, size_t a, size_t e) {
    uint64_t seen = 0;
    while (a < e) {
        uint8_t tag = s[a++];
        if ((tag & 31) == 31) while (a < e && s[a++] & 128) {}
        size_t n = s[a++];
        if (n == 0x81) n = s[a++];
        else if (n == 0x82) { n = (size_t)s[a] << 8 | s[a + 1]; a += 2; }
        seen += tag + n;
        if (tag & 32) seen += walk(s, a, a + n);
        a += n;
    }
    return seen;
}

/* the files of the dump, one after the other, to their fill */
static uint64_t plain(void) {
    uint64_t seen = 0;
    for (size_t at = 0; at + 4 <= dump_len;) {
        size_t stop = at + 2 + (dump[at] | (size_t)dump[at + 1] << 8), from = at + 4;
        if (dump[at + 2] == 3) from += 1 + dump[from];
        seen += walk(dump, from, stop);
        at = stop;
    }
    return seen;
}

static void do_none(void) {}
static void do_copy(void) { memcpy(copy, dump, dump_len); sink += copy[dump_len - 1]; }
static void do_walk(void) { sink += plain(); }
static void do_read(void) { sink += adarbukoi_read(dump, dump_len, book, sizeof book, &told); }
static void do_write(void) { sink += adarbukoi_write(book, book_len, back, sizeof back, &told); }
static void do_list(void) { sink += adarbukoi_list(book, book_len, rows, 65536, &told); }
static void do_field(void) { sink += adarbukoi_field(book, book_len, 0, 0x0130, &told, &length); }
static void do_why(void) { sink += adarbukoi_why(book, book_len, row_count - 1, &answer, &told, &kind); }

static double now(void) {
    struct timespec t;
    clock_gettime(CLOCK_MONOTONIC, &t);
    return t.tv_sec * 1e9 + t.tv_nsec;
}

/* the best of 40 batches, each long enough for some milliseconds */
static double best(void (*f)(void)) {
    double least = 1e18;
    int turns = 1;
    for (;;) {
        double t = now();
        for (int i = 0; i < turns; i++) f();
        t = now() - t;
        if (t > 3e6) break;
        turns *= 2;
    }
    for (int b = 0; b < 40; b++) {
        double t = now();
        for (int i = 0; i < turns; i++) f();
        t = (now() - t) / turns;
        if (t < least) least = t;
    }
    return least;
}

/* loads a dump, reads it and lists its links; the number of the refusal, 0 if there is none */
static uint32_t load_card(const char *name) {
    FILE *f = fopen(name, "rb");
    if (!f) { perror(name); exit(2); }
    dump_len = fread(dump, 1, sizeof dump, f);
    fclose(f);
    uint32_t refusal = adarbukoi_read(dump, dump_len, book, sizeof book, &book_len);
    if (refusal) return refusal;
    uint64_t numbers;
    refusal = adarbukoi_list(book, book_len, rows, 65536, &numbers);
    row_count = numbers / 4;
    return refusal;
}

/* the file's name without its folder and its ending */
static const char *title(const char *name) {
    static char kept[256];
    const char *slash = strrchr(name, '/');
    snprintf(kept, sizeof kept, "%s", slash ? slash + 1 : name);
    char *dot = strrchr(kept, '.');
    if (dot) *dot = 0;
    return kept;
}

/* the best of three rounds over all inputs, so that other work on the machine has to disturb all three */
static void measure(int n, char **cards, int calls, void (*const *call)(void)) {
    for (int round = 0; round < 3; round++) {
        for (int i = 0; i < n; i++) {
            uint32_t refusal = load_card(cards[i]);
            for (int k = 0; k < calls; k++) {
                double t = refusal && call[k] != do_read ? 0 : best(call[k]);
                if (round == 0 || t < low[i][k]) low[i][k] = t;
            }
        }
    }
}

static void refuse(const char *name, uint32_t refusal) {
    if (refusal) { fprintf(stderr, "%s is refused, %u at %llu\n", name, refusal, (unsigned long long)book_len); exit(1); }
}

/* every service on every card */
static void services(int n, char **cards) {
    static void (*const calls[])(void) = {do_copy, do_walk, do_read, do_write, do_list, do_field, do_why};
    measure(n, cards, 7, calls);
    printf("| card | bytes | book | rows | memcpy | plain walk | read | write | list | field | why | read/walk | write/walk | list/walk |\n");
    printf("|---|---|---|---|---|---|---|---|---|---|---|---|---|---|\n");
    for (int i = 0; i < n; i++) {
        const double *t = low[i];
        refuse(cards[i], load_card(cards[i]));
        printf("| %s | %zu | %llu | %llu |", title(cards[i]), dump_len, (unsigned long long)book_len, (unsigned long long)row_count);
        for (int k = 0; k < 7; k++) printf(" %.0f |", t[k]);
        printf(" %.1f | %.1f | %.1f |\n", t[2] / t[1], t[3] / t[1], t[4] / t[1]);
    }
}

/* nanoseconds for a byte of the dump */
static void sizes(int n, char **cards) {
    static void (*const calls[])(void) = {do_read, do_write, do_list};
    measure(n, cards, 3, calls);
    printf("| card | bytes | rows | read | write | list | read/byte | write/byte | list/byte |\n|---|---|---|---|---|---|---|---|---|\n");
    for (int i = 0; i < n; i++) {
        const double *t = low[i];
        refuse(cards[i], load_card(cards[i]));
        printf("| %s | %zu | %llu |", title(cards[i]), dump_len, (unsigned long long)row_count);
        for (int k = 0; k < 3; k++) printf(" %.0f |", t[k]);
        for (int k = 0; k < 3; k++) printf(" %.2f |", t[k] / dump_len);
        printf("\n");
    }
}

/* nanoseconds, and how many times those of the first input: bold over the goal */
static void beside(double t, double first, double goal, double *most) {
    double times = t / first;
    if (times > *most) *most = times;
    printf(times > goal ? " %.0f | **%.1f** |" : " %.0f | %.1f |", t, times);
}

/* reading, and where it is accepted listing, beside the first card's */
static void worst(int n, char **cards) {
    static void (*const calls[])(void) = {do_read, do_list};
    double read_most = 0, list_most = 0;
    measure(n, cards, 2, calls);
    printf("| input | bytes | answer | rows | read | times | list | times |\n|---|---|---|---|---|---|---|---|\n");
    for (int i = 0; i < n; i++) {
        uint32_t refusal = load_card(cards[i]);
        printf("| %s | %zu |", title(cards[i]), dump_len);
        if (refusal) printf(" %u at %llu | - |", refusal, (unsigned long long)book_len);
        else printf(" accepted | %llu |", (unsigned long long)row_count);
        beside(low[i][0], low[0][0], 4, &read_most);
        if (refusal) printf(" - | - |");
        else beside(low[i][1], low[0][1], 6, &list_most);
        printf("\n");
    }
    printf("\nThe most: %.1f times to read (goal 4), %.1f times to list (goal 6).\n", read_most, list_most);
}

/* one call of one service, or of none: for counting its instructions */
static int once(const char *service, const char *card) {
    static const struct { const char *name; void (*call)(void); } all[] = {{"none", do_none}, {"read", do_read}, {"write", do_write}, {"list", do_list}};
    refuse(card, load_card(card));
    for (int i = 0; i < 4; i++) if (!strcmp(all[i].name, service)) { all[i].call(); return 0; }
    return 2;
}

int main(int argc, char **argv) {
    const char *what = argc > 2 && argc < 258 ? argv[1] : "";
    if (!strcmp(what, "services")) services(argc - 2, argv + 2);
    else if (!strcmp(what, "sizes")) sizes(argc - 2, argv + 2);
    else if (!strcmp(what, "worst")) worst(argc - 2, argv + 2);
    else if (!strcmp(what, "once") && argc == 4) return once(argv[2], argv[3]);
    else { fprintf(stderr, "bench services|sizes|worst card .., or bench once none|read|write|list card\n"); return 2; }
    return 0;
}
