/* The timed phases through include/loadplan.h, as a monitor in C would call them.
 *
 * usage: interface FILE TURNS [PHASE]: as the driver in Rust: a line with the least nanoseconds of each phase and the sums,
 * or, with PHASE, that phase once and no line. */
#include <stdio.h>
#include <stdlib.h>
#include <string.h>
#include <time.h>

#include "../../../include/loadplan.h"

enum { BATCH = 32, ROW = 4, HEAD = 23, COMMON = 16, SYMBOL = 6 };

struct file {
    const uint8_t *bytes;
    size_t len;
    const uint8_t **names; /* of every dynamic symbol but the first */
    size_t *name_lens;
    size_t name_count;
};

static void must(int holds) {
    if (!holds) {
        fputs("interface: the file is not one of the measured ones\n", stderr);
        exit(1);
    }
}

/* Opening alone: how many sections there are. */
static uint64_t parse(const struct file *f) {
    uint64_t head[HEAD];
    must(loadplan_open(f->bytes, f->len, head) == 0);
    return (head[19] - head[18]) / (head[0] == 2 ? 64 : 40);
}

static uint64_t entry_size(const uint64_t *head) {
    return head[0] == 2 ? 24 : 16;
}

/* Opening, and finding the usual tables: how many dynamic symbols there are. */
static uint64_t open_file(const struct file *f) {
    uint64_t head[HEAD], common[COMMON];
    must(loadplan_open(f->bytes, f->len, head) == 0);
    must(loadplan_common(f->bytes, f->len, common) == 0);
    return (common[7] - common[6]) / entry_size(head);
}

/* Every dynamic symbol. */
static uint64_t walk(const struct file *f) {
    uint64_t head[HEAD], table[5], rows[ROW * BATCH], sum = 0;
    must(loadplan_open(f->bytes, f->len, head) == 0);
    must(loadplan_dynamic_symbol_table(f->bytes, f->len, table) == 0 && table[0] == 1);
    const uint8_t *symbols = f->bytes + table[1];
    for (size_t from = 0;;) {
        size_t n = loadplan_packed_symbols((uint8_t)head[0], (uint8_t)head[1], symbols, table[2] - table[1], from, rows, ROW * BATCH);
        if (n == 0)
            return sum;
        for (size_t k = 0; k < n; k++)
            sum += rows[ROW * k + 2] + rows[ROW * k + 3];
        from += n;
    }
}

/* Every name, by the SysV hash table. */
static uint64_t find(const struct file *f) {
    uint64_t head[HEAD], c[COMMON], found[2], sum = 0;
    must(loadplan_open(f->bytes, f->len, head) == 0);
    must(loadplan_common(f->bytes, f->len, c) == 0 && c[5] == 1 && c[13] == 1);
    for (size_t k = 0; k < f->name_count; k++) {
        must(loadplan_hash_find((uint8_t)head[0], (uint8_t)head[1], f->bytes + c[14], c[15] - c[14], f->bytes + c[6], c[7] - c[6],
                                f->bytes + c[8], c[9] - c[8], f->names[k], f->name_lens[k], found)
             == 0 && found[0] == 1);
        sum += found[1];
    }
    return sum;
}

/* Copies of the names, so that looking one up reads it from elsewhere than the file. */
static void collect_names(struct file *f) {
    uint64_t head[HEAD], t[5], symbol[SYMBOL], text[2];
    must(loadplan_open(f->bytes, f->len, head) == 0);
    must(loadplan_dynamic_symbol_table(f->bytes, f->len, t) == 0 && t[0] == 1);
    f->name_count = (t[2] - t[1]) / entry_size(head) - 1;
    f->names = malloc(f->name_count * sizeof *f->names);
    f->name_lens = malloc(f->name_count * sizeof *f->name_lens);
    must(f->names != NULL && f->name_lens != NULL);
    for (size_t k = 0; k < f->name_count; k++) {
        must(loadplan_symbol((uint8_t)head[0], (uint8_t)head[1], f->bytes + t[1], t[2] - t[1], k + 1, symbol) == 0);
        must(loadplan_string(f->bytes + t[3], t[4] - t[3], symbol[0], text) == 0);
        uint8_t *name = malloc(text[1] - text[0] + 1);
        must(name != NULL);
        memcpy(name, f->bytes + t[3] + text[0], text[1] - text[0]);
        f->names[k] = name;
        f->name_lens[k] = text[1] - text[0];
    }
}

static struct file read_file(const char *path) {
    struct file f = {0};
    FILE *from = fopen(path, "rb");
    must(from != NULL && fseek(from, 0, SEEK_END) == 0);
    f.len = (size_t)ftell(from);
    rewind(from);
    uint8_t *bytes = malloc(f.len);
    must(bytes != NULL && fread(bytes, 1, f.len, from) == f.len);
    fclose(from);
    f.bytes = bytes;
    return f;
}

static double now(void) {
    struct timespec t;
    clock_gettime(CLOCK_MONOTONIC, &t);
    return (double)t.tv_sec * 1e9 + (double)t.tv_nsec;
}

static const struct {
    const char *name;
    int often; /* in a turn, because the phase is too short for the clock */
    uint64_t (*run)(const struct file *);
} phases[] = {{"parse", 100, parse}, {"open", 100, open_file}, {"walk", 1, walk}, {"find", 1, find}};
enum { PHASES = sizeof phases / sizeof phases[0] };

int main(int argc, char **argv) {
    must(argc == 3 || argc == 4);
    struct file f = read_file(argv[1]);
    int turns = atoi(argv[2]);
    double least[PHASES];
    volatile uint64_t sums[PHASES] = {0};
    collect_names(&f);
    if (argc == 4) {
        for (int k = 0; k < PHASES; k++)
            if (strcmp(argv[3], phases[k].name) == 0)
                sums[k] = phases[k].run(&f);
        return 0;
    }
    for (int turn = 0; turn < turns; turn++) {
        for (int k = 0; k < PHASES; k++) {
            double start = now();
            for (int n = 0; n < phases[k].often; n++)
                sums[k] = phases[k].run(&f);
            double time = (now() - start) / phases[k].often;
            if (turn == 0 || time < least[k])
                least[k] = time;
        }
    }
    for (int k = 0; k < PHASES; k++)
        printf("%s %.2f ", phases[k].name, least[k]);
    printf("sums %llu %llu %llu %llu\n", (unsigned long long)sums[0], (unsigned long long)sums[1], (unsigned long long)sums[2],
           (unsigned long long)sums[3]);
    return 0;
}
