/* What calls through vtdm.h cost: nanoseconds of a round, the least and the median of nine turns, each on a manager of its own.
 * `measure ROUNDS [NAME]` measures all lines, or the one of that name alone, so that a profiler sees nothing else. The difference of two
 * counts of instructions is of nine times as many rounds as they differ by. */
#define _POSIX_C_SOURCE 200809L
#include "vtdm.h"

#include <stdio.h>
#include <stdlib.h>
#include <string.h>
#include <time.h>

enum { TURNS = 9, TABLE_FRAMES = 64, DEVICE = 3 };

static double now(void) {
    struct timespec at;
    clock_gettime(CLOCK_MONOTONIC, &at);
    return (double)at.tv_sec * 1e9 + (double)at.tv_nsec;
}

/* An answer that is not what it must be ends the program. */
static void must(bool holds) {
    if (!holds) {
        fprintf(stderr, "an answer is wrong\n");
        exit(1);
    }
}

static void pair(struct vtdm *manager, uint64_t at, uint64_t rounds) {
    (void)at;
    for (uint64_t i = 0; i < rounds; i++) {
        struct vtdm_answer mapped = vtdm_map(manager, 1, 0x1001, 1, 0, VTDM_READ | VTDM_WRITE);
        struct vtdm_answer ended = vtdm_unmap(manager, 1, mapped.value, 1);
        must(mapped.status == VTDM_OK && ended.status == VTDM_OK);
    }
}

/* The same, and what both calls ask: 2 effects and 5, but for the first map, which takes tables. */
static void told(struct vtdm *manager, uint64_t at, uint64_t rounds) {
    (void)at;
    struct vtdm_effect effects[VTDM_MOST_EFFECTS];
    for (uint64_t i = 0; i < rounds; i++) {
        struct vtdm_answer mapped = vtdm_map(manager, 1, 0x1001, 1, 0, VTDM_READ | VTDM_WRITE);
        must(mapped.status == VTDM_OK && vtdm_effects(manager, effects, VTDM_MOST_EFFECTS).value >= 2);
        struct vtdm_answer ended = vtdm_unmap(manager, 1, mapped.value, 1);
        must(ended.status == VTDM_OK && vtdm_effects(manager, effects, VTDM_MOST_EFFECTS).value == 5);
    }
}

static void cached(struct vtdm *manager, uint64_t at, uint64_t rounds) {
    for (uint64_t i = 0; i < rounds; i++)
        must(vtdm_dma(manager, DEVICE, at, false, true, false).value == 0x1001000);
}

static void walked(struct vtdm *manager, uint64_t at, uint64_t rounds) {
    for (uint64_t i = 0; i < rounds; i++)
        must(vtdm_dma(manager, DEVICE, at, false, false, false).value == 0x1001000);
}

static void refused(struct vtdm *manager, uint64_t at, uint64_t rounds) {
    (void)at;
    for (uint64_t i = 0; i < rounds; i++)
        must(vtdm_drop(manager, 0).status == VTDM_NO_DOMAIN);
}

/* Ranges that are live: so many, each of so many pages or of 1 to 16 of them, and which of them ends next. */
struct crowd {
    unsigned live, pages;
    bool own_order;  /* each begins at a multiple of the next power of two */
    bool nearly;     /* three in ten rounds one of the 32 oldest ends in the place of the oldest */
    bool reached;    /* a device reaches each once, by a request that looks and fills */
};

enum { MOST_LIVE = 256, MOST_PAGES = 16, OLDEST = 32 };

struct range {
    uint64_t at;
    unsigned pages;
};

/* The next of a fixed sequence of numbers, below an end. */
static unsigned below(uint64_t *seed, unsigned end) {
    *seed = *seed * 6364136223846793005 + 1442695040888963407;
    return (unsigned)(*seed >> 33) % end;
}

static unsigned order_of(unsigned pages) {
    unsigned order = 0;
    while ((1u << order) < pages)
        order++;
    return order;
}

static struct range mapped(struct vtdm *manager, const struct crowd *crowd, uint64_t *seed) {
    unsigned pages = crowd->pages != 0 ? crowd->pages : 1 + below(seed, MOST_PAGES);
    struct vtdm_answer made =
        vtdm_map(manager, 1, 0x1001, pages, crowd->own_order ? order_of(pages) : 0, VTDM_READ | VTDM_WRITE);
    must(made.status == VTDM_OK);
    if (crowd->reached)
        must(vtdm_dma(manager, DEVICE, made.value, false, true, true).status == VTDM_OK);
    return (struct range){made.value, pages};
}

/* Maps all that is live, and then unmaps one and maps another, again and again: the nanoseconds of these rounds. */
static double crowded(struct vtdm *manager, const struct crowd *crowd, uint64_t rounds) {
    struct range ranges[MOST_LIVE];
    uint64_t seed = 1;
    for (unsigned i = 0; i < crowd->live; i++)
        ranges[i] = mapped(manager, crowd, &seed);
    double start = now();
    for (uint64_t i = 0; i < rounds; i++) {
        struct range *oldest = &ranges[i % crowd->live];
        if (crowd->nearly && below(&seed, 10) < 3) {
            struct range *other = &ranges[(i + below(&seed, OLDEST)) % crowd->live], range = *oldest;
            *oldest = *other;
            *other = range;
        }
        must(vtdm_unmap(manager, 1, oldest->at, oldest->pages).status == VTDM_OK);
        *oldest = mapped(manager, crowd, &seed);
    }
    return now() - start;
}

/* A line: its name, how its domain is, whether its manager is in charge of another unit, what is mapped before, and its rounds, by `run`
 * or among ranges that are live. Mapped before is a page that is remembered, or a page behind a hole of so many. */
static const struct line {
    const char *name;
    bool lazy, wide, driven, mapped;
    unsigned hole;
    void (*run)(struct vtdm *manager, uint64_t at, uint64_t rounds);
    struct crowd crowd;
} lines[] = {
    {.name = "map and unmap 1 page", .run = pair},
    {.name = "map and unmap 1 page, 48 bits", .wide = true, .run = pair},
    {.name = "map and unmap 1 page, in a hole of 2", .hole = 2, .run = pair},
    {.name = "map and unmap 1 page, in a hole of 2, 48 bits", .wide = true, .hole = 2, .run = pair},
    {.name = "map and unmap 1 page, driven", .driven = true, .run = pair},
    {.name = "map and unmap 1 page, driven, with what it asks", .driven = true, .run = told},
    {.name = "map and unmap lazily, 256 a flush", .lazy = true, .run = pair},
    {.name = "dma answered by the caches", .mapped = true, .run = cached},
    {.name = "dma answered by a walk", .mapped = true, .run = walked},
    {.name = "a call that is refused", .run = refused},
    {.name = "the oldest of 40 of 1 to 16 pages", .crowd = {.live = 40}},
    {.name = "nearly the oldest of 256 of 1 to 16 pages", .crowd = {.live = 256, .nearly = true}},
    {.name = "nearly the oldest of 256 of 1 to 16 pages, reached", .crowd = {.live = 256, .nearly = true, .reached = true}},
    {.name = "nearly the oldest of 256 of 1 to 16 pages, aligned", .crowd = {.live = 256, .own_order = true, .nearly = true}},
    {.name = "nearly the oldest of 256 of 1 page", .crowd = {.live = 256, .pages = 1, .nearly = true}},
    {.name = "the oldest of 40 of 1 page, 48 bits", .wide = true, .crowd = {.live = 40, .pages = 1}},
    {.name = "nearly the oldest of 256 of 1 page, 48 bits", .wide = true, .crowd = {.live = 256, .pages = 1, .nearly = true}},
    {.name = "nearly the oldest of 256 of 1 page, 48 bits, reached",
     .wide = true,
     .crowd = {.live = 256, .pages = 1, .nearly = true, .reached = true}},
    {.name = "nearly the oldest of 256 of 16 pages, aligned, 48 bits",
     .wide = true,
     .crowd = {.live = 256, .pages = 16, .own_order = true, .nearly = true}},
};

static double turn(const struct line *line, uint64_t rounds) {
    struct vtdm manager = VTDM_INIT;
    uint64_t at = 0;
    must((line->driven ? vtdm_create_driven(&manager, TABLE_FRAMES, 0, false, 0) : vtdm_create(&manager, TABLE_FRAMES)) == VTDM_OK);
    must((line->wide ? vtdm_domain_wide(&manager, line->lazy) : vtdm_domain(&manager, line->lazy)).value == 1);
    must(vtdm_attach(&manager, DEVICE, 1).status == VTDM_OK);
    if (line->hole != 0) {
        uint64_t hole = vtdm_map(&manager, 1, 0x1001, line->hole, 0, VTDM_READ).value;
        must(vtdm_map(&manager, 1, 0x1001, 1, 0, VTDM_READ).status == VTDM_OK);
        must(vtdm_unmap(&manager, 1, hole, line->hole).status == VTDM_OK);
    }
    if (line->mapped) {
        at = vtdm_map(&manager, 1, 0x1001, 1, 0, VTDM_READ).value;
        must(vtdm_dma(&manager, DEVICE, at, false, true, true).status == VTDM_OK);
    }
    double spent;
    if (line->run != NULL) {
        double start = now();
        line->run(&manager, at, rounds);
        spent = now() - start;
    } else {
        spent = crowded(&manager, &line->crowd, rounds);
    }
    vtdm_destroy(&manager);
    return spent / (double)rounds;
}

static int compare(const void *a, const void *b) {
    double x = *(const double *)a, y = *(const double *)b;
    return (x > y) - (x < y);
}

int main(int argc, char **argv) {
    uint64_t rounds = argc > 1 ? strtoull(argv[1], NULL, 10) : 100000;
    if (rounds == 0)
        rounds = 1;
    printf("%-56s %9s %11s\n", "nanoseconds a round", "least", "median");
    for (size_t i = 0; i < sizeof lines / sizeof lines[0]; i++) {
        double turns[TURNS];
        if (argc > 2 && strcmp(argv[2], lines[i].name) != 0)
            continue;
        for (int k = 0; k < TURNS; k++)
            turns[k] = turn(&lines[i], rounds);
        qsort(turns, TURNS, sizeof turns[0], compare);
        printf("%-56s %9.1f %11.1f\n", lines[i].name, turns[0], turns[TURNS / 2]);
    }
    return 0;
}
