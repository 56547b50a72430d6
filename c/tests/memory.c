/* Memory, by an allocator of this test's own, which the linker puts before malloc, realloc and free (--wrap). Creation is refused at
 * each of its requests in turn, nothing leaks, and a million calls of all functions ask for none. The table frames' words stand in one
 * block, frame after frame. Each is tried of a manager with the library's unit, and of a driven one. */
#include "check.h"
#include "vtdm.h"

#include <stdlib.h>
#include <string.h>

enum { CALLS = 1000000, LEAST_CALLS = 1000, MOST_LIVE = 1000, TICKETS = 64, LEAST_REQUESTS = 30, MANAGERS = 1000, JUNK = 0xA5 };

/* Words of a table frame. */
enum { TABLE_WORDS = 512 };

void *__real_malloc(size_t size);
void *__real_realloc(void *block, size_t size);
void __real_free(void *block);
void *__wrap_malloc(size_t size);
void *__wrap_realloc(void *block, size_t size);
void __wrap_free(void *block);

/* How many requests were made, the number of the one that is refused, how many blocks are held, and how many were given back. */
static long asked, refused, held, freed;

/* How many bytes were asked for. */
static uint64_t bytes;

/* A length in bytes, and the block of it that was asked for last, which was full of junk then; and how many of it there were. */
static size_t sought;
static uint64_t *block_found;
static int blocks_found;

static bool is_refused(void) {
    return ++asked == refused;
}

void *__wrap_malloc(size_t size) {
    void *block = is_refused() ? NULL : __real_malloc(size);
    bytes += size;
    held += block != NULL;
    if (block && size == sought) {
        block_found = memset(block, JUNK, size);
        blocks_found++;
    }
    return block;
}

void *__wrap_realloc(void *block, size_t size) {
    void *moved = is_refused() ? NULL : __real_realloc(block, size);
    bytes += size;
    held += moved && !block;
    return moved;
}

void __wrap_free(void *block) {
    held -= block != NULL;
    freed++;
    __real_free(block);
}

/* How a manager is made: without Caching Mode, with it, and either for a unit of one's own. */
enum creation { PLAIN, CACHING, DRIVEN, DRIVEN_CACHING, CREATIONS };

/* Where the table frames begin then. */
static uint64_t base_of(enum creation how) {
    return how == DRIVEN_CACHING ? TABLE_WORDS : 0;
}

static uint64_t create(struct vtdm *manager, uint64_t frames, enum creation how) {
    switch (how) {
    case PLAIN: return vtdm_create(manager, frames);
    case CACHING: return vtdm_create_caching(manager, frames);
    default: return vtdm_create_driven(manager, frames, base_of(how), how == DRIVEN_CACHING, 0x8000);
    }
}

/* Refuses one request of a creation; answers whether there were as many. */
static bool refuse(uint64_t frames, enum creation how, long number) {
    struct vtdm manager = VTDM_INIT;
    asked = 0;
    refused = number;
    uint64_t status = create(&manager, frames, how);
    refused = 0;
    if (asked < number) {
        CHECK(status == VTDM_OK);
        vtdm_destroy(&manager);
        CHECK(held == 0);
        return false;
    }
    CHECK(status == VTDM_NO_MEMORY && asked == number && held == 0);
    ANSWERS(vtdm_domain(&manager, false), VTDM_ABSENT, 0);
    CHECK(vtdm_create(&manager, frames) == VTDM_OK);
    ANSWERS(vtdm_domain(&manager, false), VTDM_OK, 1);
    vtdm_destroy(&manager);
    CHECK(held == 0);
    return true;
}

/* A creation that can't be asks for nothing. */
static void judge_before(void) {
    struct vtdm manager = VTDM_INIT;
    asked = 0;
    refused = 1;
    CHECK(vtdm_create_driven(&manager, 64, 0, false, 0x8001) == VTDM_BAD_ADDRESS);
    CHECK(vtdm_create_driven(&manager, 64, 1, false, 0x8000) == VTDM_BAD_BASE);
    CHECK(vtdm_create_driven(&manager, 15, 0, false, 0x8000) == VTDM_BAD_FRAMES);
    CHECK(asked == 0 && held == 0);
    refused = 0;
}

/* A creation asks for about 1.4 MiB, and for a page more for each table frame. */
static void count_bytes(uint64_t frames, enum creation how) {
    struct vtdm manager = VTDM_INIT;
    const uint64_t pages = frames * VTDM_PAGE_BYTES, beside = UINT64_C(1400) << 10, margin = UINT64_C(100) << 10;
    bytes = 0;
    CHECK(create(&manager, frames, how) == VTDM_OK);
    CHECK(bytes > pages + beside - margin && bytes < pages + beside + margin);
    vtdm_destroy(&manager);
}

/* An end asks for nothing and gives back all that the creation took. */
static void create_and_destroy(void) {
    struct vtdm manager = VTDM_INIT;
    bool same = true;
    for (int i = 0; i < MANAGERS; i++) {
        same = same && create(&manager, VTDM_LEAST_TABLE_FRAMES, (enum creation)(i % CREATIONS)) == VTDM_OK && held > 0;
        vtdm_domain(&manager, i % 2);
        long before = asked;
        vtdm_destroy(&manager);
        same = same && asked == before && held == 0;
    }
    CHECK(same);
}

/* Whether each word of the table frames stands at its place in the block, where frames are counted from the base; and how many are
 * present. */
static bool is_in_order(struct vtdm *manager, uint64_t frames, uint64_t base, uint64_t *present) {
    bool same = true;
    *present = 0;
    for (uint64_t place = 0; place < frames * TABLE_WORDS; place++) {
        struct vtdm_answer word = vtdm_table_word(manager, place / TABLE_WORDS, place % TABLE_WORDS);
        uint64_t found = block_found[place] ? block_found[place] + base * VTDM_PAGE_BYTES : 0;
        same = same && word.status == VTDM_OK && word.value == found;
        *present += word.value != 0;
    }
    return same;
}

/* The words of the table frames are one block, frame after frame, and a creation writes all of it. It is the only one of its length,
 * unless the frames are the fewest. */
static void words_in_order(uint64_t frames, enum creation how) {
    struct vtdm manager = VTDM_INIT;
    uint64_t present;
    sought = frames * VTDM_PAGE_BYTES;
    blocks_found = 0;
    CHECK(create(&manager, frames, how) == VTDM_OK);
    sought = 0;
    if (CHECK(blocks_found == 1)) {
        CHECK(is_in_order(&manager, frames, base_of(how), &present) && present == 0);
        ANSWERS(vtdm_domain(&manager, false), VTDM_OK, 1);
        ANSWERS(vtdm_domain_wide(&manager, true), VTDM_OK, 2);
        CHECK(vtdm_map(&manager, 1, 0x8000, 1024, 9, VTDM_READ).status == VTDM_OK);
        CHECK(vtdm_map(&manager, 1, 0x2000, 5, 0, VTDM_READ | VTDM_WRITE).status == VTDM_OK);
        CHECK(vtdm_map(&manager, 2, 0x3001, 600, 0, VTDM_WRITE).status == VTDM_OK);
        CHECK(is_in_order(&manager, frames, base_of(how), &present) && present > 600);
    }
    vtdm_destroy(&manager);
}

/* Every function but the creations. */
enum function {
    DOMAIN, DOMAIN_WIDE, DROP, ATTACH, DETACH, DETACH_ALL, MAP, MAP_LIST, UNMAP, FLUSH, BEGIN, UNIT, DONE_UP_TO, REAP, DMA, EVICT,
    TOTALS, DOMAIN_TOTALS, DOMAIN_OF, DEVICES_OF, MODE_OF, WIDTH_OF, EFFECTS, ROOT_OF, TABLE_WORD, WORDS,
    CONTEXT, SENT, WAITS, DESTROY, FUNCTIONS
};

static const char *const names[FUNCTIONS] = {
    "domain", "domain_wide", "drop", "attach", "detach", "detach_all", "map", "map_list", "unmap", "flush", "begin", "unit", "done_up_to",
    "reap", "dma", "evict", "totals", "domain_totals", "domain_of", "devices_of", "mode_of", "width_of", "effects", "root_of", "table_word",
    "words", "context", "sent", "waits", "destroy",
};

/* How often each function was called, and how often it answered VTDM_OK. */
static long called[FUNCTIONS], done[FUNCTIONS];

/* The ranges that were mapped, and the tickets that were begun: those of a domain that was dropped are refused later. */
static struct { uint64_t domain, address, pages; } live[MOST_LIVE];
static struct { uint64_t domain, number; } tickets[TICKETS];
static size_t lives, begun;

static uint64_t pick(uint64_t below) {
    return (uint64_t)rand() % below;
}

/* Devices and tickets are of domains 1 to 8, so that the others can be dropped. */
static uint64_t lasting_domain(void) {
    return 1 + pick(8);
}

static uint64_t any_domain(void) {
    return 1 + pick(VTDM_MOST_DOMAINS);
}

static uint64_t map(struct vtdm *manager, bool list) {
    uint64_t domain = any_domain(), pages = 1 + pick(600), order = pick(VTDM_MOST_ORDER + 1), frame = 0x2000 + pick(4096);
    const struct vtdm_segment segments[] = {{frame, pages}, {0x4000, 1}, {0x8000, 3}};
    struct vtdm_answer at = list ? vtdm_map_list(manager, domain, order, VTDM_READ, segments, 3)
                                 : vtdm_map(manager, domain, frame, pages, order, VTDM_READ | VTDM_WRITE);
    size_t place = lives < MOST_LIVE ? lives++ : pick(MOST_LIVE);
    live[place].domain = at.status == VTDM_OK ? domain : 0;
    live[place].address = at.value;
    live[place].pages = list ? pages + 4 : pages;
    return at.status;
}

static uint64_t unmap(struct vtdm *manager) {
    size_t one = pick(lives + 1);
    if (one == lives)
        return vtdm_unmap(manager, any_domain(), 0x1000 * pick(4096), 1).status;
    uint64_t status = vtdm_unmap(manager, live[one].domain, live[one].address, live[one].pages).status;
    live[one] = live[--lives];
    return status;
}

static uint64_t begin(struct vtdm *manager) {
    uint64_t domain = lasting_domain();
    struct vtdm_answer ticket = vtdm_begin(manager, domain);
    if (ticket.status == VTDM_OK && begun < TICKETS) {
        tickets[begun].domain = domain;
        tickets[begun++].number = ticket.value;
    }
    return ticket.status;
}

static uint64_t reap(struct vtdm *manager) {
    if (!begun)
        return vtdm_reap(manager, lasting_domain(), pick(TICKETS)).status;
    size_t one = pick(begun);
    uint64_t status = vtdm_reap(manager, tickets[one].domain, tickets[one].number).status;
    if (status == VTDM_OK)
        tickets[one] = tickets[--begun];
    return status;
}

static uint64_t request(struct vtdm *manager) {
    uint64_t address = lives && pick(2) ? live[pick(lives)].address : pick(VTDM_ADDRESSES_END);
    return vtdm_dma(manager, pick(17), address, pick(2), pick(2), pick(2)).status;
}

static uint64_t effects(struct vtdm *manager) {
    struct vtdm_effect to[VTDM_MOST_EFFECTS];
    return vtdm_effects(manager, to, pick(VTDM_MOST_EFFECTS)).status;
}

static uint64_t words(struct vtdm *manager) {
    uint64_t to[TABLE_WORDS];
    return vtdm_words(manager, pick(4100), pick(400), to, pick(TABLE_WORDS));
}

static uint64_t call(struct vtdm *manager, enum function function) {
    switch (function) {
    case DOMAIN: return vtdm_domain(manager, pick(2)).status;
    case DOMAIN_WIDE: return vtdm_domain_wide(manager, pick(2)).status;
    case DROP: return vtdm_drop(manager, any_domain()).status;
    case ATTACH: return vtdm_attach(manager, pick(VTDM_DEVICES), lasting_domain()).status;
    case DETACH: return vtdm_detach(manager, pick(VTDM_DEVICES)).status;
    case DETACH_ALL: return vtdm_detach_all(manager, pick(VTDM_DEVICES)).status;
    case MAP: return map(manager, false);
    case MAP_LIST: return map(manager, true);
    case UNMAP: return unmap(manager);
    case FLUSH: return vtdm_flush(manager, any_domain()).status;
    case BEGIN: return begin(manager);
    case UNIT: return vtdm_unit(manager).status;
    case DONE_UP_TO: return vtdm_done_up_to(manager, vtdm_waits(manager).value + 1 - pick(4)).status;
    case REAP: return reap(manager);
    case DMA: return request(manager);
    case EVICT: return vtdm_evict(manager, pick(4), pick(64)).status;
    case TOTALS: return vtdm_totals(manager).status;
    case DOMAIN_TOTALS: return vtdm_domain_totals(manager, any_domain()).status;
    case DOMAIN_OF: return vtdm_domain_of(manager, pick(VTDM_DEVICES)).status;
    case DEVICES_OF: return vtdm_devices_of(manager, any_domain()).status;
    case MODE_OF: return vtdm_mode_of(manager, any_domain()).status;
    case WIDTH_OF: return vtdm_width_of(manager, any_domain()).status;
    case EFFECTS: return effects(manager);
    case ROOT_OF: return vtdm_root_of(manager, any_domain()).status;
    case TABLE_WORD: return vtdm_table_word(manager, pick(4100), pick(520)).status;
    case WORDS: return words(manager);
    case CONTEXT: return vtdm_context(manager, pick(17)).status;
    case SENT: return vtdm_sent(manager, pick(260)).status;
    case WAITS: return vtdm_waits(manager).status;
    default: break;
    }
    struct vtdm none = VTDM_INIT;
    vtdm_destroy(&none);
    return VTDM_OK;
}

/* So many calls, of each function about as many. */
static void calls_ask_for_none(enum creation how, long calls) {
    struct vtdm manager = VTDM_INIT;
    CHECK(create(&manager, VTDM_MOST_TABLE_FRAMES, how) == VTDM_OK);
    lives = begun = 0;
    long before_asked = asked, before_freed = freed, before_held = held;
    for (long i = 0; i < calls; i++) {
        enum function one = (enum function)pick(FUNCTIONS);
        called[one]++;
        done[one] += call(&manager, one) == VTDM_OK;
    }
    CHECK(asked == before_asked && freed == before_freed && held == before_held);
    vtdm_destroy(&manager);
    CHECK(held == 0);
}

static void each_was_called(void) {
    for (int i = 0; i < FUNCTIONS; i++) {
        printf("vtdm_%s: %ld calls, %ld of them done\n", names[i], called[i], done[i]);
        CHECK(done[i] >= LEAST_CALLS);
    }
}

int main(void) {
    static const uint64_t sizes[] = {VTDM_LEAST_TABLE_FRAMES, 64, VTDM_MOST_TABLE_FRAMES};
    printf("memory\n"); /* the C library's buffer, outside the counts */
    held = 0;
    for (size_t i = 0; i < CREATIONS * sizeof sizes / sizeof sizes[0]; i++) {
        long number = 1;
        while (refuse(sizes[i / CREATIONS], (enum creation)(i % CREATIONS), number))
            number++;
        CHECK(number > LEAST_REQUESTS);
    }
    judge_before();
    for (size_t i = 0; i < 2; i++) {
        const enum creation how = i ? DRIVEN : PLAIN;
        count_bytes(VTDM_LEAST_TABLE_FRAMES, how);
        count_bytes(VTDM_MOST_TABLE_FRAMES, how);
        words_in_order(VTDM_LEAST_TABLE_FRAMES + 1, how);
        words_in_order(VTDM_MOST_TABLE_FRAMES, how);
        calls_ask_for_none(how, CALLS / 2);
    }
    create_and_destroy();
    each_was_called();
    return check_end();
}
