/* What the functions themselves refuse, what lies at the edge of each limit, and what readers answer: with no manager, with one, and
 * after its end. */
#include "check.h"
#include "vtdm.h"

enum { MANY_SEGMENTS = VTDM_MOST_SEGMENTS + 1 };

/* Words of a table frame, what stands where nothing is written, and how many descriptors the queue holds. */
enum { TABLE_WORDS = 512, JUNK = 0xA5, HELD = 256 };

static void check_absent(struct vtdm *manager) {
    struct vtdm_segment segments[MANY_SEGMENTS] = {{0x100, 1}};
    ANSWERS(vtdm_domain(manager, true), VTDM_ABSENT, 0);
    ANSWERS(vtdm_domain_wide(manager, true), VTDM_ABSENT, 0);
    ANSWERS(vtdm_drop(manager, 1), VTDM_ABSENT, 0);
    ANSWERS(vtdm_attach(manager, 0, 1), VTDM_ABSENT, 0);
    ANSWERS(vtdm_detach(manager, 0), VTDM_ABSENT, 0);
    ANSWERS(vtdm_detach_all(manager, VTDM_DEVICES), VTDM_ABSENT, 0);
    ANSWERS(vtdm_map(manager, 1, 0x100, 1, 0, VTDM_READ), VTDM_ABSENT, 0);
    ANSWERS(vtdm_map_list(manager, 1, 0, VTDM_READ, segments, 1), VTDM_ABSENT, 0);
    ANSWERS(vtdm_map_list(manager, 1, 0, VTDM_READ, segments, MANY_SEGMENTS), VTDM_ABSENT, 0);
    ANSWERS(vtdm_unmap(manager, 1, 0x1000, 1), VTDM_ABSENT, 0);
    ANSWERS(vtdm_flush(manager, 1), VTDM_ABSENT, 0);
    ANSWERS(vtdm_begin(manager, 1), VTDM_ABSENT, 0);
    ANSWERS(vtdm_unit(manager), VTDM_ABSENT, 0);
    ANSWERS(vtdm_done_up_to(manager, 0), VTDM_ABSENT, 0);
    ANSWERS(vtdm_reap(manager, 1, 1), VTDM_ABSENT, 0);
    ANSWERS(vtdm_dma(manager, 0, 0x1000, false, true, true), VTDM_ABSENT, 0);
    ANSWERS(vtdm_evict(manager, VTDM_CACHE_LEAF, 0), VTDM_ABSENT, 0);
    ANSWERS(vtdm_evict(manager, VTDM_CACHE_FAULT + 1, 0), VTDM_ABSENT, 0);
    ANSWERS(vtdm_domain_of(manager, 0), VTDM_ABSENT, 0);
    ANSWERS(vtdm_devices_of(manager, 1), VTDM_ABSENT, 0);
    ANSWERS(vtdm_mode_of(manager, 1), VTDM_ABSENT, 0);
    ANSWERS(vtdm_width_of(manager, 1), VTDM_ABSENT, 0);
    ANSWERS(vtdm_root_of(manager, 1), VTDM_ABSENT, 0);
    ANSWERS(vtdm_table_word(manager, 0, 0), VTDM_ABSENT, 0);
    CHECK(vtdm_totals(manager).status == VTDM_ABSENT);
    CHECK(vtdm_domain_totals(manager, 1).status == VTDM_ABSENT);
    CHECK(vtdm_context(manager, 0).status == VTDM_ABSENT);
    CHECK(vtdm_sent(manager, 0).status == VTDM_ABSENT);
    ANSWERS(vtdm_waits(manager), VTDM_ABSENT, 0);
    uint64_t words[] = {JUNK};
    CHECK(vtdm_words(manager, 0, 0, words, 1) == VTDM_ABSENT && words[0] == JUNK);
    struct vtdm_effect effects[] = {{JUNK, JUNK, JUNK, JUNK, JUNK, JUNK}};
    ANSWERS(vtdm_effects(manager, effects, 1), VTDM_ABSENT, 0);
    ANSWERS(vtdm_effects(manager, effects, 0), VTDM_ABSENT, 0);
    CHECK(effects[0].kind == JUNK && effects[0].high == JUNK);
}

static void check_limits(struct vtdm *manager) {
    struct vtdm_segment segments[MANY_SEGMENTS];
    for (uint64_t i = 0; i < MANY_SEGMENTS; i++)
        segments[i] = (struct vtdm_segment){0x100 + 2 * i, 1};
    ANSWERS(vtdm_domain(manager, false), VTDM_OK, 1);
    ANSWERS(vtdm_domain(manager, true), VTDM_OK, 2);
    ANSWERS(vtdm_map_list(manager, 1, 0, VTDM_READ, segments, 0), VTDM_BAD_RANGE, 0);
    ANSWERS(vtdm_map_list(manager, 1, 0, VTDM_READ, segments, MANY_SEGMENTS), VTDM_MANY_SEGMENTS, 0);
    ANSWERS(vtdm_map_list(manager, 1, 0, VTDM_READ, segments, VTDM_MOST_SEGMENTS), VTDM_OK, 0x1000);
    ANSWERS(vtdm_map_list(manager, 0, UINT64_MAX, 0, segments, MANY_SEGMENTS), VTDM_MANY_SEGMENTS, 0);
    ANSWERS(vtdm_map(manager, 1, UINT64_MAX, UINT64_MAX, UINT64_MAX, UINT64_MAX), VTDM_BAD_RANGE, 0);
    ANSWERS(vtdm_map(manager, UINT64_MAX, 0x100, 1, 0, VTDM_READ), VTDM_NO_DOMAIN, 0);
    ANSWERS(vtdm_unmap(manager, 1, UINT64_MAX, UINT64_MAX), VTDM_BAD_RANGE, 0);
    ANSWERS(vtdm_reap(manager, UINT64_MAX, UINT64_MAX), VTDM_BAD_TICKET, 0);
    ANSWERS(vtdm_attach(manager, UINT64_MAX, 1), VTDM_NO_DEVICE, 0);
    ANSWERS(vtdm_detach(manager, 16), VTDM_NO_DEVICE, 0);
    ANSWERS(vtdm_detach(manager, 15), VTDM_NOT_ATTACHED, 0);
    ANSWERS(vtdm_detach_all(manager, UINT64_MAX), VTDM_NO_DEVICE, 0);
    ANSWERS(vtdm_dma(manager, 15, UINT64_MAX, true, true, true), VTDM_FAULT_NOT_ATTACHED, 0);
    ANSWERS(vtdm_evict(manager, VTDM_CACHE_CONTEXT, UINT64_MAX), VTDM_OK, 0);
    ANSWERS(vtdm_evict(manager, VTDM_CACHE_FAULT, 0), VTDM_OK, 0);
    ANSWERS(vtdm_evict(manager, VTDM_CACHE_FAULT + 1, 0), VTDM_BAD_CACHE, 0);
    ANSWERS(vtdm_evict(manager, UINT64_MAX, 0), VTDM_BAD_CACHE, 0);
}

static struct vtdm_answer map_read(struct vtdm *manager, uint64_t frame, uint64_t pages, uint64_t order) {
    return vtdm_map(manager, 1, frame, pages, order, VTDM_READ);
}

/* The last number within each limit is taken, the next one refused. */
static void check_edges(void) {
    struct vtdm manager = VTDM_INIT;
    const struct vtdm_answer bad = {VTDM_BAD_RANGE, 0};
    CHECK(vtdm_create(&manager, VTDM_LEAST_TABLE_FRAMES - 1) == VTDM_BAD_FRAMES);
    CHECK(vtdm_create(&manager, VTDM_MOST_TABLE_FRAMES + 1) == VTDM_BAD_FRAMES);
    CHECK(vtdm_create(&manager, VTDM_MOST_TABLE_FRAMES) == VTDM_OK);
    ANSWERS(vtdm_domain(&manager, false), VTDM_OK, 1);
    ANSWERS(vtdm_attach(&manager, VTDM_DEVICES - 1, 1), VTDM_OK, 0);
    ANSWERS(vtdm_attach(&manager, VTDM_DEVICES, 1), VTDM_NO_DEVICE, 0);
    ANSWERS(map_read(&manager, VTDM_MOST_TABLE_FRAMES - 1, 1, 0), VTDM_FRAME_OWNED, 0);
    ANSWERS(map_read(&manager, VTDM_MOST_TABLE_FRAMES, VTDM_MOST_PAGES, VTDM_MOST_ORDER), VTDM_OK, 0x200000);
    ANSWERS(map_read(&manager, VTDM_FRAMES_END - 1, 1, 0), VTDM_OK, 0x1000);
    ANSWERS(map_read(&manager, VTDM_FRAMES_END - 1, 2, 0), bad.status, bad.value);
    ANSWERS(map_read(&manager, VTDM_MOST_TABLE_FRAMES, VTDM_MOST_PAGES + 1, 0), bad.status, bad.value);
    ANSWERS(map_read(&manager, VTDM_MOST_TABLE_FRAMES, 1, VTDM_MOST_ORDER + 1), bad.status, bad.value);
    ANSWERS(vtdm_map(&manager, 1, VTDM_MOST_TABLE_FRAMES, 1, 0, 0), bad.status, bad.value);
    ANSWERS(vtdm_map(&manager, 1, VTDM_MOST_TABLE_FRAMES, 1, 0, VTDM_READ + VTDM_WRITE + 1), bad.status, bad.value);
    ANSWERS(vtdm_unmap(&manager, 1, 0x1001, 1), bad.status, bad.value);
    ANSWERS(vtdm_unmap(&manager, 1, 0, 1), bad.status, bad.value);
    ANSWERS(vtdm_unmap(&manager, 1, 0x200000, VTDM_MOST_PAGES + 1), bad.status, bad.value);
    ANSWERS(vtdm_unmap(&manager, 1, VTDM_WINDOW_LAST * VTDM_PAGE_BYTES, 1), bad.status, bad.value);
    ANSWERS(vtdm_unmap(&manager, 1, (VTDM_WINDOW_FIRST - 1) * VTDM_PAGE_BYTES, 1), VTDM_NOT_LIVE, 0);
    ANSWERS(vtdm_unmap(&manager, 1, (VTDM_WINDOW_FIRST - 1) * VTDM_PAGE_BYTES, 2), bad.status, bad.value);
    ANSWERS(vtdm_unmap(&manager, 1, (VTDM_WINDOW_LAST + 1) * VTDM_PAGE_BYTES, 1), VTDM_NOT_LIVE, 0);
    ANSWERS(vtdm_unmap(&manager, 1, VTDM_ADDRESSES_END, 1), bad.status, bad.value);
    ANSWERS(vtdm_unmap(&manager, 1, VTDM_ADDRESSES_END - VTDM_PAGE_BYTES, 1), VTDM_NOT_LIVE, 0);
    ANSWERS(vtdm_dma(&manager, 15, VTDM_WINDOW_FIRST * VTDM_PAGE_BYTES - 1, false, false, false), VTDM_FAULT_READ, 0);
    ANSWERS(vtdm_dma(&manager, 15, VTDM_WINDOW_FIRST * VTDM_PAGE_BYTES, false, false, false), VTDM_WINDOW, 0);
    ANSWERS(vtdm_dma(&manager, 0, VTDM_WINDOW_FIRST * VTDM_PAGE_BYTES, false, false, false), VTDM_WINDOW, 0);
    ANSWERS(vtdm_dma(&manager, 15, VTDM_ADDRESSES_END - 1, false, false, false), VTDM_FAULT_READ, 0);
    ANSWERS(vtdm_unmap(&manager, 1, 0x200000, VTDM_MOST_PAGES), VTDM_OK, 0);
    vtdm_destroy(&manager);
}

/* A page that the unit remembers as absent is reached once it is mapped; without Caching Mode a map leaves the queue alone. */
static void check_caching_mode(bool caching) {
    struct vtdm manager = VTDM_INIT;
    CHECK((caching ? vtdm_create_caching(&manager, 64) : vtdm_create(&manager, 64)) == VTDM_OK);
    ANSWERS(vtdm_domain(&manager, false), VTDM_OK, 1);
    ANSWERS(vtdm_attach(&manager, 3, 1), VTDM_OK, 0);
    ANSWERS(vtdm_dma(&manager, 3, 0x1000, false, true, true), VTDM_FAULT_READ, 0);
    ANSWERS(vtdm_begin(&manager, 1), VTDM_OK, 1);
    ANSWERS(map_read(&manager, 0x100, 0, 0), VTDM_BAD_RANGE, 0);
    CHECK(vtdm_totals(&manager).pending == 2);
    ANSWERS(map_read(&manager, 0x100, 1, 0), VTDM_OK, 0x1000);
    CHECK(vtdm_totals(&manager).pending == (caching ? 0 : 2));
    ANSWERS(vtdm_dma(&manager, 3, 0x1000, false, true, false), VTDM_OK, 0x100000);
    vtdm_destroy(&manager);
}

/* The last address of a width is within it, the next one beyond. */
static void check_end_of_width(struct vtdm *manager, uint64_t domain, uint64_t end) {
    const uint64_t device = domain;
    ANSWERS(vtdm_attach(manager, device, domain), VTDM_OK, 0);
    ANSWERS(vtdm_dma(manager, device, end - 1, false, true, true), VTDM_FAULT_READ, 0);
    ANSWERS(vtdm_dma(manager, device, end, false, true, true), VTDM_FAULT_BEYOND_WIDTH, 0);
    ANSWERS(vtdm_dma(manager, device, UINT64_MAX, true, false, false), VTDM_FAULT_BEYOND_WIDTH, 0);
    ANSWERS(vtdm_unmap(manager, domain, end - VTDM_PAGE_BYTES, 1), VTDM_NOT_LIVE, 0);
    ANSWERS(vtdm_unmap(manager, domain, end - VTDM_PAGE_BYTES, 2), VTDM_BAD_RANGE, 0);
    ANSWERS(vtdm_unmap(manager, domain, end, 1), VTDM_BAD_RANGE, 0);
}

/* A domain of each width and mode, and what the width changes: where addresses end, where maps begin, and the tables of a page. */
static void check_widths(void) {
    struct vtdm manager = VTDM_INIT;
    CHECK(vtdm_create(&manager, 64) == VTDM_OK);
    for (uint64_t domain = 1; domain <= 4; domain++) {
        bool wide = domain > 2, lazy = domain % 2;
        ANSWERS(wide ? vtdm_domain_wide(&manager, lazy) : vtdm_domain(&manager, lazy), VTDM_OK, domain);
        ANSWERS(vtdm_width_of(&manager, domain), VTDM_OK, wide ? 48 : 39);
        ANSWERS(vtdm_mode_of(&manager, domain), VTDM_OK, lazy ? VTDM_LAZY : VTDM_STRICT);
        check_end_of_width(&manager, domain, wide ? VTDM_WIDE_ADDRESSES_END : VTDM_ADDRESSES_END);
        ANSWERS(vtdm_dma(&manager, domain, VTDM_ADDRESSES_END, true, true, true), wide ? VTDM_FAULT_WRITE : VTDM_FAULT_BEYOND_WIDTH, 0);
        ANSWERS(vtdm_unmap(&manager, domain, VTDM_ADDRESSES_END - VTDM_PAGE_BYTES, 2), wide ? VTDM_NOT_LIVE : VTDM_BAD_RANGE, 0);
        uint64_t before = vtdm_totals(&manager).used, at = wide ? VTDM_ADDRESSES_END : VTDM_PAGE_BYTES;
        ANSWERS(vtdm_map(&manager, domain, 0x100, 1, 0, VTDM_READ), VTDM_OK, at);
        CHECK(vtdm_totals(&manager).used == before + (wide ? 3 : 2));
        ANSWERS(vtdm_dma(&manager, domain, at + 1, false, true, true), VTDM_OK, 0x100001);
        ANSWERS(vtdm_unmap(&manager, domain, at, 1), VTDM_OK, 0);
    }
    vtdm_destroy(&manager);
}

/* Refusals and faults by their names. The limit on pieces has a row of its own, and keeps a range from ever lacking. */
static void check_names(void) {
    struct vtdm manager = VTDM_INIT;
    CHECK(vtdm_create(&manager, 17) == VTDM_OK);
    for (uint64_t domain = 1; domain <= VTDM_MOST_DOMAINS; domain++)
        ANSWERS(vtdm_domain(&manager, domain == 2), VTDM_OK, domain);
    ANSWERS(vtdm_domain(&manager, false), VTDM_TOO_MANY_DOMAINS, 0);
    ANSWERS(vtdm_domain_wide(&manager, false), VTDM_TOO_MANY_DOMAINS, 0);
    ANSWERS(vtdm_attach(&manager, 0, 1), VTDM_OK, 0);
    ANSWERS(vtdm_attach(&manager, 0, 2), VTDM_BUSY, 0);
    ANSWERS(vtdm_drop(&manager, 1), VTDM_BUSY, 0);
    ANSWERS(vtdm_map(&manager, 1, 16, 1, 0, VTDM_READ), VTDM_FRAME_OWNED, 0);
    ANSWERS(vtdm_map(&manager, 1, 17, 1, 0, VTDM_READ), VTDM_OK, 0x1000);
    ANSWERS(vtdm_map(&manager, 2, 17, 1, 0, VTDM_READ), VTDM_NO_FRAMES, 0);
    ANSWERS(vtdm_unmap(&manager, 1, 0x2000, 1), VTDM_NOT_LIVE, 0);
    ANSWERS(vtdm_dma(&manager, 0, 0xfee00000, false, true, true), VTDM_WINDOW, 0);
    ANSWERS(vtdm_dma(&manager, 1, 0x1000, false, true, true), VTDM_FAULT_NOT_ATTACHED, 0);
    ANSWERS(vtdm_dma(&manager, 0, VTDM_ADDRESSES_END, false, true, true), VTDM_FAULT_BEYOND_WIDTH, 0);
    ANSWERS(vtdm_dma(&manager, 0, 0x1000, true, true, true), VTDM_FAULT_WRITE, 0);
    ANSWERS(vtdm_dma(&manager, 0, 0x2000, false, true, true), VTDM_FAULT_READ, 0);
    for (uint64_t ticket = 1; ticket <= VTDM_MOST_TICKETS; ticket++)
        ANSWERS(vtdm_begin(&manager, 2), VTDM_OK, ticket);
    ANSWERS(vtdm_begin(&manager, 2), VTDM_TOO_MANY_TICKETS, 0);
    ANSWERS(vtdm_reap(&manager, 2, 1), VTDM_PENDING, 0);
    ANSWERS(vtdm_drop(&manager, 2), VTDM_BUSY, 0);
    CHECK(vtdm_totals(&manager).tickets == VTDM_MOST_TICKETS && vtdm_totals(&manager).pending == 128);
    vtdm_destroy(&manager);
}

/* A page of a lazy domain is reached after its unmap until the IOTLB drops it. */
static void check_caches(void) {
    struct vtdm manager = VTDM_INIT;
    CHECK(vtdm_create(&manager, 16) == VTDM_OK);
    ANSWERS(vtdm_domain(&manager, true), VTDM_OK, 1);
    ANSWERS(vtdm_attach(&manager, 4, 1), VTDM_OK, 0);
    ANSWERS(vtdm_map(&manager, 1, 0x100, 1, 0, VTDM_READ), VTDM_OK, 0x1000);
    ANSWERS(vtdm_dma(&manager, 4, 0x1234, false, true, true), VTDM_OK, 0x100234);
    ANSWERS(vtdm_unmap(&manager, 1, 0x1000, 1), VTDM_OK, 0);
    ANSWERS(vtdm_evict(&manager, VTDM_CACHE_NON_LEAF, 0), VTDM_OK, 0);
    ANSWERS(vtdm_evict(&manager, VTDM_CACHE_CONTEXT, 0), VTDM_OK, 0);
    ANSWERS(vtdm_dma(&manager, 4, 0x1234, false, true, false), VTDM_OK, 0x100234);
    ANSWERS(vtdm_evict(&manager, VTDM_CACHE_LEAF, 0), VTDM_OK, 0);
    ANSWERS(vtdm_dma(&manager, 4, 0x1234, false, true, false), VTDM_FAULT_READ, 0);
    vtdm_destroy(&manager);
}

static void check_readers(struct vtdm *manager) {
    ANSWERS(vtdm_attach(manager, 15, 2), VTDM_OK, 0);
    ANSWERS(vtdm_attach(manager, 2, 2), VTDM_OK, 0);
    ANSWERS(vtdm_domain_of(manager, 15), VTDM_OK, 2);
    ANSWERS(vtdm_domain_of(manager, 3), VTDM_NOT_ATTACHED, 0);
    ANSWERS(vtdm_domain_of(manager, 16), VTDM_NO_DEVICE, 0);
    ANSWERS(vtdm_devices_of(manager, 2), VTDM_OK, 0x8004);
    ANSWERS(vtdm_devices_of(manager, 1), VTDM_OK, 0);
    ANSWERS(vtdm_devices_of(manager, 0), VTDM_NO_DOMAIN, 0);
    ANSWERS(vtdm_devices_of(manager, 16), VTDM_NO_DOMAIN, 0);
    ANSWERS(vtdm_mode_of(manager, 1), VTDM_OK, VTDM_STRICT);
    ANSWERS(vtdm_mode_of(manager, 2), VTDM_OK, VTDM_LAZY);
    ANSWERS(vtdm_mode_of(manager, 3), VTDM_NO_DOMAIN, 0);
    ANSWERS(vtdm_width_of(manager, 1), VTDM_OK, 39);
    ANSWERS(vtdm_width_of(manager, 3), VTDM_NO_DOMAIN, 0);
    ANSWERS(vtdm_width_of(manager, UINT64_MAX), VTDM_NO_DOMAIN, 0);
    ANSWERS(vtdm_root_of(manager, 3), VTDM_NO_DOMAIN, 0);
    ANSWERS(vtdm_table_word(manager, 63, 511), VTDM_OK, vtdm_table_word(manager, 63, 511).value);
    ANSWERS(vtdm_table_word(manager, 64, 0), VTDM_NO_WORD, 0);
    ANSWERS(vtdm_table_word(manager, 0, 512), VTDM_NO_WORD, 0);
    ANSWERS(vtdm_table_word(manager, UINT64_MAX, UINT64_MAX), VTDM_NO_WORD, 0);
    CHECK(vtdm_domain_totals(manager, 3).status == VTDM_NO_DOMAIN);
    CHECK(vtdm_context(manager, 16).status == VTDM_NO_DEVICE);
    struct vtdm_totals_answer all = vtdm_totals(manager);
    CHECK(all.status == VTDM_OK && all.free == 60 && all.used == 4 && all.held == 0 && all.tickets == 0 && all.pending == 0);
    struct vtdm_domain_totals_answer one = vtdm_domain_totals(manager, 1);
    CHECK(one.status == VTDM_OK && one.mode == VTDM_STRICT && one.live == 16 && one.retired == 0 && one.pieces == 3);
}

/* Words of a table frame at once are those that are read alone, as many as are asked for; where some of them lack, none is written. */
static void check_words(struct vtdm *manager) {
    static const struct { uint64_t frame, first; size_t count; } bad[] = {
        {64, 0, 1}, {64, 0, 0}, {UINT64_MAX, 0, 1}, {0, 512, 1}, {0, 511, 2},
        {0, 513, 0}, {0, 0, 513}, {0, UINT64_MAX, 1}, {0, UINT64_MAX, 0},
    };
    uint64_t root = vtdm_root_of(manager, 1).value, words[TABLE_WORDS + 1] = {0};
    CHECK(vtdm_words(manager, root, 0, words, TABLE_WORDS) == VTDM_OK && words[0] != 0);
    for (uint64_t index = 0; index < TABLE_WORDS; index++)
        ANSWERS(vtdm_table_word(manager, root, index), VTDM_OK, words[index]);
    words[2] = JUNK;
    CHECK(vtdm_words(manager, root, 0, words + 1, 1) == VTDM_OK && words[1] == words[0] && words[2] == JUNK);
    CHECK(vtdm_words(manager, 63, 511, words, 1) == VTDM_OK);
    CHECK(vtdm_words(manager, 0, 512, words, 0) == VTDM_OK);
    for (size_t i = 0; i < sizeof bad / sizeof bad[0]; i++) {
        words[0] = words[TABLE_WORDS] = JUNK;
        CHECK(vtdm_words(manager, bad[i].frame, bad[i].first, words, bad[i].count) == VTDM_NO_WORD);
        CHECK(words[0] == JUNK && words[TABLE_WORDS] == JUNK);
    }
}

static bool sent_is(struct vtdm *manager, uint64_t back, uint64_t low, uint64_t high) {
    struct vtdm_sent_answer sent = vtdm_sent(manager, back);
    return sent.status == VTDM_OK && sent.low == low && sent.high == high;
}

/* The wait of a number, by the specification's bits. */
static bool is_wait(struct vtdm *manager, uint64_t back, uint64_t number) {
    return sent_is(manager, back, number << 32 | 0x25, UINT64_C(1) << 36);
}

/* What was sent, from the last one back: none at first and by a map; then a strict unmap's, a detach's, and what still waits. Of many
 * the queue holds the last ones. */
static void check_sent(void) {
    struct vtdm manager = VTDM_INIT;
    CHECK(vtdm_create(&manager, 64) == VTDM_OK);
    ANSWERS(vtdm_domain(&manager, false), VTDM_OK, 1);
    ANSWERS(vtdm_attach(&manager, 3, 1), VTDM_OK, 0);
    ANSWERS(vtdm_map(&manager, 1, 0x100, 4, 2, VTDM_READ), VTDM_OK, 0x4000);
    ANSWERS(vtdm_waits(&manager), VTDM_OK, 0);
    CHECK(vtdm_sent(&manager, 0).status == VTDM_NO_DESCRIPTOR && vtdm_sent(&manager, UINT64_MAX).status == VTDM_NO_DESCRIPTOR);
    ANSWERS(vtdm_unmap(&manager, 1, 0x6000, 2), VTDM_OK, 0);
    ANSWERS(vtdm_waits(&manager), VTDM_OK, 1);
    CHECK(is_wait(&manager, 0, 1) && sent_is(&manager, 1, 0x100f2, 0x6041));
    ANSWERS(vtdm_detach(&manager, 3), VTDM_OK, 0);
    CHECK(is_wait(&manager, 0, 2) && sent_is(&manager, 1, UINT64_C(24) << 32 | 0x10031, 0) && is_wait(&manager, 2, 1));
    ANSWERS(vtdm_begin(&manager, 1), VTDM_OK, 1);
    ANSWERS(vtdm_waits(&manager), VTDM_OK, 3);
    CHECK(is_wait(&manager, 0, 3) && sent_is(&manager, 1, 0x100e2, 0) && is_wait(&manager, 2, 2) && is_wait(&manager, 4, 1));
    CHECK(sent_is(&manager, 5, 0x100f2, 0x6041) && vtdm_sent(&manager, 6).status == VTDM_NO_DESCRIPTOR);
    for (uint64_t waits = 4; waits <= 2 * HELD; waits++)
        ANSWERS(vtdm_flush(&manager, 1), VTDM_OK, 0);
    for (uint64_t back = 0; back < HELD; back += 2)
        CHECK(is_wait(&manager, back, 2 * HELD - back / 2) && sent_is(&manager, back + 1, 0x100e2, 0));
    CHECK(vtdm_sent(&manager, HELD).status == VTDM_NO_DESCRIPTOR);
    vtdm_destroy(&manager);
}

/* A device of a lazy or a strict domain is detached and the domain flushed: the unit has nothing of it any more, and another device of the
 * domain stays. */
static void check_detach_all(bool lazy) {
    struct vtdm manager = VTDM_INIT;
    CHECK(vtdm_create(&manager, 64) == VTDM_OK);
    ANSWERS(vtdm_domain(&manager, lazy), VTDM_OK, 1);
    ANSWERS(vtdm_detach_all(&manager, VTDM_DEVICES), VTDM_NO_DEVICE, 0);
    ANSWERS(vtdm_detach_all(&manager, 3), VTDM_NOT_ATTACHED, 0);
    ANSWERS(vtdm_attach(&manager, 3, 1), VTDM_OK, 0);
    ANSWERS(vtdm_attach(&manager, 4, 1), VTDM_OK, 0);
    ANSWERS(map_read(&manager, 0x100, 4, 0), VTDM_OK, 0x1000);
    ANSWERS(vtdm_dma(&manager, 4, 0x1234, false, true, true), VTDM_OK, 0x100234);
    for (uint64_t page = 1; page <= 3; page++)
        ANSWERS(vtdm_unmap(&manager, 1, page * VTDM_PAGE_BYTES, 1), VTDM_OK, 0);
    ANSWERS(vtdm_dma(&manager, 4, 0x1234, false, true, false), lazy ? VTDM_OK : VTDM_FAULT_READ, lazy ? 0x100234 : 0);
    uint64_t before = vtdm_waits(&manager).value;
    ANSWERS(vtdm_detach_all(&manager, 3), VTDM_OK, lazy ? 3 : 0);
    CHECK(vtdm_waits(&manager).value == before + 2 && vtdm_domain_totals(&manager, 1).retired == 0);
    CHECK(sent_is(&manager, 3, UINT64_C(24) << 32 | 0x10031, 0) && sent_is(&manager, 1, 0x100e2, 0));
    ANSWERS(vtdm_dma(&manager, 4, 0x1234, false, true, false), VTDM_FAULT_READ, 0);
    ANSWERS(vtdm_dma(&manager, 4, 0x4234, false, true, false), VTDM_OK, 0x103234);
    ANSWERS(vtdm_dma(&manager, 3, 0x4234, false, true, false), VTDM_FAULT_NOT_ATTACHED, 0);
    ANSWERS(vtdm_detach_all(&manager, 3), VTDM_NOT_ATTACHED, 0);
    vtdm_destroy(&manager);
}

static const struct vtdm_effect none = {JUNK, JUNK, JUNK, JUNK, JUNK, JUNK};

static bool effect_is(const struct vtdm_effect *it, uint64_t kind, uint64_t number, uint64_t first, uint64_t count) {
    return it->kind == kind && it->number == number && it->first == first && it->count == count && it->low == 0 && it->high == 0;
}

static bool is_none(const struct vtdm_effect *it) {
    return it->kind == JUNK && it->number == JUNK && it->first == JUNK && it->count == JUNK && it->low == JUNK && it->high == JUNK;
}

static bool are_none(const struct vtdm_effect *effects, size_t from, size_t end) {
    while (from < end && is_none(&effects[from]))
        from++;
    return from >= end;
}

/* A manager with the library's unit tells no effects, whatever it did and however many places there are. */
static void check_not_driven(bool caching) {
    struct vtdm manager = VTDM_INIT;
    struct vtdm_effect effects[] = {none};
    CHECK((caching ? vtdm_create_caching(&manager, 64) : vtdm_create(&manager, 64)) == VTDM_OK);
    ANSWERS(vtdm_effects(&manager, effects, 1), VTDM_NOT_DRIVEN, 0);
    ANSWERS(vtdm_domain(&manager, false), VTDM_OK, 1);
    ANSWERS(vtdm_attach(&manager, 3, 1), VTDM_OK, 0);
    ANSWERS(vtdm_effects(&manager, effects, 1), VTDM_NOT_DRIVEN, 0);
    ANSWERS(vtdm_effects(&manager, effects, 0), VTDM_NOT_DRIVEN, 0);
    CHECK(is_none(effects));
    vtdm_destroy(&manager);
}

/* Effects are told once, to the first places, and where those are too few, later still. A refused call has none. And the next call forgets
 * what nobody took, but for one that is refused before it counts. */
static void check_effects(void) {
    struct vtdm manager = VTDM_INIT;
    struct vtdm_segment segments[MANY_SEGMENTS] = {{0x100, 1}};
    struct vtdm_effect effects[VTDM_MOST_EFFECTS];
    for (size_t i = 0; i < VTDM_MOST_EFFECTS; i++)
        effects[i] = none;
    CHECK(vtdm_create_driven(&manager, 64, 0, false, 0) == VTDM_OK);
    ANSWERS(vtdm_effects(&manager, effects, 0), VTDM_OK, 0);
    ANSWERS(vtdm_domain(&manager, false), VTDM_OK, 1);
    ANSWERS(vtdm_effects(&manager, effects, 0), VTDM_OK, 0);
    ANSWERS(vtdm_attach(&manager, 3, 1), VTDM_OK, 0);
    for (size_t few = 0; few < 2; few++)
        ANSWERS(vtdm_effects(&manager, effects, few), VTDM_FEW_PLACES, 0);
    CHECK(are_none(effects, 0, VTDM_MOST_EFFECTS));
    ANSWERS(vtdm_domain_of(&manager, 3), VTDM_OK, 1);
    ANSWERS(vtdm_effects(&manager, effects, 2), VTDM_OK, 2);
    CHECK(effect_is(&effects[0], VTDM_EFFECT_CONTEXT, 3, 1, 0) && effect_is(&effects[1], VTDM_EFFECT_BARRIER, 0, 0, 0));
    CHECK(are_none(effects, 2, VTDM_MOST_EFFECTS));
    ANSWERS(vtdm_effects(&manager, effects, VTDM_MOST_EFFECTS), VTDM_OK, 0);
    CHECK(effect_is(&effects[0], VTDM_EFFECT_CONTEXT, 3, 1, 0) && are_none(effects, 2, VTDM_MOST_EFFECTS));
    ANSWERS(vtdm_attach(&manager, 4, 1), VTDM_OK, 0);
    ANSWERS(vtdm_attach(&manager, 5, 1), VTDM_OK, 0);
    ANSWERS(vtdm_effects(&manager, effects, VTDM_MOST_EFFECTS), VTDM_OK, 2);
    CHECK(effect_is(&effects[0], VTDM_EFFECT_CONTEXT, 5, 1, 0) && are_none(effects, 2, VTDM_MOST_EFFECTS));
    ANSWERS(vtdm_attach(&manager, 6, 1), VTDM_OK, 0);
    ANSWERS(vtdm_map_list(&manager, 1, 0, VTDM_READ, segments, MANY_SEGMENTS), VTDM_MANY_SEGMENTS, 0);
    ANSWERS(vtdm_evict(&manager, VTDM_CACHE_FAULT + 1, 0), VTDM_BAD_CACHE, 0);
    ANSWERS(vtdm_effects(&manager, effects, 0), VTDM_FEW_PLACES, 0);
    ANSWERS(vtdm_attach(&manager, 6, 1), VTDM_BUSY, 0);
    ANSWERS(vtdm_effects(&manager, effects, 0), VTDM_OK, 0);
    ANSWERS(vtdm_detach_all(&manager, 7), VTDM_NOT_ATTACHED, 0);
    ANSWERS(vtdm_effects(&manager, effects, 0), VTDM_OK, 0);
    /* What a map asks is told when it is asked for: the same after too few places, and no more once the next call was refused. */
    ANSWERS(vtdm_map(&manager, 1, 0x100, 1, 0, VTDM_READ), VTDM_OK, 0x1000);
    for (size_t few = 0; few < 5; few++)
        ANSWERS(vtdm_effects(&manager, effects, few), VTDM_FEW_PLACES, 0);
    ANSWERS(vtdm_effects(&manager, effects, 5), VTDM_OK, 5);
    ANSWERS(vtdm_effects(&manager, effects, 5), VTDM_OK, 0);
    ANSWERS(vtdm_unmap(&manager, 1, 0x1000, 1), VTDM_OK, 0);
    ANSWERS(vtdm_unmap(&manager, 1, 0x1000, 1), VTDM_NOT_LIVE, 0);
    ANSWERS(vtdm_effects(&manager, effects, VTDM_MOST_EFFECTS), VTDM_OK, 0);
    vtdm_destroy(&manager);
    ANSWERS(vtdm_effects(&manager, effects, VTDM_MOST_EFFECTS), VTDM_ABSENT, 0);
}

/* What waits is done up to a wait: some of it, all, nothing where that is done already or where the wait was never sent. */
static void check_done_up_to(void) {
    struct vtdm manager = VTDM_INIT;
    CHECK(vtdm_create_driven(&manager, 64, 0, false, 0) == VTDM_OK);
    ANSWERS(vtdm_domain(&manager, true), VTDM_OK, 1);
    ANSWERS(vtdm_done_up_to(&manager, 0), VTDM_OK, 0);
    ANSWERS(vtdm_done_up_to(&manager, 1), VTDM_NO_WAIT, 0);
    for (uint64_t number = 1; number <= 4; number++)
        ANSWERS(vtdm_begin(&manager, 1), VTDM_OK, number);
    ANSWERS(vtdm_done_up_to(&manager, 5), VTDM_NO_WAIT, 0);
    ANSWERS(vtdm_done_up_to(&manager, UINT64_MAX), VTDM_NO_WAIT, 0);
    ANSWERS(vtdm_effects(&manager, (struct vtdm_effect[]){none}, 0), VTDM_FEW_PLACES, 0);
    ANSWERS(vtdm_done_up_to(&manager, 0), VTDM_OK, 0);
    ANSWERS(vtdm_effects(&manager, (struct vtdm_effect[]){none}, 0), VTDM_OK, 0);
    CHECK(vtdm_totals(&manager).pending == 8);
    ANSWERS(vtdm_done_up_to(&manager, 2), VTDM_OK, 4);
    ANSWERS(vtdm_reap(&manager, 1, 3), VTDM_PENDING, 0);
    ANSWERS(vtdm_reap(&manager, 1, 2), VTDM_OK, 0);
    ANSWERS(vtdm_unit(&manager), VTDM_OK, 1);
    ANSWERS(vtdm_done_up_to(&manager, 2), VTDM_OK, 0);
    ANSWERS(vtdm_done_up_to(&manager, 3), VTDM_OK, 1);
    ANSWERS(vtdm_reap(&manager, 1, 4), VTDM_PENDING, 0);
    ANSWERS(vtdm_done_up_to(&manager, 4), VTDM_OK, 2);
    ANSWERS(vtdm_reap(&manager, 1, 4), VTDM_OK, 0);
    ANSWERS(vtdm_unit(&manager), VTDM_OK, 0);
    ANSWERS(vtdm_done_up_to(&manager, 5), VTDM_NO_WAIT, 0);
    vtdm_destroy(&manager);
}

/* The struct is as at its beginning. */
static bool is_empty(const struct vtdm *manager) {
    return manager->at == NULL && !manager->live;
}

/* A driven manager's table frames, then the address of its status and then its base are judged before it is made. */
static void check_addresses(void) {
    static const uint64_t good[] = {0, 4, UINT64_C(1) << 36, UINT64_MAX - 3};
    struct vtdm manager = VTDM_INIT;
    for (size_t i = 0; i < sizeof good / sizeof good[0]; i++) {
        for (uint64_t more = 1; more < 4; more++) {
            CHECK(vtdm_create_driven(&manager, 64, more, more % 2, good[i] + more) == VTDM_BAD_ADDRESS && is_empty(&manager));
            CHECK(vtdm_create_driven(&manager, 15, more, more % 2, good[i] + more) == VTDM_BAD_FRAMES && is_empty(&manager));
        }
        CHECK(vtdm_create_driven(&manager, 15, 0, true, good[i]) == VTDM_BAD_FRAMES && is_empty(&manager));
        CHECK(vtdm_create_driven(&manager, 64, 0, i % 2, good[i]) == VTDM_OK && !is_empty(&manager));
        CHECK(vtdm_create_driven(&manager, UINT64_MAX, UINT64_MAX, false, UINT64_MAX) == VTDM_PRESENT);
        CHECK(vtdm_create(&manager, 64) == VTDM_PRESENT);
        vtdm_destroy(&manager);
        CHECK(is_empty(&manager));
    }
}

int main(void) {
    struct vtdm manager = VTDM_INIT, other = VTDM_INIT;
    check_absent(&manager);
    CHECK(is_empty(&manager));
    CHECK(vtdm_create(&manager, UINT64_MAX) == VTDM_BAD_FRAMES && is_empty(&manager));
    CHECK(vtdm_create_caching(&manager, 15) == VTDM_BAD_FRAMES && is_empty(&manager));
    check_absent(&manager);
    CHECK(vtdm_create(&manager, 64) == VTDM_OK && !is_empty(&manager));
    CHECK(vtdm_create(&manager, 64) == VTDM_PRESENT);
    CHECK(vtdm_create(&manager, 0) == VTDM_PRESENT);
    CHECK(vtdm_create_caching(&manager, 64) == VTDM_PRESENT);
    CHECK(vtdm_create_driven(&manager, 0, 1, false, 1) == VTDM_PRESENT);
    CHECK(vtdm_create(&other, 4096) == VTDM_OK);
    check_edges();
    check_caching_mode(false);
    check_caching_mode(true);
    check_widths();
    check_names();
    check_caches();
    check_limits(&manager);
    check_readers(&manager);
    check_words(&manager);
    check_sent();
    check_detach_all(false);
    check_detach_all(true);
    check_not_driven(false);
    check_not_driven(true);
    check_effects();
    check_done_up_to();
    check_addresses();
    CHECK(vtdm_totals(&other).free == 4096);
    vtdm_destroy(&manager);
    CHECK(is_empty(&manager));
    check_absent(&manager);
    vtdm_destroy(&manager);
    CHECK(is_empty(&manager));
    CHECK(vtdm_create(&manager, 16) == VTDM_OK && vtdm_totals(&manager).free == 16);
    vtdm_destroy(&manager);
    vtdm_destroy(&other);
    return check_end();
}
