/* Two devices behind a unit that the manager is in charge of: the cases. */
#include "machine.h"
#include "requests.h"
#include "unit.h"

enum { TABLE_FRAMES = 32, OWN_PAGES = 0x4100 * PAGE };
enum { RW = VTDM_READ | VTDM_WRITE, SPAN = 512, BEYOND = 1 << 27 };
enum { A, B };

/* The table frames whose words are brought to the unit: none where the library's own words are its tables. They change during the call
 * then, and a device that is at work while its effects are followed meets them as after it. */
#ifdef IN_PLACE
enum { BROUGHT = 0 };
#else
enum { BROUGHT = TABLE_FRAMES };
#endif

/* The host frame of table frame 0: before those that devices may reach, or behind them. */
#if defined BASE
enum { FIRST_TABLE = 0x4200 };
#elif defined BASE_BEHIND
enum { FIRST_TABLE = FIRST_FRAME + FRAMES };
#else
enum { FIRST_TABLE = 0 };
#endif
#if defined IN_PLACE && (defined BASE || defined BASE_BEHIND)
#error "the library's own words count host frames from the base"
#endif

/* ---- Calls, each followed by the unit */

static uint64_t called(const char *what, struct vtdm_answer answer) {
    unit_follow(&manager);
    text(what);
    text(": ");
    hex(answer.value);
    verdict(answer.status == VTDM_OK);
    return answer.value;
}

static uint64_t unmap(const char *what, uint64_t domain, uint64_t page, uint64_t pages) {
    return called(what, vtdm_unmap(&manager, domain, page * PAGE, pages));
}

static uint64_t map(const char *what, uint64_t domain, uint64_t frame, uint64_t pages, uint64_t order) {
    return called(what, vtdm_map(&manager, domain, FIRST_FRAME + frame, pages, order, RW)) / PAGE;
}

static uint64_t domain(const char *what, bool lazy) {
#ifdef WIDE
    return called(what, vtdm_domain_wide(&manager, lazy));
#else
    return called(what, vtdm_domain(&manager, lazy));
#endif
}

/* A unit with Caching Mode may remember that the device had no entry, and an attach sends nothing. */
static void attach(unsigned device, uint64_t to) {
    called("attach", vtdm_attach(&manager, device_number(device), to));
#ifdef CACHING
    unit_forget_absence(device_number(device));
    unit_forget(to);
#endif
}

/* This unit, as VT-d allows, finds what it cached by the device too, and a detach sends the context's descriptor alone. */
static void detach(unsigned device) {
#ifdef DETACH_ALONE
    called("detach", vtdm_detach(&manager, device_number(device)));
#else
    called("detach", vtdm_detach_all(&manager, device_number(device)));
#endif
}

/* ---- The memory while the words of a call are brought */

enum { MOST_WATCHED = 2 * SPAN };
static struct {
    uint64_t domain, first, pages, moments, bad, before[MOST_WATCHED], after[MOST_WATCHED];
} watched;

/* What the words in memory, or those of the manager, say of a page: the leaf's word for it, or 0. */
static uint64_t walk(uint64_t page, bool in_memory) {
    uint64_t table = FIRST_TABLE + vtdm_root_of(&manager, watched.domain).value;
    for (int level = vtdm_width_of(&manager, watched.domain).value == 48 ? 4 : 3; level > 0; level--) {
        uint64_t index = page >> 9 * (level - 1) & 511;
        uint64_t word = in_memory ? *word64(table * PAGE + 8 * index) : vtdm_table_word(&manager, table - FIRST_TABLE, index).value;
        if (!(word & 3) || level == 1)
            return word;
        if (word & 0x80)
            return (word & ~0x80ull) + (page & 511) * PAGE;
        table = word >> 12;
    }
    return 0;
}

/* Each page is found as before the call or as after it. */
static void at_each_word(void) {
    if (watched.moments++ == 0)
        for (uint64_t i = 0; i < watched.pages; i++)
            watched.after[i] = walk(watched.first + i, false);
    for (uint64_t i = 0; i < watched.pages; i++) {
        uint64_t now = walk(watched.first + i, true);
        watched.bad += now != watched.before[i] && now != watched.after[i];
    }
}

static void watch(uint64_t of, uint64_t first, uint64_t pages) {
    watched.domain = of;
    watched.first = first;
    watched.pages = pages;
    watched.moments = watched.bad = 0;
    for (uint64_t i = 0; i < pages; i++)
        watched.before[i] = walk(first + i, true);
    unit_meanwhile = at_each_word;
}

/* So many words were to be brought. There is one moment more than words: before the wait, or in the end. */
static void watch_ends(uint64_t words) {
    unit_meanwhile = NULL;
    text("  at ");
    number(watched.moments);
    text(" moments each page is as before or as after");
    verdict(watched.bad == 0 && watched.moments == (BROUGHT ? words : 0) + 1);
}

/* ---- The cases */

static void strict(void) {
    text("== strict: what is unmapped is refused at once\n");
    requests(A, 1);
    domain("domain", false);
    works(A, 1);
    attach(A, 1);
    rests();
    requests(A, 1);
    requests(B, 1);
    uint64_t page = map("map a page", 1, 0, 1, 0);
    requests(A, page);
    works(A, page);
    unmap("unmap it", 1, page, 1);
    rests();
    requests(A, page);
    page = called("map one to read", vtdm_map(&manager, 1, FIRST_FRAME + 1, 1, 0, VTDM_READ)) / PAGE;
    requests(A, page);
    unmap("unmap it", 1, page, 1);
#ifndef WIDE
    requests(A, BEYOND);
#endif
}

static void split_one(void) {
    uint64_t page = map("map 512 pages by one leaf", 1, 0, SPAN, 9);
    requests(A, page);
    requests(A, page + 1);
    watch(1, page, SPAN);
    unmap("unmap the second", 1, page + 1, 1);
    watch_ends(SPAN); /* 511 leaves, and the word that names their table */
    requests(A, page);
    requests(A, page + 1);
    requests(A, page + 2);
    watch(1, page, SPAN);
    unmap("unmap the others after it", 1, page + 2, SPAN - 2);
    watch_ends(SPAN - 2);
    requests(A, page + SPAN - 1);
}

static void split_two(void) {
    uint64_t page = map("map 1,024 by two leaves", 1, 0, 2 * SPAN, 9);
    requests(A, page + SPAN - 1);
    requests(A, page + SPAN);
    watch(1, page, 2 * SPAN);
    unmap("unmap 2 in the middle", 1, page + SPAN - 1, 2);
    watch_ends(2 * SPAN);
    requests(A, page + SPAN - 2);
    requests(A, page + SPAN - 1);
    requests(A, page + SPAN);
    requests(A, page + SPAN + 1);
    unmap("unmap 511", 1, page, SPAN - 1);
    watch(1, page, 2 * SPAN);
    unmap("unmap 511", 1, page + SPAN + 1, SPAN - 1);
    watch_ends(SPAN - 1);
}

/* A table that was left empty is used in the place of a leaf. So a page stays mapped by each table that is there. */
static void split(void) {
    text("== leaves of 2 MiB are split, one and then two at once\n");
    uint64_t stays = map("map a page", 1, 0, 1, 0);
    split_one();
    split_two();
    unmap("unmap the page", 1, stays, 1);
}

static void cut(void) {
    text("== a table is cut\n");
    uint64_t page = map("map 512 leaves", 1, 7, SPAN, 9);
    requests(A, page + 3);
    watch(1, page, SPAN);
    unmap("unmap them", 1, page, SPAN);
    watch_ends(SPAN + 1);
    requests(A, page + 3);
}

static void two_domains(void) {
    text("== two domains have the same addresses\n");
    domain("domain, lazy", true);
    attach(B, 2);
    uint64_t one = map("map in 1", 1, 16, 4, 0), two = map("map in 2", 2, 32, 4, 0);
    requests(A, one);
    requests(B, two);
    unmap("unmap in 1", 1, one + 1, 1);
    requests(A, one + 1);
    requests(B, two + 1);
}

static void lazy(void) {
    text("== lazy: stale until the flush\n");
    uint64_t page = map("map in 2", 2, 48, 1, 0);
    requests(B, page);
    unmap("unmap it", 2, page, 1);
    requests(B, page);
    uint64_t other = map("map in 2: another address", 2, 49, 1, 0);
    requests(B, other);
    called("flush 1, the other domain", vtdm_flush(&manager, 1));
    requests(B, page);
    called("flush 2", vtdm_flush(&manager, 2));
    requests(B, page);
    requests(B, map("map in 2: the address again", 2, 50, 1, 0));
}

/* An unmap that finds the list full flushes first, and its own words may use a table frame that came free by that. Before they are there
 * the flush's descriptors are done, and the page before isn't reached. In place they are there at once, so the list is flushed by a call
 * of its own. */
static struct {
    uint64_t page, moments;
} flushed;

/* The first moment is before the wait of the flush, and the second before the words. */
static void at_second(void) {
    if (flushed.moments++ == 1)
        requests(B, flushed.page);
}

static uint64_t flush_in_place(uint64_t domain) {
    uint64_t released = vtdm_flush(&manager, domain).value;
    unit_follow(&manager);
    requests(B, flushed.page);
    return released;
}

static uint64_t unmap_where_full(uint64_t domain, uint64_t page) {
    uint64_t released = 0;
    if (vtdm_domain_totals(&manager, domain).retired == VTDM_MOST_RECORDS) {
        flushed.page = page - 1;
        flushed.moments = 0;
        if (BROUGHT)
            unit_meanwhile = at_second;
        else
            released = flush_in_place(domain);
    }
    struct vtdm_answer answer = vtdm_unmap(&manager, domain, page * PAGE, 1);
    unit_follow(&manager);
    unit_meanwhile = NULL;
    if (answer.status != VTDM_OK)
        differed++;
    return released + answer.value;
}

static void full_list(void) {
    text("== lazy: the 257th unmap flushes first\n");
    uint64_t page = 0;
    for (unsigned i = 0; i < 257; i++) {
        page = vtdm_map(&manager, 2, FIRST_FRAME + 100 + i, 1, 0, RW).value / PAGE;
        unit_follow(&manager);
        if (i == 255)
            requests(B, page);
        uint64_t released = unmap_where_full(2, page);
        if (i == 255)
            requests(B, page);
        if (released != (i == 256 ? 256 : 0))
            differed++;
    }
    requests(B, page - 1);
    requests(B, page);
}

static void tickets(void) {
    text("== a flush in two halves\n");
    uint64_t page = map("map in 2", 2, 51, 1, 0);
    requests(B, page);
    unmap("unmap it", 2, page, 1);
    uint64_t ticket = vtdm_begin(&manager, 2).value;
    unit_follow(&manager);
    requests(B, page);
    unit_step();
    vtdm_unit(&manager);
    requests(B, page);
    text("reap before the wait is done");
    verdict(vtdm_reap(&manager, 2, ticket).status == VTDM_PENDING);
    unit_step();
    unit_tell_done(&manager);
    called("reap", vtdm_reap(&manager, 2, ticket));
    requests(B, page);
}

static void elsewhere(void) {
    text("== a device is attached elsewhere, and a domain's number is another's\n");
    uint64_t page = map("map in 1", 1, 52, 1, 0);
    requests(A, page);
    works(A, page);
    detach(A);
    rests();
    requests(A, page);
    attach(A, 2);
    requests(A, page);
    called("drop 1", vtdm_drop(&manager, 1));
    domain("domain", false);
    detach(A);
    attach(A, 1);
    requests(A, page);
    requests(A, map("map in 1", 1, 53, 1, 0));
}

static bool begin(void) {
    if (!find_devices())
        return false;
    begin_requests();
#ifdef IN_PLACE
    /* The library's own table words lie where the unit walks: at host frame 0, which is at address 2^37 too. */
    extern size_t placed_bytes;
    extern void *placed_at;
    placed_bytes = TABLE_FRAMES * PAGE;
    placed_at = (void *)(1ull << 37);
#endif
#ifdef CACHING
    bool caching = true;
#else
    bool caching = false;
#endif
    unit_on(BROUGHT, FIRST_TABLE, OWN_PAGES);
    return vtdm_create_driven(&manager, TABLE_FRAMES, FIRST_TABLE, caching, unit_status()) == VTDM_OK;
}

void run(void) {
    if (!begin()) {
        text("there are no two devices, or no memory\n");
        power_off(true);
    }
    strict();
    split();
    cut();
    two_domains();
    lazy();
    full_list();
    tickets();
    elsewhere();
    unit_off();
    look_at_reads();
    vtdm_destroy(&manager);
    number(stale);
    text(" requests reached a page that was unmapped lazily");
    verdict(stale > 0);
    number(agreed);
    text(" agree, ");
    number(differed);
    text(" differ\n");
    power_off(differed != 0);
}
