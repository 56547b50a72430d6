/* What calls on a driven manager ask, done for a unit that has no more than it is told. After each of some thousand random calls its memory
 * has what the manager's readers say, word for word, and its queue got what was sent. At each word that was brought on the way there it
 * found each page as before the call or as after it. Of what it then remembered nothing is left that the call set free. */
#include "check.h"
#include "unit.h"

#include <string.h>

enum { DOMAINS = 4, CALLS = 4000, MOST_LIVE = 80, TICKETS = 32, PROBES = 12, LEAST = 20, LEAST_OF_A_KIND = 100 };

/* Where table frame 0 is, in half of the runs: among the host frames that are mapped. */
static const uint64_t BASE = 0x2000;

/* Where a unit of our own writes the status of a wait, and where the library's does; and what says that a descriptor is a wait. */
static const uint64_t STATUS = UINT64_C(0x123456784), STATUS_OF_LIBRARY = UINT64_C(1) << 36;
enum { KIND = 15, WAIT = 5 };

/* What the manager's readers say. */
static struct memory said;

static void read_all(struct vtdm *manager) {
    bool good = true;
    for (uint64_t frame = 0; frame < TABLE_FRAMES; frame++)
        good = good && vtdm_words(manager, frame, 0, said.words[frame], TABLE_WORDS) == VTDM_OK;
    for (uint64_t device = 0; device < VTDM_DEVICES; device++) {
        struct vtdm_context_answer entry = vtdm_context(manager, device);
        good = good && entry.status == VTDM_OK;
        said.contexts[device] = (struct pair){entry.low, entry.high};
    }
    CHECK(good);
}

/* ---- Pages that are looked at while a call's effects are done */

struct range {
    uint64_t domain, address, pages;
};

static struct range lives[MOST_LIVE];
static size_t count;

static struct {
    uint64_t device, address, before, after;
} probes[PROBES];

/* Whether each was found as before or as after, at each moment. */
static bool old_or_new;

/* A device that the domain has before the call or after it, or any where it has none. */
static uint64_t device_of(uint64_t domain) {
    uint64_t first = pick(VTDM_DEVICES);
    for (uint64_t i = 0; i < VTDM_DEVICES; i++) {
        uint64_t device = (first + i) % VTDM_DEVICES;
        if (unit_memory.contexts[device].high >> 8 == domain || said.contexts[device].high >> 8 == domain)
            return device;
    }
    return first;
}

/* Pages of the range of a call, its last among them; pages behind it, which the call doesn't change; and others that are mapped. */
static void choose_probes(struct range range) {
    for (size_t i = 0; i < PROBES; i++) {
        struct range one = i % 3 && range.pages ? range : count ? lives[pick(count)] : (struct range){1, PAGE, 1};
        uint64_t page = i == 1 ? one.pages - 1 : i % 3 == 1 ? pick(one.pages) : pick(one.pages + TABLE_WORDS);
        probes[i].device = device_of(one.domain);
        probes[i].address = one.address + page * PAGE;
        probes[i].before = walk(&unit_memory, probes[i].device, probes[i].address);
        probes[i].after = walk(&said, probes[i].device, probes[i].address);
    }
}

static void look(void) {
    for (size_t i = 0; i < PROBES; i++) {
        uint64_t found = walk(&unit_memory, probes[i].device, probes[i].address);
        old_or_new = old_or_new && found != WILD && (found == probes[i].before || found == probes[i].after);
        unit_remember(probes[i].device, probes[i].address);
    }
}

/* ---- What a call asks */

static struct vtdm_effect effects[VTDM_MOST_EFFECTS];

/* How many effects there were of each kind, how often words came after a wait, how many calls were refused, and how many waits sent. */
static uint64_t told[VTDM_EFFECT_AWAIT + 1], words_behind, refused, waits_sent;

/* What was sent since there were so many waits is in the queue, oldest first; and a wait, and nothing else, has our status address. */
static bool is_queued(struct vtdm *manager, uint64_t from) {
    const uint64_t sent = 2 * (waits_sent - from);
    bool same = sent <= PLACES;
    for (uint64_t back = 0; same && back < sent; back++) {
        struct vtdm_sent_answer it = vtdm_sent(manager, back);
        struct pair got = unit_queue[(unit_tail - 1 - back) % PLACES];
        bool wait = (got.low & KIND) == WAIT;
        same = it.status == VTDM_OK && got.low == it.low && wait == !(back % 2);
        same = same && (wait ? got.high == STATUS && it.high == STATUS_OF_LIBRARY : got.high == it.high);
    }
    return same;
}

/* The members that a kind doesn't use are 0, and it names what there is. */
static bool is_good(const struct vtdm_effect *it) {
    bool words = it->kind == VTDM_EFFECT_WORDS, send = it->kind == VTDM_EFFECT_SEND;
    bool context = it->kind == VTDM_EFFECT_CONTEXT;
    bool unused = (words || context || !it->first) && (words || !it->count) && (send || (!it->low && !it->high));
    switch (it->kind) {
    case VTDM_EFFECT_WORDS:
        return unused && it->count && it->first < TABLE_WORDS &&
               it->number * TABLE_WORDS + it->first + it->count <= (uint64_t)TABLE_FRAMES * TABLE_WORDS;
    case VTDM_EFFECT_CONTEXT: return unused && it->number < VTDM_DEVICES && it->first < 2;
    case VTDM_EFFECT_AWAIT: return unused && it->number;
    default: return unused && !it->number && (send || it->kind == VTDM_EFFECT_BARRIER);
    }
}

/* A barrier follows all that is brought, before anything is sent and before the end. A descriptor and its wait are sent, and the wait is
 * waited for before anything else, but where a flush is begun. `waits` is the number of the last wait before the call. */
static bool are_in_order(uint64_t asked, uint64_t waits, bool begins) {
    bool open = false, good = true;
    uint64_t queued = 0;
    for (uint64_t i = 0; good && i < asked; i++) {
        const struct vtdm_effect *it = &effects[i];
        bool sends = it->kind == VTDM_EFFECT_SEND, awaits = it->kind == VTDM_EFFECT_AWAIT;
        good = is_good(it) && (sends ? queued < 2 && !open : awaits ? queued == 2 && it->number == waits + 1 : !queued);
        queued = awaits ? 0 : queued + sends;
        waits += awaits;
        open = it->kind != VTDM_EFFECT_BARRIER && (open || it->kind == VTDM_EFFECT_WORDS || it->kind == VTDM_EFFECT_CONTEXT);
    }
    return good && !open && queued == (begins ? 2 : 0);
}

/* Does what the call asks that gave this answer, and compares what the unit has then with what the manager has. `range` is what the call
 * was about, and `begins` says that it is to begin a flush. */
static struct vtdm_answer follow(struct vtdm *manager, struct vtdm_answer answer, struct range range, bool begins) {
    const uint64_t before = waits_sent, asked = vtdm_effects(manager, effects, VTDM_MOST_EFFECTS).value;
    waits_sent = vtdm_waits(manager).value;
    refused += answer.status != VTDM_OK;
    if (!CHECK(asked <= (answer.status == VTDM_OK ? VTDM_MOST_EFFECTS : 0)) || !CHECK(are_in_order(asked, before, begins)))
        return answer;
    read_all(manager);
    choose_probes(range);
    old_or_new = true;
    look();
    bool good = true;
    for (uint64_t i = 0; i < asked; i++) {
        told[effects[i].kind]++;
        words_behind += i > 0 && effects[i].kind == VTDM_EFFECT_WORDS && effects[i - 1].kind == VTDM_EFFECT_AWAIT;
        good = unit_follow(manager, &effects[i]) && good;
    }
    CHECK(good && old_or_new);
    CHECK(is_queued(manager, before));
    CHECK(memcmp(&unit_memory, &said, sizeof unit_memory) == 0);
    CHECK(unit_remembers_right(manager, &said));
    return answer;
}

static struct vtdm_answer followed(struct vtdm *manager, struct vtdm_answer answer) {
    return follow(manager, answer, (struct range){0, 0, 0}, false);
}

/* ---- Random calls */

/* Lists of retired ranges get full: what is mapped is small, and a domain is flushed only where table frames lack. */
static bool patient;

static uint64_t unmaps_that_flushed, reaped;

static struct vtdm_answer make_domain(struct vtdm *manager, uint64_t domain) {
    return pick(2) ? vtdm_domain_wide(manager, domain % 2) : vtdm_domain(manager, domain % 2);
}

static struct { uint64_t domain, number; } tickets[TICKETS];
static size_t begun;

/* A domain goes with its devices, unless a ticket of it is open, and is made again of any width. */
static void drop_some(struct vtdm *manager) {
    uint64_t domain = 1 + pick(DOMAINS);
    for (size_t i = 0; i < begun; i++)
        if (tickets[i].domain == domain)
            return;
    for (uint64_t device = 0; device < VTDM_DEVICES; device++)
        if (vtdm_domain_of(manager, device).value == domain)
            followed(manager, vtdm_detach(manager, device));
    ANSWERS(followed(manager, vtdm_drop(manager, domain)), VTDM_OK, 0);
    for (size_t i = count; i-- > 0;)
        if (lives[i].domain == domain)
            lives[i] = lives[--count];
    ANSWERS(followed(manager, make_domain(manager, domain)), VTDM_OK, domain);
    for (uint64_t device = 0; device < VTDM_DEVICES; device++)
        if (!vtdm_domain_of(manager, device).value)
            followed(manager, vtdm_attach(manager, device, domain));
}

/* Frees table frames: those of retired ranges, and those that a domain keeps until it goes. */
static void make_room(struct vtdm *manager, uint64_t domain) {
    followed(manager, vtdm_flush(manager, domain));
    drop_some(manager);
}

static void map_some(struct vtdm *manager) {
    uint64_t domain = 1 + pick(DOMAINS), order = pick(patient ? 2 : 10), pages = 1 + pick(patient || pick(2) ? 4 : 1200);
    uint64_t frame = 0x1000 + (pick(2) ? 512 * pick(64) : pick(9999)), rights = 1 + pick(3);
    const struct vtdm_segment segments[] = {{frame, pages}, {0x8000, 1}};
    bool list = !pick(4);
    if (count == MOST_LIVE)
        return;
    struct vtdm_answer at = list ? vtdm_map_list(manager, domain, order, rights, segments, 2)
                                 : vtdm_map(manager, domain, frame, pages, order, rights);
    struct range range = {domain, at.value, pages + list};
    follow(manager, at, range, false);
    if (at.status == VTDM_OK)
        lives[count++] = range;
    if (at.status == VTDM_NO_FRAMES)
        make_room(manager, domain);
}

/* Ends a part of what is live, so that leaves are split and tables cut. */
static void unmap_some(struct vtdm *manager) {
    if (!count)
        return;
    struct range *one = &lives[pick(count)], ended = *one;
    ended.pages = pick(2) ? one->pages : 1 + pick(one->pages);
    struct vtdm_answer answer = vtdm_unmap(manager, ended.domain, ended.address, ended.pages);
    follow(manager, answer, ended, false);
    unmaps_that_flushed += answer.value != 0;
    if (answer.status == VTDM_NO_FRAMES)
        make_room(manager, ended.domain);
    if (answer.status != VTDM_OK)
        return;
    one->address += ended.pages * PAGE;
    one->pages -= ended.pages;
    if (!one->pages)
        *one = lives[--count];
}

static void begin_some(struct vtdm *manager) {
    uint64_t domain = 1 + pick(DOMAINS);
    if (begun == TICKETS)
        return;
    struct vtdm_answer ticket = follow(manager, vtdm_begin(manager, domain), (struct range){0, 0, 0}, true);
    if (CHECK(ticket.status == VTDM_OK)) {
        tickets[begun].domain = domain;
        tickets[begun++].number = ticket.value;
    }
}

/* Ends a begun flush, once the library's unit has done what ours has, and no more. */
static void reap_some(struct vtdm *manager) {
    if (!begun)
        return;
    CHECK(followed(manager, vtdm_done_up_to(manager, unit_waits)).status == VTDM_OK);
    CHECK(vtdm_totals(manager).pending <= 2 * (waits_sent - unit_waits));
    size_t one = pick(begun);
    struct vtdm_answer answer = followed(manager, vtdm_reap(manager, tickets[one].domain, tickets[one].number));
    CHECK(answer.status == VTDM_OK || (answer.status == VTDM_PENDING && unit_tail != unit_head));
    reaped += answer.status == VTDM_OK;
    if (answer.status == VTDM_OK)
        tickets[one] = tickets[--begun];
}

static void move_some(struct vtdm *manager) {
    uint64_t device = pick(VTDM_DEVICES);
    if (!patient || pick(2))
        followed(manager, pick(2) && !patient ? vtdm_detach_all(manager, device) : vtdm_detach(manager, device));
    followed(manager, vtdm_attach(manager, device, 1 + pick(DOMAINS)));
}

/* What the library's own unit does for requests asks nothing of ours. */
static void request_some(struct vtdm *manager) {
    uint64_t address = count ? lives[pick(count)].address : PAGE;
    struct vtdm_answer ignored = pick(2) ? vtdm_evict(manager, pick(3), pick(4))
                                         : vtdm_dma(manager, pick(VTDM_DEVICES), address, false, true, true);
    (void)ignored;
    ANSWERS(vtdm_effects(manager, effects, 0), VTDM_OK, 0);
}

static void call_some(struct vtdm *manager) {
    switch (pick(24)) {
    case 0: move_some(manager); break;
    case 1: pick(patient ? 99 : 4) ? request_some(manager) : drop_some(manager); break;
    case 2: patient ? request_some(manager) : begin_some(manager); break;
    case 3: reap_some(manager); break;
    case 4: unit_step(); break;
    case 5: patient ? request_some(manager) : (void)followed(manager, vtdm_flush(manager, 1 + pick(DOMAINS + 1))); break;
    case 6: case 7: case 8: case 9: case 10: case 11: case 12: case 13: map_some(manager); break;
    default: unmap_some(manager);
    }
}

/* A manager, and a unit that was told nothing yet. */
static void make(struct vtdm *manager, bool caching, uint64_t base) {
    unit_begin(caching, base);
    unit_meanwhile = look;
    memset(told, 0, sizeof told);
    waits_sent = words_behind = refused = unmaps_that_flushed = reaped = 0;
    count = begun = 0;
    CHECK(vtdm_create_driven(manager, TABLE_FRAMES, base, caching, STATUS) == VTDM_OK);
}

/* An unmap takes the table of one span of 2 MiB away and puts one in the place of the next span's leaf. While its words reach memory, no
 * page of the one is found as a page of the other. */
static void cut_and_split(bool lazy, bool wide, uint64_t base) {
    struct vtdm manager = VTDM_INIT;
    make(&manager, false, base);
    ANSWERS(followed(&manager, wide ? vtdm_domain_wide(&manager, lazy) : vtdm_domain(&manager, lazy)), VTDM_OK, 1);
    ANSWERS(followed(&manager, vtdm_attach(&manager, 3, 1)), VTDM_OK, 0);
    uint64_t small = followed(&manager, vtdm_map(&manager, 1, 0x101, TABLE_WORDS, 9, RIGHTS)).value;
    uint64_t large = followed(&manager, vtdm_map(&manager, 1, 0x8000, TABLE_WORDS, 9, VTDM_READ)).value;
    CHECK(large == small + (uint64_t)TABLE_WORDS * PAGE);
    struct range both = {1, small, TABLE_WORDS + 1};
    ANSWERS(follow(&manager, vtdm_unmap(&manager, 1, both.address, both.pages), both, false), VTDM_OK, 0);
    CHECK(walk(&unit_memory, 3, small) == 0 && walk(&unit_memory, 3, large) == 0);
    CHECK(walk(&unit_memory, 3, large + PAGE) == (UINT64_C(0x8001000) | VTDM_READ));
    vtdm_destroy(&manager);
}

static void random_calls(bool caching, bool is_patient, uint64_t base) {
    struct vtdm manager = VTDM_INIT;
    make(&manager, caching, base);
    patient = is_patient;
    for (uint64_t domain = 1; domain <= DOMAINS; domain++)
        ANSWERS(followed(&manager, make_domain(&manager, domain)), VTDM_OK, domain);
    for (uint64_t device = 0; device < VTDM_DEVICES; device++)
        ANSWERS(followed(&manager, vtdm_attach(&manager, device, 1 + device % DOMAINS)), VTDM_OK, 0);
    for (int i = 0; i < CALLS; i++)
        call_some(&manager);
    for (int kind = VTDM_EFFECT_WORDS; kind <= VTDM_EFFECT_AWAIT; kind++)
        CHECK(told[kind] > LEAST_OF_A_KIND);
    CHECK(refused > LEAST && words_behind > 0);
    CHECK(patient ? unmaps_that_flushed > 0 : reaped > LEAST);
    printf("%" PRIu64 " words, %" PRIu64 " waits, %" PRIu64 " refused, %" PRIu64 " flushed by unmaps, %" PRIu64 " reaped\n",
           told[VTDM_EFFECT_WORDS], told[VTDM_EFFECT_AWAIT], refused, unmaps_that_flushed, reaped);
    vtdm_destroy(&manager);
}

int main(void) {
    for (int i = 0; i < 4; i++) {
        const uint64_t base = i == 1 || i == 2 ? BASE : 0;
        cut_and_split(i % 2, i / 2, base);
        random_calls(i % 2, i / 2, base);
    }
    return check_end();
}
