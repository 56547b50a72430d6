#include "unit.h"

#include <string.h>

/* The bit of a leaf of 2 MiB; the address width in a context entry's high word, and how many levels a walk has more than its number. */
enum { LARGE = 0x80, AGAW = 7, LEVELS_OVER_AGAW = 2 };

/* The bits of a descriptor's kind, and the kinds of an IOTLB invalidate descriptor and of a wait. Of the former the bits that say what it
 * is of, what they are where it is of pages, and the bits of the high word that say of how many. */
enum { KIND = 15, IOTLB = 2, WAIT = 5, GRANULARITY = 0x30, OF_PAGES = 0x30, AM = 63 };

/* How many pages it remembers. */
enum { CACHED = 64 };

struct memory unit_memory;
struct pair unit_queue[PLACES];
uint64_t unit_head, unit_tail, unit_waits;
void (*unit_meanwhile)(void);

static bool caching_mode;

/* The host frame of table frame 0. */
static uint64_t first_frame;

/* The status that the last wait wrote. */
static uint32_t status;

/* Words that no barrier follows yet: a unit may see them in any order. */
static struct {
    uint64_t *to, word;
} open_words[TABLE_FRAMES * TABLE_WORDS];
static size_t opens;

/* Pages as it found them, by domain. Where the domain is 0 there is none. */
static struct {
    uint64_t domain, page, found;
} cached[CACHED];

static uint64_t seed = 20;

uint64_t pick(uint64_t below) {
    seed = seed * 6364136223846793005u + 1442695040888963407u;
    return (seed >> 33) % below;
}

void unit_begin(bool caching, uint64_t base) {
    first_frame = base;
    memset(&unit_memory, 0, sizeof unit_memory);
    memset(cached, 0, sizeof cached);
    unit_head = unit_tail = unit_waits = 0;
    opens = 0;
    status = 0;
    caching_mode = caching;
}

/* ---- Walks */

/* The lowest bit of an address that a level translates. */
static int lowest(int level) {
    return 12 + 9 * (level - 1);
}

/* A walk from a root, by its host frame, of so many levels on. */
static uint64_t walk_from(const struct memory *memory, uint64_t table, int levels, uint64_t address) {
    uint64_t rights = RIGHTS;
    if (address >> lowest(levels + 1))
        return 0;
    for (int level = levels; level > 0; level--) {
        if (table - first_frame >= TABLE_FRAMES)
            return WILD;
        uint64_t word = memory->words[table - first_frame][address >> lowest(level) & (TABLE_WORDS - 1)];
        rights &= word;
        if (!rights)
            return 0;
        if (level == 1 || word & LARGE) {
            uint64_t inside = address & ((UINT64_C(1) << lowest(level)) - PAGE);
            return ((word >> 12 << 12) + inside) | rights;
        }
        table = word >> 12;
    }
    return WILD;
}

uint64_t walk(const struct memory *memory, uint64_t device, uint64_t address) {
    const struct pair entry = memory->contexts[device];
    return entry.low & 1 ? walk_from(memory, entry.low >> 12, (int)(entry.high & AGAW) + LEVELS_OVER_AGAW, address) : 0;
}

/* ---- What it remembers */

void unit_remember(uint64_t device, uint64_t address) {
    const struct pair entry = unit_memory.contexts[device];
    const uint64_t found = walk(&unit_memory, device, address);
    size_t place = pick(CACHED);
    if (!(entry.low & 1) || !(found || caching_mode))
        return;
    cached[place].domain = entry.high >> 8;
    cached[place].page = address / PAGE;
    cached[place].found = found;
}

/* An IOTLB invalidate descriptor is of a domain, or of 2^AM of its pages. */
static void forget(struct pair descriptor) {
    const uint64_t domain = descriptor.low >> 16 & 0xffff, mask = descriptor.high & AM;
    const bool some = (descriptor.low & GRANULARITY) == OF_PAGES;
    for (size_t i = 0; i < CACHED; i++)
        if (cached[i].domain == domain && (!some || cached[i].page >> mask == descriptor.high >> 12 >> mask))
            cached[i].domain = 0;
}

bool unit_remembers_right(struct vtdm *manager, const struct memory *said) {
    for (size_t i = 0; i < CACHED; i++) {
        const uint64_t domain = cached[i].domain, found = cached[i].found;
        if (!domain)
            continue;
        struct vtdm_answer root = vtdm_root_of(manager, domain);
        if (root.status != VTDM_OK)
            return false;
        int levels = vtdm_width_of(manager, domain).value == 48 ? 4 : 3;
        uint64_t now = walk_from(said, first_frame + root.value, levels, cached[i].page * PAGE);
        bool retired = found && !now && vtdm_domain_totals(manager, domain).retired;
        if (found != now && !retired)
            return false;
    }
    return true;
}

/* ---- The queue */

bool unit_step(void) {
    if (unit_head == unit_tail)
        return false;
    struct pair descriptor = unit_queue[unit_head++ % PLACES];
    if ((descriptor.low & KIND) == IOTLB)
        forget(descriptor);
    if ((descriptor.low & KIND) == WAIT) {
        unit_waits++;
        status = (uint32_t)(descriptor.low >> 32);
    }
    return true;
}

static bool queue(struct pair descriptor) {
    unit_queue[unit_tail++ % PLACES] = descriptor;
    return unit_tail - unit_head <= PLACES;
}

static bool await(uint64_t number) {
    while (unit_waits < number && unit_step())
        continue;
    return unit_waits == number && status == (uint32_t)number;
}

/* ---- Its memory */

static void bring(uint64_t *to, uint64_t word) {
    if (*to == word)
        return;
    *to = word;
    unit_meanwhile();
}

static bool bring_words(struct vtdm *manager, const struct vtdm_effect *it) {
    const uint64_t from = it->number * TABLE_WORDS + it->first;
    for (uint64_t place = from; place < from + it->count; place++) {
        uint64_t *to = &unit_memory.words[place / TABLE_WORDS][place % TABLE_WORDS];
        uint64_t word = vtdm_table_word(manager, place / TABLE_WORDS, place % TABLE_WORDS).value;
        if (word == *to)
            continue;
        if (opens == TABLE_FRAMES * TABLE_WORDS)
            return false;
        open_words[opens].to = to;
        open_words[opens++].word = word;
    }
    return true;
}

static bool barrier(void) {
    while (opens) {
        size_t one = pick(opens);
        bring(open_words[one].to, open_words[one].word);
        open_words[one] = open_words[--opens];
    }
    return true;
}

static bool bring_context(struct vtdm *manager, const struct vtdm_effect *it) {
    struct vtdm_context_answer entry = vtdm_context(manager, it->number);
    struct pair *to = &unit_memory.contexts[it->number];
    if (it->first)
        bring(&to->high, entry.high);
    bring(&to->low, entry.low);
    bring(&to->high, entry.high);
    return true;
}

bool unit_follow(struct vtdm *manager, const struct vtdm_effect *effect) {
    switch (effect->kind) {
    case VTDM_EFFECT_WORDS: return bring_words(manager, effect);
    case VTDM_EFFECT_BARRIER: return barrier();
    case VTDM_EFFECT_CONTEXT: return bring_context(manager, effect);
    case VTDM_EFFECT_SEND: return queue((struct pair){effect->low, effect->high});
    case VTDM_EFFECT_AWAIT: return await(effect->number);
    default: return false;
    }
}
