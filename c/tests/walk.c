/* The tables, walked by their words alone as a unit with empty caches does: after each kind of call that changes them, and of random
 * domains, where each walk agrees with what the manager answers. All of it where the table frames begin at host frame 0, in the midst of
 * the frames that are mapped, and behind them at the last place where they can. */
#include "check.h"
#include "vtdm.h"

enum { DOMAINS = 4, STEPS = 20000, MOST_LIVE = 400, LEAST_REACHED = 1000, TABLE_FRAMES = 64 };

/* A host frame among those that are mapped. */
enum { AMONG = 0x2000 };

/* Tables of second-stage paging: their words, the bytes of a page, and the bit of a leaf of 2 MiB. */
enum { TABLE_WORDS = 512, PAGE = 4096, LARGE = 0x80 };

/* The address width in a context entry's high word: its bits, its numbers for 39 and for 48 bits of address, and how many levels of
 * tables a walk has more than its number. */
enum { AGAW = 7, AGAW_39 = 1, AGAW_48 = 2, LEVELS_OVER_AGAW = 2 };

/* The host frame of table frame 0. */
static uint64_t base;

static uint64_t seed = 20;

static uint64_t pick(uint64_t below) {
    seed = seed * 6364136223846793005u + 1442695040888963407u;
    return (seed >> 33) % below;
}

/* The lowest bit of an address that a level translates. */
static int lowest(int level) {
    return 12 + 9 * (level - 1);
}

/* The word for an address in the table at a host frame. */
static uint64_t word_at(struct vtdm *manager, uint64_t table, uint64_t address, int level) {
    return vtdm_table_word(manager, table - base, address >> lowest(level) & (TABLE_WORDS - 1)).value;
}

static uint64_t root_of(struct vtdm *manager, uint64_t domain) {
    return base + vtdm_root_of(manager, domain).value;
}

/* What a unit that remembers nothing reads for a request: the host byte address, or a fault by its status. */
static struct vtdm_answer walk(struct vtdm *manager, uint64_t device, uint64_t address, bool write) {
    const uint64_t right = write ? VTDM_WRITE : VTDM_READ;
    const struct vtdm_answer fault = {write ? VTDM_FAULT_WRITE : VTDM_FAULT_READ, 0};
    struct vtdm_context_answer context = vtdm_context(manager, device);
    int levels = (int)(context.high & AGAW) + LEVELS_OVER_AGAW;
    uint64_t table = context.low >> 12;
    if (!(context.low & 1))
        return (struct vtdm_answer){VTDM_FAULT_NOT_ATTACHED, 0};
    if (address >> lowest(levels + 1))
        return (struct vtdm_answer){VTDM_FAULT_BEYOND_WIDTH, 0};
    for (int level = levels; level > 0; level--) {
        uint64_t word = word_at(manager, table, address, level);
        if (!(word & right))
            return fault;
        if (level == 1 || word & LARGE)
            return (struct vtdm_answer){VTDM_OK, (word >> 12 << 12) + (address & ((UINT64_C(1) << lowest(level)) - 1))};
        table = word >> 12;
    }
    return fault;
}

static bool is_wide(struct vtdm *manager, uint64_t domain) {
    return vtdm_width_of(manager, domain).value == 48;
}

/* The word of level 2 for an address, of a domain that has tables there. */
static uint64_t word_of_2_mib(struct vtdm *manager, uint64_t domain, uint64_t address) {
    uint64_t table = root_of(manager, domain);
    for (int level = is_wide(manager, domain) ? 4 : 3; level > 2; level--)
        table = word_at(manager, table, address, level) >> 12;
    return word_at(manager, table, address, 2);
}

/* How many words of the table at a host frame are present. */
static int present(struct vtdm *manager, uint64_t table) {
    int count = 0;
    for (uint64_t index = 0; index < TABLE_WORDS; index++)
        count += vtdm_table_word(manager, table - base, index).value != 0;
    return count;
}

static struct vtdm_answer make_domain(struct vtdm *manager, bool lazy, bool wide) {
    return wide ? vtdm_domain_wide(manager, lazy) : vtdm_domain(manager, lazy);
}

static void create(struct vtdm *manager) {
    uint64_t status = base ? vtdm_create_driven(manager, TABLE_FRAMES, base, false, 0) : vtdm_create(manager, TABLE_FRAMES);
    CHECK(status == VTDM_OK);
}

static void make(struct vtdm *manager, bool lazy, bool wide) {
    create(manager);
    ANSWERS(make_domain(manager, lazy, wide), VTDM_OK, 1);
    ANSWERS(vtdm_attach(manager, 3, 1), VTDM_OK, 0);
}

/* Maps pages of domain 1, and answers where. */
static uint64_t mapped(struct vtdm *manager, uint64_t frame, uint64_t pages, uint64_t order, uint64_t rights) {
    struct vtdm_answer at = vtdm_map(manager, 1, frame, pages, order, rights);
    CHECK(at.status == VTDM_OK && at.value % ((uint64_t)PAGE << order) == 0);
    return at.value;
}

/* A detached device has an empty context entry, and no other device's changes. */
static void detach(bool wide) {
    struct vtdm manager = VTDM_INIT;
    make(&manager, false, wide);
    ANSWERS(vtdm_attach(&manager, 4, 1), VTDM_OK, 0);
    uint64_t at = mapped(&manager, 0x100, 1, 0, VTDM_READ);
    ANSWERS(walk(&manager, 3, at + 0x234, false), VTDM_OK, 0x100234);
    ANSWERS(vtdm_detach(&manager, 3), VTDM_OK, 0);
    CHECK(vtdm_context(&manager, 3).low == 0 && vtdm_context(&manager, 3).high == 0);
    ANSWERS(walk(&manager, 3, at + 0x234, false), VTDM_FAULT_NOT_ATTACHED, 0);
    ANSWERS(walk(&manager, 4, at + 0x234, false), VTDM_OK, 0x100234);
    vtdm_destroy(&manager);
}

/* An unmap inside a leaf of 2 MiB puts a table of 511 leaves in its place. */
static void unmap_splits(bool wide) {
    struct vtdm manager = VTDM_INIT;
    make(&manager, false, wide);
    uint64_t at = mapped(&manager, 0x400, TABLE_WORDS, 9, VTDM_READ | VTDM_WRITE);
    CHECK(word_of_2_mib(&manager, 1, at) == (UINT64_C(0x400000) | LARGE | VTDM_READ | VTDM_WRITE));
    ANSWERS(walk(&manager, 3, at + 0x1008, true), VTDM_OK, 0x401008);
    ANSWERS(vtdm_unmap(&manager, 1, at + PAGE, 1), VTDM_OK, 0);
    uint64_t word = word_of_2_mib(&manager, 1, at), table = word >> 12;
    CHECK((word & (PAGE - 1)) == (VTDM_READ | VTDM_WRITE) && table - base < TABLE_FRAMES);
    CHECK(present(&manager, table) == TABLE_WORDS - 1);
    for (uint64_t index = 0; index < TABLE_WORDS; index++) {
        uint64_t wanted = index == 1 ? 0 : (0x400 + index) << 12 | VTDM_READ | VTDM_WRITE;
        ANSWERS(vtdm_table_word(&manager, table - base, index), VTDM_OK, wanted);
    }
    ANSWERS(walk(&manager, 3, at + 0x1008, true), VTDM_FAULT_WRITE, 0);
    ANSWERS(walk(&manager, 3, at + 0x2008, true), VTDM_OK, 0x402008);
    vtdm_destroy(&manager);
}

/* A dropped domain has no root, its tables and those of its retired ranges are free, and the next domain that gets them begins with
 * nothing present. */
static void drop(bool wide) {
    struct vtdm manager = VTDM_INIT;
    make(&manager, true, wide);
    uint64_t root = root_of(&manager, 1);
    mapped(&manager, 0x101, TABLE_WORDS, 0, VTDM_READ);
    uint64_t at = mapped(&manager, 0x101, TABLE_WORDS, 9, VTDM_READ);
    CHECK(present(&manager, root) == 1);
    ANSWERS(vtdm_unmap(&manager, 1, at, TABLE_WORDS), VTDM_OK, 0);
    CHECK(vtdm_totals(&manager).held == 1);
    ANSWERS(vtdm_detach(&manager, 3), VTDM_OK, 0);
    ANSWERS(vtdm_drop(&manager, 1), VTDM_OK, 0);
    ANSWERS(vtdm_root_of(&manager, 1), VTDM_NO_DOMAIN, 0);
    CHECK(vtdm_totals(&manager).free == TABLE_FRAMES && vtdm_totals(&manager).held == 0);
    for (uint64_t domain = 1; domain <= VTDM_MOST_DOMAINS; domain++) {
        ANSWERS(make_domain(&manager, false, domain % 2), VTDM_OK, domain);
        CHECK(present(&manager, root_of(&manager, domain)) == 0);
    }
    ANSWERS(vtdm_attach(&manager, 3, 1), VTDM_OK, 0);
    ANSWERS(walk(&manager, 3, 0x1234, false), VTDM_FAULT_READ, 0);
    vtdm_destroy(&manager);
}

/* A lazy unmap empties the words at once; what it cut off is held until a flush, and then serves the next map. */
static void flush(bool wide) {
    struct vtdm manager = VTDM_INIT;
    make(&manager, true, wide);
    uint64_t at = mapped(&manager, 0x101, TABLE_WORDS, 9, VTDM_READ);
    ANSWERS(vtdm_dma(&manager, 3, at + 8, false, true, true), VTDM_OK, 0x101008);
    uint64_t table = word_of_2_mib(&manager, 1, at) >> 12;
    CHECK(present(&manager, table) == TABLE_WORDS);
    ANSWERS(vtdm_unmap(&manager, 1, at, TABLE_WORDS), VTDM_OK, 0);
    CHECK(word_of_2_mib(&manager, 1, at) == 0 && present(&manager, table) == 0);
    ANSWERS(vtdm_dma(&manager, 3, at + 8, false, true, false), VTDM_OK, 0x101008);
    ANSWERS(walk(&manager, 3, at + 8, false), VTDM_FAULT_READ, 0);
    CHECK(vtdm_totals(&manager).held == 1);
    ANSWERS(vtdm_flush(&manager, 1), VTDM_OK, 1);
    CHECK(vtdm_totals(&manager).held == 0);
    ANSWERS(vtdm_dma(&manager, 3, at + 8, false, true, false), VTDM_FAULT_READ, 0);
    CHECK(mapped(&manager, 0x801, TABLE_WORDS, 9, VTDM_READ) == at);
    ANSWERS(walk(&manager, 3, at + 8, false), VTDM_OK, 0x801008);
    vtdm_destroy(&manager);
}

struct live {
    uint64_t domain, address, pages;
};

static struct live lives[MOST_LIVE];
static size_t count;

/* How many requests reached a host address, and how many maps were refused since they had a table frame. */
static int reached, owned;

static void map_some(struct vtdm *manager) {
    uint64_t order = pick(10), pages = 1 + pick(pick(2) ? 8 : 1200);
    uint64_t frame = pick(2) ? 0x1000 + 512 * pick(64) : 0x1000 + pick(9999), domain = 1 + pick(DOMAINS);
    struct vtdm_answer at = vtdm_map(manager, domain, frame, pages, order, 1 + pick(3));
    bool own = frame < base + TABLE_FRAMES && base < frame + pages;
    CHECK((at.status == VTDM_FRAME_OWNED) == own);
    owned += own;
    if (at.status == VTDM_OK && count < MOST_LIVE)
        lives[count++] = (struct live){domain, at.value, pages};
}

/* Ends a part of what is live, so that leaves are split and tables cut. */
static void unmap_some(struct vtdm *manager) {
    if (!count)
        return;
    struct live *one = &lives[pick(count)];
    uint64_t pages = 1 + pick(one->pages);
    struct vtdm_answer ended = vtdm_unmap(manager, one->domain, one->address, pages);
    if (ended.status != VTDM_OK)
        return;
    one->address += pages * PAGE;
    one->pages -= pages;
    if (!one->pages)
        *one = lives[--count];
}

/* A device goes to another domain, a lazy domain is flushed, or a domain without devices is dropped and made again, of any width. */
static void change_some(struct vtdm *manager) {
    uint64_t domain = 1 + pick(DOMAINS), device = pick(VTDM_DEVICES);
    if (pick(2)) {
        vtdm_detach(manager, device);
        vtdm_attach(manager, device, domain);
    } else if (vtdm_flush(manager, domain).status == VTDM_OK && !pick(8)) {
        for (uint64_t each = 0; each < VTDM_DEVICES; each++)
            if (vtdm_domain_of(manager, each).value == domain)
                vtdm_detach(manager, each);
        ANSWERS(vtdm_drop(manager, domain), VTDM_OK, 0);
        ANSWERS(make_domain(manager, domain % 2, pick(2)), VTDM_OK, domain);
        for (size_t i = count; i-- > 0;)
            if (lives[i].domain == domain)
                lives[i] = lives[--count];
    }
}

/* An address of both widths, of wide domains alone, or of neither. */
static uint64_t any_address(void) {
    static const uint64_t firsts[] = {0, VTDM_ADDRESSES_END, VTDM_WIDE_ADDRESSES_END};
    return firsts[pick(3)] + pick(UINT64_C(1) << 30);
}

static void ask_some(struct vtdm *manager) {
    uint64_t device = pick(VTDM_DEVICES), address = pick(4) && count ? lives[pick(count)].address : any_address();
    bool write = pick(2);
    address += pick(PAGE);
    struct vtdm_answer said = vtdm_dma(manager, device, address, write, false, pick(2)), read = walk(manager, device, address, write);
    reached += said.status == VTDM_OK;
    CHECK(said.status == VTDM_WINDOW || (said.status == read.status && said.value == read.value));
}

static void check_contexts(struct vtdm *manager) {
    for (uint64_t device = 0; device < VTDM_DEVICES; device++) {
        struct vtdm_context_answer context = vtdm_context(manager, device);
        struct vtdm_answer domain = vtdm_domain_of(manager, device);
        uint64_t root = domain.status == VTDM_OK ? root_of(manager, domain.value) : 0;
        uint64_t width = is_wide(manager, domain.value) ? AGAW_48 : AGAW_39;
        CHECK(context.low == (domain.status == VTDM_OK ? root << 12 | 1 : 0));
        CHECK(context.high == (domain.status == VTDM_OK ? domain.value << 8 | width : 0));
    }
}

static void random_domains(void) {
    struct vtdm manager = VTDM_INIT;
    create(&manager);
    count = 0;
    reached = 0;
    owned = 0;
    for (uint64_t domain = 1; domain <= DOMAINS; domain++)
        ANSWERS(make_domain(&manager, domain % 2, domain > DOMAINS / 2), VTDM_OK, domain);
    for (uint64_t device = 0; device < VTDM_DEVICES - 2; device++)
        ANSWERS(vtdm_attach(&manager, device, 1 + device % DOMAINS), VTDM_OK, 0);
    for (int step = 0; step < STEPS; step++) {
        switch (pick(20)) {
        case 0: change_some(&manager); check_contexts(&manager); break;
        case 1: case 2: case 3: case 4: case 5: map_some(&manager); break;
        case 6: case 7: case 8: case 9: case 10: unmap_some(&manager); break;
        default: ask_some(&manager);
        }
    }
    CHECK(reached > LEAST_REACHED);
    CHECK((owned > 0) == (base == AMONG));
    vtdm_destroy(&manager);
}

int main(void) {
    static const uint64_t bases[] = {0, AMONG, VTDM_FRAMES_END - TABLE_WORDS};
    for (size_t i = 0; i < sizeof bases / sizeof bases[0]; i++) {
        base = bases[i];
        for (int wide = 0; wide < 2; wide++) {
            detach(wide);
            unmap_splits(wide);
            drop(wide);
            flush(wide);
        }
        random_domains();
    }
    return check_end();
}
