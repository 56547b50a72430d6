#include "unit.h"
#include "machine.h"
#include "requests.h"

/* ---- Registers (VT-d, register descriptions) */

enum {
    CAPABILITY = 0x08,
    COMMAND = 0x18,
    STATUS = 0x1c,
    ROOT_TABLE = 0x20,
    FAULT_STATUS = 0x34,
    QUEUE_HEAD = 0x80,
    QUEUE_TAIL = 0x88,
    QUEUE_ADDRESS = 0x90,
};
static const uint64_t REGISTERS = 0xFED90000;
static const uint32_t TRANSLATE = 1u << 31, SET_ROOT = 1u << 30, QUEUED = 1u << 26;

enum { WORDS = 512, PLACES = 256, WAIT = 5, WAIT_WRITES = 0x25 };

static struct {
    uint64_t frames, base, contexts, queue, status;
    uint32_t command;
    uint32_t tail; /* of the queue in memory; what the unit was told of is in its register */
    uint64_t own;  /* waits of our own */
} unit;

void (*unit_meanwhile)(void);

/* A command of one bit, and whether its status shows it afterwards. */
static void command(uint32_t bit, bool on) {
    uint32_t next = on ? unit.command | bit : unit.command & ~bit;
    *word32(REGISTERS + COMMAND) = next;
    while (!(*word32(REGISTERS + STATUS) & bit) == on)
        ;
    if (bit != SET_ROOT)
        unit.command = next;
}

static void clear(uint64_t from, uint64_t bytes) {
    for (uint64_t at = from; at < from + bytes; at += 8)
        *word64(at) = 0;
}

/* ---- The queue */

static void queue(uint64_t low, uint64_t high) {
    uint64_t at = unit.queue + 16 * unit.tail;
    *word64(at) = low;
    *word64(at + 8) = high;
    unit.tail = (unit.tail + 1) % PLACES;
}

static uint32_t head(void) {
    return *word32(REGISTERS + QUEUE_HEAD) / 16;
}

/* Lets the unit do all that is queued, the last of which writes this at a status. */
static void go_on_until(uint64_t at, uint32_t written) {
    *word32(REGISTERS + QUEUE_TAIL) = 16 * unit.tail;
    while (*word32(at) != written)
        ;
}

/* A wait that the manager doesn't count has a status of its own, 64 bytes after the other. */
static void wait_apart(void) {
    queue(WAIT_WRITES | ++unit.own << 32, unit.status + 64);
    go_on_until(unit.status + 64, (uint32_t)unit.own);
}

bool unit_step(void) {
    uint32_t at = head();
    if (at == unit.tail)
        return false;
    uint32_t next = (at + 1) % PLACES;
    *word32(REGISTERS + QUEUE_TAIL) = 16 * next;
    while (head() != next)
        ;
    return true;
}

/* Of the number of a wait its status is the low 32 bits. */
void unit_tell_done(struct vtdm *manager) {
    uint64_t sent = vtdm_waits(manager).value;
    vtdm_done_up_to(manager, sent - (uint32_t)(sent - *word32(unit.status)));
}

void unit_forget(uint64_t domain) {
    queue(0xe2 | domain << 16, 0); /* IOTLB invalidate, domain-selective, both drained */
    wait_apart();
}

/* What isn't there is remembered for domain 0, which no manager has. */
void unit_forget_absence(uint64_t device) {
    queue(0x31 | device << 35, 0); /* context-cache invalidate, device-selective; function 0 */
    wait_apart();
}

/* ---- On and off */

void unit_on(uint64_t frames, uint64_t base, uint64_t own) {
    unit.frames = frames;
    unit.base = base;
    unit.contexts = own + PAGE;
    unit.queue = own + 2 * PAGE;
    unit.status = own + 3 * PAGE;
    clear(base * PAGE, frames * PAGE);
    clear(own, 4 * PAGE);
    *word64(own) = unit.contexts | 1; /* bus 0 */
    *word64(REGISTERS + ROOT_TABLE) = own;
    command(SET_ROOT, true);
    *word64(REGISTERS + QUEUE_ADDRESS) = unit.queue;
    *word64(REGISTERS + QUEUE_TAIL) = 0;
    command(QUEUED, true);
    queue(0x11, 0); /* all contexts */
    queue(0xd2, 0); /* the whole IOTLB */
    wait_apart();
    command(TRANSLATE, true);
}

uint64_t unit_status(void) {
    return unit.status;
}

void unit_off(void) {
    command(TRANSLATE, false);
}

/* ---- What a call asks */

static void moment(void) {
    if (unit_meanwhile)
        unit_meanwhile();
}

static void bring(uint64_t at, uint64_t word) {
    if (*word64(at) == word)
        return;
    moment();
    *word64(at) = word;
}

/* Where the library's own words are the unit's tables none is brought. */
static void bring_words(struct vtdm *manager, struct vtdm_effect it) {
    static uint64_t words[WORDS];
    uint64_t left = unit.frames ? it.count : 0;
    for (uint64_t frame = it.number, first = it.first; left; frame++, first = 0) {
        uint64_t count = left < WORDS - first ? left : WORDS - first;
        if (vtdm_words(manager, frame, first, words, count) != VTDM_OK)
            verdict(false);
        for (uint64_t i = 0; i < count; i++)
            bring((unit.base + frame) * PAGE + 8 * (first + i), words[i]);
        left -= count;
    }
}

/* The half that goes first is the one without the bit that makes an entry present, or with it where the entry goes. */
static void bring_context(struct vtdm *manager, struct vtdm_effect it) {
    struct vtdm_context_answer entry = vtdm_context(manager, it.number);
#ifdef WITHOUT_BASE
    entry.low -= entry.low ? unit.base * PAGE : 0;
#endif
    uint64_t at = unit.contexts + 16 * (it.number << 3); /* function 0 */
    bool low_first = it.first == 0;
#ifdef WRONG_HALVES
    low_first = !low_first;
#endif
    if (low_first)
        bring(at, entry.low);
    bring(at + 8, entry.high);
    if (!low_first)
        bring(at, entry.low);
}

static void send(struct vtdm_effect it) {
#ifdef WITHOUT_DESCRIPTORS
    if ((it.low & 15) != WAIT)
        return;
#endif
    queue(it.low, it.high);
}

/* The unit is told of what is queued when that is waited for. */
static void await(struct vtdm_effect it) {
    moment();
    go_on_until(unit.status, (uint32_t)it.number);
}

static void do_as_asked(struct vtdm *manager, struct vtdm_effect it) {
    switch (it.kind) {
    case VTDM_EFFECT_WORDS:
        bring_words(manager, it);
        break;
    case VTDM_EFFECT_BARRIER: /* this processor stores in order, and the unit snoops its caches */
        __asm__ volatile("" ::: "memory");
        break;
    case VTDM_EFFECT_CONTEXT:
        bring_context(manager, it);
        break;
    case VTDM_EFFECT_SEND:
        send(it);
        break;
    case VTDM_EFFECT_AWAIT:
        await(it);
        break;
    }
}

#if defined WORDS_LATE || defined WRONG_ORDER
static bool is_for_queue(struct vtdm_effect it) {
    return it.kind == VTDM_EFFECT_SEND || it.kind == VTDM_EFFECT_AWAIT;
}

/* An order that no manager asks for: what is for the queue first, or what is for memory backwards. It shows that the guest can fail. */
static void spoil(struct vtdm_effect *effects, uint64_t count) {
    struct vtdm_effect given[VTDM_MOST_EFFECTS];
    uint64_t at = 0;
    for (uint64_t i = 0; i < count; i++)
        given[i] = effects[i];
#ifdef WORDS_LATE
    for (uint64_t i = 0; i < count; i++)
        if (is_for_queue(given[i]))
            effects[at++] = given[i];
    for (uint64_t i = 0; i < count; i++)
        if (!is_for_queue(given[i]))
            effects[at++] = given[i];
#else
    for (uint64_t i = count; i-- > 0;)
        if (!is_for_queue(given[i]))
            effects[at++] = given[i];
    for (uint64_t i = 0; i < count; i++)
        if (is_for_queue(given[i]))
            effects[at++] = given[i];
#endif
}
#endif

void unit_follow(struct vtdm *manager) {
    struct vtdm_effect effects[VTDM_MOST_EFFECTS];
    uint64_t count = vtdm_effects(manager, effects, VTDM_MOST_EFFECTS).value;
    bool waited = false;
#if defined WORDS_LATE || defined WRONG_ORDER
    spoil(effects, count);
#endif
    for (uint64_t i = 0; i < count; i++) {
        do_as_asked(manager, effects[i]);
        waited |= effects[i].kind == VTDM_EFFECT_AWAIT;
    }
    if (!waited)
        moment();
}

/* ---- Faults */

struct unit_fault unit_take_fault(void) {
    uint64_t at = REGISTERS + (*word64(REGISTERS + CAPABILITY) >> 24 & 0x3ff) * 16;
    uint64_t low = *word64(at), high = *word64(at + 8);
    struct unit_fault fault = {high >> 63, high >> 62 & 1, high >> 32 & 0xff, low >> 12, high & 0xffff};
    if (fault.there)
        *word32(at + 12) = 1u << 31;
    *word32(REGISTERS + FAULT_STATUS) = 1;
    return fault;
}
