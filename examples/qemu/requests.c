#include "requests.h"

#include "machine.h"
#include "unit.h"

/* A device's buffer: a mark that it writes, and in each word after it what one read got. The last word of its page isn't reached. */
enum { MARK_WORD, MOST_READS = 511 };
static const uint64_t MARK = 0x5e77000000000000;

struct vtdm manager;
uint64_t agreed, differed, stale;

/* ---- What is told */

void verdict(bool good) {
    if (good)
        agreed++;
    else
        differed++;
    text(good ? "\n" : "  DIFFERS\n");
}

static void told(struct vtdm_answer said) {
    if (said.status == VTDM_OK) {
        text("host ");
        hex(said.value);
    } else {
        text("fault ");
        number(said.status - 32);
    }
}

/* ---- Signatures */

static uint64_t signature(uint64_t host) {
    return 0xA5C3000000000000 | host;
}

static uint64_t signed_word(uint64_t frame) {
    return (FIRST_FRAME + frame) * PAGE + SIGNED_AT;
}

static void sign_all(void) {
    for (uint64_t frame = 0; frame < FRAMES; frame++)
        *word64(signed_word(frame)) = signature(signed_word(frame));
}

/* How many signatures are gone, and where the last one was; they are put back. */
static uint64_t take_changed(uint64_t *where, uint64_t *value) {
    uint64_t count = 0;
    for (uint64_t frame = 0; frame < FRAMES; frame++) {
        uint64_t at = signed_word(frame), found = *word64(at);
        if (found == signature(at))
            continue;
        count++;
        *where = at;
        *value = found;
        *word64(at) = signature(at);
    }
    return count;
}

/* ---- Requests */

/* What the manager's unit says to a request, with its caches. */
static struct vtdm_answer says(unsigned device, uint64_t address, bool write, bool fill) {
    return vtdm_dma(&manager, device_number(device), address, write, true, fill);
}

/* A refusal leaves a record. That of a write to a page that may be read is by a cached entry, and leaves none in QEMU. */
static bool is_refusal(struct unit_fault fault, unsigned device, uint64_t address, bool write, uint64_t status) {
    if (!fault.there)
        return write && status == VTDM_FAULT_WRITE && says(device, address, false, false).status == VTDM_OK;
    return fault.reason + 32 == status && fault.read != write && fault.page == address / PAGE
           && fault.source == device_number(device) << 3;
}

/* A device wrote its mark. So many signatures were gone then, and this was found in the place of the last. */
struct written {
    unsigned device;
    uint64_t address, changed, host, value;
    struct unit_fault fault;
};

static struct written write_now(unsigned device, uint64_t address) {
    struct written it = {.device = device, .address = address};
    device_writes(device, address, MARK_WORD);
    it.fault = unit_take_fault();
    it.changed = take_changed(&it.host, &it.value);
    return it;
}

/* Exactly the word that was said has the mark. */
static bool is_as(struct written it, struct vtdm_answer said) {
    if (said.status == VTDM_OK)
        return !it.fault.there && it.changed == 1 && it.host == said.value && it.value == MARK + it.device;
    return it.changed == 0 && is_refusal(it.fault, it.device, it.address, true, said.status);
}

/* What a device read isn't seen until it writes it somewhere. So a read is judged by its fault here, and in the end, with translation off,
 * by the word that it got: a signature, or 0 where it was refused. */
static struct {
    unsigned count;
    uint64_t wanted[MOST_READS];
} reads[DEVICES];

static bool read_agrees(unsigned device, uint64_t address, struct vtdm_answer said) {
    unsigned word = ++reads[device].count;
    device_reads(device, address, word);
    struct unit_fault fault = unit_take_fault();
    if (said.status != VTDM_OK)
        return is_refusal(fault, device, address, false, said.status);
    reads[device].wanted[word] = signature(said.value);
    return !fault.there;
}

void requests(unsigned device, uint64_t page) {
    uint64_t address = page * PAGE + SIGNED_AT, by = device_number(device);
    for (int write = 0; write < 2; write++) {
        struct vtdm_answer walked = vtdm_dma(&manager, by, address, write, false, false);
        struct vtdm_answer said = says(device, address, write, true);
        stale += said.status == VTDM_OK && walked.status != VTDM_OK;
        text("  device ");
        number(by);
        text(write ? " writes page " : " reads  page ");
        hex(page);
        text(": ");
        told(said);
        verdict(write ? is_as(write_now(device, address), said) : read_agrees(device, address, said));
    }
}

/* ---- A device at work while the words of a call are brought */

static struct {
    unsigned device;
    uint64_t address, moments, bad;
    struct vtdm_answer before, after;
} busy;

/* It is answered as before the call or as after it. What it caches by that is forgotten by the call's descriptor. */
static void at_each_request(void) {
    if (busy.moments++ == 0)
        busy.after = says(busy.device, busy.address, true, false);
    struct written it = write_now(busy.device, busy.address);
    busy.bad += !is_as(it, busy.before) && !is_as(it, busy.after);
}

void works(unsigned device, uint64_t page) {
    busy.device = device;
    busy.address = page * PAGE + SIGNED_AT;
    busy.moments = busy.bad = 0;
    busy.before = says(device, busy.address, true, false);
    unit_meanwhile = at_each_request;
}

void rests(void) {
    unit_meanwhile = NULL;
    text("  at ");
    number(busy.moments);
    text(" moments the device is answered as before or as after");
    verdict(busy.bad == 0 && busy.moments > 0);
}

/* ---- Begin and end */

/* What the reads got, once devices reach memory by its own addresses: each word is written to a frame. */
void look_at_reads(void) {
    uint64_t at = FIRST_FRAME * (uint64_t)PAGE, others = 0, all = 0;
    for (unsigned device = 0; device < DEVICES; device++)
        for (unsigned word = 1; word <= reads[device].count; word++) {
            device_writes(device, at, word);
            others += *word64(at) != reads[device].wanted[word];
            all++;
        }
    text("== ");
    number(all);
    text(" reads got what the manager said");
    verdict(others == 0);
}

static void fill_buffers(void) {
    uint64_t at = FIRST_FRAME * (uint64_t)PAGE;
    for (unsigned device = 0; device < DEVICES; device++)
        for (unsigned word = 0; word < MOST_READS; word++) {
            *word64(at) = word == MARK_WORD ? MARK + device : 0;
            device_reads(device, at, word);
        }
}

void begin_requests(void) {
    fill_buffers();
    sign_all();
}
