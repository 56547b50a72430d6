/* vtdm.h: a proved manager of DMA addresses, for C11 and C++17.
 *
 * A manager keeps up to 15 domains (address spaces of devices), attaches up to 16 devices to them, and maps and unmaps pages. It
 * follows the Intel VT-d specification in legacy mode: context entries for devices, second-stage tables of three or four levels for
 * domains, and a queue of invalidation descriptors. The unit that works off the queue is simulated; it has an IOTLB, a
 * paging-structure cache and a context cache, and with Caching Mode it also remembers pages that it found absent. What is proved:
 * whatever calls are made, no page and no table frame is free while an entry in one of these caches can still reach it, and no mapped
 * page is remembered as absent. Each function below has a contract in crates/vtdm_c, which its body meets.
 *
 * A FIRST PROGRAM.
 *     struct vtdm manager = VTDM_INIT;
 *     if (vtdm_create(&manager, 64) != VTDM_OK) ..                      64 table frames
 *     uint64_t domain = vtdm_domain(&manager, false).value;             a strict domain
 *     vtdm_attach(&manager, 3, domain);                                 device 3
 *     struct vtdm_answer at = vtdm_map(&manager, domain, 0x1000, 4, 0, VTDM_READ | VTDM_WRITE);
 *     if (at.status == VTDM_OK) ..                                      the device uses 4 pages from at.value on
 *     vtdm_unmap(&manager, domain, at.value, 4);                        the device reaches none of them any more
 *     vtdm_destroy(&manager);
 *
 * UNITS. An address is in bytes: a device address is what a device puts on the bus, a host address is what it reaches. A page is
 * VTDM_PAGE_BYTES bytes of device addresses, a frame is as many bytes of host memory. Host frames are numbered from 0, so frame F
 * begins at host address F * VTDM_PAGE_BYTES. Lengths of ranges are in pages.
 *
 * WHAT IS NO PAGE. The first VTDM_PAGE_BYTES bytes of device addresses, those of the interrupt address range (VTDM_WINDOW_FIRST to
 * VTDM_WINDOW_LAST), and those from the end of the domain's addresses on. No map answers an address of these, so 0 is never one. An
 * unmap of a range that touches one of them is VTDM_BAD_RANGE, whatever else is in the range.
 *
 * WIDTHS. A domain has device addresses of 39 bits and tables of three levels (vtdm_domain), or addresses of 48 bits and tables of
 * four levels (vtdm_domain_wide), as long as it lives. A manager may have domains of both widths. They differ in where addresses
 * end (VTDM_ADDRESSES_END, VTDM_WIDE_ADDRESSES_END), where maps begin (vtdm_map), and how many table frames they need (vtdm_create).
 *
 * WHAT C OWES. None of this is checked. Where one is broken, nothing that this header says holds.
 *  - A `struct vtdm` is zeros (VTDM_INIT) before its creation (vtdm_create, vtdm_create_caching, vtdm_create_driven), and only the
 *    functions below write its members afterwards: its address member says where the manager lies, and a call follows it.
 *  - It is not copied. After vtdm_destroy on one copy, the other still has the address, and a call on it would use freed memory.
 *    It may be moved between two calls, since nothing points to it, if the old place is not used again.
 *  - vtdm_destroy is called before the struct goes away. Otherwise its memory is lost: nothing else frees it.
 *  - One call at a time on one manager, readers too, since each call takes the manager out of the struct and puts it back at its end.
 *    Take a lock of your own around each call. Any thread may call. Two managers share nothing, and need no common lock.
 *  - A pointer to a `struct vtdm` is not null and is aligned, since a call reads it at once. `segments` is not null and is aligned
 *    even where `count` is 0, and `count` segments can be read there, also where they are more than VTDM_MOST_SEGMENTS and are
 *    refused. A call writes no segment, and keeps no pointer. `to` of vtdm_words and of vtdm_effects is not null and is aligned in the
 *    same way, `count` words or effects can be written there, and the struct is none of them.
 *  - malloc, realloc and free are one allocator, since each takes blocks of the others, and align blocks as C asks.
 *  - No call from a signal handler, since it may have come while another call had the manager. For the same reason no call in the
 *    child of a fork of a process with several threads.
 * Every number that is passed may be any number: one outside its limits is refused by a status.
 *
 * MEMORY. The creation of a manager takes all that it ever needs, about 1.4 MiB and VTDM_PAGE_BYTES more for each table frame;
 * vtdm_destroy gives it back, and no other function asks for any. The words of the table frames are one block of it,
 * asked for by one malloc of VTDM_PAGE_BYTES times the frames and written whole before a creation returns. Those of frame F begin
 * F * VTDM_PAGE_BYTES bytes after those of frame 0, where the block begins. So an allocator that puts this block at host address 0
 * lets a unit walk the tables in place, where the base is 0 (see *A unit of your own*). It tells the block by its length, but where there
 * are VTDM_LEAST_TABLE_FRAMES: then blocks of the domains have this length too. Contracts say that the words of one frame lie one
 * after the other, and that whoever walks them during a map or an unmap finds each page as before it or as after it. Three more things are
 * how the code is. The frames lie so. Its stores are compiled in their order. A word is stored at once, but two and more side by side are
 * cleared by memset: in place yours has to store each of them at once.
 *
 * IT DOES NOT WEAR OUT. A manager answers VTDM_CALLS_END calls, 2^56, and VTDM_SPENT to each further one, since its counts have 64
 * bits. Nobody gets there: at a billion calls a second it takes more than two years. Readers are not counted; vtdm_detach_all counts
 * for two calls, or for one where it is refused, and vtdm_done_up_to for each descriptor that it has done.
 *
 * WAITING. A call returns when the unit has done what the call needs of it. Two calls leave work for later: vtdm_begin, and
 * vtdm_unmap in a lazy domain. Of a manager of vtdm_create_driven that is the library's own unit: where a function says *when it
 * returns*, yours has done it when the call's effects are done.
 */
#ifndef VTDM_H
#define VTDM_H

#include <stdbool.h>
#include <stddef.h>
#include <stdint.h>

#ifdef __cplusplus
extern "C" {
#endif

/* ---- Limits */

#define VTDM_PAGE_BYTES UINT64_C(4096)               /* bytes of a page, and of a frame */
#define VTDM_ADDRESSES_END (UINT64_C(1) << 39)       /* device addresses of a 39-bit domain are below it .. */
#define VTDM_WIDE_ADDRESSES_END (UINT64_C(1) << 48)  /* .. and those of a 48-bit domain below this */
#define VTDM_FRAMES_END (UINT64_C(1) << 24)          /* numbers of host frames are below it */
#define VTDM_WINDOW_FIRST UINT64_C(0xFEE00)          /* the first page of the interrupt address range, which is not translated .. */
#define VTDM_WINDOW_LAST UINT64_C(0xFEEFF)           /* .. and the last: device addresses 0xfee00000 to 0xfeefffff */
#define VTDM_LEAST_TABLE_FRAMES UINT64_C(16)         /* the fewest table frames of a manager .. */
#define VTDM_MOST_TABLE_FRAMES UINT64_C(4096)        /* .. and the most */
#define VTDM_MOST_DOMAINS UINT64_C(15)               /* ids of domains are 1 to 15 */
#define VTDM_DEVICES UINT64_C(16)                    /* numbers of devices are below it */
#define VTDM_MOST_PAGES UINT64_C(4096)               /* the most pages of one map or unmap */
#define VTDM_MOST_ORDER UINT64_C(9)                  /* the highest alignment of a map: 2^9 pages, 2 MiB */
#define VTDM_MOST_SEGMENTS UINT64_C(16)              /* the most segments of one map */
#define VTDM_MOST_PIECES UINT64_C(1024)              /* the most pieces of a domain's address space: free, mapped or retired */
#define VTDM_MOST_RECORDS UINT64_C(256)              /* the most retired ranges of a lazy domain */
#define VTDM_MOST_TICKETS UINT64_C(64)               /* the most open tickets, over all domains */
#define VTDM_MOST_EFFECTS UINT64_C(32)               /* the most effects of one call */
#define VTDM_CALLS_END (UINT64_C(1) << 56)           /* a manager answers as many calls */

/* ---- Types */

/* A manager, or none. Begin it with VTDM_INIT, and leave its members to the functions below. */
struct vtdm {
    void *at;
    bool live;
};

#define VTDM_INIT { NULL, false }

/* Consecutive host frames: the first, and how many. */
struct vtdm_segment {
    uint64_t frame;
    uint64_t pages;
};

/* A status of enum vtdm_status. Where it is VTDM_OK, `value` is what the function answers: an id, an address, a count or a word,
 * or 0 where it answers none. At any other status `value` is 0. */
struct vtdm_answer {
    uint64_t status;
    uint64_t value;
};

enum vtdm_status {
    VTDM_OK = 0,

    /* Refusals of the manager. Nothing has changed but the count of its calls. */
    VTDM_NO_DOMAIN = 1,         /* there is no domain of this id */
    VTDM_NO_DEVICE = 2,         /* the device number is above 15 */
    VTDM_BUSY = 3,              /* the device is attached; or a device is attached to the domain, or one of its tickets is open */
    VTDM_NOT_ATTACHED = 4,      /* the device is attached to no domain */
    VTDM_BAD_RANGE = 5,         /* pages, frames, order, rights or address are outside their limits, or a page to unmap is none */
    VTDM_FRAME_OWNED = 6,       /* a segment has a table frame */
    VTDM_NO_RANGE = 7,          /* no free range is long enough, which does not happen with the limits above at either width */
    VTDM_NO_FRAMES = 8,         /* too few table frames are free */
    VTDM_TOO_MANY_PIECES = 9,   /* the range cuts a piece of the address space, and there are VTDM_MOST_PIECES - 1 or more */
    VTDM_NOT_LIVE = 10,         /* a page of the range is not mapped */
    VTDM_WINDOW = 11,           /* the device address lies in the interrupt address range */
    VTDM_TOO_MANY_DOMAINS = 12, /* all ids of domains are in use */
    VTDM_BAD_TICKET = 13,       /* there is no open ticket of this domain and number */
    VTDM_TOO_MANY_TICKETS = 14, /* VTDM_MOST_TICKETS tickets are open */

    /* Faults of a request, by vtdm_dma: 32 more than the fault reason of the VT-d specification. */
    VTDM_FAULT_NOT_ATTACHED = 34, /* the device is attached to no domain */
    VTDM_FAULT_BEYOND_WIDTH = 36, /* the address is VTDM_ADDRESSES_END or more, in a 48-bit domain VTDM_WIDE_ADDRESSES_END */
    VTDM_FAULT_WRITE = 37,        /* the page is not mapped, or without the right to write */
    VTDM_FAULT_READ = 38,         /* the page is not mapped, or without the right to read */

    /* Of this interface itself. Nothing has changed; of these VTDM_PENDING alone counts as a call. */
    VTDM_ABSENT = 64,        /* there is no manager at the struct */
    VTDM_SPENT = 65,         /* the manager has answered VTDM_CALLS_END calls, or can't answer all that this one counts for */
    VTDM_PRESENT = 66,       /* a creation: there is a manager at the struct already */
    VTDM_BAD_FRAMES = 67,    /* a creation: the number of table frames is outside its limits */
    VTDM_NO_MEMORY = 68,     /* a creation: malloc or realloc gave none, what was taken is freed */
    VTDM_MANY_SEGMENTS = 69, /* vtdm_map_list: more than VTDM_MOST_SEGMENTS segments */
    VTDM_PENDING = 70,       /* vtdm_reap: the unit has not done the ticket's invalidation wait descriptor */
    VTDM_NO_WORD = 71,       /* vtdm_table_word, vtdm_words: there is no such table frame, or no such index */
    VTDM_BAD_CACHE = 72,     /* vtdm_evict: the number is not in enum vtdm_cache */
    VTDM_NO_DESCRIPTOR = 73, /* vtdm_sent: none was sent so long ago, or the queue holds it no more */
    VTDM_NOT_DRIVEN = 74,    /* vtdm_effects: the manager was not made by vtdm_create_driven */
    VTDM_FEW_PLACES = 75,    /* vtdm_effects: there are more effects than places */
    VTDM_BAD_ADDRESS = 76,   /* vtdm_create_driven: the status address is no multiple of 4 */
    VTDM_NO_WAIT = 77,       /* vtdm_done_up_to: fewer waits than this number were sent */
    VTDM_BAD_BASE = 78       /* vtdm_create_driven: the base is no multiple of 512, or a table frame would be none of host memory */
};

/* What a device may do with a page: one of these, or both by `|`. */
enum vtdm_rights { VTDM_READ = 1, VTDM_WRITE = 2 };

/* How a domain unmaps. Strict: an unmap invalidates before it returns. Lazy: it leaves that to a later flush. */
enum vtdm_mode { VTDM_STRICT = 0, VTDM_LAZY = 1 };

/* The caches of the unit: the IOTLB, the paging-structure cache, the context cache, and, with Caching Mode alone, the pages that it
 * remembers as absent. */
enum vtdm_cache { VTDM_CACHE_LEAF = 0, VTDM_CACHE_NON_LEAF = 1, VTDM_CACHE_CONTEXT = 2, VTDM_CACHE_FAULT = 3 };

/* ---- Begin and end */

/* Makes a manager with VTDM_LEAST_TABLE_FRAMES to VTDM_MOST_TABLE_FRAMES table frames: no domain, no device attached, nothing
 * mapped. The table frames are host frames 0 to frames - 1; no device reaches them, for no map takes them. A domain needs one for
 * its root, and one for each 1 GiB of addresses in use. It needs one more for each 2 MiB of them that is not mapped by a leaf of 2 MiB,
 * and with 48 bits one for each 512 GiB. An unmap takes the table of 2 MiB away where it covers them all; the
 * others stay until vtdm_drop.
 * Answers VTDM_OK, or the first of these that holds: VTDM_PRESENT, VTDM_BAD_FRAMES, VTDM_NO_MEMORY. */
uint64_t vtdm_create(struct vtdm *manager, uint64_t frames);

/* Makes a manager whose unit has Caching Mode (capability bit 7), as the emulated unit of a hypervisor may: it may remember that a
 * page is absent. vtdm_map and vtdm_map_list have it forget that of the pages which they map, before they return. What waits in
 * the queue is done before. Otherwise as vtdm_create. */
uint64_t vtdm_create_caching(struct vtdm *manager, uint64_t frames);

/* Makes a manager for a unit of your own, with Caching Mode or without it: vtdm_effects tells after each call what it asks (see *A unit
 * of your own*). Its table frames are host frames `base` to base + frames - 1, all below VTDM_FRAMES_END, and `base` is a multiple of 512,
 * which is 2 MiB: table frame F is host frame base + F. `status` is the host address of 4 bytes of yours, in no table frame, which hold 0
 * at first: the unit writes the status of each wait there. No map takes a table frame of this manager; it is yours to map none of
 * another's, and nothing of the unit's own memory (below). Otherwise as vtdm_create. VTDM_BAD_ADDRESS and then VTDM_BAD_BASE are judged
 * after VTDM_BAD_FRAMES and before VTDM_NO_MEMORY. */
uint64_t vtdm_create_driven(struct vtdm *manager, uint64_t frames, uint64_t base, bool caching, uint64_t status);

/* Ends the manager, if there is one, and frees its memory. Then the struct is as at VTDM_INIT and can be used again. */
void vtdm_destroy(struct vtdm *manager);

/* ---- Calls. Each can also answer VTDM_ABSENT, which is judged before all others, and VTDM_SPENT, which is judged next, but after
 * VTDM_MANY_SEGMENTS and VTDM_BAD_CACHE. Its other statuses are named in the order in which they are judged: the first whose
 * condition holds is answered. */

/* Makes an empty 39-bit domain, and answers its id. VTDM_TOO_MANY_DOMAINS, VTDM_NO_FRAMES. */
struct vtdm_answer vtdm_domain(struct vtdm *manager, bool lazy);

/* Makes an empty 48-bit domain; otherwise as vtdm_domain. */
struct vtdm_answer vtdm_domain_wide(struct vtdm *manager, bool lazy);

/* Ends a domain with all its mapped pages and retired ranges, and gives its table frames back. No device may be attached to it,
 * and no ticket of it open. VTDM_NO_DOMAIN, VTDM_BUSY. */
struct vtdm_answer vtdm_drop(struct vtdm *manager, uint64_t domain);

/* Attaches a device to a domain: it reaches what is mapped there. VTDM_NO_DEVICE, VTDM_NO_DOMAIN, VTDM_BUSY. */
struct vtdm_answer vtdm_attach(struct vtdm *manager, uint64_t device, uint64_t domain);

/* Detaches a device from its domain: when it returns the device reaches nothing. VTDM_NO_DEVICE, VTDM_NOT_ATTACHED. */
struct vtdm_answer vtdm_detach(struct vtdm *manager, uint64_t device);

/* Detaches a device, as vtdm_detach does, and then flushes the domain that it had, as vtdm_flush does: two calls in one. Answers how many
 * retired ranges the flush released. A unit of your own that finds cached translations by the device too, as VT-d allows, reaches the
 * domain until then. VTDM_SPENT also where one call alone is left. VTDM_NO_DEVICE, VTDM_NOT_ATTACHED. */
struct vtdm_answer vtdm_detach_all(struct vtdm *manager, uint64_t device);

/* Maps 1 to VTDM_MOST_PAGES pages to the host frames from `frame` on, and answers the device address of the first page: the lowest
 * free one that is a multiple of 2^order pages. In a 48-bit domain it is the lowest at VTDM_ADDRESSES_END (512 GiB) or above, and
 * where there is none there the lowest of all. `order` is at most VTDM_MOST_ORDER, and the frames are below VTDM_FRAMES_END.
 * Where page and frame are multiples of 512, 512 pages are mapped by one leaf of 2 MiB, unless an earlier map left a table there.
 * `rights` are of enum vtdm_rights.
 * VTDM_NO_DOMAIN, VTDM_BAD_RANGE, VTDM_FRAME_OWNED, VTDM_NO_RANGE, VTDM_TOO_MANY_PIECES, VTDM_NO_FRAMES. */
struct vtdm_answer vtdm_map(struct vtdm *manager, uint64_t domain, uint64_t frame, uint64_t pages, uint64_t order,
                            uint64_t rights);

/* Maps 1 to VTDM_MOST_SEGMENTS segments, VTDM_MOST_PAGES pages together at most, one after the other at one range of device
 * addresses: all of them, or none. A `count` of 0 is answered by VTDM_BAD_RANGE. Otherwise as vtdm_map.
 * VTDM_MANY_SEGMENTS, and then those of vtdm_map. */
struct vtdm_answer vtdm_map_list(struct vtdm *manager, uint64_t domain, uint64_t order, uint64_t rights,
                                 const struct vtdm_segment *segments, size_t count);

/* Unmaps 1 to VTDM_MOST_PAGES mapped pages from a device address on that is a multiple of VTDM_PAGE_BYTES, in one or several maps
 * or inside one.
 * In a strict domain no device reaches them when it returns, their addresses are free, and it answers 0.
 * In a lazy domain they become one retired range: devices may reach them until a flush, and their addresses are not used
 * again before. Where VTDM_MOST_RECORDS ranges are retired already it flushes first and answers how many were released, else 0.
 * VTDM_NO_DOMAIN, VTDM_BAD_RANGE (also where a member of the range is no page: see above), VTDM_NOT_LIVE, VTDM_TOO_MANY_PIECES,
 * VTDM_NO_FRAMES (to split a leaf of 2 MiB). */
struct vtdm_answer vtdm_unmap(struct vtdm *manager, uint64_t domain, uint64_t address, uint64_t pages);

/* Has the unit invalidate all cached translations of a domain, releases its retired ranges, and answers how many there were (0 in a
 * strict domain). No device reaches them when it returns, and their addresses are free. VTDM_NO_DOMAIN. */
struct vtdm_answer vtdm_flush(struct vtdm *manager, uint64_t domain);

/* Begins a flush of a domain: queues its two descriptors and does not wait for the unit. Answers the number of a ticket, from 1 on
 * in each domain, that vtdm_reap takes. VTDM_NO_DOMAIN, VTDM_TOO_MANY_TICKETS. */
struct vtdm_answer vtdm_begin(struct vtdm *manager, uint64_t domain);

/* Has the unit do the first descriptor of its queue. Answers 1 where it did one, 0 where the queue was empty. */
struct vtdm_answer vtdm_unit(struct vtdm *manager);

/* Has the unit do its queue up to the wait of this number (vtdm_waits), and answers how many descriptors it did. Each counts as a call;
 * there is none where the wait is done already, or for 0. After it there are no effects. VTDM_SPENT exactly where fewer calls are left than
 * descriptors wait in its queue. VTDM_NO_WAIT. */
struct vtdm_answer vtdm_done_up_to(struct vtdm *manager, uint64_t wait);

/* Ends a begun flush, by domain and number of its ticket: releases the ranges that were retired before it was begun, answers how many
 * there were, and closes the ticket. At VTDM_PENDING let the unit work (vtdm_unit, or any call that waits for it; where yours has worked,
 * vtdm_done_up_to), and reap again. VTDM_BAD_TICKET, VTDM_PENDING. */
struct vtdm_answer vtdm_reap(struct vtdm *manager, uint64_t domain, uint64_t number);

/* A request of a device at a device address, to write or to read, as the unit translates it: the host address, or a fault. With
 * `look` cached entries are used, otherwise the tables are walked. With `fill` the entries that were used are cached.
 * The host address holds as long as you hold your lock. After that another thread's vtdm_unmap may end the page, and its memory be
 * used for something else, also where the device was detached in between. So use the memory under the lock, or have that thread wait
 * until you have done with it.
 * VTDM_NO_DEVICE, VTDM_WINDOW (also where the device is not attached), VTDM_FAULT_NOT_ATTACHED, VTDM_FAULT_BEYOND_WIDTH,
 * VTDM_FAULT_WRITE, VTDM_FAULT_READ. */
struct vtdm_answer vtdm_dma(struct vtdm *manager, uint64_t device, uint64_t address, bool write, bool look, bool fill);

/* Has the unit drop the entry at a place, from 0 on, of a cache of enum vtdm_cache, as a unit may at any time. Where there is no
 * entry nothing happens. VTDM_BAD_CACHE. */
struct vtdm_answer vtdm_evict(struct vtdm *manager, uint64_t cache, uint64_t place);

/* ---- Readers. They change nothing and are not counted as calls. Each can also answer VTDM_ABSENT; its members are 0 at any status
 * but VTDM_OK. */

/* Table frames that are free, used by tables, and held by retired ranges; open tickets; and descriptors that wait in the queue. */
struct vtdm_totals_answer {
    uint64_t status;
    uint64_t free;
    uint64_t used;
    uint64_t held;
    uint64_t tickets;
    uint64_t pending;
};
struct vtdm_totals_answer vtdm_totals(struct vtdm *manager);

/* Of a domain: its mode (enum vtdm_mode), its mapped pages, its retired ranges, and the pieces of its address space.
 * VTDM_NO_DOMAIN. */
struct vtdm_domain_totals_answer {
    uint64_t status;
    uint64_t mode;
    uint64_t live;
    uint64_t retired;
    uint64_t pieces;
};
struct vtdm_domain_totals_answer vtdm_domain_totals(struct vtdm *manager, uint64_t domain);

/* The id of the domain that a device is attached to. VTDM_NO_DEVICE, VTDM_NOT_ATTACHED. */
struct vtdm_answer vtdm_domain_of(struct vtdm *manager, uint64_t device);

/* The devices that are attached to a domain: bit V is device V. VTDM_NO_DOMAIN. */
struct vtdm_answer vtdm_devices_of(struct vtdm *manager, uint64_t domain);

/* The mode of a domain, of enum vtdm_mode. VTDM_NO_DOMAIN. */
struct vtdm_answer vtdm_mode_of(struct vtdm *manager, uint64_t domain);

/* The bits of a domain's device addresses: 39 or 48. VTDM_NO_DOMAIN. */
struct vtdm_answer vtdm_width_of(struct vtdm *manager, uint64_t domain);

/* ---- A unit of your own, emulated or real, which a manager of vtdm_create_driven is in charge of. It reads the tables, word I of table
 * frame F at host address (base + F) * VTDM_PAGE_BYTES + 8 * I; the context entries; and the descriptors in its queue.
 * examples/qemu/unit.c does all of this.
 *
 * WHAT IT HAS. By its capability registers: second-stage tables of the widths that you use (SAGAW), leaves of 2 MiB, queued
 * invalidation (QI) and page-selective invalidation (PSI) of up to 2^9 pages (MAMV). It drains writes and reads (DWD, DRD). Say by
 * `caching` whether it has Caching Mode (CM).
 *
 * BEFORE IT IS ON. Make a root table that names a context table for bus 0 alone. In that table the entry of device V is the one of
 * its function 0, at 128 * V bytes, and the others are 0. Make a queue of 256 descriptors. Before the first call clear the memory of the
 * table frames (the library's own words are 0 already), give the unit the root table, and have it invalidate all contexts, and then the
 * whole IOTLB. Turn translation off before vtdm_destroy.
 *
 * AROUND EACH CALL
 *  1. Take your lock.
 *  2. Make the call.
 *  3. Take its effects (vtdm_effects), and do what each asks, one after the other.
 *  4. Release the lock. Now what the call set free may be used for something else, and not before.
 *
 * TABLES IN PLACE. Where the unit walks the library's own words (MEMORY, above), pass over VTDM_EFFECT_WORDS: they are there already. That
 * takes a base of 0, since the library's own words count host frames from the base. The other effects stay. But an unmap that flushes
 * first may then use a table frame before the flush is done. So never unmap there in a domain with VTDM_MOST_RECORDS retired ranges
 * (vtdm_domain_totals): call vtdm_flush before, with its effects.
 *
 * WHERE A CALL NEEDS MORE.
 *  - vtdm_dma, vtdm_evict, vtdm_unit and vtdm_done_up_to are of the library's own unit here too. They have no effects.
 *  - vtdm_begin asks for no wait. Before vtdm_reap let the library's unit do what yours has done, and no more: call vtdm_done_up_to with
 *    the number of the last wait that yours has done. Where W is what vtdm_waits answers and S the status that yours wrote last, that
 *    number is W - (uint32_t)(W - S).
 *  - A detach sends the descriptor of the context alone. Where your unit finds cached translations by the device too, use
 *    vtdm_detach_all.
 *  - An attach sends nothing, and a unit with Caching Mode may remember that the device had no context entry. So after its effects give
 *    it a context-cache invalidate descriptor of the device and domain 0, low word 0x31 + 2^35 * device, high word 0. Then give it an
 *    IOTLB invalidate descriptor of the domain, low word 0xe2 + 2^16 * domain, high word 0. After them put a wait of your own, with
 *    another status address, and wait for it before 4.
 *
 * WHAT IS PROVED, of a unit that does what docs/PROVED.md takes for granted (crates/moments, crates/quiet, crates/driven). The effects
 * bring each word and each context entry that the call has changed, and send all its descriptors in their order. Whatever of them has
 * reached memory, the unit finds each page as before the call or as after it; in place, so during a map or an unmap (MEMORY). After the
 * last of them it has nothing cached of what the call set free; in place that is proved of the pages of a strict unmap alone. That you do
 * what they ask is yours. */

/* What an effect asks. The comment names the members that it uses; the others are 0. */
enum vtdm_effect_kind {
    /* `number`, `first`, `count`: bring `count` words to the unit's memory, from index `first` of table frame `number` on. vtdm_words has
     * them, a frame at a time: vtdm_drop alone asks for more than one, for all of them. Store each word of 64 bits at once. */
    VTDM_EFFECT_WORDS = 1,
    /* None: what was brought before is in memory before what follows. That is a fence. Where the unit doesn't snoop the processor's
     * caches, write back what was brought before it; where it asks for its write buffer to be flushed (RWBF), do that. */
    VTDM_EFFECT_BARRIER = 2,
    /* `number`, `first`: bring the context entry of this device, which vtdm_context has. The low word goes first where `first` is 0, the
     * high word where it is 1. */
    VTDM_EFFECT_CONTEXT = 3,
    /* `low`, `high`: put the descriptor of these words into the unit's queue, and tell it the new tail. */
    VTDM_EFFECT_SEND = 4,
    /* `number`: go on when the unit has written the status of this wait, the low 32 bits of its number, to the status address. */
    VTDM_EFFECT_AWAIT = 5
};

/* One thing that a call asks. */
struct vtdm_effect {
    uint64_t kind;
    uint64_t number;
    uint64_t first;
    uint64_t count;
    uint64_t low;
    uint64_t high;
};

/* Tells what the last call asks: writes its effects to the first places of `to`, and answers how many there are, 0 to VTDM_MOST_EFFECTS.
 * They are told once: after that there are none until the next call. The next call that is counted forgets those that nobody took, also
 * where it is refused, and then there are none; so does vtdm_done_up_to that did no descriptor. VTDM_SPENT, VTDM_MANY_SEGMENTS,
 * VTDM_BAD_CACHE and VTDM_NO_WAIT leave them. It is not counted itself. Where they are more than `count`, it writes nothing, and they can
 * be taken still. VTDM_ABSENT, VTDM_NOT_DRIVEN, VTDM_FEW_PLACES. */
struct vtdm_answer vtdm_effects(struct vtdm *manager, struct vtdm_effect *to, size_t count);

/* The number of the table frame that is the root of a domain. VTDM_NO_DOMAIN. */
struct vtdm_answer vtdm_root_of(struct vtdm *manager, uint64_t domain);

/* The word of a table frame at an index, 0 to 511. In a table it is a second-stage entry, 0 where nothing is present. Else bit 0 is
 * the right to read, bit 1 the right to write, and bit 7 says that it is a leaf of 2 MiB. Bits 12 and up are the host frame of the next
 * table or of the first page: table frame F is host frame base + F. The words of a frame that no table uses mean nothing. VTDM_NO_WORD. */
struct vtdm_answer vtdm_table_word(struct vtdm *manager, uint64_t frame, uint64_t index);

/* Copies `count` words of a table frame from index `first` on to `to`: up to all 512, and none where `count` is 0. Each is what
 * vtdm_table_word answers. Where they aren't all of the frame, or there is no such frame, it writes nothing and answers VTDM_NO_WORD. */
uint64_t vtdm_words(struct vtdm *manager, uint64_t frame, uint64_t first, uint64_t *to, size_t count);

/* The two words of the context entry of a device, in legacy mode, both 0 where it is attached to no domain. Else bit 0 of the low word
 * is set, and its bits 12 and up are the root's host frame. The high word has the address width (AGAW) in bits 0 to 2 and the id of the
 * domain in bits 8 to 23. The width is 1 (39 bits, the root is a table of level 3) or 2 (48 bits, level 4). VTDM_NO_DEVICE. */
struct vtdm_context_answer {
    uint64_t status;
    uint64_t low;
    uint64_t high;
};
struct vtdm_context_answer vtdm_context(struct vtdm *manager, uint64_t device);

/* The two words of a descriptor that was sent, as the VT-d specification lays them out. It is the last one where `back` is 0, the one
 * before it where it is 1, and so on. The queue holds the last 256. A wait is an invalidation wait descriptor: its low word has
 * 5 in bits 0 to 3 and the status that it writes in bits 32 to 63. Its high word is the address to which the library's unit writes the
 * status, 2^36, which is beyond all host frames; vtdm_effects tells yours in its place. VTDM_NO_DESCRIPTOR. */
struct vtdm_sent_answer {
    uint64_t status;
    uint64_t low;
    uint64_t high;
};
struct vtdm_sent_answer vtdm_sent(struct vtdm *manager, uint64_t back);

/* How many waits were sent: the number of the last one, 0 before the first. The status that a wait writes is the low 32 bits of its
 * number. Each wait follows one other descriptor. So where this was A before a call and is B after it, the call has sent 2 * (B - A)
 * descriptors. The oldest of them is vtdm_sent(manager, 2 * (B - A) - 1). */
struct vtdm_answer vtdm_waits(struct vtdm *manager);

#ifdef __cplusplus
}
#endif

#endif
