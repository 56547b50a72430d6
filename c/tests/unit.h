/* A unit that has no more than it is told: words of table frames and context entries in its memory, a queue, and pages that it remembers.
 * There is one at a time. */
#ifndef UNIT_H
#define UNIT_H

#include "vtdm.h"

/* Table frames of the manager that is in charge of it; the words of each, the bytes of a page, and all rights. */
enum { TABLE_FRAMES = 96, TABLE_WORDS = 512, PAGE = 4096, RIGHTS = VTDM_READ | VTDM_WRITE };

/* How many descriptors its queue holds. */
enum { PLACES = 256 };

struct pair {
    uint64_t low, high;
};

struct memory {
    uint64_t words[TABLE_FRAMES][TABLE_WORDS];
    struct pair contexts[VTDM_DEVICES];
};

/* What no walk may find. */
static const uint64_t WILD = UINT64_MAX;

/* A random number below another; the same ones each time that a program runs. */
uint64_t pick(uint64_t below);

/* What a memory has at a device's address: the host address of the page with its rights, or 0 where there are none. */
uint64_t walk(const struct memory *memory, uint64_t device, uint64_t address);

/* Its own memory, what it has been sent, oldest first, and how many waits it has done. */
extern struct memory unit_memory;
extern struct pair unit_queue[PLACES];
extern uint64_t unit_head, unit_tail, unit_waits;

/* Called at each word that becomes another. */
extern void (*unit_meanwhile)(void);

/* The unit is as one that was told nothing yet, with Caching Mode or without it. Table frame 0 is this host frame. */
void unit_begin(bool caching, uint64_t base);

/* Does what an effect asks of it. An effect that can't be done is answered by false. */
bool unit_follow(struct vtdm *manager, const struct vtdm_effect *effect);

/* Does the next descriptor of its queue, if there is one. */
bool unit_step(void);

/* It may remember what it finds at a device's address, by the domain that the device has: with Caching Mode also that it finds nothing. */
void unit_remember(uint64_t device, uint64_t address);

/* Whether all that it remembers is in a memory that is as the manager says; but in a lazy domain with retired ranges it may remember a page
 * that is none any more. */
bool unit_remembers_right(struct vtdm *manager, const struct memory *said);

#endif
