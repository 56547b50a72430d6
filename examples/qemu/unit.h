/* A VT-d unit in legacy mode that follows a manager. After each call of the library, under the caller's lock and before the reply is used,
 * the caller has the unit follow: what the call asks is done, effect by effect. */
#ifndef UNIT_H
#define UNIT_H

#include "vtdm.h"

#include <stdbool.h>
#include <stdint.h>

/* Turns the unit on over tables from the host frame `base` on, which hold no words yet. The words of table frames are brought there: of so
 * many that the manager is made with, or of none where its own words lie there. Four pages from `own` on are for the root table, the
 * context table, the queue and the status that waits write, whose address is unit_status. */
void unit_on(uint64_t frames, uint64_t base, uint64_t own);
uint64_t unit_status(void);

/* Turns translation off: devices then reach memory by its own addresses. */
void unit_off(void);

/* Does what the manager's last call asks. */
void unit_follow(struct vtdm *manager);

/* Lets the unit do the next descriptor that is queued, if there is one. */
bool unit_step(void);

/* Has the library's unit do what this one has done, up to its last wait. */
void unit_tell_done(struct vtdm *manager);

/* Has the unit forget what it cached of a domain, or that a device had no context entry, by a descriptor that the manager hasn't sent. */
void unit_forget(uint64_t domain);
void unit_forget_absence(uint64_t device);

struct unit_fault {
    bool there, read;
    uint64_t reason, page, source;
};

/* Takes the fault record, if there is one. */
struct unit_fault unit_take_fault(void);

/* Called, where it isn't NULL, before each word that becomes another and before each wait; where a call asks for none, in the end. */
extern void (*unit_meanwhile)(void);

#endif
