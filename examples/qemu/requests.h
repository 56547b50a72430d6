/* Requests of the devices. Each is made for real, and what it reached is compared with what the manager's own unit answers to the same
 * request. */
#ifndef REQUESTS_H
#define REQUESTS_H

#include "vtdm.h"

#include <stdbool.h>
#include <stdint.h>

/* Host frames that devices may reach. Each has a signature at one place; a device that writes there changes it. */
enum { FIRST_FRAME = 0x8000, FRAMES = 2048, SIGNED_AT = 0x128 };

extern struct vtdm manager;

/* Comparisons so far, and requests that reached a page which was unmapped lazily. */
extern uint64_t agreed, differed, stale;

/* Counts one comparison, and ends its line. */
void verdict(bool good);

/* Signs the frames, and fills the devices' buffers. Translation is off. */
void begin_requests(void);

/* A device reads and writes a page: both units are asked, with their caches. */
void requests(unsigned device, uint64_t page);

/* From here on a device writes to a page at each moment of the calls, while their words are brought. Each time it is answered as before
 * the call or as after it. rests ends that, with a comparison for them all. */
void works(unsigned device, uint64_t page);
void rests(void);

/* Compares what the reads got. Translation is off. */
void look_at_reads(void);

#endif
