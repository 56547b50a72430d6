/* The six functions that the library asks of C. malloc takes from the front of a region and free gives nothing back: a manager asks for
 * memory at its making alone. */
#include <stddef.h>
#include <stdint.h>

enum { HEAP_BYTES = 48 << 20 };
static uint8_t heap[HEAP_BYTES] __attribute__((aligned(16)));
static size_t taken;

void *memcpy(void *to, const void *from, size_t bytes) {
    uint8_t *t = to;
    const uint8_t *f = from;
    while (bytes--)
        *t++ = *f++;
    return to;
}

void *memmove(void *to, const void *from, size_t bytes) {
    uint8_t *t = to;
    const uint8_t *f = from;
    if (t <= f)
        return memcpy(to, from, bytes);
    while (bytes--)
        t[bytes] = f[bytes];
    return to;
}

/* A word of 64 bits that lies whole in the block is stored at once: where the tables lie in place, a unit may read it meanwhile. */
typedef volatile uint64_t __attribute__((may_alias)) word;

void *memset(void *to, int byte, size_t bytes) {
    uint8_t *t = to;
    for (; bytes && (uintptr_t)t % sizeof(word); bytes--)
        *t++ = (uint8_t)byte;
    for (; bytes >= sizeof(word); bytes -= sizeof(word), t += sizeof(word))
        *(word *)t = 0x0101010101010101 * (uint8_t)byte;
    for (; bytes; bytes--)
        *t++ = (uint8_t)byte;
    return to;
}

/* The block of this length is to lie here: that of the table frames, where a unit walks them in place. */
size_t placed_bytes;
void *placed_at;

/* A block's length stands in the 16 bytes before it. */
void *malloc(size_t bytes) {
    if (placed_at && bytes == placed_bytes) {
        void *at = placed_at;
        placed_at = NULL;
        return at;
    }
    if (bytes > HEAP_BYTES - 32 - taken)
        return NULL;
    uint8_t *block = heap + taken + 16;
    *(size_t *)(block - 16) = bytes;
    taken += 16 + (bytes + 15) / 16 * 16;
    return block;
}

void free(void *block) {
    (void)block;
}

void *realloc(void *block, size_t bytes) {
    void *next = malloc(bytes);
    if (next && block) {
        size_t old = *(size_t *)((uint8_t *)block - 16);
        memcpy(next, block, old < bytes ? old : bytes);
    }
    return next;
}
