/* How a virtual machine monitor gives a guest's memory to a passed-through device: buffers of guest memory are mapped when the guest
 * asks for it, and unmapped again, by virtual processors that run in threads. The lock is the monitor's own. */
#include <vtdm.h>

#include <inttypes.h>
#include <pthread.h>
#include <stdio.h>
#include <stdlib.h>

enum { TABLE_FRAMES = 256, DEVICE = 4, PROCESSORS = 2, MAPS = 1000, PAGES_OF_EACH = 1024 };

/* The monitor: its manager under its lock, and the domain of its guest. */
static struct {
    pthread_mutex_t lock;
    struct vtdm manager;
    uint64_t domain;
} monitor = {PTHREAD_MUTEX_INITIALIZER, VTDM_INIT, 0};

/* The guest's memory, and the host frame where it begins. */
static unsigned char memory[PROCESSORS * PAGES_OF_EACH * VTDM_PAGE_BYTES];
static const uint64_t GUEST_MEMORY = 0x10000;

static void stop(const char *what, uint64_t status) {
    fprintf(stderr, "%s: status %" PRIu64 "\n", what, status);
    exit(1);
}

/* Lets the device reach pages of guest memory, and answers the address that the device is to use. */
static uint64_t map_for_device(uint64_t guest_page, uint64_t pages) {
    pthread_mutex_lock(&monitor.lock);
    struct vtdm_answer at =
        vtdm_map(&monitor.manager, monitor.domain, GUEST_MEMORY + guest_page, pages, 0, VTDM_READ | VTDM_WRITE);
    pthread_mutex_unlock(&monitor.lock);
    if (at.status != VTDM_OK)
        stop("map", at.status);
    return at.value;
}

/* When it returns, the device no longer reaches the pages: the guest may use them for something else. */
static void unmap_for_device(uint64_t address, uint64_t pages) {
    pthread_mutex_lock(&monitor.lock);
    struct vtdm_answer ended = vtdm_unmap(&monitor.manager, monitor.domain, address, pages);
    pthread_mutex_unlock(&monitor.lock);
    if (ended.status != VTDM_OK)
        stop("unmap", ended.status);
}

/* A read of the emulated device: true, and the byte, where it reaches one. The byte is read under the lock: once that is given back,
 * another thread may unmap the page and use it for something else. So no host address leaves this function. */
static bool device_reads(uint64_t address, unsigned char *byte) {
    pthread_mutex_lock(&monitor.lock);
    struct vtdm_answer reached = vtdm_dma(&monitor.manager, DEVICE, address, false, true, true);
    if (reached.status == VTDM_OK)
        *byte = memory[reached.value - GUEST_MEMORY * VTDM_PAGE_BYTES];
    pthread_mutex_unlock(&monitor.lock);
    return reached.status == VTDM_OK;
}

/* A virtual processor: its guest fills a buffer, maps it for the device, has it read, and takes it away again. */
static void *processor(void *number) {
    uint64_t first = *(const uint64_t *)number * PAGES_OF_EACH;
    unsigned char byte;
    for (uint64_t i = 0; i < MAPS; i++) {
        uint64_t page = first + i % 512, pages = 1 + i % 16;
        memory[page * VTDM_PAGE_BYTES] = (unsigned char)i;
        uint64_t address = map_for_device(page, pages);
        if (!device_reads(address, &byte) || byte != (unsigned char)i)
            stop("the device misses a mapped page", 0);
        unmap_for_device(address, pages);
    }
    return NULL;
}

/* A manager with one strict domain, that of the guest, and the device attached to it. No thread runs yet, so no lock is needed. */
static void begin(void) {
    uint64_t status = vtdm_create(&monitor.manager, TABLE_FRAMES);
    if (status != VTDM_OK)
        stop("create", status);
    struct vtdm_answer domain = vtdm_domain(&monitor.manager, false);
    if (domain.status != VTDM_OK)
        stop("domain", domain.status);
    monitor.domain = domain.value;
    struct vtdm_answer attached = vtdm_attach(&monitor.manager, DEVICE, monitor.domain);
    if (attached.status != VTDM_OK)
        stop("attach", attached.status);
}

int main(void) {
    pthread_t threads[PROCESSORS];
    uint64_t numbers[PROCESSORS] = {0, 1};
    unsigned char byte;
    begin();
    for (int i = 0; i < PROCESSORS; i++)
        if (pthread_create(&threads[i], NULL, processor, &numbers[i]))
            stop("no thread", 0);
    for (int i = 0; i < PROCESSORS; i++)
        pthread_join(threads[i], NULL);
    struct vtdm_domain_totals_answer left = vtdm_domain_totals(&monitor.manager, monitor.domain);
    printf("%d maps and unmaps, %" PRIu64 " pages are left, and the device reaches %s\n", PROCESSORS * MAPS, left.live,
           device_reads(VTDM_PAGE_BYTES, &byte) ? "one" : "none");
    vtdm_destroy(&monitor.manager);
    return 0;
}
