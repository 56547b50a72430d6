/* Stack: a thread with little of it makes a manager in each way, and calls it. The text of what the test prints needs more than a manager
 * does, so that the thread counts alone. */
#include "check.h"
#include "vtdm.h"

#include <pthread.h>

enum { ROOM = 64 * 1024, TABLE_FRAMES = 64, DEVICE = 3, ORDER = 9, PAGES = 1 << ORDER, BOTH = VTDM_READ | VTDM_WRITE };

/* What a manager answers: the first that is wrong is counted by its number. */
struct tried {
    int done, wrong;
};

static void expect(struct tried *tried, bool holds) {
    tried->done++;
    if (!holds && tried->wrong == 0)
        tried->wrong = tried->done;
}

/* A leaf of 2 MiB is split, the domain flushed, its device detached, and the domain dropped. */
static void use(struct vtdm *manager, struct tried *tried) {
    expect(tried, vtdm_domain(manager, true).value == 1);
    expect(tried, vtdm_attach(manager, DEVICE, 1).status == VTDM_OK);
    struct vtdm_answer made = vtdm_map(manager, 1, 0x200, PAGES, ORDER, BOTH);
    expect(tried, made.status == VTDM_OK);
    expect(tried, vtdm_unmap(manager, 1, made.value, 1).status == VTDM_OK);
    expect(tried, vtdm_flush(manager, 1).value == 1);
    expect(tried, vtdm_detach_all(manager, DEVICE).status == VTDM_OK);
    expect(tried, vtdm_drop(manager, 1).status == VTDM_OK);
    vtdm_destroy(manager);
}

static void *make(void *place) {
    struct tried *tried = place;
    struct vtdm manager = VTDM_INIT;
    expect(tried, vtdm_create(&manager, TABLE_FRAMES) == VTDM_OK);
    use(&manager, tried);
    expect(tried, vtdm_create_caching(&manager, TABLE_FRAMES) == VTDM_OK);
    use(&manager, tried);
    expect(tried, vtdm_create_driven(&manager, TABLE_FRAMES, 2 * PAGES, true, 0) == VTDM_OK);
    use(&manager, tried);
    return NULL;
}

int main(void) {
    pthread_attr_t little;
    pthread_t thread;
    struct tried tried = {0, 0};
    CHECK(pthread_attr_init(&little) == 0);
    CHECK(pthread_attr_setstacksize(&little, ROOM) == 0);
    CHECK(pthread_create(&thread, &little, make, &tried) == 0);
    CHECK(pthread_join(thread, NULL) == 0);
    CHECK(tried.done == 24);
    CHECK(tried.wrong == 0);
    return check_end();
}
