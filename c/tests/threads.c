/* Threads. Of two on one manager, under the caller's mutex, each gets the pages that it maps, and any thread may call and end it. Two
 * managers, each with a thread of its own and no lock, share nothing. */
#include "check.h"
#include "vtdm.h"

#include <pthread.h>

enum { THREADS = 2, PAIRS = 50000, TABLE_FRAMES = 64 };

static pthread_mutex_t lock = PTHREAD_MUTEX_INITIALIZER;
static struct vtdm shared = VTDM_INIT;

/* How many threads are in a call of the shared manager. The thread sanitizer sees the accesses to it, while it does not see the
 * library's own, which are made between them. */
static int inside;

struct worker {
    uint64_t device, frame, wrong;
    struct vtdm *manager;
};

static void enter(const struct worker *worker) {
    if (worker->manager == &shared) {
        pthread_mutex_lock(&lock);
        inside++;
    }
}

/* Leaves a call; answers whether the thread was alone in it. */
static bool leave(const struct worker *worker) {
    bool alone = true;
    if (worker->manager == &shared) {
        alone = inside-- == 1;
        pthread_mutex_unlock(&lock);
    }
    return alone;
}

/* One page is mapped, reached and unmapped, with each call under the lock by itself. */
static bool pair(const struct worker *worker) {
    enter(worker);
    struct vtdm_answer at = vtdm_map(worker->manager, 1, worker->frame, 1, 0, VTDM_READ);
    bool alone = leave(worker);
    enter(worker);
    struct vtdm_answer host = vtdm_dma(worker->manager, worker->device, at.value, false, true, true);
    alone = leave(worker) && alone;
    enter(worker);
    struct vtdm_answer ended = vtdm_unmap(worker->manager, 1, at.value, 1);
    alone = leave(worker) && alone;
    enter(worker);
    struct vtdm_totals_answer totals = vtdm_totals(worker->manager);
    alone = leave(worker) && alone;
    return alone && at.status == VTDM_OK && host.status == VTDM_OK && host.value == worker->frame * VTDM_PAGE_BYTES &&
           ended.status == VTDM_OK && totals.pending == 0;
}

static void *work(void *given) {
    struct worker *worker = (struct worker *)given;
    for (int i = 0; i < PAIRS; i++)
        worker->wrong += !pair(worker);
    return NULL;
}

static void *end(void *given) {
    vtdm_destroy((struct vtdm *)given);
    return NULL;
}

static void run(struct worker *workers) {
    pthread_t threads[THREADS];
    for (int i = 0; i < THREADS; i++)
        CHECK(pthread_create(&threads[i], NULL, work, &workers[i]) == 0);
    for (int i = 0; i < THREADS; i++)
        CHECK(pthread_join(threads[i], NULL) == 0);
    for (int i = 0; i < THREADS; i++)
        CHECK(workers[i].wrong == 0);
}

static void make(struct vtdm *manager) {
    CHECK(vtdm_create(manager, TABLE_FRAMES) == VTDM_OK);
    ANSWERS(vtdm_domain(manager, false), VTDM_OK, 1);
    ANSWERS(vtdm_attach(manager, 3, 1), VTDM_OK, 0);
    ANSWERS(vtdm_attach(manager, 4, 1), VTDM_OK, 0);
}

static void one_manager(void) {
    struct worker workers[THREADS] = {{3, 0x1001, 0, &shared}, {4, 0x2002, 0, &shared}};
    pthread_t last;
    make(&shared);
    run(workers);
    CHECK(vtdm_domain_totals(&shared, 1).live == 0);
    CHECK(pthread_create(&last, NULL, end, &shared) == 0 && pthread_join(last, NULL) == 0);
    CHECK(vtdm_totals(&shared).status == VTDM_ABSENT);
}

static void two_managers(void) {
    struct vtdm managers[THREADS] = {VTDM_INIT, VTDM_INIT};
    struct worker workers[THREADS] = {{3, 0x1001, 0, &managers[0]}, {4, 0x2002, 0, &managers[1]}};
    for (int i = 0; i < THREADS; i++)
        make(&managers[i]);
    run(workers);
    for (int i = 0; i < THREADS; i++)
        vtdm_destroy(&managers[i]);
}

int main(void) {
    one_manager();
    two_managers();
    return check_end();
}
