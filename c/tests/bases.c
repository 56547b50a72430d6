/* Table frames that begin at a host frame other than 0. */
#include "check.h"
#include "vtdm.h"

/* A base is a multiple of 512, from which on all table frames are host frames. */
static void judge_bases(void) {
    enum { LAST = VTDM_FRAMES_END - 512 };
    static const uint64_t good[] = {0, 512, 0x4200, VTDM_FRAMES_END - 4096};
    static const uint64_t bad[] = {1, 511, 513, 0x4100, LAST + 1, VTDM_FRAMES_END, VTDM_FRAMES_END + 512, UINT64_MAX - 511, UINT64_MAX};
    struct vtdm manager = VTDM_INIT;
    for (size_t i = 0; i < sizeof bad / sizeof bad[0]; i++) {
        CHECK(vtdm_create_driven(&manager, 16, bad[i], false, 0) == VTDM_BAD_BASE);
        CHECK(vtdm_create_driven(&manager, 16, bad[i], false, 2) == VTDM_BAD_ADDRESS);
    }
    for (size_t i = 0; i < sizeof good / sizeof good[0]; i++) {
        CHECK(vtdm_create_driven(&manager, 4096, good[i], true, 0) == VTDM_OK);
        vtdm_destroy(&manager);
    }
    CHECK(vtdm_create_driven(&manager, 512, LAST, false, 0) == VTDM_OK);
    vtdm_destroy(&manager);
    CHECK(vtdm_create_driven(&manager, 513, LAST, false, 0) == VTDM_BAD_BASE);
}

/* A map has no table frame, also where it begins before them or is of several segments. Host frames before them and behind them are mapped,
 * up to the last. */
static void map_around_a_base(void) {
    enum { BASE = 0x4200, LAST = VTDM_FRAMES_END - 1 };
    struct vtdm manager = VTDM_INIT;
    const struct vtdm_segment good[] = {{BASE - 1, 1}, {BASE + 64, 1}, {LAST, 1}, {0, 1}};
    const struct vtdm_segment owned[] = {{0, 1}, {BASE - 1, 2}}, beyond[] = {{0, 1}, {LAST, 2}};
    CHECK(vtdm_create_driven(&manager, 64, BASE, false, 0) == VTDM_OK);
    ANSWERS(vtdm_domain(&manager, false), VTDM_OK, 1);
    ANSWERS(vtdm_attach(&manager, 3, 1), VTDM_OK, 0);
    uint64_t table = vtdm_root_of(&manager, 1).value;
    CHECK(table < 64 && vtdm_context(&manager, 3).low == ((BASE + table) << 12 | 1));
    ANSWERS(vtdm_map(&manager, 1, BASE, 1, 0, VTDM_READ), VTDM_FRAME_OWNED, 0);
    ANSWERS(vtdm_map(&manager, 1, BASE + 63, 1, 0, VTDM_READ), VTDM_FRAME_OWNED, 0);
    ANSWERS(vtdm_map(&manager, 1, BASE + 63, 2, 0, VTDM_READ), VTDM_FRAME_OWNED, 0);
    ANSWERS(vtdm_map(&manager, 1, BASE - 1, 2, 0, VTDM_READ), VTDM_FRAME_OWNED, 0);
    ANSWERS(vtdm_map(&manager, 1, BASE - 4000, 4096, 0, VTDM_READ), VTDM_FRAME_OWNED, 0);
    ANSWERS(vtdm_map(&manager, 1, LAST, 2, 0, VTDM_READ), VTDM_BAD_RANGE, 0);
    ANSWERS(vtdm_map(&manager, 1, UINT64_MAX, 2, 0, VTDM_READ), VTDM_BAD_RANGE, 0);
    ANSWERS(vtdm_map(&manager, 1, BASE - 1, 0, 0, VTDM_READ), VTDM_BAD_RANGE, 0);
    ANSWERS(vtdm_map_list(&manager, 1, 0, VTDM_READ, owned, 2), VTDM_FRAME_OWNED, 0);
    ANSWERS(vtdm_map_list(&manager, 1, 0, VTDM_READ, beyond, 2), VTDM_BAD_RANGE, 0);
    ANSWERS(vtdm_map_list(&manager, 1, 0, VTDM_READ, good, 4), VTDM_OK, 0x1000);
    const uint64_t hosts[] = {BASE - 1, BASE + 64, LAST, 0};
    for (uint64_t i = 0; i < 4; i++)
        ANSWERS(vtdm_dma(&manager, 3, 0x1008 + i * 0x1000, false, true, true), VTDM_OK, hosts[i] << 12 | 8);
    /* The root, a table below it, and one below that, which has the pages' words. */
    for (int level = 3; level > 1; level--) {
        uint64_t word = vtdm_table_word(&manager, table, 0).value;
        table = (word >> 12) - BASE;
        CHECK((word & 0xfff) == 3 && table < 64);
    }
    for (uint64_t i = 0; i < 4; i++)
        ANSWERS(vtdm_table_word(&manager, table, 1 + i), VTDM_OK, hosts[i] << 12 | VTDM_READ);
    ANSWERS(vtdm_table_word(&manager, table, 0), VTDM_OK, 0);
    vtdm_destroy(&manager);
}

int main(void) {
    judge_bases();
    map_around_a_base();
    return check_end();
}
