#include "script.h"

#include <inttypes.h>
#include <stdarg.h>
#include <stdbool.h>
#include <stdio.h>
#include <stdlib.h>
#include <string.h>

enum { MOST_WORDS = 24, LONGEST_LINE = 512, FAULTS = 32 };

/* The words of a line. A number is decimal, or hexadecimal behind 0x. */
struct words {
    char text[LONGEST_LINE + 1];
    char *at[MOST_WORDS];
    size_t count;
};

static void split(struct words *words, const char *line) {
    char *rest = NULL;
    snprintf(words->text, sizeof words->text, "%s", line);
    words->count = 0;
    for (char *word = strtok_r(words->text, " ", &rest); word && words->count < MOST_WORDS; word = strtok_r(NULL, " ", &rest))
        words->at[words->count++] = word;
}

static uint64_t number(const struct words *words, size_t place) {
    return place < words->count ? strtoull(words->at[place], NULL, 0) : 0;
}

static bool has(const struct words *words, const char *word) {
    for (size_t i = 1; i < words->count; i++)
        if (strcmp(words->at[i], word) == 0)
            return true;
    return false;
}

static uint64_t rights(const struct words *words, size_t place) {
    const char *word = words->at[place];
    return (strchr(word, 'r') ? VTDM_READ : 0u) | (strchr(word, 'w') ? VTDM_WRITE : 0u);
}

static struct vtdm_answer map_list(struct vtdm *manager, const struct words *words) {
    struct vtdm_segment segments[MOST_WORDS];
    size_t count = 0;
    for (size_t i = 4; i < words->count; i++) {
        char *pages = strchr(words->at[i], ':');
        segments[count].frame = strtoull(words->at[i], NULL, 0);
        segments[count++].pages = pages ? strtoull(pages + 1, NULL, 0) : 0;
    }
    return vtdm_map_list(manager, number(words, 1), number(words, 2), rights(words, 3), segments, count);
}

static struct vtdm_answer make_domain(struct vtdm *manager, const struct words *words) {
    bool lazy = has(words, "lazy");
    return has(words, "48") ? vtdm_domain_wide(manager, lazy) : vtdm_domain(manager, lazy);
}

static uint64_t cache(const struct words *words) {
    return has(words, "leaf")      ? VTDM_CACHE_LEAF
           : has(words, "nonleaf") ? VTDM_CACHE_NON_LEAF
           : has(words, "fault")   ? VTDM_CACHE_FAULT
                                   : VTDM_CACHE_CONTEXT;
}

static struct vtdm_answer request(struct vtdm *manager, const struct words *words) {
    return vtdm_dma(manager, number(words, 1), number(words, 2), has(words, "w"), has(words, "look"), has(words, "fill"));
}

/* The call of a line, and how a reply of status 0 begins: with a number behind it, decimal or as an address, or with none. */
struct called {
    struct vtdm_answer answer;
    const char *reply;
};

static struct called call(struct vtdm *manager, const struct words *words) {
    const char *name = words->at[0];
    uint64_t first = number(words, 1), second = number(words, 2), third = number(words, 3), fourth = number(words, 4);
    if (strcmp(name, "domain") == 0)
        return (struct called){make_domain(manager, words), "domain %"};
    if (strcmp(name, "drop") == 0)
        return (struct called){vtdm_drop(manager, first), "ok"};
    if (strcmp(name, "attach") == 0)
        return (struct called){vtdm_attach(manager, first, second), "ok"};
    if (strcmp(name, "detach") == 0)
        return (struct called){vtdm_detach(manager, first), "ok"};
    if (strcmp(name, "map") == 0)
        return (struct called){vtdm_map(manager, first, second, third, fourth, rights(words, 5)), "map #"};
    if (strcmp(name, "maplist") == 0)
        return (struct called){map_list(manager, words), "map #"};
    if (strcmp(name, "unmap") == 0)
        return (struct called){vtdm_unmap(manager, first, second, third), "unmapped %"};
    if (strcmp(name, "flush") == 0)
        return (struct called){vtdm_flush(manager, first), "flushed %"};
    if (strcmp(name, "begin") == 0)
        return (struct called){vtdm_begin(manager, first), "ticket"};
    if (strcmp(name, "unit") == 0)
        return (struct called){vtdm_unit(manager), "unit"};
    if (strcmp(name, "reap") == 0)
        return (struct called){vtdm_reap(manager, first, second), "reaped %"};
    if (strcmp(name, "dma") == 0)
        return (struct called){request(manager, words), "host #"};
    return (struct called){vtdm_evict(manager, cache(words), second), "ok"};
}

static void say_done(struct called done, uint64_t domain, char *reply, size_t room) {
    size_t length = strlen(done.reply);
    uint64_t value = done.answer.value;
    if (strcmp(done.reply, "ticket") == 0)
        snprintf(reply, room, "ticket %" PRIu64 " %" PRIu64, domain, value);
    else if (strcmp(done.reply, "unit") == 0)
        snprintf(reply, room, "unit %s", value ? "did" : "idle");
    else if (done.reply[length - 1] == '%')
        snprintf(reply, room, "%.*s%" PRIu64, (int)length - 1, done.reply, value);
    else if (done.reply[length - 1] == '#')
        snprintf(reply, room, "%.*s0x%" PRIx64, (int)length - 1, done.reply, value);
    else
        snprintf(reply, room, "%s", done.reply);
}

void script_answer(struct vtdm *manager, const char *line, char *reply, size_t room) {
    struct words words;
    split(&words, line);
    struct called done = call(manager, &words);
    uint64_t status = done.answer.status;
    if (status == VTDM_OK)
        say_done(done, number(&words, 1), reply, room);
    else if (status == VTDM_PENDING)
        snprintf(reply, room, "pending");
    else if (status > FAULTS && status < VTDM_ABSENT)
        snprintf(reply, room, "fault %" PRIu64, status - FAULTS);
    else
        snprintf(reply, room, "refused %" PRIu64, status);
}

/* Text that grows at its end. */
struct text {
    char *at;
    size_t room;
};

static void say(struct text *text, const char *form, ...) {
    va_list values;
    va_start(values, form);
    int length = vsnprintf(text->at, text->room, form, values);
    va_end(values);
    size_t said = length > 0 && (size_t)length < text->room ? (size_t)length : 0;
    text->at += said;
    text->room -= said;
}

void script_report(struct vtdm *manager, unsigned events, char *into, size_t room) {
    struct text text = {into, room};
    struct vtdm_totals_answer all = vtdm_totals(manager);
    say(&text, "events %u\nframes %" PRIu64 " free %" PRIu64 " used %" PRIu64 " retired\n", events, all.free, all.used, all.held);
    say(&text, "tickets %" PRIu64 " open\nring %" PRIu64 " pending\n", all.tickets, all.pending);
    for (uint64_t domain = 1; domain <= VTDM_MOST_DOMAINS; domain++) {
        struct vtdm_domain_totals_answer one = vtdm_domain_totals(manager, domain);
        if (one.status == VTDM_OK)
            say(&text, "domain %" PRIu64 " %s live %" PRIu64 " retired %" PRIu64 " pieces %" PRIu64 "\n", domain,
                one.mode == VTDM_LAZY ? "lazy" : "strict", one.live, one.retired, one.pieces);
    }
    for (uint64_t device = 0; device < VTDM_DEVICES; device++) {
        struct vtdm_answer domain = vtdm_domain_of(manager, device);
        if (domain.status == VTDM_OK)
            say(&text, "device %" PRIu64 " domain %" PRIu64 "\n", device, domain.value);
    }
}
