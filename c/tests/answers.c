/* Answers the lines of standard input through vtdm.h as `vtdm run` does, or writes at their end what `vtdm report` does. The words
 * are `run` or `report`, and the options `--frames N` and `--caching-mode`. The lines are good ones. */
#include "script.h"

#include <stdio.h>
#include <stdlib.h>
#include <stdbool.h>
#include <string.h>

enum { TABLE_FRAMES = 64, TEXT = 4096 };

int main(int argc, char **argv) {
    bool reports = argc > 1 && strcmp(argv[1], "report") == 0;
    uint64_t frames = TABLE_FRAMES;
    bool caching = false;
    for (int i = 2; i < argc; i++) {
        if (strcmp(argv[i], "--caching-mode") == 0)
            caching = true;
        else if (strcmp(argv[i], "--frames") == 0 && i + 1 < argc)
            frames = strtoull(argv[++i], NULL, 10);
    }
    struct vtdm manager = VTDM_INIT;
    char line[TEXT], text[TEXT];
    unsigned events = 0;
    if ((caching ? vtdm_create_caching(&manager, frames) : vtdm_create(&manager, frames)) != VTDM_OK)
        return 1;
    for (; fgets(line, sizeof line, stdin); events++) {
        line[strcspn(line, "\n")] = '\0';
        script_answer(&manager, line, text, sizeof text);
        if (!reports)
            puts(text);
    }
    if (reports) {
        script_report(&manager, events, text, sizeof text);
        fputs(text, stdout);
    }
    vtdm_destroy(&manager);
    return 0;
}
