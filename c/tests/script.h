/* Lines of scripts, answered through vtdm.h, and the report of a manager. */
#ifndef SCRIPT_H
#define SCRIPT_H

#include "vtdm.h"

#include <stddef.h>

/* Answers one line, without its newline, as `vtdm run` does, into `reply`, which has `room` bytes. The line is a good one. */
void script_answer(struct vtdm *manager, const char *line, char *reply, size_t room);

/* Writes the report of a manager after `events` calls as `vtdm report` does, into `text`, which has `room` bytes. */
void script_report(struct vtdm *manager, unsigned events, char *text, size_t room);

#endif
