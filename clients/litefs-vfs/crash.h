/* For tests alone (build.sh --test): the process ends by SIGKILL at a message that LITEFS_DIE names,
** OPCODE:NODE:COUNT[:before|after]. Opcode 0 is every message that changes something. Without LITEFS_TEST there is nothing here. */
#ifndef LITEFS_CRASH_H
#define LITEFS_CRASH_H

#ifdef LITEFS_TEST
#include "messages.h"
void crash_before(const struct request *request);
void crash_after(const struct request *request);
#endif

#endif
