#include "crash.h"

#ifdef LITEFS_TEST
#include <pthread.h>
#include <signal.h>
#include <stdio.h>
#include <stdlib.h>
#include <string.h>
#include <unistd.h>

static pthread_once_t once = PTHREAD_ONCE_INIT;
static unsigned opcode, node;
static int count, is_after;      /* how many such messages are still to come */

static void read_plan(void) {
  char when[16] = "";
  const char *plan = getenv("LITEFS_DIE");
  if (!plan || sscanf(plan, "%u:%u:%d:%15s", &opcode, &node, &count, when) < 3) count = 0;
  is_after = !strcmp(when, "after");
}

static int changes_nothing(uint32_t code) {
  return code == FUSE_READ || code == FUSE_GETATTR || code == FUSE_LOOKUP || code == FUSE_GETLK;
}

static int is_planned(const struct request *request) {
  pthread_once(&once, read_plan);
  if (count <= 0) return 0;
  return opcode ? request->opcode == opcode && request->node == node : !changes_nothing(request->opcode);
}

static void crash(void) {
  kill(getpid(), SIGKILL);
}

void crash_before(const struct request *request) {
  if (is_planned(request) && !is_after && --count == 0) crash();
}

void crash_after(const struct request *request) {
  if (is_planned(request) && is_after && --count == 0) crash();
}
#else
typedef int crash_is_for_tests_alone;
#endif
