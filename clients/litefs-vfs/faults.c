#include "faults.h"
#include "sqlite.h"

#include <errno.h>
#include <stdio.h>
#include <stdlib.h>
#include <string.h>

static _Thread_local int told;

int tell_fault(int code, int error, const char *text, const char *file) {
  char reason[128];
  told = error;
  if (error == ECHILD) snprintf(reason, sizeof reason, "the connection was opened before a fork");
  else if (error == ENOTCONN) snprintf(reason, sizeof reason, "the link to the node has ended; open the database anew");
  else if (strerror_r(error, reason, sizeof reason)) snprintf(reason, sizeof reason, "error %d", error);
  sqlite3_log(code, "litefs: %s: %s (%s)", text, reason, file);
  if (getenv("LITEFS_VERBOSE")) fprintf(stderr, "litefs: %s: %s (%s)\n", text, reason, file);
  return code;
}

int write_code(int error, int code) {
  return error == ENOSPC || error == EFBIG ? SQLITE_FULL : code;
}

int last_error(void) {
  return told;
}
