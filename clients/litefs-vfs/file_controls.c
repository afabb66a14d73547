#include "file_controls.h"
#include "files.h"

/* a value that is asked for where it is negative, and else set */
static int keep(int *kept, int *argument) {
  if (*argument < 0) *argument = *kept;
  else *kept = *argument != 0;
  return SQLITE_OK;
}

int file_control(sqlite3_file *opened, int operation, void *argument) {
  struct file *file = (struct file *)opened;
  switch (operation) {
    case SQLITE_FCNTL_LOCKSTATE: *(int *)argument = file->connection->level; return SQLITE_OK;
    case SQLITE_FCNTL_LAST_ERRNO: *(int *)argument = file->last_error; return SQLITE_OK;
    case SQLITE_FCNTL_PERSIST_WAL: return keep(&file->connection->keeps_log, argument);
    case SQLITE_FCNTL_VFSNAME: *(char **)argument = sqlite3_mprintf("litefs"); return SQLITE_OK;
    case SQLITE_FCNTL_HAS_MOVED: *(int *)argument = 0; return SQLITE_OK;
    default: return SQLITE_NOTFOUND;
  }
}
