/* The start as a loadable extension: .load ./litefs-vfs, load_extension('./litefs-vfs'). */
#include "sqlite.h"
#include "vfs.h"

const sqlite3_api_routines *sqlite3_api;

#ifdef LITEFS_TEST
#define ENTRY sqlite3_litefsvfstest_init
#else
#define ENTRY sqlite3_litefsvfs_init
#endif

__attribute__((visibility("default"))) int ENTRY(sqlite3 *database, char **message, const sqlite3_api_routines *functions);

int ENTRY(sqlite3 *database, char **message, const sqlite3_api_routines *functions) {
  (void)database;
  if (functions->libversion_number() < OLDEST_SQLITE) {
    *message = functions->mprintf("litefs-vfs needs SQLite 3.32 or later");
    return SQLITE_ERROR;
  }
  if (!sqlite3_api) sqlite3_api = functions;
  int code = vfs_register(0);
  return code ? code : SQLITE_OK_LOAD_PERMANENTLY;
}
