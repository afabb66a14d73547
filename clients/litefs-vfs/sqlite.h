/* SQLite's functions, by the table that it gives to an extension, or that preload.c fills. */
#ifndef LITEFS_SQLITE_H
#define LITEFS_SQLITE_H

#include <sqlite3ext.h>
SQLITE_EXTENSION_INIT3

#define OLDEST_SQLITE 3032000    /* with sqlite3_filename_journal and sqlite3_filename_wal */

#endif
