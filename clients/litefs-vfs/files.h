/* SQLite's calls on an open file of a node: the database, its journal or its log. */
#ifndef LITEFS_FILES_H
#define LITEFS_FILES_H

#include "connection.h"
#include "sqlite.h"

enum kind { DATABASE, JOURNAL, LOG };

struct file {
  sqlite3_file base;
  struct connection *connection;
  struct handle handle;
  enum kind kind;
  int last_error;
};

/* makes of SQLite's memory an open file; code: SQLITE_OK, or that of a fault that was told, and then nothing is open */
int file_open_database(sqlite3_file *memory, const char *path, int flags, int *told);
int file_open_beside(sqlite3_file *memory, struct connection *connection, const char *path, int flags, int *told);

#endif
