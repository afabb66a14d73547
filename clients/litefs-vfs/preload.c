/* The start by LD_PRELOAD: where LITEFS_DIR is set, the VFS is registered as SQLite's default before the application opens its
** first database. Not earlier: an application may still configure SQLite until then. So its calls that open a database come here
** first. */
#define _GNU_SOURCE
#include "places.h"
#include "sqlite.h"
#include "vfs.h"

#include <dlfcn.h>
#include <stdio.h>

#define EXPORTED __attribute__((visibility("default")))

/* the table holds these as macros: here the functions themselves are meant */
#undef sqlite3_open
#undef sqlite3_open16
#undef sqlite3_open_v2

EXPORTED int sqlite3_open(const char *path, sqlite3 **database);
EXPORTED int sqlite3_open16(const void *path, sqlite3 **database);
EXPORTED int sqlite3_open_v2(const char *path, sqlite3 **database, int flags, const char *vfs);

static struct sqlite3_api_routines found;

static const struct { void **place; const char *name; } wanted[] = {
  {(void **)&found.filename_journal, "sqlite3_filename_journal"},
  {(void **)&found.filename_wal, "sqlite3_filename_wal"},
  {(void **)&found.libversion_number, "sqlite3_libversion_number"},
  {(void **)&found.log, "sqlite3_log"},
  {(void **)&found.mprintf, "sqlite3_mprintf"},
  {(void **)&found.uri_boolean, "sqlite3_uri_boolean"},
  {(void **)&found.uri_parameter, "sqlite3_uri_parameter"},
  {(void **)&found.vfs_find, "sqlite3_vfs_find"},
  {(void **)&found.vfs_register, "sqlite3_vfs_register"},
};

/* a function of the application's SQLite: behind this library, or in one that only a part of the application sees */
static void *next(const char *name) {
  void *function = dlsym(RTLD_NEXT, name);
  if (function) return function;
  void *library = dlopen("libsqlite3.so.0", RTLD_LAZY | RTLD_NOLOAD);
  return library ? dlsym(library, name) : NULL;
}

static pthread_once_t once = PTHREAD_ONCE_INIT;
static int is_found;

static void find_functions(void) {
  is_found = 1;
  for (size_t i = 0; i < sizeof wanted / sizeof *wanted; i++) {
    *wanted[i].place = next(wanted[i].name);
    if (!*wanted[i].place) is_found = 0;
  }
  if (!is_found || found.libversion_number() < OLDEST_SQLITE) is_found = 0;
  if (is_found && !sqlite3_api) sqlite3_api = &found;
  if (!is_found) fprintf(stderr, "litefs-vfs: no SQLite 3.32 or later here; LITEFS_DIR is passed over\n");
}

static void start(void) {
  if (!places_folder()) return;
  pthread_once(&once, find_functions);
  if (is_found) vfs_register(1);
}

int sqlite3_open(const char *path, sqlite3 **database) {
  int (*real)(const char *, sqlite3 **) = NULL;
  *(void **)&real = next("sqlite3_open");
  start();
  return real ? real(path, database) : SQLITE_MISUSE;
}

int sqlite3_open16(const void *path, sqlite3 **database) {
  int (*real)(const void *, sqlite3 **) = NULL;
  *(void **)&real = next("sqlite3_open16");
  start();
  return real ? real(path, database) : SQLITE_MISUSE;
}

int sqlite3_open_v2(const char *path, sqlite3 **database, int flags, const char *vfs) {
  int (*real)(const char *, sqlite3 **, int, const char *) = NULL;
  *(void **)&real = next("sqlite3_open_v2");
  start();
  return real ? real(path, database, flags, vfs) : SQLITE_MISUSE;
}
