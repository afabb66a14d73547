#include "vfs.h"
#include "connection.h"
#include "faults.h"
#include "files.h"
#include "process.h"

#include <errno.h>

static sqlite3_vfs *system_vfs;  /* the default one before */

static int open_database(const char *path, sqlite3_file *file, int flags, int *told) {
  int held;
  int code = file_open_database(file, path, flags, &held);
  if (!code && told) *told = (flags & ~(SQLITE_OPEN_READONLY | SQLITE_OPEN_READWRITE)) | held;
  return code;
}

static int open_beside(struct connection *connection, const char *path, sqlite3_file *file, int flags, int *told) {
  int held;
  int code = file_open_beside(file, connection, path, flags, &held);
  if (!code && told) *told = (flags & ~(SQLITE_OPEN_READONLY | SQLITE_OPEN_READWRITE)) | held;
  return code;
}

static int vfs_open(sqlite3_vfs *vfs, const char *path, sqlite3_file *file, int flags, int *told) {
  struct connection *connection;
  (void)vfs;
  file->pMethods = NULL;
  if (path && (flags & SQLITE_OPEN_MAIN_DB) && is_place(path)) return open_database(path, file, flags, told);
  if (path && (flags & (SQLITE_OPEN_MAIN_JOURNAL | SQLITE_OPEN_WAL)) && (connection = connection_of(path))) {
    return open_beside(connection, path, file, flags, told);
  }
  if (path && (flags & SQLITE_OPEN_SUPER_JOURNAL) && is_super_journal(path)) {
    return tell_fault(SQLITE_CANTOPEN, ENOTSUP, MANY_DATABASES, path);
  }
  return system_vfs->xOpen(system_vfs, path, file, flags, told);
}

static int vfs_delete(sqlite3_vfs *vfs, const char *path, int is_synced) {
  char name[NAME_ROOM];
  struct connection *connection = connection_of(path);
  (void)vfs;
  if (!connection) return system_vfs->xDelete(system_vfs, path, is_synced);
  served_name(connection, path, name);
  int error = link_ask(&connection->link, unlink_request(name));
  if (error == ENOENT) return SQLITE_IOERR_DELETE_NOENT;
  return error ? tell_fault(SQLITE_IOERR_DELETE, error, "removing", path) : SQLITE_OK;
}

/* a file without bytes is as good as none, as it is to SQLite's own VFS */
static int vfs_access(sqlite3_vfs *vfs, const char *path, int flags, int *is_there) {
  char name[NAME_ROOM];
  struct fuse_entry_out entry;
  struct connection *connection = connection_of(path);
  (void)vfs;
  if (!connection) return system_vfs->xAccess(system_vfs, path, flags, is_there);
  served_name(connection, path, name);
  int error = link_ask(&connection->link, lookup_request(name, &entry));
  *is_there = !error && (flags != SQLITE_ACCESS_EXISTS || entry.attr.size > 0);
  return error && error != ENOENT ? tell_fault(SQLITE_IOERR_ACCESS, error, "looking for", path) : SQLITE_OK;
}

static int vfs_full_pathname(sqlite3_vfs *vfs, const char *path, int room, char *full) {
  (void)vfs;
  return system_vfs->xFullPathname(system_vfs, path, room, full);
}

static void *vfs_dl_open(sqlite3_vfs *vfs, const char *path) {
  (void)vfs;
  return system_vfs->xDlOpen(system_vfs, path);
}

static void vfs_dl_error(sqlite3_vfs *vfs, int room, char *text) {
  (void)vfs;
  system_vfs->xDlError(system_vfs, room, text);
}

static void (*vfs_dl_sym(sqlite3_vfs *vfs, void *library, const char *symbol))(void) {
  (void)vfs;
  return system_vfs->xDlSym(system_vfs, library, symbol);
}

static void vfs_dl_close(sqlite3_vfs *vfs, void *library) {
  (void)vfs;
  system_vfs->xDlClose(system_vfs, library);
}

static int vfs_randomness(sqlite3_vfs *vfs, int length, char *bytes) {
  (void)vfs;
  return system_vfs->xRandomness(system_vfs, length, bytes);
}

static int vfs_sleep(sqlite3_vfs *vfs, int microseconds) {
  (void)vfs;
  return system_vfs->xSleep(system_vfs, microseconds);
}

static int vfs_current_time(sqlite3_vfs *vfs, double *days) {
  (void)vfs;
  return system_vfs->xCurrentTime(system_vfs, days);
}

static int vfs_current_time_64(sqlite3_vfs *vfs, sqlite3_int64 *milliseconds) {
  (void)vfs;
  return system_vfs->xCurrentTimeInt64(system_vfs, milliseconds);
}

/* sqlite3_system_errno asks it after a fault of a file */
static int vfs_last_error(sqlite3_vfs *vfs, int room, char *text) {
  (void)vfs;
  return last_error() ? last_error() : system_vfs->xGetLastError(system_vfs, room, text);
}

static sqlite3_vfs litefs_vfs = {
  .iVersion = 2,
  .zName = "litefs",
  .xOpen = vfs_open,
  .xDelete = vfs_delete,
  .xAccess = vfs_access,
  .xFullPathname = vfs_full_pathname,
  .xDlOpen = vfs_dl_open,
  .xDlError = vfs_dl_error,
  .xDlSym = vfs_dl_sym,
  .xDlClose = vfs_dl_close,
  .xRandomness = vfs_randomness,
  .xSleep = vfs_sleep,
  .xCurrentTime = vfs_current_time,
  .xGetLastError = vfs_last_error,
  .xCurrentTimeInt64 = vfs_current_time_64,
};

/* a file of the system's VFS lies in the same memory as one of ours */
static int stand_on(sqlite3_vfs *vfs) {
  if (!vfs || vfs->iVersion < 2) return SQLITE_ERROR;
  system_vfs = vfs;
  litefs_vfs.mxPathname = vfs->mxPathname;
  litefs_vfs.szOsFile = vfs->szOsFile > (int)sizeof(struct file) ? vfs->szOsFile : (int)sizeof(struct file);
  connections_expect_forks();
  processes_expect_forks();
  return SQLITE_OK;
}

static pthread_mutex_t register_mutex = PTHREAD_MUTEX_INITIALIZER;

static int register_once(int is_default) {
  int code = system_vfs ? SQLITE_OK : stand_on(sqlite3_vfs_find(NULL));
  if (code) return code;
  if (!sqlite3_vfs_find("litefs")) return sqlite3_vfs_register(&litefs_vfs, is_default);
  if (is_default && sqlite3_vfs_find(NULL) == system_vfs) return sqlite3_vfs_register(&litefs_vfs, 1);
  return SQLITE_OK;
}

int vfs_register(int is_default) {
  pthread_mutex_lock(&register_mutex);
  int code = register_once(is_default);
  pthread_mutex_unlock(&register_mutex);
  return code;
}
