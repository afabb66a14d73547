#include "files.h"
#include "faults.h"
#include "file_controls.h"
#include "locks.h"
#include "shared_memory.h"

#include <errno.h>
#include <string.h>

#define SECTOR_SIZE 4096

static struct file *file_of(sqlite3_file *file) {
  return (struct file *)file;
}

static int fault(struct file *file, int code, int error, const char *text) {
  file->last_error = error;
  return tell_fault(code, error, text, file->connection->path);
}

static int file_close(sqlite3_file *opened) {
  struct file *file = file_of(opened);
  struct connection *connection = file->connection;
  opened->pMethods = NULL;
  if (file->kind != DATABASE) {
    link_ask(&connection->link, release_request(&file->handle));
    return SQLITE_OK;
  }
  memory_unmap(connection, 0);
  database_unlock(connection, SQLITE_LOCK_NONE);
  connection_close(connection);
  return SQLITE_OK;
}

/* never a code that SQLite shows as a damaged database: a node that doesn't answer says nothing of the database */
static int file_read(sqlite3_file *opened, void *into, int length, sqlite3_int64 at) {
  struct file *file = file_of(opened);
  uint32_t had = 0, wanted = (uint32_t)length;
  while (had < wanted) {
    uint32_t part = wanted - had < MOST_DATA ? wanted - had : MOST_DATA;
    struct request request = read_request(&file->handle, (uint64_t)at + had, (char *)into + had, part);
    int error = link_exchange(&file->connection->link, &request, 1);
    if (!error) error = request.error;
    if (error) return fault(file, SQLITE_IOERR_READ, error, "reading");
    had += request.answer_length;
    if (request.answer_length < part) break;
  }
  memset((char *)into + had, 0, wanted - had);
  return had < wanted ? SQLITE_IOERR_SHORT_READ : SQLITE_OK;
}

/* a replica takes no writes. Where nothing of the database was written yet SQLite may go on from there, and says so in plain
** words */
static int refused_write(struct file *file, int error) {
  int is_begun = file->kind == DATABASE || (file->kind == JOURNAL && file->connection->level > SQLITE_LOCK_RESERVED);
  if (error == EROFS && !is_begun) return fault(file, SQLITE_READONLY, error, "writing");
  return fault(file, write_code(error, SQLITE_IOERR_WRITE), error, "writing");
}

/* In a commit over several databases in a rollback mode SQLite writes the name of a super-journal at the end of each journal, and
** this behind it. It passes over what fails after that, when the node commits and may have to refuse; so the commit is refused
** here, and a journal without this is played back as any other. */
static int ends_super_journal(const struct file *file, const void *bytes, int length, sqlite3_int64 at) {
  static const unsigned char magic[8] = {0xd9, 0xd5, 0x05, 0xf9, 0x20, 0xa1, 0x63, 0xd7};
  return file->kind == JOURNAL && at > 0 && length == sizeof magic && !memcmp(bytes, magic, sizeof magic);
}

static int file_write(sqlite3_file *opened, const void *bytes, int length, sqlite3_int64 at) {
  struct file *file = file_of(opened);
  if (ends_super_journal(file, bytes, length, at)) return fault(file, SQLITE_CANTOPEN, ENOTSUP, MANY_DATABASES);
  uint32_t done = 0, wanted = (uint32_t)length;
  while (done < wanted) {
    uint32_t part = wanted - done < MOST_DATA ? wanted - done : MOST_DATA;
    struct request request = write_request(&file->handle, (uint64_t)at + done, (const char *)bytes + done, part);
    int error = link_ask(&file->connection->link, request);
    if (error) return refused_write(file, error);
    done += part;
  }
  return SQLITE_OK;
}

static int file_truncate(sqlite3_file *opened, sqlite3_int64 size) {
  struct file *file = file_of(opened);
  struct fuse_attr_out ignored;
  int error = link_ask(&file->connection->link, resize_request(&file->handle, (uint64_t)size, &ignored));
  return error ? fault(file, write_code(error, SQLITE_IOERR_TRUNCATE), error, "changing the size") : SQLITE_OK;
}

static int file_sync(sqlite3_file *opened, int flags) {
  struct file *file = file_of(opened);
  int error = link_ask(&file->connection->link, sync_request(&file->handle, (flags & SQLITE_SYNC_DATAONLY) != 0));
  return error ? fault(file, SQLITE_IOERR_FSYNC, error, "syncing") : SQLITE_OK;
}

static int file_size(sqlite3_file *opened, sqlite3_int64 *size) {
  struct file *file = file_of(opened);
  struct fuse_attr_out attributes;
  int error = link_ask(&file->connection->link, size_request(&file->handle, &attributes));
  if (error) return fault(file, SQLITE_IOERR_FSTAT, error, "asking for the size");
  *size = (sqlite3_int64)attributes.attr.size;
  return SQLITE_OK;
}

static int file_lock(sqlite3_file *opened, int level) {
  return database_lock(file_of(opened)->connection, level);
}

static int file_unlock(sqlite3_file *opened, int level) {
  return database_unlock(file_of(opened)->connection, level);
}

static int file_check_reserved_lock(sqlite3_file *opened, int *is_reserved) {
  return database_is_reserved(file_of(opened)->connection, is_reserved);
}

static int file_sector_size(sqlite3_file *opened) {
  (void)opened;
  return SECTOR_SIZE;
}

static int file_device_characteristics(sqlite3_file *opened) {
  (void)opened;
  return SQLITE_IOCAP_POWERSAFE_OVERWRITE;
}

static int file_shm_map(sqlite3_file *opened, int region, int length, int may_extend, void volatile **pages) {
  return memory_map(file_of(opened)->connection, region, length, may_extend, pages);
}

static int file_shm_lock(sqlite3_file *opened, int offset, int count, int flags) {
  struct connection *connection = file_of(opened)->connection;
  int is_for_writing = (flags & SQLITE_SHM_EXCLUSIVE) != 0;
  if (flags & SQLITE_SHM_UNLOCK) return memory_unlock(connection, offset, count, is_for_writing);
  return memory_lock(connection, offset, count, is_for_writing);
}

/* the pages are one memory for all threads of the process; other processes are told at locks */
static void file_shm_barrier(sqlite3_file *opened) {
  (void)opened;
  __atomic_thread_fence(__ATOMIC_SEQ_CST);
}

static int file_shm_unmap(sqlite3_file *opened, int is_to_be_removed) {
  return memory_unmap(file_of(opened)->connection, is_to_be_removed);
}

static const sqlite3_io_methods methods = {
  .iVersion = 2,
  .xClose = file_close,
  .xRead = file_read,
  .xWrite = file_write,
  .xTruncate = file_truncate,
  .xSync = file_sync,
  .xFileSize = file_size,
  .xLock = file_lock,
  .xUnlock = file_unlock,
  .xCheckReservedLock = file_check_reserved_lock,
  .xFileControl = file_control,
  .xSectorSize = file_sector_size,
  .xDeviceCharacteristics = file_device_characteristics,
  .xShmMap = file_shm_map,
  .xShmLock = file_shm_lock,
  .xShmBarrier = file_shm_barrier,
  .xShmUnmap = file_shm_unmap,
};

static int made(sqlite3_file *memory, struct connection *connection, struct handle handle, enum kind kind) {
  struct file *file = file_of(memory);
  memset(file, 0, sizeof *file);
  file->base.pMethods = &methods;
  file->connection = connection;
  file->handle = handle;
  file->kind = kind;
  return SQLITE_OK;
}

int file_open_database(sqlite3_file *memory, const char *path, int flags, int *told) {
  struct connection *connection;
  int code = connection_open(&connection, path, flags, told);
  return code ? code : made(memory, connection, connection->database, DATABASE);
}

/* CREATE opens a file that is there */
static int open_or_create(struct connection *connection, const char *name, int flags, struct handle *handle) {
  struct fuse_entry_out entry;
  struct fuse_open_out opened;
  struct created created;
  int error;
  if (flags & SQLITE_OPEN_CREATE) {
    error = link_ask(&connection->link, create_request(name, &created));
    if (!error) *handle = (struct handle){created.entry.nodeid, created.open.fh};
    return error;
  }
  error = link_ask(&connection->link, lookup_request(name, &entry));
  int mode = flags & SQLITE_OPEN_READONLY ? O_RDONLY : O_RDWR;
  if (!error) error = link_ask(&connection->link, open_request(entry.nodeid, mode, &opened));
  if (!error) *handle = (struct handle){entry.nodeid, opened.fh};
  return error;
}

int file_open_beside(sqlite3_file *memory, struct connection *connection, const char *path, int flags, int *told) {
  char name[NAME_ROOM];
  struct handle handle;
  served_name(connection, path, name);
  int error = open_or_create(connection, name, flags, &handle);
  if (error == EROFS) return tell_fault(SQLITE_READONLY, error, "writing at a replica", path);
  if (error) return tell_fault(SQLITE_CANTOPEN, error, "opening a file beside the database", path);
  *told = flags & (SQLITE_OPEN_READONLY | SQLITE_OPEN_READWRITE);
  return made(memory, connection, handle, flags & SQLITE_OPEN_WAL ? LOG : JOURNAL);
}
