#include "locks.h"
#include "faults.h"
#include "process.h"
#include "sqlite.h"

#include <errno.h>

#define LAST_BYTE 0x7fffffffffffffffu

int is_lock_taken(int error) {
  return error == EAGAIN || error == EACCES || error == ENOLCK;
}

static struct request bytes_lock(const struct connection *connection, int type, uint64_t from, uint64_t to) {
  return lock_request(&connection->database, type, from, to);
}

static int ask_lock(struct connection *connection, int type, uint64_t from, uint64_t to) {
  return link_ask(&connection->link, bytes_lock(connection, type, from, to));
}

static int refused(const struct connection *connection, int error) {
  return is_lock_taken(error) ? SQLITE_BUSY : tell_fault(SQLITE_IOERR_LOCK, error, "locking", connection->path);
}

/* PENDING keeps new readers out while a writer waits, so it is asked for first, and given up at once */
static int lock_shared(struct connection *connection) {
  int error = ask_lock(connection, F_RDLCK, PENDING_BYTE, PENDING_BYTE);
  if (error) return refused(connection, error);
  struct request requests[2] = {
    bytes_lock(connection, F_RDLCK, SHARED_FIRST, SHARED_LAST),
    bytes_lock(connection, F_UNLCK, PENDING_BYTE, PENDING_BYTE),
  };
  error = link_exchange(&connection->link, requests, 2);
  if (!error) error = requests[0].error;
  if (error) return refused(connection, error);
  connection->level = SQLITE_LOCK_SHARED;
  return SQLITE_OK;
}

static int lock_reserved(struct connection *connection) {
  int error = ask_lock(connection, F_WRLCK, RESERVED_BYTE, RESERVED_BYTE);
  if (error) return refused(connection, error);
  connection->level = SQLITE_LOCK_RESERVED;
  return SQLITE_OK;
}

/* a writer takes PENDING on its way, and keeps it where readers are still inside; who plays back a journal doesn't */
static int lock_exclusive(struct connection *connection) {
  int error = 0;
  if (connection->level == SQLITE_LOCK_RESERVED) {
    error = ask_lock(connection, F_WRLCK, PENDING_BYTE, PENDING_BYTE);
    if (error) return refused(connection, error);
    connection->level = SQLITE_LOCK_PENDING;
  }
  error = ask_lock(connection, F_WRLCK, SHARED_FIRST, SHARED_LAST);
  if (error) return refused(connection, error);
  connection->level = SQLITE_LOCK_EXCLUSIVE;
  return SQLITE_OK;
}

static int take_back(struct connection *connection) {
  int error = ask_lock(connection, F_RDLCK, SHARED_FIRST, SHARED_LAST);
  if (!error) error = process_unshare(connection->process);
  if (error) return refused(connection, error);
  connection->shared_by_process = 0;
  return SQLITE_OK;
}

int database_lock(struct connection *connection, int level) {
  if (connection->level >= level) return SQLITE_OK;
  if (level == SQLITE_LOCK_SHARED) return lock_shared(connection);
  int code = connection->shared_by_process ? take_back(connection) : SQLITE_OK;
  if (code) return code;
  return level == SQLITE_LOCK_RESERVED ? lock_reserved(connection) : lock_exclusive(connection);
}

static int unlock_all(struct connection *connection) {
  int error = 0;
  if (connection->shared_by_process) error = process_unshare(connection->process);
  else error = ask_lock(connection, F_UNLCK, 0, LAST_BYTE);
  connection->shared_by_process = 0;
  connection->level = SQLITE_LOCK_NONE;
  return error;
}

static int back_to_shared(struct connection *connection) {
  struct request requests[2] = {
    bytes_lock(connection, F_RDLCK, SHARED_FIRST, SHARED_LAST),
    bytes_lock(connection, F_UNLCK, PENDING_BYTE, RESERVED_BYTE),
  };
  int error = link_exchange(&connection->link, requests, 2);
  if (!error) error = requests[0].error ? requests[0].error : requests[1].error;
  connection->level = SQLITE_LOCK_SHARED;
  return error;
}

int database_unlock(struct connection *connection, int level) {
  if (connection->level <= level) return SQLITE_OK;
  int error = level == SQLITE_LOCK_NONE ? unlock_all(connection) : back_to_shared(connection);
  return error ? tell_fault(SQLITE_IOERR_UNLOCK, error, "unlocking", connection->path) : SQLITE_OK;
}

int database_is_reserved(struct connection *connection, int *is_reserved) {
  struct fuse_lk_out found;
  *is_reserved = connection->level > SQLITE_LOCK_SHARED;
  if (*is_reserved) return SQLITE_OK;
  int error = link_ask(&connection->link, conflict_request(&connection->database, F_WRLCK, RESERVED_BYTE, RESERVED_BYTE, &found));
  if (error) return tell_fault(SQLITE_IOERR_CHECKRESERVEDLOCK, error, "asking for a writer", connection->path);
  *is_reserved = found.lk.type != F_UNLCK;
  return SQLITE_OK;
}

void database_give_over(struct connection *connection) {
  if (connection->level != SQLITE_LOCK_SHARED || connection->shared_by_process) return;
  if (process_share(connection->process)) return;
  connection->shared_by_process = 1;
  ask_lock(connection, F_UNLCK, SHARED_FIRST, SHARED_LAST);
}

void database_leave_process(struct connection *connection) {
  if (!connection->shared_by_process) return;
  if (take_back(connection)) process_unshare(connection->process);
  connection->shared_by_process = 0;
}
