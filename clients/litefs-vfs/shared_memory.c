#include "shared_memory.h"
#include "faults.h"
#include "locks.h"
#include "process.h"
#include "sqlite.h"

#include <errno.h>
#include <stdio.h>
#include <string.h>

#define LOCK_BYTES 120u          /* where the locks of the shared memory begin in its file */
#define WRITE_LOCK 0             /* by their place there */
#define RECOVER_LOCK 2

static void index_name(const struct connection *connection, char *name) {
  snprintf(name, NAME_ROOM, "%s-shm", connection->place.name);
}

static int open_index(struct connection *connection) {
  char name[NAME_ROOM];
  struct created created;
  index_name(connection, name);
  int error = link_ask(&connection->link, create_request(name, &created));
  if (!error) connection->index = (struct handle){created.entry.nodeid, created.open.fh};
  return error;
}

/* the first use of the shared memory by a connection */
static int join(struct connection *connection) {
  int error = process_join(&connection->process, &connection->place, connection->database.node);
  if (error) return error;
  error = open_index(connection);
  if (!error) {
    database_give_over(connection);
    return 0;
  }
  process_leave(connection->process);
  connection->process = NULL;
  return error;
}

/* whether the node's file has a region; it is made longer where that is wanted */
static int reach(struct connection *connection, int region, int may_extend, int *is_there) {
  struct fuse_attr_out attributes;
  uint64_t wanted = ((uint64_t)region + 1) * REGION_LENGTH;
  int error = link_ask(&connection->link, size_request(&connection->index, &attributes));
  *is_there = !error && attributes.attr.size >= wanted;
  if (error || *is_there || !may_extend) return error;
  error = link_ask(&connection->link, resize_request(&connection->index, wanted, &attributes));
  *is_there = !error;
  return error;
}

static int map(struct connection *connection, int region, int may_extend, void volatile **pages) {
  struct mirror *mirror = &connection->process->mirror;
  int error = 0, is_there = region < mirror->count;
  if (!is_there) error = reach(connection, region, may_extend, &is_there);
  while (!error && is_there && mirror->count <= region) error = mirror_add(mirror, &connection->link, &connection->index);
  *pages = !error && is_there ? mirror->words[region] : NULL;
  return error;
}

static int map_code(const struct connection *connection, int error) {
  if (error == ENOMEM) return SQLITE_NOMEM;
  int code = error == ENOSPC ? SQLITE_IOERR_SHMSIZE : SQLITE_IOERR_SHMMAP;
  return tell_fault(code, error, "mapping the shared memory", connection->path);
}

int memory_map(struct connection *connection, int region, int length, int may_extend, void volatile **pages) {
  *pages = NULL;
  if (length != REGION_LENGTH) return map_code(connection, EINVAL);
  int error = connection->process ? 0 : join(connection);
  if (is_lock_taken(error)) return SQLITE_BUSY;
  if (error) return tell_fault(SQLITE_IOERR_SHMOPEN, error, "opening the shared memory", connection->path);
  error = process_enter(connection->process);
  if (!error) {
    error = map(connection, region, may_extend, pages);
    process_exit(connection->process);
  }
  return error ? map_code(connection, error) : SQLITE_OK;
}

static int covers(int offset, int count, int lock) {
  return offset <= lock && lock < offset + count;
}

static struct request bytes_lock(const struct connection *connection, int type, int offset, int count) {
  uint64_t from = LOCK_BYTES + (uint64_t)offset;
  return lock_request(&connection->index, type, from, from + (uint64_t)count - 1);
}

/* from which region on the index is read again, whatever its header says: who may write it has to see what a writer that died left
** behind the last frame, and who makes it anew all of it */
static int first_unsure_region(const uint32_t *header, int offset, int count, int is_for_writing) {
  if (!is_for_writing) return NO_REGION;
  if (covers(offset, count, RECOVER_LOCK)) return 0;
  return covers(offset, count, WRITE_LOCK) ? region_of_frame(last_frame(header) + 1) : NO_REGION;
}

/* the lock, and behind it on the same link the header that the node has then */
static int lock(struct connection *connection, int offset, int count, int is_for_writing) {
  uint32_t header[HEADER_WORDS] = {0};
  struct process *process = connection->process;
  struct request requests[2] = {
    bytes_lock(connection, is_for_writing ? F_WRLCK : F_RDLCK, offset, count),
    read_request(&connection->index, 0, header, HEADER_LENGTH),
  };
  int error = link_exchange(&connection->link, requests, 2);
  if (error || requests[0].error) return error ? error : requests[0].error;
  int first = first_unsure_region(header, offset, count, is_for_writing);
  error = requests[1].error;
  if (!error) error = mirror_refresh(&process->mirror, &connection->link, &connection->index, header, first);
  if (!error) return 0;
  link_ask(&connection->link, bytes_lock(connection, F_UNLCK, offset, count));
  return is_lock_taken(error) ? EIO : error;
}

int memory_lock(struct connection *connection, int offset, int count, int is_for_writing) {
  struct process *process = connection->process;
  if (!process) return SQLITE_IOERR_SHMLOCK;
  int error = process_enter(process);
  if (!error) {
    error = lock(connection, offset, count, is_for_writing);
    process_exit(process);
  }
  if (!error) return SQLITE_OK;
  if (is_lock_taken(error)) return SQLITE_BUSY;
  return tell_fault(SQLITE_IOERR_SHMLOCK, error, "locking the shared memory", connection->path);
}

/* a fault leaves the node with less than this process knows of its own changes */
static int publish_and_unlock(struct connection *connection, int offset, int count) {
  struct process *process = connection->process;
  int is_index_changed = covers(offset, count, WRITE_LOCK) || covers(offset, count, RECOVER_LOCK);
  struct request unlock = bytes_lock(connection, F_UNLCK, offset, count);
  int error = process_enter(process);
  if (error) return error;
  error = mirror_publish(&process->mirror, &connection->link, &connection->index, is_index_changed, unlock);
  if (error) process->is_dead = 1;
  process_exit(process);
  return error;
}

int memory_unlock(struct connection *connection, int offset, int count, int is_for_writing) {
  int error = ENOTCONN;
  if (connection->process && is_for_writing) error = publish_and_unlock(connection, offset, count);
  else if (connection->process) error = link_ask(&connection->link, bytes_lock(connection, F_UNLCK, offset, count));
  return error ? tell_fault(SQLITE_IOERR_SHMLOCK, error, "unlocking the shared memory", connection->path) : SQLITE_OK;
}

int memory_unmap(struct connection *connection, int is_to_be_removed) {
  char name[NAME_ROOM];
  struct process *process = connection->process;
  if (!process) return SQLITE_OK;
  database_leave_process(connection);
  struct request requests[2] = {flush_request(&connection->index), release_request(&connection->index)};
  index_name(connection, name);
  if (is_to_be_removed && process->users == 1) link_ask(&connection->link, unlink_request(name));
  link_exchange(&connection->link, requests, 2);
  connection->process = NULL;
  process_leave(process);
  return SQLITE_OK;
}
