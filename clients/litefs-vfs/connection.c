#include "connection.h"
#include "faults.h"
#include "sqlite.h"

#include <errno.h>
#include <stdio.h>
#include <stdlib.h>
#include <string.h>

static pthread_mutex_t list_mutex = PTHREAD_MUTEX_INITIALIZER;
static struct connection *first;

static void enlist(struct connection *connection) {
  pthread_mutex_lock(&list_mutex);
  connection->next = first;
  first = connection;
  pthread_mutex_unlock(&list_mutex);
}

static void delist(struct connection *connection) {
  pthread_mutex_lock(&list_mutex);
  struct connection **place = &first;
  while (*place && *place != connection) place = &(*place)->next;
  if (*place) *place = connection->next;
  pthread_mutex_unlock(&list_mutex);
}

/* whether the application wants a database at a replica to be read-only, and the node is one */
static int is_read_only(struct connection *connection, const char *path) {
  const char *wish = getenv("LITEFS_RO");
  struct fuse_entry_out entry;
  if (!sqlite3_uri_boolean(path, "ro", wish && *wish && strcmp(wish, "0"))) return 0;
  return !link_ask(&connection->link, lookup_request(".primary", &entry));
}

static int open_database(struct connection *connection, int flags) {
  struct fuse_entry_out entry;
  struct fuse_open_out opened;
  int error = link_ask(&connection->link, lookup_request(connection->place.name, &entry));
  if (!error) error = link_ask(&connection->link, open_request(entry.nodeid, flags, &opened));
  if (!error) connection->database = (struct handle){entry.nodeid, opened.fh};
  return error;
}

/* a node may refuse to open for writing what it lets be read */
static int open_for(struct connection *connection, const char *path, int flags, int *told) {
  int error = EROFS;
  *told = SQLITE_OPEN_READWRITE;
  if ((flags & SQLITE_OPEN_READWRITE) && !is_read_only(connection, path)) error = open_database(connection, O_RDWR);
  if (error != EROFS) return error;
  *told = SQLITE_OPEN_READONLY;
  return open_database(connection, O_RDONLY);
}

/* what failed, where error isn't 0 */
static const char *open_link(struct connection *connection, const char *path, int *error) {
  *error = place_of(path, &connection->place);
  if (*error) return "LITEFS_SOCKET and the database's name must say where the node is";
  *error = link_open(&connection->link, connection->place.socket);
  if (*error) return "connecting to the node";
  if (!*connection->place.name) *error = ask_name(&connection->link, &connection->place);
  if (*error) link_close(&connection->link);
  return "the database's name at the node is not known; say &name=";
}

static const char *open_all(struct connection *connection, const char *path, int flags, int *told, int *error) {
  const char *step = open_link(connection, path, error);
  if (*error) return step;
  *error = open_for(connection, path, flags, told);
  if (*error) link_close(&connection->link);
  return "opening the database at the node";
}

int connection_open(struct connection **made, const char *path, int flags, int *told) {
  int error;
  struct connection *connection = calloc(1, sizeof *connection);
  if (!connection) return SQLITE_NOMEM;
  connection->path = path;
  connection->journal_path = sqlite3_filename_journal(path);
  connection->log_path = sqlite3_filename_wal(path);
  const char *step = open_all(connection, path, flags, told, &error);
  if (error) {
    free(connection);
    return tell_fault(SQLITE_CANTOPEN, error, step, path);
  }
  enlist(connection);
  *made = connection;
  return SQLITE_OK;
}

void connection_close(struct connection *connection) {
  delist(connection);
  link_close(&connection->link);
  free(connection);
}

static int is_file_of(const struct connection *connection, const char *path) {
  return !strcmp(path, connection->journal_path) || !strcmp(path, connection->log_path);
}

/* of several connections with the same paths the one that may be writing */
static struct connection *by_letters(const char *path) {
  struct connection *found = NULL;
  for (struct connection *each = first; each; each = each->next) {
    if (is_file_of(each, path) && (!found || each->level > found->level)) found = each;
  }
  return found;
}

struct connection *connection_of(const char *path) {
  pthread_mutex_lock(&list_mutex);
  struct connection *found = first;
  while (found && path != found->journal_path && path != found->log_path) found = found->next;
  if (!found) found = by_letters(path);
  pthread_mutex_unlock(&list_mutex);
  return found;
}

int is_super_journal(const char *path) {
  int found = 0;
  pthread_mutex_lock(&list_mutex);
  for (struct connection *each = first; each && !found; each = each->next) {
    size_t length = strlen(each->path);
    found = !strncmp(path, each->path, length) && !strncmp(path + length, "-mj", 3);
  }
  pthread_mutex_unlock(&list_mutex);
  return found;
}

void served_name(const struct connection *connection, const char *path, char *name) {
  snprintf(name, NAME_ROOM, "%s%s", connection->place.name, path + strlen(connection->path));
}

static void hold_list(void) {
  pthread_mutex_lock(&list_mutex);
}

static void release_list(void) {
  pthread_mutex_unlock(&list_mutex);
}

void connections_expect_forks(void) {
  pthread_atfork(hold_list, release_list, release_list);
}
