/* A connection of SQLite's to a node's database: a link of its own, on which every request of it goes, and the database's file on
** that. The list of all connections tells to which one a journal or a log belongs, by its name. */
#ifndef LITEFS_CONNECTION_H
#define LITEFS_CONNECTION_H

#include "link.h"
#include "places.h"

struct process;

struct connection {
  struct link link;
  struct place place;
  const char *path;              /* SQLite's own texts of the three names: they live as long as the connection */
  const char *journal_path;
  const char *log_path;
  struct handle database;
  int level;                     /* of its lock on the database: SQLITE_LOCK_NONE to SQLITE_LOCK_EXCLUSIVE */
  int shared_by_process;         /* SHARED is held by the process, see locks.h */
  int keeps_log;                 /* SQLITE_FCNTL_PERSIST_WAL */
  struct process *process;       /* in WAL mode, else null: what the connections of this process hold together */
  struct handle index;           /* the file of the shared memory, where process isn't null */
  struct connection *next;
};

/* SQLITE_OK, or the code of a fault that was told. flags: SQLite's for opening; told: which of them hold, READONLY or READWRITE */
int connection_open(struct connection **made, const char *path, int flags, int *told);
void connection_close(struct connection *connection);

/* to be called once: no fork comes while another thread has the list of them */
void connections_expect_forks(void);

/* the connection to whose journal or log a path belongs, or null: by SQLite's own text, else by the same letters */
struct connection *connection_of(const char *path);

/* whether a path begins with that of a connection's database, and what stands behind it is a super-journal's */
int is_super_journal(const char *path);

/* the name at the node of a file of the connection; room for NAME_ROOM bytes */
void served_name(const struct connection *connection, const char *path, char *name);

#endif
