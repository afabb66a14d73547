/* The locks of a connection on its database, as SQLite asks for them: by level, as bytes of the file at the node. */
#ifndef LITEFS_LOCKS_H
#define LITEFS_LOCKS_H

#include "connection.h"

#define PENDING_BYTE 0x40000000u
#define RESERVED_BYTE 0x40000001u
#define SHARED_FIRST 0x40000002u
#define SHARED_LAST 0x400001ffu
#define IN_USE_BYTE 128u         /* of the shared memory's file: DMS */

/* SQLite's codes: SQLITE_BUSY where another has the lock */
int database_lock(struct connection *connection, int level);
int database_unlock(struct connection *connection, int level);
int database_is_reserved(struct connection *connection, int *is_reserved);

/* gives SHARED over to the process, which has it for all its idle connections in WAL mode. There is no moment between at which
** neither has it. Where the process can't have it the connection keeps it */
void database_give_over(struct connection *connection);

/* takes it back, where it was given over, before the connection leaves the process */
void database_leave_process(struct connection *connection);

/* whether an error number of a lock request says that another has the lock, or that the lock has as many holders as it can */
int is_lock_taken(int error);

#endif
