/* SQLite's calls on the shared memory of WAL mode, for a connection. */
#ifndef LITEFS_SHARED_MEMORY_H
#define LITEFS_SHARED_MEMORY_H

#include "connection.h"

/* SQLite's codes */
int memory_map(struct connection *connection, int region, int length, int may_extend, void volatile **pages);
int memory_lock(struct connection *connection, int offset, int count, int is_for_writing);
int memory_unlock(struct connection *connection, int offset, int count, int is_for_writing);
int memory_unmap(struct connection *connection, int is_to_be_removed);

#endif
