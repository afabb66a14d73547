/* Which names are those of a node's database, and at which socket: a URI's path with vfs=litefs, a path that is a socket, or a path
** below the folder that LITEFS_DIR names, whose socket LITEFS_SOCKET names. */
#ifndef LITEFS_PLACES_H
#define LITEFS_PLACES_H

#include "link.h"

#define DATABASE_ROOM 65         /* the longest name of a database, and its zero byte */

struct place {
  char socket[SOCKET_ROOM];
  char name[DATABASE_ROOM];      /* the database's name at the node; empty where the node is to be asked */
};

/* whether a full path with SQLite's parameters behind it is a node's database; errors are in place_of */
int is_place(const char *path);

/* where it is: 0 or an error number */
int place_of(const char *path, struct place *place);

/* the database's name where none was given: of the names that the socket's own name and the folder beside it suggest, the
** first that the node knows. 0, or the error number: ENOENT where it knows none */
int ask_name(struct link *link, struct place *place);

/* the folder of LITEFS_DIR, or null */
const char *places_folder(void);

#endif
