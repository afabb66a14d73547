/* What the connections of this process to one database hold together in WAL mode, on a link of its own: the mirror of the shared
** memory, the lock that says that it is in use (DMS), and SHARED on the database for those that are idle, so that a lock of the
** node has one holder for a process and not one for each connection. */
#ifndef LITEFS_PROCESS_H
#define LITEFS_PROCESS_H

#include "mirror.h"
#include "places.h"

struct process {
  struct place place;
  struct link link;
  struct handle database;
  struct handle index;
  int is_dead;                   /* a fault left the mirror or the locks unsure: every connection is to be opened anew */
  int users;                     /* connections */
  int sharers;                   /* those whose SHARED it holds */
  pthread_mutex_t mutex;         /* over the mirror, and over each exchange that goes with it */
  struct mirror mirror;
  struct process *next;
};

/* that of the place, which is made where there is none. 0, or an error number: EAGAIN where another client has the shared memory
** for itself */
int process_join(struct process **joined, const struct place *place, uint64_t database_node);
void process_leave(struct process *process);

/* to be called once: no fork comes while another thread has the list of them */
void processes_expect_forks(void);

/* takes its mutex, where it may be relied on; else it doesn't, and the error number says why: a fault, a node that is gone, a
** fork */
int process_enter(struct process *process);
void process_exit(struct process *process);

/* takes a share of SHARED on the database, and gives it back. 0, or an error number */
int process_share(struct process *process);
int process_unshare(struct process *process);

#endif
