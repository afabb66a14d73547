/* A link to a node: one connected socket, on which requests go out and replies come back in their order.
** It is one session of the node. It serves the process that opened it, and no child of that. */
#ifndef LITEFS_LINK_H
#define LITEFS_LINK_H

#include "messages.h"

#include <pthread.h>
#include <sys/types.h>

#define SOCKET_ROOM 108          /* the longest path of a socket, and its zero byte */
#define MOST_REQUESTS 32         /* how many requests one exchange may have */

struct link {
  int socket;
  pid_t process;
  int is_dead;                   /* a fault of the link: nothing more is sent on it */
  uint64_t unique;
  pthread_mutex_t mutex;
};

/* 0, or the error number of what failed */
int link_open(struct link *link, const char *path);

/* sends the requests and takes their replies. 0 where each was answered, well or not (its error says which); else the link is
** dead, or not this process's, and the error number says why */
int link_exchange(struct link *link, struct request *requests, int count);

/* one request: the fault of the link, or the error of the reply */
int link_ask(struct link *link, struct request request);

/* whether the node has not hung up; it asks the socket alone */
int link_is_alive(struct link *link);

/* tells the node that the session is at its end, where this process may, and closes the socket */
void link_close(struct link *link);

#endif
