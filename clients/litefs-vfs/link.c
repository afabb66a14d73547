#define _GNU_SOURCE
#include "link.h"
#include "crash.h"

#include <errno.h>
#include <poll.h>
#include <string.h>
#include <sys/socket.h>
#include <sys/uio.h>
#include <sys/un.h>
#include <unistd.h>

#define LEAST_DESCRIPTOR 3       /* so that nothing written to standard output or error goes to the node */

static int connected_socket(const char *path) {
  struct sockaddr_un address = {.sun_family = AF_UNIX};
  if (strlen(path) >= sizeof address.sun_path) return -ENAMETOOLONG;
  strcpy(address.sun_path, path);
  int opened = socket(AF_UNIX, SOCK_STREAM | SOCK_CLOEXEC, 0);
  if (opened >= 0 && opened < LEAST_DESCRIPTOR) {
    int higher = fcntl(opened, F_DUPFD_CLOEXEC, LEAST_DESCRIPTOR);
    close(opened);
    opened = higher;
  }
  if (opened < 0) return -errno;
  while (connect(opened, (struct sockaddr *)&address, sizeof address)) {
    if (errno == EINTR) continue;
    int fault = errno;
    close(opened);
    return -fault;
  }
  return opened;
}

int link_open(struct link *link, const char *path) {
  int opened = connected_socket(path);
  if (opened < 0) return -opened;
  link->socket = opened;
  link->process = getpid();
  link->is_dead = 0;
  link->unique = 0;
  pthread_mutex_init(&link->mutex, NULL);
  int fault = link_ask(link, init_request());
  if (fault) link_close(link);
  return fault;
}

/* passes over so many bytes of the pieces */
static void advance(struct msghdr *message, size_t moved) {
  while (message->msg_iovlen > 0 && moved >= message->msg_iov->iov_len) {
    moved -= message->msg_iov->iov_len;
    message->msg_iov++;
    message->msg_iovlen--;
  }
  if (message->msg_iovlen > 0) {
    message->msg_iov->iov_base = (char *)message->msg_iov->iov_base + moved;
    message->msg_iov->iov_len -= moved;
  }
}

static int send_pieces(int to, struct iovec *pieces, size_t count) {
  struct msghdr message = {.msg_iov = pieces, .msg_iovlen = count};
  while (message.msg_iovlen > 0) {
    ssize_t sent = sendmsg(to, &message, MSG_NOSIGNAL);
    if (sent < 0 && errno == EINTR) continue;
    if (sent < 0) return errno;
    advance(&message, (size_t)sent);
  }
  return 0;
}

static int send_requests(struct link *link, const struct request *requests, int count) {
  struct fuse_in_header heads[MOST_REQUESTS];
  struct iovec pieces[3 * MOST_REQUESTS];
  size_t used = 0;
  memset(heads, 0, sizeof heads);
  for (int i = 0; i < count; i++) {
    const struct request *request = &requests[i];
    heads[i].len = (uint32_t)sizeof heads[i] + request->body_length + request->data_length;
    heads[i].opcode = request->opcode;
    heads[i].unique = ++link->unique;
    heads[i].nodeid = request->node;
    heads[i].pid = (uint32_t)link->process;
    pieces[used++] = (struct iovec){&heads[i], sizeof heads[i]};
    if (request->body_length) pieces[used++] = (struct iovec){(void *)&request->body, request->body_length};
    if (request->data_length) pieces[used++] = (struct iovec){(void *)request->data, request->data_length};
  }
  return send_pieces(link->socket, pieces, used);
}

/* at least so many bytes into the pieces, at most all that they hold: how many, or -1 */
static ssize_t receive_pieces(int from, struct iovec *pieces, size_t count, size_t least) {
  struct msghdr message = {.msg_iov = pieces, .msg_iovlen = count};
  size_t had = 0;
  while (had < least) {
    ssize_t got = recvmsg(from, &message, 0);
    if (got < 0 && errno == EINTR) continue;
    if (got <= 0) return -1;
    advance(&message, (size_t)got);
    had += (size_t)got;
  }
  return (ssize_t)had;
}

/* one reply. Behind the last one nothing comes, so its head and body are asked for at once */
static int receive_reply(struct link *link, struct request *request, uint64_t unique, int is_last) {
  struct fuse_out_header head;
  char unwanted[sizeof(struct fuse_init_out)];
  char *into = request->answer ? request->answer : unwanted;
  struct iovec pieces[2] = {{&head, sizeof head}, {into, request->answer_room}};
  ssize_t had = receive_pieces(link->socket, pieces, is_last && request->answer_room ? 2 : 1, sizeof head);
  if (had < 0) return ENOTCONN;
  if (head.unique != unique || head.len < sizeof head || head.len - sizeof head > request->answer_room) return EPROTO;
  if (head.error > 0 || head.error < -4095 || (size_t)had > head.len) return EPROTO;
  request->error = -head.error;
  request->answer_length = head.len - (uint32_t)sizeof head;
  size_t missing = head.len - (size_t)had;
  struct iovec rest = {into + (request->answer_length - missing), missing};
  return missing && receive_pieces(link->socket, &rest, 1, missing) < 0 ? ENOTCONN : 0;
}

static int exchange(struct link *link, struct request *requests, int count) {
  uint64_t unique = link->unique;
  int fault = send_requests(link, requests, count);
  for (int i = 0; i < count && !fault; i++) fault = receive_reply(link, &requests[i], ++unique, i == count - 1);
  return fault;
}

int link_exchange(struct link *link, struct request *requests, int count) {
  if (link->process != getpid()) return ECHILD;
  pthread_mutex_lock(&link->mutex);
  int fault = link->is_dead ? ENOTCONN : 0;
#ifdef LITEFS_TEST
  for (int i = 0; i < count && !fault; i++) {
    crash_before(&requests[i]);
    fault = exchange(link, &requests[i], 1);
    crash_after(&requests[i]);
  }
#else
  if (!fault) fault = exchange(link, requests, count);
#endif
  if (fault) link->is_dead = 1;
  pthread_mutex_unlock(&link->mutex);
  return fault;
}

int link_ask(struct link *link, struct request request) {
  int fault = link_exchange(link, &request, 1);
  return fault ? fault : request.error;
}

int link_is_alive(struct link *link) {
  struct pollfd look = {.fd = link->socket, .events = POLLRDHUP};
  return link->process == getpid() && !link->is_dead && poll(&look, 1, 0) == 0;
}

void link_close(struct link *link) {
  if (link->process == getpid()) {
    if (!link->is_dead) link_ask(link, destroy_request());
    pthread_mutex_destroy(&link->mutex);
  }
  close(link->socket);
}
