#include "process.h"
#include "locks.h"

#include <errno.h>
#include <stdio.h>
#include <stdlib.h>
#include <string.h>
#include <unistd.h>

static pthread_mutex_t list_mutex = PTHREAD_MUTEX_INITIALIZER;
static struct process *first;

/* the first to use the shared memory finds it empty, so that SQLite makes the index anew from the log */
static int take_in_use(struct process *process) {
  struct fuse_attr_out ignored;
  int error = link_ask(&process->link, lock_request(&process->index, F_WRLCK, IN_USE_BYTE, IN_USE_BYTE));
  if (!error) error = link_ask(&process->link, resize_request(&process->index, 0, &ignored));
  else if (error != EAGAIN) return error;
  else error = 0;
  return error ? error : link_ask(&process->link, lock_request(&process->index, F_RDLCK, IN_USE_BYTE, IN_USE_BYTE));
}

static int open_files(struct process *process, uint64_t database_node) {
  char name[NAME_ROOM];
  struct fuse_open_out opened;
  struct created created;
  snprintf(name, sizeof name, "%s-shm", process->place.name);
  int error = link_ask(&process->link, open_request(database_node, O_RDONLY, &opened));
  if (error) return error;
  process->database = (struct handle){database_node, opened.fh};
  error = link_ask(&process->link, create_request(name, &created));
  if (error) return error;
  process->index = (struct handle){created.entry.nodeid, created.open.fh};
  return take_in_use(process);
}

static int make(struct process **made, const struct place *place, uint64_t database_node) {
  struct process *process = calloc(1, sizeof *process);
  if (!process) return ENOMEM;
  process->place = *place;
  pthread_mutex_init(&process->mutex, NULL);
  int error = link_open(&process->link, place->socket);
  if (!error) {
    error = open_files(process, database_node);
    if (error) link_close(&process->link);
  }
  if (error) free(process);
  else *made = process;
  return error;
}

static int is_at(const struct process *process, const struct place *place) {
  return !strcmp(process->place.socket, place->socket) && !strcmp(process->place.name, place->name);
}

static int is_sound(struct process *process) {
  if (!process->is_dead && !link_is_alive(&process->link)) process->is_dead = 1;
  return !process->is_dead;
}

int process_enter(struct process *process) {
  if (process->link.process != getpid()) return ECHILD;
  pthread_mutex_lock(&process->mutex);
  if (is_sound(process)) return 0;
  pthread_mutex_unlock(&process->mutex);
  return ENOTCONN;
}

void process_exit(struct process *process) {
  pthread_mutex_unlock(&process->mutex);
}

int process_join(struct process **joined, const struct place *place, uint64_t database_node) {
  int error = 0;
  pthread_mutex_lock(&list_mutex);
  struct process *found = first;
  while (found && !(is_at(found, place) && is_sound(found))) found = found->next;
  if (!found) {
    error = make(&found, place, database_node);
    if (!error) {
      found->next = first;
      first = found;
    }
  }
  if (!error) {
    found->users++;
    *joined = found;
  }
  pthread_mutex_unlock(&list_mutex);
  return error;
}

static void delist(struct process *process) {
  struct process **place = &first;
  while (*place != process) place = &(*place)->next;
  *place = process->next;
}

void process_leave(struct process *process) {
  pthread_mutex_lock(&list_mutex);
  int is_last = --process->users == 0;
  if (is_last) {
    delist(process);
    link_ask(&process->link, flush_request(&process->index));
    link_close(&process->link);
  }
  pthread_mutex_unlock(&list_mutex);
  if (!is_last) return;
  mirror_free(&process->mirror);
  free(process);
}

static int ask_shared(struct process *process, int type) {
  return link_ask(&process->link, lock_request(&process->database, type, SHARED_FIRST, SHARED_LAST));
}

int process_share(struct process *process) {
  int error = process_enter(process);
  if (error) return error;
  if (!process->sharers) error = ask_shared(process, F_RDLCK);
  if (!error) process->sharers++;
  process_exit(process);
  return error;
}

int process_unshare(struct process *process) {
  int error = process_enter(process);
  if (error) return error;
  if (--process->sharers == 0) error = ask_shared(process, F_UNLCK);
  process_exit(process);
  return error;
}

static void hold_list(void) {
  pthread_mutex_lock(&list_mutex);
}

static void release_list(void) {
  pthread_mutex_unlock(&list_mutex);
}

void processes_expect_forks(void) {
  pthread_atfork(hold_list, release_list, release_list);
}
