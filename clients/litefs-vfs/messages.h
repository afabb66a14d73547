/* Requests to a node, and what it answers: the profile of FUSE 7.31 of docs/FORMATS.md, by the structs of the kernel's header.
** A function makes each request; link.h sends them. Names, data and answers are the caller's and are used until then. */
#ifndef LITEFS_MESSAGES_H
#define LITEFS_MESSAGES_H

#include <stdint.h>
#include <fcntl.h>
#include <linux/fuse.h>

#define MOST_DATA 131072u        /* the most bytes of one READ or WRITE */
#define NAME_ROOM 81             /* the longest name of a served file, and its zero byte */
#define ROOT_NODE 1u             /* the folder of the served files */
#define LOCK_OWNER 1u            /* each link is one owner of locks: its session tells it from others */

struct request {
  uint32_t opcode;
  uint64_t node;
  union {
    struct fuse_getattr_in getattr;
    struct fuse_setattr_in setattr;
    struct fuse_open_in open;
    struct fuse_create_in create;
    struct fuse_read_in read;
    struct fuse_write_in write;
    struct fuse_release_in release;
    struct fuse_flush_in flush;
    struct fuse_fsync_in sync;
    struct fuse_lk_in lock;
    struct { uint32_t major, minor, max_readahead, flags; } init;
  } body;
  uint32_t body_length;
  const void *data;              /* what follows the body: a name and its zero byte, or the bytes of a WRITE */
  uint32_t data_length;
  void *answer;                  /* where the body of the reply goes, or null: nobody wants it */
  uint32_t answer_room;          /* the most bytes that it may have */
  int error;                     /* of the reply: 0 or an error number */
  uint32_t answer_length;        /* of the reply: how many bytes its body had */
};

/* an open file of a node */
struct handle {
  uint64_t node;
  uint64_t number;
};

/* what CREATE answers */
struct created {
  struct fuse_entry_out entry;
  struct fuse_open_out open;
};

struct request init_request(void);
struct request destroy_request(void);
struct request lookup_request(const char *name, struct fuse_entry_out *answer);
struct request unlink_request(const char *name);
struct request create_request(const char *name, struct created *answer);
struct request open_request(uint64_t node, int flags, struct fuse_open_out *answer);
struct request release_request(const struct handle *file);
struct request flush_request(const struct handle *file);
struct request size_request(const struct handle *file, struct fuse_attr_out *answer);
struct request resize_request(const struct handle *file, uint64_t size, struct fuse_attr_out *answer);
struct request read_request(const struct handle *file, uint64_t at, void *into, uint32_t length);
struct request write_request(const struct handle *file, uint64_t at, const void *bytes, uint32_t length);
struct request sync_request(const struct handle *file, int data_only);

/* type: F_RDLCK, F_WRLCK or F_UNLCK; the bytes from first to last, both included */
struct request lock_request(const struct handle *file, int type, uint64_t first, uint64_t last);
struct request conflict_request(const struct handle *file, int type, uint64_t first, uint64_t last, struct fuse_lk_out *answer);

#endif
