#include "messages.h"

#include <string.h>
#include <sys/stat.h>

#if __BYTE_ORDER__ != __ORDER_LITTLE_ENDIAN__
#error "the node's messages are little-endian, and so must this machine be"
#endif

_Static_assert(sizeof(struct fuse_in_header) == 40, "the head of a request");
_Static_assert(sizeof(struct fuse_out_header) == 16, "the head of a reply");
_Static_assert(sizeof(struct fuse_setattr_in) == 88, "SETATTR");
_Static_assert(sizeof(struct fuse_lk_in) == 48, "GETLK and SETLK");
_Static_assert(sizeof(struct fuse_create_in) == 16, "CREATE");
_Static_assert(sizeof(struct created) == 144, "the reply to CREATE");
_Static_assert(sizeof(struct fuse_attr_out) == 104, "the reply to GETATTR");

static struct request bare_request(uint32_t opcode, uint64_t node, uint32_t body_length) {
  struct request made;
  memset(&made, 0, sizeof made);
  made.opcode = opcode;
  made.node = node;
  made.body_length = body_length;
  return made;
}

static struct request named_request(uint32_t opcode, const char *name, uint32_t body_length) {
  struct request made = bare_request(opcode, ROOT_NODE, body_length);
  made.data = name;
  made.data_length = (uint32_t)strlen(name) + 1;
  return made;
}

static void expect(struct request *request, void *answer, uint32_t room) {
  request->answer = answer;
  request->answer_room = room;
}

struct request init_request(void) {
  struct request made = bare_request(FUSE_INIT, 0, 16);
  made.body.init.major = 7;
  made.body.init.minor = 31;
  expect(&made, NULL, sizeof(struct fuse_init_out));
  return made;
}

struct request destroy_request(void) {
  return bare_request(FUSE_DESTROY, 0, 0);
}

struct request lookup_request(const char *name, struct fuse_entry_out *answer) {
  struct request made = named_request(FUSE_LOOKUP, name, 0);
  expect(&made, answer, sizeof *answer);
  return made;
}

struct request unlink_request(const char *name) {
  return named_request(FUSE_UNLINK, name, 0);
}

struct request create_request(const char *name, struct created *answer) {
  struct request made = named_request(FUSE_CREATE, name, sizeof made.body.create);
  made.body.create.flags = O_RDWR | O_CREAT;
  made.body.create.mode = S_IFREG | 0644;
  expect(&made, answer, sizeof *answer);
  return made;
}

struct request open_request(uint64_t node, int flags, struct fuse_open_out *answer) {
  struct request made = bare_request(FUSE_OPEN, node, sizeof made.body.open);
  made.body.open.flags = (uint32_t)flags;
  expect(&made, answer, sizeof *answer);
  return made;
}

struct request release_request(const struct handle *file) {
  struct request made = bare_request(FUSE_RELEASE, file->node, sizeof made.body.release);
  made.body.release.fh = file->number;
  made.body.release.lock_owner = LOCK_OWNER;
  return made;
}

struct request flush_request(const struct handle *file) {
  struct request made = bare_request(FUSE_FLUSH, file->node, sizeof made.body.flush);
  made.body.flush.fh = file->number;
  made.body.flush.lock_owner = LOCK_OWNER;
  return made;
}

struct request size_request(const struct handle *file, struct fuse_attr_out *answer) {
  struct request made = bare_request(FUSE_GETATTR, file->node, sizeof made.body.getattr);
  made.body.getattr.getattr_flags = FUSE_GETATTR_FH;
  made.body.getattr.fh = file->number;
  expect(&made, answer, sizeof *answer);
  return made;
}

struct request resize_request(const struct handle *file, uint64_t size, struct fuse_attr_out *answer) {
  struct request made = bare_request(FUSE_SETATTR, file->node, sizeof made.body.setattr);
  made.body.setattr.valid = FATTR_SIZE | FATTR_FH | FATTR_LOCKOWNER;
  made.body.setattr.fh = file->number;
  made.body.setattr.size = size;
  made.body.setattr.lock_owner = LOCK_OWNER;
  expect(&made, answer, sizeof *answer);
  return made;
}

struct request read_request(const struct handle *file, uint64_t at, void *into, uint32_t length) {
  struct request made = bare_request(FUSE_READ, file->node, sizeof made.body.read);
  made.body.read.fh = file->number;
  made.body.read.offset = at;
  made.body.read.size = length;
  made.body.read.read_flags = FUSE_READ_LOCKOWNER;
  made.body.read.lock_owner = LOCK_OWNER;
  expect(&made, into, length);
  return made;
}

struct request write_request(const struct handle *file, uint64_t at, const void *bytes, uint32_t length) {
  struct request made = bare_request(FUSE_WRITE, file->node, sizeof made.body.write);
  made.body.write.fh = file->number;
  made.body.write.offset = at;
  made.body.write.size = length;
  made.body.write.write_flags = FUSE_WRITE_LOCKOWNER;
  made.body.write.lock_owner = LOCK_OWNER;
  made.data = bytes;
  made.data_length = length;
  expect(&made, NULL, sizeof(struct fuse_write_out));
  return made;
}

struct request sync_request(const struct handle *file, int data_only) {
  struct request made = bare_request(FUSE_FSYNC, file->node, sizeof made.body.sync);
  made.body.sync.fh = file->number;
  made.body.sync.fsync_flags = data_only ? FUSE_FSYNC_FDATASYNC : 0;
  return made;
}

static struct request lock_message(uint32_t opcode, const struct handle *file, int type, uint64_t first, uint64_t last) {
  struct request made = bare_request(opcode, file->node, sizeof made.body.lock);
  made.body.lock.fh = file->number;
  made.body.lock.owner = LOCK_OWNER;
  made.body.lock.lk.start = first;
  made.body.lock.lk.end = last;
  made.body.lock.lk.type = (uint32_t)type;
  return made;
}

struct request lock_request(const struct handle *file, int type, uint64_t first, uint64_t last) {
  return lock_message(FUSE_SETLK, file, type, first, last);
}

struct request conflict_request(const struct handle *file, int type, uint64_t first, uint64_t last, struct fuse_lk_out *answer) {
  struct request made = lock_message(FUSE_GETLK, file, type, first, last);
  expect(&made, answer, sizeof *answer);
  return made;
}
