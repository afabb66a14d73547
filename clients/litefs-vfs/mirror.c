#include "mirror.h"

#include <errno.h>
#include <stdlib.h>
#include <string.h>

/* words of the index header, by SQLite's WAL-index format; it stands there twice, and behind it come marks */
#define LAST_FRAME_WORD 4
#define SALT_WORD 8
#define COPIES_WORDS 24

#define FRAMES_OF_REGION 4096
#define FRAMES_OF_FIRST_REGION 4062

#define NEAR_WORDS 256           /* changes of the index that lie nearer are told by one WRITE */

int region_of_frame(uint32_t frame) {
  if (frame <= FRAMES_OF_FIRST_REGION) return 0;
  return 1 + (int)((frame - FRAMES_OF_FIRST_REGION - 1) / FRAMES_OF_REGION);
}

uint32_t last_frame(const uint32_t *header) {
  return header[LAST_FRAME_WORD];
}

static uint32_t word_at(const uint32_t *words, int at) {
  return __atomic_load_n(&words[at], __ATOMIC_ACQUIRE);
}

static uint64_t place_of_region(int region) {
  return (uint64_t)region * REGION_LENGTH;
}

/* a region of the node's, zeros where it has less */
static int read_region(struct link *link, const struct handle *index, int region, uint32_t *into) {
  struct request request = read_request(index, place_of_region(region), into, REGION_LENGTH);
  int error = link_exchange(link, &request, 1);
  if (error || request.error) return error ? error : request.error;
  memset((char *)into + request.answer_length, 0, REGION_LENGTH - request.answer_length);
  return 0;
}

int mirror_add(struct mirror *mirror, struct link *link, const struct handle *index) {
  int region = mirror->count;
  if (region >= MOST_REGIONS) return ENOSPC;
  uint32_t *words = malloc(REGION_LENGTH), *known = malloc(REGION_LENGTH);
  int error = words && known ? read_region(link, index, region, known) : ENOMEM;
  if (error) {
    free(words);
    free(known);
    return error;
  }
  memcpy(words, known, REGION_LENGTH);
  mirror->words[region] = words;
  mirror->known[region] = known;
  mirror->count++;
  return 0;
}

/* the words that the node changed, the last one first: SQLite reads the first copy of the header and then the second one */
static void put_in(struct mirror *mirror, int region, int from, int to, const uint32_t *fresh) {
  for (int at = to - 1; at >= from; at--) {
    if (fresh[at] == mirror->known[region][at]) continue;
    mirror->known[region][at] = fresh[at];
    __atomic_store_n(&mirror->words[region][at], fresh[at], __ATOMIC_SEQ_CST);
  }
}

/* the first region that may differ where the header is another: frames behind those that both know, all after a new log */
static int first_changed_region(const uint32_t *old, const uint32_t *new) {
  if (!memcmp(old, new, COPIES_WORDS * 4)) return NO_REGION;
  if (memcmp(old + SALT_WORD, new + SALT_WORD, 8)) return 0;
  uint32_t both = last_frame(old) < last_frame(new) ? last_frame(old) : last_frame(new);
  return region_of_frame(both);
}

int mirror_refresh(struct mirror *mirror, struct link *link, const struct handle *index, const uint32_t *header, int from_region) {
  if (!mirror->count) return 0;
  int first = first_changed_region(mirror->known[0], header);
  if (first > from_region) first = from_region;
  for (int region = mirror->count - 1; region >= first; region--) {
    int error = read_region(link, index, region, mirror->scratch);
    if (error) return error;
    put_in(mirror, region, region ? 0 : HEADER_WORDS, REGION_WORDS, mirror->scratch);
  }
  put_in(mirror, 0, 0, HEADER_WORDS, header);
  return 0;
}

/* requests that are gathered and sent together */
struct batch {
  struct link *link;
  const struct handle *index;
  struct request requests[MOST_REQUESTS];
  int count;
  int error;
};

static void batch_send(struct batch *batch) {
  if (!batch->error) batch->error = link_exchange(batch->link, batch->requests, batch->count);
  for (int i = 0; i < batch->count && !batch->error; i++) batch->error = batch->requests[i].error;
  batch->count = 0;
}

static void batch_add(struct batch *batch, struct request request) {
  if (batch->count == MOST_REQUESTS) batch_send(batch);
  batch->requests[batch->count++] = request;
}

/* a run of words: what is sent is what is known then */
static void tell_run(struct mirror *mirror, struct batch *batch, int region, int from, int to) {
  uint32_t *known = mirror->known[region];
  for (int at = from; at < to; at++) known[at] = word_at(mirror->words[region], at);
  uint64_t place = place_of_region(region) + 4u * (uint64_t)from;
  batch_add(batch, write_request(batch->index, place, known + from, 4u * (uint32_t)(to - from)));
}

static int is_changed(const struct mirror *mirror, int region, int at) {
  return word_at(mirror->words[region], at) != mirror->known[region][at];
}

/* the changed words of a part, in runs; two changes with at most so many words between them are one run */
static void tell_changes(struct mirror *mirror, struct batch *batch, int region, int from, int to, int near) {
  for (int at = from; at < to; at++) {
    if (!is_changed(mirror, region, at)) continue;
    int end = at + 1;
    for (int next = end; next < to && next <= end + near; next++) {
      if (is_changed(mirror, region, next)) end = next + 1;
    }
    tell_run(mirror, batch, region, at, end);
    at = end - 1;
  }
}

static int is_header_changed(const struct mirror *mirror) {
  for (int at = 0; at < COPIES_WORDS; at++) {
    if (is_changed(mirror, 0, at)) return 1;
  }
  return 0;
}

/* the index before the header that names its frames; the header at once, so that others see it whole; of the marks behind it
** only what was changed here, since others may be changing those beside it */
static void tell_all(struct mirror *mirror, struct batch *batch, int is_index_changed) {
  if (!mirror->count) return;
  if (is_index_changed || is_header_changed(mirror)) {
    for (int region = mirror->count - 1; region >= 0; region--) {
      if (memcmp(mirror->words[region], mirror->known[region], REGION_LENGTH) == 0) continue;
      tell_changes(mirror, batch, region, region ? 0 : HEADER_WORDS, REGION_WORDS, NEAR_WORDS);
    }
  }
  tell_changes(mirror, batch, 0, COPIES_WORDS, HEADER_WORDS, 0);
  tell_changes(mirror, batch, 0, 0, COPIES_WORDS, COPIES_WORDS);
}

int mirror_publish(struct mirror *mirror, struct link *link, const struct handle *index, int is_index_changed,
                   struct request last) {
  struct batch batch;
  batch.link = link;
  batch.index = index;
  batch.count = 0;
  batch.error = 0;
  tell_all(mirror, &batch, is_index_changed);
  batch_add(&batch, last);
  batch_send(&batch);
  return batch.error;
}

void mirror_free(struct mirror *mirror) {
  for (int region = 0; region < mirror->count; region++) {
    free(mirror->words[region]);
    free(mirror->known[region]);
  }
}
