/* SQLite's shared memory in WAL mode as the connections of this process see it, and as the node has it. The node's is the truth
** among processes: after a lock is granted what others changed is put in, before a lock is given up what was changed here is
** told. A caller holds a mutex over each of these calls. SQLite's own threads write the words meanwhile, by their own locks. */
#ifndef LITEFS_MIRROR_H
#define LITEFS_MIRROR_H

#include "link.h"

#define REGION_LENGTH 32768
#define REGION_WORDS (REGION_LENGTH / 4)
#define MOST_REGIONS 256         /* the node has 8 MiB for them */
#define HEADER_LENGTH 136        /* two copies of the index header, and how far checkpoints and readers are */
#define HEADER_WORDS (HEADER_LENGTH / 4)
#define NO_REGION MOST_REGIONS

struct mirror {
  uint32_t *words[MOST_REGIONS]; /* what SQLite reads and writes */
  uint32_t *known[MOST_REGIONS]; /* what the node was told or said last */
  uint32_t scratch[REGION_WORDS];
  int count;
};

/* one more region, as the node has it. 0, or an error number */
int mirror_add(struct mirror *mirror, struct link *link, const struct handle *index);

/* puts in what the node has: its header, which was read just now, and before that the regions that its change and the caller
** ask for, from the given one on */
int mirror_refresh(struct mirror *mirror, struct link *link, const struct handle *index, const uint32_t *header, int from_region);

/* tells the node what was changed here, and then asks the last request. The regions are looked at where the caller says so or the
** header is another. 0, or the fault of the link or of any of the requests */
int mirror_publish(struct mirror *mirror, struct link *link, const struct handle *index, int is_index_changed,
                   struct request last);

/* the region in which the index has a frame of the log */
int region_of_frame(uint32_t frame);

/* the number of the last frame that a header names */
uint32_t last_frame(const uint32_t *header);

void mirror_free(struct mirror *mirror);

#endif
