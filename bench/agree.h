/* Whether the programs agree, before anything is timed. */
#ifndef AGREE_H
#define AGREE_H

#include "programs.h"

/* Whether all programs say of a network what ours says of it, which is written to flat, FLAT or NOT_FLAT: by each work, with
 * an order of a flat network in which vertices - lines + meshes is 2. Says on standard error where one doesn't. */
int all_agree(const struct network *network, int *flat);

#endif
