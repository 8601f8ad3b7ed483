/* A general solver. It is given a network, then solves it as often as it is asked, each time from nothing. Solving is timed alone,
 * and together with building and giving back the model. It answers the cycles of each band in the optimum. */
#ifndef PEER_H
#define PEER_H

#include "site.h"

#ifdef __cplusplus
extern "C" {
#endif

struct peer {
    const char *name;
    void (*load)(const struct network *network);
    void (*reset)(void); /* forgets the last solution; null where solving begins from nothing anyway */
    int (*solve)(void); /* whether an optimum was found */
    void (*answer)(struct totals *totals);
    void (*unload)(void);
};

/* Defined where the package was found. */
extern const struct peer lemon_peer, glpk_peer, clp_peer;

#ifdef __cplusplus
}
#endif

#endif
