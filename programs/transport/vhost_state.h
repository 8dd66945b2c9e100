/* The transfer of a device's state, for vhost_user.c. */
#ifndef VHOST_STATE_H
#define VHOST_STATE_H

#include "transport.h"

/* Takes over a descriptor by which a state is saved or loaded on this thread. Each wait ends when a signal
 * comes or the front end disconnects. Returns NULL if out of memory or timers, and then the descriptor is
 * closed. */
transport_state *state_new(int descriptor, int signals, int client);
/* Writes what remains, closes the descriptor, and frees the state. Returns -1 if a part of it could not be
 * written. */
int state_end(transport_state *state);

#endif
