/* The translation of user or group ids between a passthrough's client and the host. */
#ifndef PASSTHROUGH_IDS_H
#define PASSTHROUGH_IDS_H

#include <stdbool.h>
#include <stddef.h>
#include <stdint.h>

/* `count` ids from `from` on are mapped to those from `to` on, or all to `to`, or are forbidden. */
struct id_rule {
	uint32_t from, count, to;
	enum { IDS_SHIFTED, IDS_SQUASHED, IDS_FORBIDDEN } how;
};

struct id_rules {
	struct id_rule *rules;
	size_t count;
};

/* Both directions. An id without a rule stays the same. */
struct ids {
	struct id_rules to_host, to_client;
};

/* Adds a rule TYPE:FROM:TO:COUNT, as in virtiofsd's --translate-uid. Returns NULL, or a message if the rule is
 * invalid. */
const char *ids_add(struct ids *ids, const char *text);

/* Returns whether there are rules. */
bool ids_are_translated(const struct ids *ids);

/* Translates an id of the client to the host's. Returns 0, or EPERM if it is forbidden. */
int ids_to_host(const struct ids *ids, uint32_t id, uint32_t *host);
uint32_t ids_to_client(const struct ids *ids, uint32_t id);

#endif
