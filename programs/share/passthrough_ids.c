/* Ids of a passthrough: passthrough_ids.h. The rules are parsed once, from --translate-uid and --translate-gid,
 * before a worker starts, and never change, so any number of threads may translate at once without a lock.
 *
 * There is a list for each direction. Only `map` also translates an id back: with `guest`, the host's id is shown
 * unchanged. */
#define _GNU_SOURCE
#include <ctype.h>
#include <errno.h>
#include <stdlib.h>
#include <string.h>
#include <strings.h>
#include "passthrough_ids.h"

/* Returns whether two ranges have an id in common. */
static bool overlap(const struct id_rule *a, const struct id_rule *b)
{
	return a->from < (uint64_t)b->from + b->count && b->from < (uint64_t)a->from + a->count;
}

/* Adds a rule. Returns NULL, or a message if it is invalid. An id has at most one rule, so their order does not
 * matter. A rule for no id has no effect. */
static const char *add(struct id_rules *all, const struct id_rule *rule)
{
	struct id_rule *more;

	/* (the largest number of 32 bits is not an id: in chown(2) it means that the id does not change) */
	if ((uint64_t)rule->from + rule->count > UINT32_MAX ||
	    (rule->how == IDS_SHIFTED && (uint64_t)rule->to + rule->count > UINT32_MAX) ||
	    (rule->how == IDS_SQUASHED && rule->to == UINT32_MAX))
		return "ids must not exceed 4294967294";
	if (!rule->count)
		return NULL;
	for (size_t i = 0; i < all->count; i++)
		if (overlap(&all->rules[i], rule))
			return "it overlaps another rule";
	more = realloc(all->rules, (all->count + 1) * sizeof(*more));
	if (!more)
		return "out of memory";
	more[all->count++] = *rule;
	all->rules = more;
	return NULL;
}

/* Parses numbers between separators. Returns how many there are, or -1. Only digits are accepted, because
 * strtoul() alone would accept white space and a minus sign. */
static int read_numbers(const char *text, char sign, uint32_t number[3])
{
	int count = 0;

	for (;; text++) {
		unsigned long value;
		char *end;

		if (!isdigit((unsigned char)*text) || count == 3)
			return -1;
		errno = 0;
		value = strtoul(text, &end, 10);
		if (errno || value > UINT32_MAX)
			return -1;
		number[count++] = (uint32_t)value;
		text = end;
		if (!*text)
			return count;
		if (*text != sign)
			return -1;
	}
}

/* The types of rules: their directions, their kind, and how many numbers follow. FROM is the client's id, except
 * for `host` and `squash-host`. */
static const struct type {
	const char *name;
	bool of_client, of_host;
	int how, numbers;
} types[] = {
	{ "guest", true, false, IDS_SHIFTED, 3 },	   { "host", false, true, IDS_SHIFTED, 3 },
	{ "squash-guest", true, false, IDS_SQUASHED, 3 },  { "squash-host", false, true, IDS_SQUASHED, 3 },
	{ "forbid-guest", true, false, IDS_FORBIDDEN, 2 }, { "map", true, true, IDS_SHIFTED, 3 },
};

const char *ids_add(struct ids *ids, const char *text)
{
	const struct type *type = NULL;
	uint32_t number[3] = { 0 };
	size_t len = 0;
	const char *why = NULL;

	while (isalnum((unsigned char)text[len]) || text[len] == '-' || text[len] == '_')
		len++;
	for (size_t i = 0; i < sizeof(types) / sizeof(*types); i++)
		if (strlen(types[i].name) == len && !strncasecmp(types[i].name, text, len))
			type = &types[i];
	if (!type)
		return "type must be one of guest, host, squash-guest, squash-host, forbid-guest, map";
	if (!text[len] || read_numbers(text + len + 1, text[len], number) != type->numbers)
		return type->numbers == 2 ? "the form is forbid-guest:FROM:COUNT" :
					    "the form is TYPE:FROM:TO:COUNT";
	/* It has only FROM and COUNT. */
	if (type->how == IDS_FORBIDDEN)
		return add(&ids->to_host, &(struct id_rule){ number[0], number[1], 0, IDS_FORBIDDEN });
	/* (a squash rule maps COUNT ids to the one id TO) */
	if (type->of_client)
		why = add(&ids->to_host, &(struct id_rule){ number[0], number[2], number[1], type->how });
	/* A map applies in both directions: its second number is the host's id, and the first the client's. */
	if (!why && type->of_host) {
		const uint32_t from = number[type->of_client], to = number[!type->of_client];

		why = add(&ids->to_client, &(struct id_rule){ from, number[2], to, type->how });
	}
	return why;
}

/* (--posix-acl requires that there are none, because access control lists contain ids too) */
bool ids_are_translated(const struct ids *ids)
{
	return ids->to_host.count || ids->to_client.count;
}

/* Returns the rule of an id, or NULL if it stays the same. The list is short. */
static const struct id_rule *find(const struct id_rules *all, uint32_t id)
{
	for (size_t i = 0; i < all->count; i++)
		if (id >= all->rules[i].from && id - all->rules[i].from < all->rules[i].count)
			return &all->rules[i];
	return NULL;
}

/* (the sum does not overflow, because add() checked the limits) */
static uint32_t apply(const struct id_rule *rule, uint32_t id)
{
	if (!rule)
		return id;
	return rule->how == IDS_SHIFTED ? rule->to + (id - rule->from) : rule->to;
}

/* EPERM fails the call, so no file is created with a forbidden id, or given to one. */
int ids_to_host(const struct ids *ids, uint32_t id, uint32_t *host)
{
	const struct id_rule *rule = find(&ids->to_host, id);

	if (rule && rule->how == IDS_FORBIDDEN)
		return EPERM;
	*host = apply(rule, id);
	return 0;
}

uint32_t ids_to_client(const struct ids *ids, uint32_t id)
{
	return apply(find(&ids->to_client, id), id);
}
