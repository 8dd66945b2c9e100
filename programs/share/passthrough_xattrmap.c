/* Rules of extended attributes: passthrough_xattrmap.h. They are parsed once, from --xattrmap, before a worker
 * starts, and never change, so any number of threads may translate at once without a lock.
 *
 * A rule consists of TYPE, SCOPE, KEY and PREPEND, each between two separators, as in
 * :prefix:client:trusted.:user.virtiofs.: The first character of a rule is its separator. A map rule has no SCOPE.
 * White space is allowed only between rules.
 *
 * A text without a rule for all other names is refused, so that a rule is found for each name. */
#define _GNU_SOURCE
#include <errno.h>
#include <stdbool.h>
#include <stddef.h>
#include <stdlib.h>
#include <string.h>
#include "passthrough_xattrmap.h"

/* The effect on a name: PREFIX prepends the text for the host, and removes it for the client; OK leaves it as it
 * is; BAD refuses it with EPERM, and UNSUPPORTED with EOPNOTSUPP, and both hide it in a listing. MAP is replaced
 * by other rules. */
enum type { PREFIX, OK, BAD, UNSUPPORTED, MAP };
/* (bits of a scope: CLIENT for names that the client sends, SERVER for names on the host) */
enum { CLIENT = 1, SERVER = 2, ALL = CLIENT | SERVER };

/* The first rule applies whose `key` is the beginning of a name of the client, or whose `prepend` is the beginning
 * of a name of the host. */
struct rule {
	enum type type;
	unsigned scope;
	const char *key, *prepend;
};

struct xattr_map {
	/* The memory to which the rules point. */
	char *text;
	size_t count;
	struct rule rules[];
};

static bool begins(const char *name, const char *with)
{
	return !strncmp(name, with, strlen(with));
}

static bool is_space(char c)
{
	return c == ' ' || (c >= '\t' && c <= '\r');
}

/* Returns the text before the separator, or NULL if that is missing. The separator is replaced by a 0. */
static const char *take(char **rest, char sign)
{
	char *from = *rest, *end = strchr(from, sign);

	if (!end)
		return NULL;
	*end = 0;
	*rest = end + 1;
	return from;
}

/* Returns the index of a word in a list that ends with NULL, or -1. */
static int one_of(const char *word, const char *const *known)
{
	for (int i = 0; known[i]; i++)
		if (!strcmp(word, known[i]))
			return i;
	return -1;
}

/* Parses one rule, whose separator is the next character. Returns NULL, or a message. Scopes are in the order of
 * their bits, so that the index plus 1 is CLIENT, SERVER or ALL. */
static const char *read_rule(char **rest, struct rule *rule)
{
	static const char *const types[] = { "prefix", "ok", "bad", "unsupported", "map", NULL };
	static const char *const scopes[] = { "client", "server", "all", NULL };
	const char sign = *(*rest)++, *word = take(rest, sign);
	int found = word ? one_of(word, types) : -1;

	if (!word)
		return "missing separator after the type";
	if (found < 0)
		return "type must be one of prefix, ok, bad, unsupported, map";
	rule->type = (enum type)found;
	rule->scope = ALL;
	if (rule->type != MAP) {
		word = take(rest, sign);
		found = word ? one_of(word, scopes) : -1;
		if (found < 0)
			return "scope must be one of client, server, all";
		rule->scope = (unsigned)found + 1;
	}
	rule->key = take(rest, sign);
	rule->prepend = rule->key ? take(rest, sign) : NULL;
	return rule->prepend ? NULL : "missing field or separator";
}

/* Replaces a map rule by two or three others, and returns their number. With a key, names that begin with it get
 * the prefix; names of the client that begin with the prefix are refused, and names of the host that begin with
 * the key are hidden; all others stay. Without a key all names get the prefix, and all other names of the host are
 * hidden. */
static size_t expand(struct rule *at)
{
	const char *key = at->key, *prepend = at->prepend;
	size_t count = 1;

	at[0] = (struct rule){ PREFIX, ALL, key, prepend };
	if (*key)
		at[count++] = (struct rule){ BAD, ALL, prepend, key };
	at[count++] = (struct rule){ *key ? OK : BAD, ALL, "", "" };
	return count;
}

/* Returns whether some rule applies to every name, both of a client and of the host: one with an empty key, and
 * one with an empty PREPEND. */
static bool is_whole(const struct xattr_map *map)
{
	unsigned scopes = 0;

	for (size_t i = 0; i < map->count; i++) {
		const struct rule *rule = &map->rules[i];

		scopes |= rule->scope & ((!*rule->key ? CLIENT : 0) | (!*rule->prepend ? SERVER : 0));
	}
	return scopes == ALL;
}

/* Parses all rules. It modifies the text. Returns NULL, or a message. */
static const char *read_rules(char *rest, struct xattr_map *map)
{
	for (;;) {
		struct rule *rule = &map->rules[map->count];
		const char *why;

		while (is_space(*rest))
			rest++;
		if (!*rest)
			break;
		if (*rest & 0x80)
			return "separator must be an ASCII character";
		why = read_rule(&rest, rule);
		if (why)
			return why;
		if (rule->type == MAP) {
			while (is_space(*rest))
				rest++;
			if (*rest)
				return "a rule of type map must be the last one";
			map->count += expand(rule);
			break;
		}
		map->count++;
	}
	return NULL;
}

const struct xattr_map *xattr_map_read(const char *text, const char **why, unsigned *rule)
{
	/* (a rule has five separators, or four if it is a map rule, which becomes up to three rules) */
	const size_t most = strlen(text) / 5 + 4;
	struct xattr_map *map = calloc(1, sizeof(*map) + most * sizeof(*map->rules));

	*rule = 0;
	if (map)
		map->text = strdup(text);
	*why = map && map->text ? read_rules(map->text, map) : "out of memory";
	/* (a message about one rule has its number; one about all of them has none) */
	if (*why && map && map->text)
		*rule = (unsigned)map->count + 1;
	else if (!*why && !map->count)
		*why = "no rules";
	else if (!*why && !is_whole(map))
		*why = "some names match no rule: end it with a rule such as :bad:all:::";
	if (!*why)
		return map;
	if (map)
		free(map->text);
	free(map);
	return NULL;
}

/* A name that becomes too long for the host is refused with ERANGE, and not truncated. */
int xattr_map_to_host(const struct xattr_map *map, const char *name, struct xattr_name *host)
{
	const struct rule *rule = map->rules;
	const char *prepend = "";
	const size_t size = strnlen(name, XATTR_NAME_MAX + 1);
	size_t len;

	/* (one holds: is_whole) */
	while (!(rule->scope & CLIENT) || !begins(name, rule->key))
		rule++;
	if (rule->type == BAD)
		return EPERM;
	if (rule->type == UNSUPPORTED)
		return EOPNOTSUPP;
	if (rule->type == PREFIX)
		prepend = rule->prepend;
	/* (Linux returns the same for a longer name) */
	len = strlen(prepend);
	if (len + size > XATTR_NAME_MAX)
		return ERANGE;
	memcpy(host->bytes, prepend, len);
	memcpy(host->bytes + len, name, size);
	host->bytes[len + size] = 0;
	return 0;
}

const char *xattr_map_to_client(const struct xattr_map *map, const char *name)
{
	const struct rule *rule = map->rules;

	/* (some rule applies here too) */
	while (!(rule->scope & SERVER) || !begins(name, rule->prepend))
		rule++;
	if (rule->type == BAD || rule->type == UNSUPPORTED)
		return NULL;
	if (rule->type == PREFIX)
		name += strlen(rule->prepend);
	/* (an empty name is invalid) */
	return *name ? name : NULL;
}
