/* Where Eva begins: any ids of a guest, by any rules. */
#ifdef __FRAMAC__
#include "__fc_builtin.h"
#include "passthrough_ids.c"

enum { RULES = 3 }; /* of each of the two lists, from none on */

int main(void)
{
	static struct id_rule rules[RULES];
	uint32_t host;

	Frama_C_make_unknown((char *)rules, sizeof(rules));
	for (size_t count = 0; count <= RULES; count++) {
		const struct ids ids = { { rules, count }, { rules, count } };

		/* (an id that a rule refuses has no number) */
		if (!ids_to_host(&ids, Frama_C_unsigned_int_interval(0, UINT32_MAX), &host))
			ids_to_client(&ids, host);
		ids_are_translated(&ids);
	}
	return 0;
}

#endif
