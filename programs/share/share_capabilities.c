/* The capabilities of --modcaps: share_words.h. */
#define _GNU_SOURCE
#include <string.h>
#include <strings.h>
#include "share_refuse.h"
#include "share_words.h"

/* Returns the number of a capability. */
static int capability_of(const char *name)
{
	/* Those of linux/capability.h, from 0 on. */
	static const char *const known[] = {
		"chown",
		"dac_override",
		"dac_read_search",
		"fowner",
		"fsetid",
		"kill",
		"setgid",
		"setuid",
		"setpcap",
		"linux_immutable",
		"net_bind_service",
		"net_broadcast",
		"net_admin",
		"net_raw",
		"ipc_lock",
		"ipc_owner",
		"sys_module",
		"sys_rawio",
		"sys_chroot",
		"sys_ptrace",
		"sys_pacct",
		"sys_admin",
		"sys_boot",
		"sys_nice",
		"sys_resource",
		"sys_time",
		"sys_tty_config",
		"mknod",
		"lease",
		"audit_write",
		"audit_control",
		"setfcap",
		"mac_override",
		"mac_admin",
		"syslog",
		"wake_alarm",
		"block_suspend",
		"audit_read",
		"perfmon",
		"bpf",
		"checkpoint_restore",
	};

	/* (ignoring case, and without CAP_) */
	for (int i = 0; i < (int)(sizeof(known) / sizeof(*known)); i++)
		if (!strcasecmp(name, known[i]))
			return i;
	refuse("--modcaps: unknown capability '%s'", name);
}

/* Parses capabilities separated by colons, each with + or - before it. */
void take_capabilities(char *rest)
{
	char *one;

	while ((one = strsep(&rest, ":"))) {
		uint64_t bit;

		/* (an empty name is ignored) */
		if (!*one)
			continue;
		if (*one != '+' && *one != '-')
			refuse("--modcaps: capability '%s' must begin with + or -", one);
		bit = UINT64_C(1) << capability_of(one + 1);
		/* (if a capability is given twice, the last one applies) */
		words.files.more_capabilities &= ~bit;
		words.files.fewer_capabilities &= ~bit;
		*(*one == '+' ? &words.files.more_capabilities : &words.files.fewer_capabilities) |= bit;
	}
}
