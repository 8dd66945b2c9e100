/* Messages of nizwarf-share in the system log. */
#ifndef SHARE_SYSLOG_H
#define SHARE_SYSLOG_H

/* From now on each line of standard error is written to syslog(3) by a separate process, which ends when the last
 * writer has closed standard error. If there is no system log, it prints a message, and standard error stays as it
 * is. On error it prints a message and returns -1. */
int syslog_start(void);

#endif
