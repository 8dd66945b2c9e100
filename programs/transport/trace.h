/* A trace of the requests and replies of a transport. */
#ifndef TRACE_H
#define TRACE_H

#include "transport.h"

/* Makes a transport print a line for each request and each reply to standard error, with the names of fields.
 * If `path` is not NULL, both are written as bytes to a new file of that path instead, in the format of
 * nizwarf-decode. It must be called once, before the transport serves. Returns 0, or -1 after printing an
 * error. */
int trace_begin(nizwarf_transport *by, const char *path);

#endif
