/* One line an event, to standard error. */
#ifndef LOG_H
#define LOG_H

#include "wire.h"

enum { LOG_QUIET, LOG_EVENTS, LOG_ALL };

extern int log_level;

/* What happened; what is only of interest to whoever looks for a reason; what
 * went wrong. */
void log_event(const char *format, ...);
void log_detail(const char *format, ...);
void log_trouble(const char *format, ...);

/* A sum as office and station compare it by voice. */
#define LOG_SUM 10
const char *log_sum(char shown[LOG_SUM], const uint8_t *sum);

/* Tells whoever started this program, if that is systemd. */
void log_notify(const char *state);

#endif
