/* What the program is told: by options, and by a configuration file of lines
 * `name = value`, whose names are those of the long options. */
#ifndef SETTINGS_H
#define SETTINGS_H

#include <stdint.h>

/* Exit statuses. */
enum { DONE = 0, REFUSED = 1, TROUBLE = 2, MISCONFIGURED = 78 };

enum command { PUBLISH, FOLLOW, STATUS };

struct settings {
    enum command command;
    const char *path;         /* the file, or the copy */
    char *site, *file, *name; /* of the topics */
    char *host;
    long port;                /* 0: 1883, or 8883 with TLS */
    char *user, *password;
    char *id;
    char *cafile, *capath, *cert, *key;
    char *psk, *psk_identity;
    long keepalive;
    long chunk, stretch, window, rate, longest;
    long wait;                /* seconds for --once and status; 0: for ever */
    long backoff;             /* most seconds between two tries */
    char *sign, *verify;      /* files with keys */
    int once, replace, take_over;
    char prefix[128];         /* bhtf/1/SITE/FILE/ */
};

/* Answers DONE; MISCONFIGURED when it has said what is wrong; -1 where help or
 * the version was asked for and printed. */
int settings_read(struct settings *s, int argc, char **argv);

#endif
