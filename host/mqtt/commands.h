/* The three commands. Each answers an exit status. */
#ifndef COMMANDS_H
#define COMMANDS_H

#include "settings.h"

int run_publish(const struct settings *settings);
int run_follow(const struct settings *settings);
int run_status(const struct settings *settings);

#endif
