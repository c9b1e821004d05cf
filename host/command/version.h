/* What bhtf --version says. */
#ifndef VERSION_H
#define VERSION_H

/* Prints the release, the versions of files, and who proved the library;
 * answers the status of the command. */
int version_print(void);

#endif
