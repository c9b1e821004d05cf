/* The release, the versions of files, and the kit that proved the library. */
#include "version.h"

#include "commands.h"

/* Both come from the Makefile; PROVED is what proved-by.sh says of LIB. */
#ifndef VERSION
#define VERSION "unknown"
#endif
#ifndef PROVED
#define PROVED "not known by what the library is proved"
#endif

int version_print(void)
{
    puts("bhtf " VERSION ", file format 1.0.2 and 2.0.0");
    puts(PROVED);
    return finish_output(DONE);
}
