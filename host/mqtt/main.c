/* bhtf-mqtt: control point files over a broker. */
#include "commands.h"
#include "link.h"

int main(int argc, char **argv)
{
    struct settings settings;
    int status = settings_read(&settings, argc, argv);

    if (status != DONE)
        return status < 0 ? DONE : status;
    link_catch_signals();
    if (settings.command == PUBLISH)
        return run_publish(&settings);
    return settings.command == FOLLOW ? run_follow(&settings)
                                      : run_status(&settings);
}
