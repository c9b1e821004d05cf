/* One line an event. */
#include "log.h"

#include <stdarg.h>
#include <stddef.h>
#include <stdio.h>
#include <stdlib.h>
#include <string.h>
#include <sys/socket.h>
#include <sys/un.h>
#include <unistd.h>

int log_level = LOG_EVENTS;

static void say(const char *format, va_list words)
{
    char line[512];

    vsnprintf(line, sizeof line, format, words);
    fprintf(stderr, "bhtf-mqtt: %s\n", line);
}

void log_event(const char *format, ...)
{
    va_list words;

    if (log_level < LOG_EVENTS)
        return;
    va_start(words, format);
    say(format, words);
    va_end(words);
}

void log_detail(const char *format, ...)
{
    va_list words;

    if (log_level < LOG_ALL)
        return;
    va_start(words, format);
    say(format, words);
    va_end(words);
}

void log_trouble(const char *format, ...)
{
    va_list words;

    va_start(words, format);
    say(format, words);
    va_end(words);
}

const char *log_sum(char shown[LOG_SUM], const uint8_t *sum)
{
    snprintf(shown, LOG_SUM, "%02x%02x-%02x%02x", sum[0], sum[1], sum[2],
             sum[3]);
    return shown;
}

void log_notify(const char *state)
{
    const char *path = getenv("NOTIFY_SOCKET");
    struct sockaddr_un to;
    size_t length;
    int fd;

    if (path == NULL || (path[0] != '/' && path[0] != '@') ||
        (length = strlen(path)) >= sizeof to.sun_path)
        return;
    memset(&to, 0, sizeof to);
    to.sun_family = AF_UNIX;
    memcpy(to.sun_path, path, length);
    if (path[0] == '@')
        to.sun_path[0] = '\0';
    fd = socket(AF_UNIX, SOCK_DGRAM, 0);
    if (fd < 0)
        return;
    (void)sendto(fd, state, strlen(state), MSG_NOSIGNAL, (struct sockaddr *)&to,
                 (socklen_t)(offsetof(struct sockaddr_un, sun_path) + length));
    close(fd);
}
