/* The connection to a broker. */
#include "link.h"

#include "log.h"

#include <errno.h>
#include <mosquitto.h>
#include <poll.h>
#include <signal.h>
#include <stdio.h>
#include <stdlib.h>
#include <string.h>
#include <sys/random.h>
#include <time.h>

volatile int link_ending;

static void on_signal(int number)
{
    (void)number;
    link_ending = 1;
}

void link_catch_signals(void)
{
    struct sigaction act;

    memset(&act, 0, sizeof act);
    act.sa_handler = on_signal;
    sigaction(SIGTERM, &act, NULL);
    sigaction(SIGINT, &act, NULL);
    act.sa_handler = SIG_IGN;
    sigaction(SIGPIPE, &act, NULL);
}

long long link_now(void)
{
    struct timespec t;

    clock_gettime(CLOCK_MONOTONIC, &t);
    return (long long)t.tv_sec * 1000 + t.tv_nsec / 1000000;
}

void link_random(uint8_t *bytes, size_t size)
{
    while (size > 0) {
        ssize_t n = getrandom(bytes, size, 0);

        if (n > 0) {
            bytes += n;
            size -= (size_t)n;
        } else if (errno != EINTR) {
            abort();
        }
    }
}

/* ---- what libmosquitto tells ---- */

static void on_connect(struct mosquitto *mosq, void *with, int code)
{
    struct link *l = with;

    (void)mosq;
    if (code != 0) {
        log_trouble("broker %s: refused: %s", l->settings->host,
                    mosquitto_connack_string(code));
        if (code == 4 || code == 5)  /* name, password or right */
            l->status = REFUSED;
        return;
    }
    l->up = 1;
    l->tries = 0;
    log_event("connected to %s, port %ld", l->settings->host,
              l->settings->port);
    l->connected(l->with);
}

/* The next try: a second, then twice as long each time, up to the most; a half
 * of it by chance, so that stations do not all come back at once. */
static void plan_try(struct link *l)
{
    long long most = (long long)l->settings->backoff * 1000;
    long long pause = 1000ll << (l->tries < 16 ? l->tries : 16);
    uint32_t chance;

    link_random((uint8_t *)&chance, sizeof chance);
    pause = pause < most ? pause : most;
    pause = pause / 2 + (long long)(chance % (uint32_t)(pause / 2 + 1));
    l->next_try = link_now() + pause;
    l->tries++;
}

static void on_disconnect(struct mosquitto *mosq, void *with, int code)
{
    struct link *l = with;

    (void)mosq;
    if (l->up && code != 0)
        log_event("connection lost: %s", mosquitto_strerror(code));
    l->up = 0;
    plan_try(l);
}

static void on_message(struct mosquitto *mosq, void *with,
                       const struct mosquitto_message *m)
{
    struct link *l = with;
    size_t n = strlen(l->settings->prefix);

    (void)mosq;
    l->received += (unsigned long long)m->payloadlen;
    if (strncmp(m->topic, l->settings->prefix, n) == 0)
        l->message(l->with, m->topic + n, m->payload, (size_t)m->payloadlen);
}

static void on_publish(struct mosquitto *mosq, void *with, int number)
{
    struct link *l = with;

    (void)mosq;
    (void)number;
    if (l->unheard > 0)
        l->unheard--;
}

/* ---- opening ---- */

static int check(int code, const char *what)
{
    if (code == MOSQ_ERR_SUCCESS)
        return DONE;
    log_trouble("%s: %s", what, code == MOSQ_ERR_ERRNO ? strerror(errno)
                                                       : mosquitto_strerror(code));
    return MISCONFIGURED;
}

static int set_security(struct link *l)
{
    const struct settings *s = l->settings;
    int status = DONE;

    if (s->user != NULL)
        status = check(mosquitto_username_pw_set(l->mosq, s->user, s->password),
                       "user name and password");
    if (status == DONE && (s->cafile != NULL || s->capath != NULL))
        status = check(mosquitto_tls_set(l->mosq, s->cafile, s->capath, s->cert,
                                         s->key, NULL), "certificates");
    if (status == DONE && s->psk != NULL)
        status = check(mosquitto_tls_psk_set(l->mosq, s->psk,
                                             s->psk_identity != NULL
                                                 ? s->psk_identity : s->name,
                                             NULL), "psk");
    return status;
}

static int set_will(struct link *l)
{
    char topic[256];

    if (l->will == NULL)
        return DONE;
    snprintf(topic, sizeof topic, "%s%s", l->settings->prefix, l->will);
    return check(mosquitto_will_set(l->mosq, topic, 1, "0", 1, true), "will");
}

int link_open(struct link *l)
{
    int status;

    mosquitto_lib_init();
    l->mosq = mosquitto_new(l->settings->id, true, l);
    if (l->mosq == NULL) {
        log_trouble("libmosquitto: %s", strerror(errno));
        return TROUBLE;
    }
    mosquitto_connect_callback_set(l->mosq, on_connect);
    mosquitto_disconnect_callback_set(l->mosq, on_disconnect);
    mosquitto_message_callback_set(l->mosq, on_message);
    mosquitto_publish_callback_set(l->mosq, on_publish);
    mosquitto_max_inflight_messages_set(l->mosq, 100);
    status = set_security(l);
    return status == DONE ? set_will(l) : status;
}

/* ---- going on ---- */

/* A connect that fails at once, or a name that is not found, is tried again. */
static void try_connect(struct link *l)
{
    int code = mosquitto_connect(l->mosq, l->settings->host,
                                 (int)l->settings->port,
                                 (int)l->settings->keepalive);

    if (code == MOSQ_ERR_SUCCESS)
        return;
    if (l->tries == 0 || log_level >= LOG_ALL)
        log_event("broker %s, port %ld: %s; tries again", l->settings->host,
                  l->settings->port,
                  code == MOSQ_ERR_ERRNO ? strerror(errno)
                                         : mosquitto_strerror(code));
    if (code == MOSQ_ERR_TLS || code == MOSQ_ERR_INVAL)
        l->status = TROUBLE;
    plan_try(l);
}

static int pause_for(struct link *l, int most)
{
    long long left = l->next_try - link_now();

    return left < 0 ? 0 : left < most ? (int)left : most;
}

int link_wait(struct link *l, int other, int most)
{
    int socket = mosquitto_socket(l->mosq);
    struct pollfd fd[2] = { { other, POLLIN, 0 }, { socket, POLLIN, 0 } };
    int code = MOSQ_ERR_SUCCESS;

    if (socket < 0 && link_now() >= l->next_try) {
        try_connect(l);
        socket = fd[1].fd = mosquitto_socket(l->mosq);
    }
    if (socket < 0)
        most = pause_for(l, most);
    else if (mosquitto_want_write(l->mosq))
        fd[1].events |= POLLOUT;
    if (poll(fd, 2, most) < 0)
        return 0;
    if (socket >= 0 && fd[1].revents & (POLLIN | POLLHUP | POLLERR))
        code = mosquitto_loop_read(l->mosq, 64);
    if (code == MOSQ_ERR_SUCCESS && socket >= 0 &&
        mosquitto_want_write(l->mosq))
        code = mosquitto_loop_write(l->mosq, 64);
    if (code == MOSQ_ERR_SUCCESS && socket >= 0)
        mosquitto_loop_misc(l->mosq);
    return (fd[0].revents & POLLIN) != 0;
}

static void full_topic(const struct link *l, char to[256], const char *topic)
{
    snprintf(to, 256, "%s%s", l->settings->prefix, topic);
}

void link_publish(struct link *l, const char *topic, const uint8_t *bytes,
                  size_t size)
{
    char full[256];

    full_topic(l, full, topic);
    l->sent += size;
    log_detail("publishes %s, %lu bytes", topic, (unsigned long)size);
    if (mosquitto_publish(l->mosq, NULL, full, (int)size, bytes, 1, true) ==
        MOSQ_ERR_SUCCESS)
        l->unheard++;
}

void link_subscribe(struct link *l, const char *topic)
{
    char full[256];

    full_topic(l, full, topic);
    log_detail("asks for %s", topic);
    mosquitto_subscribe(l->mosq, NULL, full, 1);
}

void link_unsubscribe(struct link *l, const char *topic)
{
    char full[256];

    full_topic(l, full, topic);
    mosquitto_unsubscribe(l->mosq, NULL, full);
}

void link_close(struct link *l)
{
    long long until = link_now() + 2000;

    if (l->up && l->will != NULL)
        link_publish(l, l->will, (const uint8_t *)"0", 1);
    while (l->up && l->unheard > 0 && link_now() < until)
        link_wait(l, -1, 100);
    if (l->up)
        mosquitto_disconnect(l->mosq);
    while (l->up && mosquitto_socket(l->mosq) >= 0 && link_now() < until)
        link_wait(l, -1, 50);
    mosquitto_destroy(l->mosq);
    mosquitto_lib_cleanup();
}
