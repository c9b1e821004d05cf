/* Runs one process for each subject, in turns: a process works only while it
 * has the turn, for one sample or one comparison, and the first to work
 * changes from turn to turn. So neighbouring samples of all subjects meet the
 * same state of the machine.
 *
 * turns BIN FILES OUT SUBJECT.. -- ARGUMENT..
 * Each runs BIN/SUBJECT on the file FILES/SUBJECT and writes to OUT/SUBJECT;
 * "again" is the program tuned. With --images as the first argument, images go
 * to the directories OUT/SUBJECT.images, those of "again" too, so that it meets
 * the same caches. Ends with 1 if one has failed. */
#define _POSIX_C_SOURCE 200809L
#include <fcntl.h>
#include <signal.h>
#include <stdio.h>
#include <stdlib.h>
#include <string.h>
#include <sys/stat.h>
#include <sys/wait.h>
#include <unistd.h>

#include "turn.h"

enum { SUBJECTS_MAX = 16, ARGUMENTS_MAX = 128 };

struct runner {
    const char *name;
    pid_t process;
    int give;
    int back;
    int ended;
};

struct places {
    const char *bin;
    const char *files;
    const char *out;
};

static void die(const char *what)
{
    perror(what);
    exit(2);
}

static char *join(const char *a, const char *b, const char *c)
{
    size_t length = strlen(a) + strlen(b) + strlen(c) + 2;
    char *joined = malloc(length);

    if (!joined)
        die("memory");
    snprintf(joined, length, "%s/%s%s", a, b, c);
    return joined;
}

static void become(const struct places *p, const char *name, char **arguments)
{
    char *argv[ARGUMENTS_MAX + 8];
    int count = 0, is_again = strcmp(name, "again") == 0;

    argv[count++] = join(p->bin, is_again ? "tuned" : name, "");
    argv[count++] = "--file";
    argv[count++] = join(p->files, name, "");
    argv[count++] = "--turns";
    argv[count++] = "1";
    if (*arguments && strcmp(*arguments, "--images") == 0) {
        argv[count++] = *arguments++;
        argv[count] = join(p->out, name, ".images");
        mkdir(argv[count++], 0700);
    }
    while (*arguments && count < ARGUMENTS_MAX)
        argv[count++] = *arguments++;
    argv[count] = NULL;
    if (!freopen(join(p->out, name, ""), "w", stdout))
        die("output");
    execv(argv[0], argv);
    die(argv[0]);
}

static void launch(struct runner *r, const struct places *p, const char *name,
                   char **arguments)
{
    int there[2], back[2];

    if (pipe(there) || pipe(back))
        die("pipe");
    fcntl(there[1], F_SETFD, FD_CLOEXEC);
    fcntl(back[0], F_SETFD, FD_CLOEXEC);
    r->name = name;
    r->give = there[1];
    r->back = back[0];
    r->ended = 0;
    r->process = fork();
    if (r->process < 0)
        die("fork");
    if (r->process == 0) {
        /* Out of the way of the two numbers that the program knows. */
        int in = fcntl(there[0], F_DUPFD_CLOEXEC, 100);
        int out = fcntl(back[1], F_DUPFD_CLOEXEC, 100);

        if (dup2(in, TURN_IN) < 0 || dup2(out, TURN_OUT) < 0)
            die("dup2");
        become(p, name, arguments);
    }
    close(there[0]);
    close(back[1]);
}

/* One turn; a process that is gone has none. */
static void let_work(struct runner *r)
{
    char token = 't';

    if (r->ended)
        return;
    if (write(r->give, &token, 1) != 1 || read(r->back, &token, 1) != 1)
        r->ended = 1;
}

static int all_ended(const struct runner *runners, int count)
{
    for (int i = 0; i < count; i++)
        if (!runners[i].ended)
            return 0;
    return 1;
}

static int collect(const struct runner *runners, int count)
{
    int failed = 0;

    for (int i = 0; i < count; i++) {
        int status;

        if (waitpid(runners[i].process, &status, 0) < 0)
            die("waitpid");
        if (!WIFEXITED(status) || WEXITSTATUS(status) != 0) {
            fprintf(stderr, "%s failed\n", runners[i].name);
            failed = 1;
        }
    }
    return failed;
}

int main(int argc, char **argv)
{
    struct runner runners[SUBJECTS_MAX];
    struct places places;
    int count = 0, names = 4, arguments = 4;

    while (arguments < argc && strcmp(argv[arguments], "--") != 0)
        arguments++;
    if (arguments >= argc || arguments - names > SUBJECTS_MAX) {
        fprintf(stderr, "turns BIN FILES OUT SUBJECT.. -- ARGUMENT..\n");
        return 2;
    }
    places.bin = argv[1];
    places.files = argv[2];
    places.out = argv[3];
    signal(SIGPIPE, SIG_IGN);
    for (; names < arguments; names++, count++)
        launch(&runners[count], &places, argv[names], argv + arguments + 1);
    for (int turn = 0; !all_ended(runners, count); turn++)
        for (int i = 0; i < count; i++)
            let_work(&runners[(turn + i) % count]);
    return collect(runners, count);
}
