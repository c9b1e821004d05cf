/* bhtf: keeps control points in a file. */
#include "commands.h"

#include "version.h"

#include <fcntl.h>
#include <signal.h>
#include <string.h>

static int no_such_command(const char *name)
{
    complain("there is no command %s; see bhtf --help", name);
    return TROUBLE;
}

/* help, and help COMMAND. */
static int run_help(int count, char **words)
{
    const struct command *command;

    if (count == 0) {
        help_print(stdout);
        return finish_output(DONE);
    }
    command = command_find(words[0]);
    if (command == NULL)
        return no_such_command(words[0]);
    help_print_command(command, stdout);
    return finish_output(DONE);
}

/* Words that stand in a command's place; -1 if the first is none of them. */
static int run_word(int count, char **words)
{
    const char *word = words[0];

    if (strcmp(word, "--help") == 0 || strcmp(word, "-h") == 0 ||
        strcmp(word, "help") == 0)
        return run_help(count - 1, words + 1);
    if (strcmp(word, "--version") == 0 || strcmp(word, "-V") == 0)
        return version_print();
    return -1;
}

static int run_command(const struct command *command, int count, char **words)
{
    struct options o;
    int status = options_read(&o, command, count, words);

    if (status != DONE)
        return status;
    if (o.version)
        return version_print();
    if (o.help) {
        help_print_command(command, stdout);
        return finish_output(DONE);
    }
    log_wanted((o.given & OPTION_LOG) != 0);
    return command->run(&o);
}

/* Fills the places of standard streams that are closed: a file opened there
 * would have messages written into it. To use such a stream still fails. */
static int fill_streams(void)
{
    for (int fd = 0; fd <= 2; fd++)
        if (fcntl(fd, F_GETFD) < 0 &&
            open("/dev/null", fd == 0 ? O_WRONLY : O_RDONLY) != fd)
            return -1;
    return 0;
}

int main(int argc, char **argv)
{
    const struct command *command;
    int status;

    if (fill_streams() != 0) {
        complain("a standard stream is closed, and /dev/null cannot be opened");
        return TROUBLE;
    }
    /* A limit on the length of files is then an error like a full disk. */
    signal(SIGXFSZ, SIG_IGN);
    if (argc < 2) {
        help_print(stderr);
        return TROUBLE;
    }
    status = run_word(argc - 1, argv + 1);
    if (status >= 0)
        return status;
    command = command_find(argv[1]);
    if (command == NULL)
        return no_such_command(argv[1]);
    log_words(argc - 1, argv + 1);
    return run_command(command, argc - 2, argv + 2);
}
