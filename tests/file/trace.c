/* A child process, stopped at each of its system calls (Linux). */
#define _GNU_SOURCE

#include "trace.h"

#include <signal.h>
#include <stdio.h>
#include <stdlib.h>
#include <sys/ptrace.h>
#include <sys/wait.h>
#include <unistd.h>

static void die(const char *what)
{
    perror(what);
    exit(2);
}

pid_t trace_start(int (*run)(void *with), void *with)
{
    int status;
    pid_t child;

    fflush(NULL);
    child = fork();
    if (child < 0)
        die("fork");
    if (child == 0) {
        if (ptrace(PTRACE_TRACEME, 0, NULL, NULL) != 0)
            _exit(99);
        raise(SIGSTOP);
        _exit(run(with));
    }
    if (waitpid(child, &status, 0) != child || !WIFSTOPPED(status))
        die("the child does not stop");
    if (ptrace(PTRACE_SETOPTIONS, child, NULL,
               (void *)(PTRACE_O_TRACESYSGOOD | PTRACE_O_EXITKILL)) != 0)
        die("ptrace");
    return child;
}

static int has_ended(int how, int *status)
{
    if (WIFEXITED(how))
        *status = WEXITSTATUS(how);
    else if (WIFSIGNALED(how))
        *status = -1;
    else
        return 0;
    return 1;
}

int trace_next(pid_t child, struct stop *s, int *status)
{
    struct __ptrace_syscall_info info;
    int how, signal = 0;

    for (;;) {
        if (ptrace(PTRACE_SYSCALL, child, NULL, (void *)(long)signal) != 0)
            die("ptrace");
        if (waitpid(child, &how, 0) != child)
            die("waitpid");
        if (has_ended(how, status))
            return 0;
        if (WSTOPSIG(how) == (SIGTRAP | 0x80))
            break;
        signal = WSTOPSIG(how) == SIGTRAP ? 0 : WSTOPSIG(how);
    }
    if (ptrace(PTRACE_GET_SYSCALL_INFO, child, (void *)sizeof info, &info) < 0)
        die("ptrace");
    s->entering = info.op == PTRACE_SYSCALL_INFO_ENTRY;
    if (s->entering) {
        s->number = info.entry.nr;
        s->first = info.entry.args[0];
        s->result = 0;
    } else {
        s->result = info.exit.rval;
    }
    return 1;
}

int trace_step(pid_t child, unsigned long instructions, int *status)
{
    int how;

    for (; instructions > 0; instructions--) {
        if (ptrace(PTRACE_SINGLESTEP, child, NULL, NULL) != 0)
            die("ptrace");
        if (waitpid(child, &how, 0) != child)
            die("waitpid");
        if (has_ended(how, status))
            return 0;
    }
    return 1;
}

void trace_kill(pid_t child)
{
    int how;

    kill(child, SIGKILL);
    while (waitpid(child, &how, 0) == child && WIFSTOPPED(how))
        ;
}
