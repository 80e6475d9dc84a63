/* Runs a program and stops it, or makes a call fail, at a chosen system call. On x86-64 Linux, over ptrace.
 *
 *     stop_at LOG [ACTION ..] -- PROGRAM [ARGUMENT ..]
 *
 *     kill@K      at the entry of system call K the program is killed (SIGKILL); the call is not done
 *     give@K=N    system call K is not done, and gives N: -28 is the failure ENOSPC
 *     cut@K=N     system call K is done with N as its third argument: a read or a write of N bytes
 *     run@K=TEXT  at the entry of system call K the program waits while a shell does TEXT; then the call is done
 *
 * The calls are counted from 1, the first one after the program was loaded. LOG gets a line for each: its number in the
 * system's table, its first three arguments, the file names among its arguments, and after `=` what it gave, or `-` if it
 * did not come back. The last line of LOG is `exit S` or `signal S`: how the program ended.
 *
 * Exit status: 0 if the program ran, 125 if ptrace is not permitted, 124 if anything else failed.
 */
#include <errno.h>
#include <signal.h>
#include <stdio.h>
#include <stdlib.h>
#include <string.h>
#include <sys/ptrace.h>
#include <sys/syscall.h>
#include <sys/types.h>
#include <sys/user.h>
#include <sys/wait.h>
#include <unistd.h>

#ifndef __x86_64__
#error "stop_at.c reads the registers of x86-64"
#endif

enum { NOT_PERMITTED = 125, FAILED = 124, ACTIONS_MOST = 16 };
enum what { KILL, GIVE, CUT, RUN };

struct action {
    enum what what;
    long call;
    long number;
    const char *text;
};

static struct action actions[ACTIONS_MOST];
static int actions_len;

static int end(int status, const char *what) {
    fprintf(stderr, "stop_at: %s: %s\n", what, strerror(errno));
    return status;
}

/* Whether the text is an action. If so, it is kept. */
static int take_action(const char *text) {
    struct action a = {KILL, 0, 0, NULL};
    int front = 0;
    char rest;
    if (actions_len == ACTIONS_MOST) return 0;
    if (sscanf(text, "kill@%ld%c", &a.call, &rest) == 1) a.what = KILL;
    else if (sscanf(text, "give@%ld=%ld%c", &a.call, &a.number, &rest) == 2) a.what = GIVE;
    else if (sscanf(text, "cut@%ld=%ld%c", &a.call, &a.number, &rest) == 2) a.what = CUT;
    else if (sscanf(text, "run@%ld=%n", &a.call, &front) == 1 && front > 0) a.what = RUN, a.text = text + front;
    else return 0;
    actions[actions_len++] = a;
    return 1;
}

static const struct action *action_at(long call) {
    for (int i = 0; i < actions_len; i++)
        if (actions[i].call == call) return &actions[i];
    return NULL;
}

/* The program waits at the entry of a call. The system does not do a call with the number -1. */
static long act(pid_t pid, const struct action *a, struct user_regs_struct regs) {
    if (a->what == RUN) return system(a->text);
    if (a->what == CUT) regs.rdx = (unsigned long long)a->number;
    else regs.orig_rax = (unsigned long long)-1;
    if (ptrace(PTRACE_SETREGS, pid, NULL, &regs) != 0) return -1;
    return a->what == KILL ? kill(pid, SIGKILL) : 0;
}

/* The text at an address of the program, up to its zero byte. A blank and a character that is not printable are shown
 * as ?. */
static void put_text(pid_t pid, unsigned long long at, FILE *log) {
    fputc(' ', log);
    for (;; at++) {
        errno = 0;
        long read = ptrace(PTRACE_PEEKDATA, pid, (void *)at, NULL);
        int byte = errno == 0 ? (int)(read & 255) : 0;
        if (byte == 0) return;
        fputc(byte > ' ' && byte < 127 ? byte : '?', log);
    }
}

static void put_call(pid_t pid, const struct user_regs_struct *r, FILE *log) {
    fprintf(log, "%lld %lld %lld %lld", (long long)r->orig_rax, (long long)r->rdi, (long long)r->rsi, (long long)r->rdx);
    switch (r->orig_rax) {
    case SYS_open: case SYS_creat: case SYS_unlink: case SYS_access: case SYS_readlink:
        put_text(pid, r->rdi, log);
        break;
    case SYS_openat: case SYS_unlinkat: case SYS_faccessat: case SYS_readlinkat: case SYS_statx:
        put_text(pid, r->rsi, log);
        break;
    case SYS_rename: case SYS_link:
        put_text(pid, r->rdi, log);
        put_text(pid, r->rsi, log);
        break;
    case SYS_renameat: case SYS_renameat2: case SYS_linkat:
        put_text(pid, r->rsi, log);
        put_text(pid, r->r10, log);
        break;
    }
}

/* Follows the program to its end. At the start it waits before its first call. */
static int follow(pid_t pid, FILE *log) {
    struct user_regs_struct regs;
    int status, entered = 0, killed = 0;
    long calls = 0, signal_to_pass = 0;
    const struct action *a = NULL;

    for (;;) {
        if (!killed && ptrace(PTRACE_SYSCALL, pid, NULL, (void *)signal_to_pass) != 0) return end(NOT_PERMITTED, "PTRACE_SYSCALL");
        if (waitpid(pid, &status, 0) != pid) return end(FAILED, "waitpid");
        if (!WIFSTOPPED(status)) break;
        if (killed) continue;
        signal_to_pass = 0;
        if (WSTOPSIG(status) != (SIGTRAP | 0x80)) {
            if (WSTOPSIG(status) != SIGTRAP) signal_to_pass = WSTOPSIG(status);
            continue;
        }
        if (ptrace(PTRACE_GETREGS, pid, NULL, &regs) != 0) return end(FAILED, "PTRACE_GETREGS");
        if (!entered) {
            entered = 1;
            calls++;
            put_call(pid, &regs, log);
            a = action_at(calls);
            if (a && act(pid, a, regs) != 0) return end(FAILED, "the call could not be changed");
            killed = a && a->what == KILL;
        } else {
            entered = 0;
            if (a && a->what == GIVE) {
                regs.rax = (unsigned long long)a->number;
                if (ptrace(PTRACE_SETREGS, pid, NULL, &regs) != 0) return end(FAILED, "PTRACE_SETREGS");
            }
            fprintf(log, " = %lld\n", (long long)regs.rax);
        }
    }
    if (entered) fprintf(log, " = -\n");
    if (WIFEXITED(status)) fprintf(log, "exit %d\n", WEXITSTATUS(status));
    else fprintf(log, "signal %d\n", WTERMSIG(status));
    return fclose(log) == 0 ? 0 : end(FAILED, "the log");
}

int main(int argc, char **argv) {
    int first = 2;
    while (first < argc && take_action(argv[first])) first++;
    if (argc < 4 || first + 1 >= argc || strcmp(argv[first], "--") != 0) {
        fprintf(stderr, "usage: stop_at LOG [kill@K | give@K=N | cut@K=N | run@K=TEXT ..] -- PROGRAM [ARGUMENT ..]\n");
        return FAILED;
    }
    FILE *log = fopen(argv[1], "we");
    if (!log) return end(FAILED, argv[1]);

    pid_t pid = fork();
    if (pid < 0) return end(FAILED, "fork");
    if (pid == 0) {
        if (ptrace(PTRACE_TRACEME, 0, NULL, NULL) != 0) _exit(end(NOT_PERMITTED, "PTRACE_TRACEME"));
        execv(argv[first + 1], argv + first + 1);
        _exit(end(FAILED, argv[first + 1]));
    }
    int status;
    if (waitpid(pid, &status, 0) != pid) return end(FAILED, "waitpid");
    if (WIFEXITED(status)) return WEXITSTATUS(status);
    if (!WIFSTOPPED(status)) return end(NOT_PERMITTED, "PTRACE_TRACEME");
    if (ptrace(PTRACE_SETOPTIONS, pid, NULL, (void *)(PTRACE_O_TRACESYSGOOD | PTRACE_O_EXITKILL)) != 0) {
        int answer = end(NOT_PERMITTED, "PTRACE_SETOPTIONS");
        kill(pid, SIGKILL);
        return answer;
    }
    return follow(pid, log);
}
