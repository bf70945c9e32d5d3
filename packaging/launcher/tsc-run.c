/* Runs `tsc serve CONFIG` where it is ended by a signal, since the program itself knows none: under a service manager, in a container (also as
   process 1) and in a terminal.

       tsc-run [--program PATH] CONFIG
       tsc-run --health ADDRESS

   SIGTERM, SIGINT and SIGHUP close the collector in order; the program itself ignores them, whoever sends them to it. Further ones change nothing.
   The program's standard input is a pipe that the launcher holds, and its end closes the collector where CONFIG has
   `close_at_end_of_input = true`, on a line of its own before the first table. So the collector is also closed where the launcher is killed. Where
   that line isn't there `tsc close` closes it, by CONFIG as it was at the start, again each second until it is answered.
   Standard output and error are left to the program. The exit status is the program's, or 128 and the number of the signal that ended it; 127 where
   it can't be run, 2 for wrong arguments.
   With --health it ends with 0 where `GET /healthz` at ADDRESS (`127.0.0.1:4319` or `unix:PATH`) is answered 200 within five seconds, else with 1. */
#define _GNU_SOURCE
#include <arpa/inet.h>
#include <errno.h>
#include <fcntl.h>
#include <signal.h>
#include <stdio.h>
#include <stdlib.h>
#include <string.h>
#include <sys/mman.h>
#include <sys/socket.h>
#include <sys/un.h>
#include <sys/wait.h>
#include <time.h>
#include <unistd.h>

#ifndef PROGRAM
#define PROGRAM "/usr/bin/conchpewter"
#endif

static const char *program = PROGRAM;
static const int ends[] = {SIGTERM, SIGINT, SIGHUP};
static sigset_t mask_before;

static int fault(int status, const char *what) {
    fprintf(stderr, "tsc-run: %s: %s\n", what, strerror(errno));
    return status;
}

/* Whether a line sets the key, as `close_at_end_of_input = true`, with a comment behind it or none. */
static int sets_the_key(const char *line) {
    static const char key[] = "close_at_end_of_input";
    line += strspn(line, " \t");
    if (strncmp(line, key, strlen(key)) != 0)
        return 0;
    line += strlen(key);
    line += strspn(line, " \t");
    if (*line++ != '=')
        return 0;
    line += strspn(line, " \t");
    if (strncmp(line, "true", 4) != 0)
        return 0;
    line += 4;
    line += strspn(line, " \t\r\n");
    return *line == 0 || *line == '#';
}

/* Copies the configuration, so that it can be read again as it was at the start; says whether the end of input closes the collector. A file that
   can't be read is the program's to refuse. */
static int closes_at_end(const char *path, int copy) {
    FILE *file = fopen(path, "re");
    char *line = NULL;
    size_t room = 0;
    ssize_t length;
    int in_table = 0, found = 0;
    while (file && (length = getline(&line, &room, file)) > 0) {
        in_table = in_table || line[strspn(line, " \t")] == '[';
        found = found || (!in_table && sets_the_key(line));
        (void)!write(copy, line, (size_t)length);
    }
    free(line);
    if (file)
        fclose(file);
    return found;
}

/* Starts the program with these two arguments; a file that isn't -1 takes the place of its standard input, another that of its standard output. It
   ignores the signals that close it. */
static pid_t start(const char *command, const char *config, int input, int output) {
    pid_t child = fork();
    if (child != 0)
        return child;
    for (size_t i = 0; i < sizeof ends / sizeof *ends; i++)
        signal(ends[i], SIG_IGN);
    sigprocmask(SIG_SETMASK, &mask_before, NULL);
    if ((input >= 0 && dup2(input, 0) < 0) || (output >= 0 && dup2(output, 1) < 0))
        _exit(fault(127, "standard input"));
    execl(program, program, command, config, (char *)NULL);
    _exit(fault(127, program));
}

static pid_t start_close(int copy) {
    char path[64];
    int open_copy = dup(copy); /* Without the mark that closes it when the program is started. */
    snprintf(path, sizeof path, "/proc/self/fd/%d", open_copy);
    pid_t closer = start("close", path, -1, 2);
    close(open_copy);
    return closer;
}

/* Waits for the program's end. Ended children of others are taken too, as process 1 has to. */
static int watch(pid_t child, int writes, int at_end, int copy, const sigset_t *awaited) {
    const struct timespec second = {1, 0};
    int closing = 0, asking = 0, status;
    pid_t closer = 0, ended;
    for (;;) {
        int got = asking && closer <= 0 ? sigtimedwait(awaited, NULL, &second) : sigwaitinfo(awaited, NULL);
        while ((ended = waitpid(-1, &status, WNOHANG)) > 0) {
            if (ended == child)
                return WIFSIGNALED(status) ? 128 + WTERMSIG(status) : WEXITSTATUS(status);
            if (ended == closer) {
                asking = status != 0;
                closer = 0;
            }
        }
        if (got > 0 && got != SIGCHLD && !closing) {
            closing = 1;
            close(writes);
            asking = !at_end;
            closer = asking ? start_close(copy) : 0;
        } else if (got < 0 && asking && closer <= 0)
            closer = start_close(copy);
    }
}

static int run(const char *config) {
    int ends_of_pipe[2], copy = memfd_create("configuration", MFD_CLOEXEC);
    sigset_t awaited;
    if (pipe2(ends_of_pipe, O_CLOEXEC) < 0 || copy < 0)
        return fault(127, "a pipe");
    sigemptyset(&awaited);
    sigaddset(&awaited, SIGCHLD);
    for (size_t i = 0; i < sizeof ends / sizeof *ends; i++) {
        struct sigaction before;
        sigaction(ends[i], NULL, &before);
        if (ends[i] == SIGTERM || before.sa_handler != SIG_IGN) /* As `nohup` and a shell's `&` leave the other two. */
            sigaddset(&awaited, ends[i]);
    }
    signal(SIGCHLD, SIG_DFL);
    sigprocmask(SIG_BLOCK, &awaited, &mask_before);
    int at_end = closes_at_end(config, copy);
    pid_t child = start("serve", config, ends_of_pipe[0], -1);
    if (child < 0)
        return fault(127, "a process");
    close(ends_of_pipe[0]);
    return watch(child, ends_of_pipe[1], at_end, copy, &awaited);
}

static int connected(const char *address) {
    struct sockaddr_un file = {.sun_family = AF_UNIX};
    struct sockaddr_in internet = {.sin_family = AF_INET};
    const struct timeval limit = {5, 0};
    const char *colon = strrchr(address, ':');
    char host[64] = "";
    int is_file = strncmp(address, "unix:", 5) == 0;
    int to = socket(is_file ? AF_UNIX : AF_INET, SOCK_STREAM | SOCK_CLOEXEC, 0);
    setsockopt(to, SOL_SOCKET, SO_RCVTIMEO, &limit, sizeof limit);
    setsockopt(to, SOL_SOCKET, SO_SNDTIMEO, &limit, sizeof limit);
    if (is_file) {
        snprintf(file.sun_path, sizeof file.sun_path, "%s", address + 5);
        return connect(to, (struct sockaddr *)&file, sizeof file) < 0 ? -1 : to;
    }
    if (colon)
        snprintf(host, sizeof host, "%.*s", (int)(colon - address), address);
    internet.sin_port = htons((in_port_t)(colon ? atoi(colon + 1) : 0));
    if (inet_pton(AF_INET, host, &internet.sin_addr) != 1) {
        errno = EINVAL;
        return -1;
    }
    return connect(to, (struct sockaddr *)&internet, sizeof internet) < 0 ? -1 : to;
}

static int health(const char *address) {
    static const char asked[] = "GET /healthz HTTP/1.1\r\nHost: localhost\r\nConnection: close\r\n\r\n";
    char answer[13] = "";
    int to = connected(address);
    if (to < 0 || send(to, asked, strlen(asked), MSG_NOSIGNAL) < 0 || recv(to, answer, 12, MSG_WAITALL) < 0)
        return fault(1, address);
    return strcmp(answer, "HTTP/1.1 200") != 0;
}

int main(int count, char **words) {
    if (count == 4 && strcmp(words[1], "--program") == 0)
        program = words[2];
    else if (count == 3 && strcmp(words[1], "--health") == 0)
        return health(words[2]);
    else if (count != 2 || words[1][0] == '-') {
        fputs("usage: tsc-run [--program PATH] CONFIG, or tsc-run --health ADDRESS\n", stderr);
        return 2;
    }
    return run(words[count - 1]);
}
