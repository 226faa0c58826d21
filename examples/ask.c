/* Asks one run of kalah about positions one by one, through two pipes.

       cc -std=c11 -Wall -Wextra -Werror -o ask examples/ask.c
       ./ask LINE..

   A question gets its own answer or fails: an answer is taken only if it is whole and has the form that docs/FORMAT.md gives it. If not,
   the run is ended, and the next question starts another. It needs `kalah`: the program that the environment variable KALAH names, or on
   the path. */
#define _POSIX_C_SOURCE 200809L
#include <errno.h>
#include <fcntl.h>
#include <poll.h>
#include <regex.h>
#include <signal.h>
#include <stdbool.h>
#include <stdio.h>
#include <stdlib.h>
#include <string.h>
#include <sys/wait.h>
#include <time.h>
#include <unistd.h>

/* The time for an answer, and the bytes of an answer at most. */
#ifndef MILLISECONDS
#define MILLISECONDS 60000
#endif
enum { ROOM = 200 };
static const char *const ANSWER = "^((0|-?[1-9][0-9]{0,2}) (house [1-6]|over)|fault (long|empty|shape|houses|seeds))$";
static const char *const VERSION = "^kalah (1\\.([1-9]|[1-9][0-9]+)|([2-9]|[1-9][0-9]+)\\.[0-9]+)\\.[0-9]+$";

/* A run of the program, and the ends of the pipes to it and from it. There is none if `pid` is 0. */
struct run {
    pid_t pid;
    int to, from;
};

static void end(struct run *run)
{
    if (run->pid == 0)
        return;
    if (run->pid > 0) {
        kill(run->pid, SIGKILL);
        waitpid(run->pid, NULL, 0);
    }
    close(run->to);
    close(run->from);
    run->pid = 0;
}

/* Starts the program. Returns whether there is a run. */
static bool start(struct run *run, const char *word)
{
    const char *program = getenv("KALAH") ? getenv("KALAH") : "kalah";
    int pipes[4];
    run->pid = 0;
    if (pipe(pipes) != 0)
        return false;
    if (pipe(pipes + 2) != 0) {
        close(pipes[0]);
        close(pipes[1]);
        return false;
    }
    for (int i = 0; i < 4; i++)
        fcntl(pipes[i], F_SETFD, FD_CLOEXEC);
    run->pid = fork();
    if (run->pid == 0) {
        dup2(pipes[0], 0);
        dup2(pipes[3], 1);
        /* If the standard input was closed, an end of a pipe is that stream already, and is not to be closed. */
        fcntl(0, F_SETFD, 0);
        fcntl(1, F_SETFD, 0);
        execlp(program, "kalah", word, (char *)NULL);
        _exit(127);
    }
    close(pipes[0]);
    close(pipes[3]);
    run->to = pipes[1];
    run->from = pipes[2];
    fcntl(run->to, F_SETFL, O_NONBLOCK);
    if (run->pid < 0)
        end(run);
    return run->pid > 0;
}

static bool has_form(const char *text, const char *form)
{
    regex_t compiled;
    if (regcomp(&compiled, form, REG_EXTENDED | REG_NOSUB) != 0)
        return false;
    bool found = regexec(&compiled, text, 0, NULL, 0) == 0;
    regfree(&compiled);
    return found;
}

static long now(void)
{
    struct timespec time;
    clock_gettime(CLOCK_MONOTONIC, &time);
    return 1000 * time.tv_sec + time.tv_nsec / 1000000;
}

/* Writes a question and reads the line that answers it. Returns whether that is whole and of this form; there it ends in a NUL in place of
   its line feed. */
static bool exchange(struct run *run, const char *question, char answer[ROOM], const char *form)
{
    size_t left = strlen(question), got = 0;
    const long last = now() + MILLISECONDS;
    struct pollfd ends[2] = {{.fd = run->from, .events = POLLIN}, {.fd = run->to, .events = POLLOUT}};
    while (got == 0 || answer[got - 1] != '\n') {
        const long rest = last - now();
        const int ready = poll(ends, left > 0 ? 2 : 1, rest > 0 ? (int)rest : 0);
        if (ready < 0 && errno == EINTR)
            continue;
        if (ready <= 0)
            return false;
        const bool is_to_read = ends[0].revents != 0;
        const ssize_t size = is_to_read ? read(run->from, answer + got, ROOM - got) : write(run->to, question, left);
        if (size <= 0 || (is_to_read && left > 0))
            return false;
        if (is_to_read)
            got += (size_t)size;
        else {
            question += size;
            left -= (size_t)size;
        }
        if (got == ROOM)
            return false;
    }
    answer[got - 1] = '\0';
    return strlen(answer) == got - 1 && has_form(answer, form);
}

static bool is_new_enough(void)
{
    struct run run;
    char version[ROOM];
    const bool is = start(&run, "--version") && exchange(&run, "", version, VERSION);
    end(&run);
    return is;
}

/* Asks a line, in a run that is started if there is none. Returns whether there is an answer. A line feed would begin another question. */
static bool ask(struct run *run, const char *line, char answer[ROOM])
{
    char *question = strchr(line, '\n') == NULL ? malloc(strlen(line) + 2) : NULL;
    if (question == NULL)
        return false;
    sprintf(question, "%s\n", line);
    const bool is_started = run->pid > 0 || start(run, "ask");
    const bool is_answered = is_started && exchange(run, question, answer, ANSWER);
    if (!is_answered)
        end(run);
    free(question);
    return is_answered;
}

int main(int count, char **words)
{
    struct run run = {0};
    char answer[ROOM];
    signal(SIGPIPE, SIG_IGN);
    if (count < 2 || strcmp(words[1], "--help") == 0) {
        fprintf(count < 2 ? stderr : stdout, "usage: ask LINE..\nIt needs kalah on the path, or named by KALAH.\n");
        return count < 2 ? 2 : 0;
    }
    if (!is_new_enough()) {
        fprintf(stderr, "ask: there is no kalah 1.1.0 or newer\n");
        return 2;
    }
    int status = 0;
    for (int i = 1; i < count; i++) {
        if (!ask(&run, words[i], answer)) {
            fprintf(stderr, "ask: no answer to %s\n", words[i]);
            status = 2;
        } else if (printf("%s: %s\n", words[i], answer) < 0 || fflush(stdout) != 0)
            return 2;
    }
    end(&run);
    return status;
}
