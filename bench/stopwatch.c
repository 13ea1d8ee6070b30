// Runs a command, whose output goes to a file through a pipe, and prints when the first lines of it were there and when it ended, in milliseconds since
// it was started, and its peak memory in kilobytes. Ends with 0 only where the command does.
// usage: stopwatch LINES FILE COMMAND..
#include <stdio.h>
#include <stdlib.h>
#include <sys/resource.h>
#include <sys/wait.h>
#include <time.h>
#include <unistd.h>

static void fail(const char *why) {
    fprintf(stderr, "stopwatch: %s\n", why);
    exit(1);
}

static double milliseconds(void) {
    struct timespec now;
    clock_gettime(CLOCK_MONOTONIC, &now);
    return now.tv_sec * 1e3 + now.tv_nsec / 1e6;
}

// Starts the command, and gives the end of the pipe from which its output comes.
static int start(char **command, pid_t *child) {
    int ends[2];
    if (pipe(ends) || (*child = fork()) < 0) fail("the command cannot be started");
    if (*child == 0) {
        dup2(ends[1], STDOUT_FILENO);
        close(ends[0]), close(ends[1]);
        execvp(command[0], command);
        fail("the command cannot be started");
    }
    close(ends[1]);
    return ends[0];
}

int main(int given, char **words) {
    if (given < 4) fail("usage: stopwatch LINES FILE COMMAND..");
    FILE *copy = fopen(words[2], "w");
    if (!copy) fail("the file cannot be written");
    long left = atol(words[1]);
    double started = milliseconds(), first = -1;
    pid_t child;
    int from = start(words + 3, &child);
    char bytes[65536];
    for (ssize_t got; (got = read(from, bytes, sizeof bytes)) > 0;) {
        double now = milliseconds();
        for (ssize_t i = 0; i < got; i++) left -= bytes[i] == '\n';
        if (left <= 0 && first < 0) first = now - started;
        fwrite(bytes, 1, got, copy);
    }
    int status;
    struct rusage used;
    wait4(child, &status, 0, &used);
    printf("%.1f %.1f %ld\n", first, milliseconds() - started, used.ru_maxrss);
    fclose(copy);
    return !(WIFEXITED(status) && WEXITSTATUS(status) == 0);
}
