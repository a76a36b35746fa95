/* timed RUNS COMMAND..    runs a command several times, and prints its least processor time in seconds and its peak
   memory in KB. The command must end with 0; its input is empty, and its output is dropped.

   It is in C so that it is small: the peak of a child counts the pages of the process that it was forked from. */
#define _GNU_SOURCE
#include <fcntl.h>
#include <stdio.h>
#include <stdlib.h>
#include <sys/resource.h>
#include <sys/wait.h>
#include <unistd.h>

static void fail(const char *what)
{
    fprintf(stderr, "timed: %s\n", what);
    exit(1);
}

static struct rusage run(char **command)
{
    struct rusage used;
    int status;
    pid_t child = fork();
    if (child < 0)
        fail("no process");
    if (child == 0) {
        int null = open("/dev/null", O_RDWR);
        if (null < 0 || dup2(null, 0) < 0 || dup2(null, 1) < 0 || dup2(null, 2) < 0)
            _exit(127);
        execvp(command[0], command);
        _exit(127);
    }
    if (wait4(child, &status, 0, &used) != child || !WIFEXITED(status) || WEXITSTATUS(status) != 0)
        fail(command[0]);
    return used;
}

static double seconds(struct timeval time)
{
    return (double)time.tv_sec + (double)time.tv_usec / 1e6;
}

int main(int count, char **words)
{
    double least = -1;
    long peak = 0;
    if (count < 3)
        fail("usage: timed RUNS COMMAND..");
    for (int left = atoi(words[1]); left > 0; left--) {
        struct rusage used = run(words + 2);
        double time = seconds(used.ru_utime) + seconds(used.ru_stime);
        if (least < 0 || time < least)
            least = time;
        if (used.ru_maxrss > peak)
            peak = used.ru_maxrss;
    }
    printf("%.4f %ld\n", least, peak);
    return 0;
}
