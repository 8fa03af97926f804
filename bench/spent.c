/* Runs a command some times and prints what the least of the runs took.
 *
 *   spent RUNS INPUT OUTPUT REPORT COMMAND [WORD...]
 *
 * The three files become standard input, output and error. One line is printed: the seconds on the clock and those of
 * the processor (user and system), each the least of the runs, the most kilobytes that were resident in a run, and the
 * status of the last. It is small, since a child's peak begins with that of the process that made it.
 */
#include <fcntl.h>
#include <stdio.h>
#include <stdlib.h>
#include <sys/resource.h>
#include <sys/time.h>
#include <sys/wait.h>
#include <time.h>
#include <unistd.h>

static void place(const char *path, int flags, int descriptor) {
    int opened = open(path, flags, 0644);
    if (opened < 0) _exit(125);
    dup2(opened, descriptor);
    close(opened);
}

int main(int count, char **words) {
    if (count < 6) return 2;
    double clock_least = 1e9, processor_least = 1e9;
    long peak = 0;
    int status = 0;
    for (int run = 0; run < atoi(words[1]); run++) {
        struct timespec from, to;
        clock_gettime(CLOCK_MONOTONIC, &from);
        pid_t child = fork();
        if (child == 0) {
            place(words[2], O_RDONLY, 0);
            place(words[3], O_WRONLY | O_CREAT | O_TRUNC, 1);
            place(words[4], O_WRONLY | O_CREAT | O_TRUNC, 2);
            execvp(words[5], words + 5);
            _exit(126);
        }
        struct rusage used;
        if (child < 0 || wait4(child, &status, 0, &used) != child) return 1;
        clock_gettime(CLOCK_MONOTONIC, &to);
        double clock = to.tv_sec - from.tv_sec + (to.tv_nsec - from.tv_nsec) * 1e-9;
        double processor = used.ru_utime.tv_sec + used.ru_stime.tv_sec + (used.ru_utime.tv_usec + used.ru_stime.tv_usec) * 1e-6;
        if (clock < clock_least) clock_least = clock;
        if (processor < processor_least) processor_least = processor;
        if (used.ru_maxrss > peak) peak = used.ru_maxrss;
    }
    printf("%.4f %.4f %ld %d\n", clock_least, processor_least, peak, WIFEXITED(status) ? WEXITSTATUS(status) : 128 + WTERMSIG(status));
    return 0;
}
