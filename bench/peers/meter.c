/* Runs a program and tells what it took. A program that is started from a large one is charged that
 * one's memory, so this small one starts it.
 *
 * usage: meter SECONDS OUTPUT_FILE PROGRAM WORD..
 *
 * Prints: status, or -1 where the program was killed, as after SECONDS of processor time; processor
 * time and time by the clock in microseconds; peak memory in KB. */

#include <fcntl.h>
#include <stdio.h>
#include <stdlib.h>
#include <sys/resource.h>
#include <sys/wait.h>
#include <time.h>
#include <unistd.h>

static long long micros(struct timeval time) {
    return 1000000LL * time.tv_sec + time.tv_usec;
}

static long long now(void) {
    struct timespec time;
    clock_gettime(CLOCK_MONOTONIC, &time);
    return 1000000LL * time.tv_sec + time.tv_nsec / 1000;
}

static void become(const char *seconds, const char *output, char **words) {
    rlim_t most = (rlim_t)atoll(seconds);
    struct rlimit limit = {most, most};
    int file = open(output, O_WRONLY | O_CREAT | O_TRUNC, 0644);
    if (file < 0 || dup2(file, 1) < 0 || setrlimit(RLIMIT_CPU, &limit) != 0) _exit(126);
    execv(words[0], words);
    _exit(127);
}

int main(int count, char **words) {
    if (count < 4) return 2;
    long long start = now();
    pid_t child = fork();
    if (child == 0) become(words[1], words[2], words + 3);
    int status;
    struct rusage used;
    if (child < 0 || wait4(child, &status, 0, &used) != child) return 1;
    printf("%d %lld %lld %ld\n", WIFEXITED(status) ? WEXITSTATUS(status) : -1,
           micros(used.ru_utime) + micros(used.ru_stime), now() - start, used.ru_maxrss);
    return 0;
}
