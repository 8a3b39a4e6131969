/* Runs a program and tells what it took: timed FILE PROGRAM WORD..

   It writes to FILE the processor time in microseconds, the most memory that was resident, in units of 1,024 octets, and the exit
   status, -1 where a signal ended the program. Python's own memory would count as the program's if it started it. */
#define _GNU_SOURCE
#include <stdio.h>
#include <sys/resource.h>
#include <sys/wait.h>
#include <unistd.h>

static long long microseconds(struct timeval time) {
    return time.tv_sec * 1000000LL + time.tv_usec;
}

int main(int count, char **words) {
    if (count < 3)
        return 2;
    pid_t child = fork();
    if (child == 0) {
        execv(words[2], words + 2);
        _exit(127);
    }
    int status;
    struct rusage usage;
    if (child < 0 || wait4(child, &status, 0, &usage) != child)
        return 1;
    FILE *file = fopen(words[1], "w");
    if (!file)
        return 1;
    fprintf(file, "%lld %ld %d\n", microseconds(usage.ru_utime) + microseconds(usage.ru_stime), usage.ru_maxrss,
            WIFEXITED(status) ? WEXITSTATUS(status) : -1);
    return fclose(file) ? 1 : 0;
}
