// launch RESULT PROGRAM WORDS..: runs a program, and writes how it ended, its nanoseconds and its peak memory in KiB into RESULT.
//
// The system counts into a program's peak what the one that starts it holds at that moment. bench/run holds more than a program
// needs for a short file, so it starts each by way of this small one.

#include <stdio.h>
#include <sys/resource.h>
#include <sys/wait.h>
#include <time.h>
#include <unistd.h>

int main(int count, char **words) {
    struct timespec from, to;
    struct rusage used;
    int status;
    if (count < 3 || clock_gettime(CLOCK_MONOTONIC, &from) != 0) {
        return 1;
    }
    pid_t child = fork();
    if (child == 0) {
        execv(words[2], words + 2);
        _exit(127);
    }
    if (child < 0 || wait4(child, &status, 0, &used) != child || clock_gettime(CLOCK_MONOTONIC, &to) != 0) {
        return 1;
    }
    FILE *result = fopen(words[1], "w");
    if (result == NULL) {
        return 1;
    }
    long long time = (to.tv_sec - from.tv_sec) * 1000000000LL + to.tv_nsec - from.tv_nsec;
    fprintf(result, "%d %lld %ld\n", status, time, used.ru_maxrss);
    return fclose(result) != 0;
}
