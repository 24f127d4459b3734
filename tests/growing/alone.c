/* alone SECONDS PROGRAM WORD..: runs a program with its streams closed to /dev/null, and prints its status, the seconds of a
   processor and the kilobytes that it took at most. What it takes is that of the program alone: this process has next to
   nothing that a child could have from it. A program is ended after so many seconds; its status is then that of the signal. */
#define _GNU_SOURCE
#include <fcntl.h>
#include <stdio.h>
#include <stdlib.h>
#include <sys/resource.h>
#include <sys/wait.h>
#include <unistd.h>

int main(int count, char **words) {
    struct rlimit seconds = {count > 1 ? atoi(words[1]) : 0, count > 1 ? atoi(words[1]) : 0};
    struct rusage used;
    int status;
    pid_t child = count > 2 ? vfork() : -1;
    if (child == 0) {
        int none = open("/dev/null", O_RDWR);
        setrlimit(RLIMIT_CPU, &seconds);
        for (int stream = 0; stream < 3; stream++)
            dup2(none, stream);
        execv(words[2], words + 2);
        _exit(127);
    }
    if (child < 0 || wait4(child, &status, 0, &used) != child)
        return 2;
    printf("%d %.3f %ld\n", WIFEXITED(status) ? WEXITSTATUS(status) : -WTERMSIG(status),
           used.ru_utime.tv_sec + used.ru_stime.tv_sec + (used.ru_utime.tv_usec + used.ru_stime.tv_usec) / 1e6,
           used.ru_maxrss);
    return 0;
}
