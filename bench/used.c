/* Runs a program and says what it used, on a descriptor: the status that wait4 gives, user and system time in microseconds, and
   the peak of its memory in KiB.

       used DESCRIPTOR PROGRAM [ARGUMENT..]

   Linux counts into a process's peak the memory of the one that started it, up to exec. This one is small. */
#include <fcntl.h>
#include <stdio.h>
#include <stdlib.h>
#include <sys/resource.h>
#include <sys/wait.h>
#include <unistd.h>

static long long microseconds(struct timeval t) { return t.tv_sec * 1000000ll + t.tv_usec; }

int main(int count, char **words) {
    if (count < 3) return 2;
    int to = atoi(words[1]);
    fcntl(to, F_SETFD, FD_CLOEXEC);
    pid_t child = fork();
    if (child == 0) {
        execv(words[2], words + 2);
        perror(words[2]);
        _exit(127);
    }
    int status;
    struct rusage used;
    if (child < 0 || wait4(child, &status, 0, &used) < 0) {
        perror("used");
        return 1;
    }
    dprintf(to, "%d %lld %lld %ld\n", status, microseconds(used.ru_utime), microseconds(used.ru_stime), used.ru_maxrss);
    return 0;
}
