/* spent PROGRAM FILE: runs a program with a file as its input, and prints the nanoseconds of processor time that it took. */
#define _GNU_SOURCE
#include <fcntl.h>
#include <stdio.h>
#include <sys/resource.h>
#include <sys/wait.h>
#include <unistd.h>

static double nanoseconds(struct timeval t)
{
    return (double)t.tv_sec * 1e9 + (double)t.tv_usec * 1e3;
}

int main(int count, char **words)
{
    if (count != 3)
        return 2;
    pid_t child = fork();
    if (child == 0) {
        int in = open(words[2], O_RDONLY), out = open("/dev/null", O_WRONLY);
        if (in < 0 || out < 0 || dup2(in, 0) < 0 || dup2(out, 1) < 0)
            _exit(126);
        execl(words[1], words[1], (char *)NULL);
        _exit(127);
    }
    int status;
    struct rusage spent;
    if (child < 0 || wait4(child, &status, 0, &spent) != child || status != 0)
        return 1;
    printf("%.0f\n", nanoseconds(spent.ru_utime) + nanoseconds(spent.ru_stime));
    return 0;
}
