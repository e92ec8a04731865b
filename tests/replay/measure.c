/* measure PROGRAM TRACE: runs the program on the trace, its report thrown away, and prints the seconds it took and the most
 * memory it held, in KiB. */
#define _DEFAULT_SOURCE
#include <fcntl.h>
#include <stdio.h>
#include <sys/resource.h>
#include <sys/wait.h>
#include <time.h>
#include <unistd.h>

static double now(void)
{
    struct timespec t;
    clock_gettime(CLOCK_MONOTONIC, &t);
    return (double)t.tv_sec + (double)t.tv_nsec / 1e9;
}

static void run(const char *program, const char *trace)
{
    int in = open(trace, O_RDONLY), out = open("/dev/null", O_WRONLY);
    if (in >= 0 && out >= 0 && dup2(in, STDIN_FILENO) >= 0 && dup2(out, STDOUT_FILENO) >= 0)
        execl(program, program, (char *)NULL);
    perror(program);
    _exit(127);
}

int main(int argc, char **argv)
{
    struct rusage usage;
    int status = 0;
    double begin = now();
    pid_t child;
    if (argc != 3) {
        fprintf(stderr, "usage: measure PROGRAM TRACE\n");
        return 2;
    }
    child = fork();
    if (child == 0)
        run(argv[1], argv[2]);
    if (child < 0 || wait4(child, &status, 0, &usage) < 0 || status != 0) {
        fprintf(stderr, "measure: %s failed\n", argv[1]);
        return 1;
    }
    printf("%.4f %ld\n", now() - begin, usage.ru_maxrss);
    return 0;
}
