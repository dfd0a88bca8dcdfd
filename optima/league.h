/* What the drivers of the league share: the functions of a PLA file, jobs from standard input, and a process with a limit for each.
   A driver is called with FILE SECONDS ORDER..: the functions are built once, under ORDER, and each job begins with that diagram. SECONDS is the
   limit of a job, in processor time. A job is a line `METHOD SEED`; its answer is a line with the seconds of processor time that the method took
   and the order that it ended with, top first, or `late`, or `none` where it leaves no order of the variables. */
#ifndef LEAGUE_H
#define LEAGUE_H
#include <signal.h>
#include <sys/resource.h>
#include <sys/wait.h>
#include <unistd.h>
#include "../bench/functions.h"

static double processor(void) { return (double)clock() / CLOCKS_PER_SEC; }

static int start[16]; /* the order under which the diagram is built: the package's variable i stands for the input start[i] */

/* What a package does with a job: it lists its variables as it leaves them, top first, and answers the seconds; less than 0 for none. */
typedef double job_call(const char *method, unsigned seed, int *order);

static void one_job(job_call *call, const char *method, unsigned seed, unsigned limit)
{
    int order[16];
    struct rlimit most = {limit, limit + 1};
    setrlimit(RLIMIT_CPU, &most);
    double seconds = call(method, seed, order);
    if (seconds < 0) {
        printf("none\n");
    } else {
        printf("%.6f", seconds);
        for (int i = 0; i < inputs; i++) printf(" %d", start[order[i]]);
        printf("\n");
    }
    fflush(stdout);
    _exit(0);
}

/* Reads the words of the driver; answers the limit. */
static unsigned read_words(int argc, char **argv)
{
    if (argc < 3) fail("words: FILE SECONDS ORDER..");
    read_file(argv[1]);
    if (argc != 3 + inputs) fail("an order has each input once");
    for (int i = 0; i < inputs; i++) start[i] = atoi(argv[3 + i]);
    return (unsigned)atoi(argv[2]);
}

/* A point with the input at 1 that a variable of the package stands for. */
static unsigned with_input(unsigned point, int variable) { return point | 1u << start[variable]; }

/* Does the jobs, each in a process of its own that begins with what was built. */
static void do_jobs(job_call *call, unsigned limit)
{
    char method[32];
    unsigned seed;
    while (scanf("%31s %u", method, &seed) == 2) {
        fflush(stdout);
        pid_t child = fork();
        if (child < 0) fail("no process");
        if (child == 0) one_job(call, method, seed, limit);
        int status;
        waitpid(child, &status, 0);
        if (WIFSIGNALED(status) && (WTERMSIG(status) == SIGXCPU || WTERMSIG(status) == SIGKILL)) printf("late\n");
        else if (status) fail("a job failed");
        fflush(stdout);
    }
}
#endif
