/* clock - times programs over files of records, ours first:
 *
 *   clock ROUNDS COMMANDS COMMAND -- ... COMMAND -- NAME RECORDS LINES [NAME RECORDS LINES ...]
 *
 * COMMANDS says how many there are; a command may have several words.  Each case has its name in
 * the table, the file of its records and the file of the lines that they give (only its visits are
 * read from there), or in place of that file how many records there are.  In each round every
 * command runs once over every case and once over no input.  A time is user plus system time; of
 * all rounds the median counts, less the median over no input.  Prints a row of a Markdown table
 * for each case: name, visits per record, nanoseconds per record of each command, visits per second
 * of the first in millions, and its time divided by that of each other one; where no file of lines
 * is given, the row has no visits. */
#define _DEFAULT_SOURCE
#include <fcntl.h>
#include <stdio.h>
#include <stdlib.h>
#include <string.h>
#include <sys/resource.h>
#include <sys/wait.h>
#include <unistd.h>

enum { MOST = 8 };              /* commands */

static void fail(const char *what, const char *name)
{
    fflush(stdout);
    fprintf(stderr, "clock: %s: %s\n", what, name);
    exit(1);
}

/* User plus system time of one run, in nanoseconds. */
static double run(char **command, const char *input)
{
    struct rusage use;
    int status;
    pid_t child = fork();
    if (child == 0) {
        int in = open(input, O_RDONLY), out = open("/dev/null", O_WRONLY);
        if (in >= 0 && out >= 0 && dup2(in, 0) == 0 && dup2(out, 1) == 1)
            execv(command[0], command);
        _exit(127);
    }
    if (child < 0 || wait4(child, &status, 0, &use) != child)
        fail("cannot run", command[0]);
    if (status != 0) {
        fprintf(stderr, "clock: status %#x of %s\n", (unsigned)status, command[0]);
        fail("no time for", input);
    }
    return 1e9 * (double)(use.ru_utime.tv_sec + use.ru_stime.tv_sec) +
           1e3 * (double)(use.ru_utime.tv_usec + use.ru_stime.tv_usec);
}

static int order(const void *a, const void *b)
{
    double x = *(const double *)a, y = *(const double *)b;
    return (x > y) - (x < y);
}

static double median(double *time, int rounds)
{
    qsort(time, (size_t)rounds, sizeof *time, order);
    return (time[(rounds - 1) / 2] + time[rounds / 2]) / 2;
}

static void usage(void)
{
    fail("usage", "clock ROUNDS COMMANDS COMMAND -- ... COMMAND -- NAME RECORDS LINES ...");
}

/* Counts the lines of a file, and their visits; every block of it must have been found. */
static void read_lines(const char *name, double *blocks, double *visits)
{
    char line[128];
    unsigned long count;
    FILE *lines = fopen(name, "r");
    if (!lines)
        fail("cannot read", name);
    for (*blocks = *visits = 0; fgets(line, sizeof line, lines); ++*blocks, *visits += (double)count)
        if (sscanf(line, "%*u found %*16c %*u %lu", &count) != 1)
            fail("a block was not found in", name);
    if (ferror(lines) || *blocks == 0)
        fail("no lines in", name);
    fclose(lines);
}

/* A case's row: median times over it and over no input, in nanoseconds, of each command. */
static void put_row(const char *name, const char *lines, int commands, const double *over, const double *none)
{
    char *end;
    double ns[MOST], visits = 0, records = (double)strtoul(lines, &end, 10);
    int counted = *end != 0;            /* not a number: a file of lines, with visits */
    if (counted)
        read_lines(lines, &records, &visits);
    for (int c = 0; c < commands; c++)
        ns[c] = (over[c] - none[c]) / records;
    printf("| %s |", name);
    if (counted)
        printf(" %.1f |", visits / records);
    for (int c = 0; c < commands; c++)
        printf(" %.0f |", ns[c]);
    if (counted)
        printf(" %.1f |", visits / records / ns[0] * 1e3);
    for (int c = 1; c < commands; c++)
        printf(" %.2f |", ns[0] / ns[c]);
    printf("\n");
}

int main(int argc, char **argv)
{
    char **command[MOST];
    int at = 3, rounds = argc > 1 ? atoi(argv[1]) : 0, commands = argc > 2 ? atoi(argv[2]) : 0;
    if (rounds < 1 || commands < 1 || commands > MOST)
        usage();
    for (int c = 0; c < commands; c++) {
        command[c] = argv + at;
        while (at < argc && strcmp(argv[at], "--") != 0)
            at++;
        if (at >= argc || command[c] == argv + at)
            usage();
        argv[at++] = NULL;              /* ends the command's words */
    }
    int cases = (argc - at) / 3;
    if (cases < 1 || (argc - at) % 3 != 0)
        usage();
    /* times[case][command][round], with no input as the last case */
    double *times = calloc((size_t)(cases + 1) * (size_t)commands * (size_t)rounds, sizeof *times);
    if (!times)
        fail("no memory for", argv[1]);
#define TIMES(i, c) (times + ((i) * commands + (c)) * rounds)
    for (int r = 0; r < rounds; r++)
        for (int i = 0; i <= cases; i++)
            for (int c = 0; c < commands; c++)
                TIMES(i, c)[r] = run(command[c], i < cases ? argv[at + 3 * i + 1] : "/dev/null");
    double none[MOST], over[MOST];
    for (int c = 0; c < commands; c++)
        none[c] = median(TIMES(cases, c), rounds);
    for (int i = 0; i < cases; i++) {
        for (int c = 0; c < commands; c++)
            over[c] = median(TIMES(i, c), rounds);
        put_row(argv[at + 3 * i], argv[at + 3 * i + 2], commands, over, none);
    }
    return fflush(stdout) || ferror(stdout);
}
