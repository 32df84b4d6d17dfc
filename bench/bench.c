/* The library's sampler beside samplers in C, on the same inputs: samples, also with step records, and polynomials. The same for the split of noise
 * and the conversion of values.
 *
 *   bench agree           checks that all leave the same behind
 *   bench time            times all; writes lines 'CONTEST POINT NAME NANOSECONDS', for one coefficient or record
 *   bench times           reads such lines and prints the tables of the least times, and whether the goals are met
 *   bench list            writes lines 'CONTEST POINT NAME'
 *   bench count C P NAME  has NAME of contest C make each input of point P once, for a tool that counts instructions
 *   bench counts          reads lines 'CONTEST POINT NAME INSTRUCTIONS', for all inputs, and prints the tables
 */
#define _POSIX_C_SOURCE 199309L

#include "contest.h"

#include <stdio.h>
#include <stdlib.h>
#include <string.h>
#include <time.h>

/* ---- time ---- */

enum { ROUNDS = 201, BATCH_NS = 50000 };

static double now_ns(void)
{
    struct timespec t;
    clock_gettime(CLOCK_MONOTONIC, &t);
    return t.tv_sec * 1e9 + t.tv_nsec;
}

/* Runs over all inputs, `passes` times. */
static void run_inputs(const contestant *who, const call *calls, size_t inputs, size_t passes)
{
    static outcome o;
    for (size_t pass = 0; pass < passes; pass++)
        for (size_t i = 0; i < inputs; i++)
            run_call(who, &calls[i], &o);
}

/* Nanoseconds a coefficient or record. The stack begins at a random place of a page, so that no time depends on one layout. */
static double time_inputs(const contest *in, size_t who, const call *calls, size_t passes)
{
    volatile char skipped[random_within(1, 4096)];
    (void)skipped[0];
    double start = now_ns();
    run_inputs(&in->contestants[who], calls, in->inputs, passes);
    return (now_ns() - start) / (passes * in->inputs * units(in, calls->p));
}

static void shuffle(size_t order[], size_t count)
{
    for (size_t i = count - 1; i > 0; i--) {
        size_t j = random_within(0, i), kept = order[i];
        order[i] = order[j];
        order[j] = kept;
    }
}

/* One round at one point: every contestant once, in any order. */
static void time_round(const contest *in, const call *calls, size_t passes, double least[])
{
    size_t order[MAX_CONTESTANTS];
    for (size_t who = 0; who < in->count; who++)
        order[who] = who;
    shuffle(order, in->count);
    for (size_t i = 0; i < in->count; i++) {
        size_t who = order[i];
        double t = time_inputs(in, who, calls, passes);
        if (least[who] == 0 || t < least[who])
            least[who] = t;
    }
}

/* The least time of each contestant at each point. What else runs on the machine comes and goes and slows some contestants more than
 * others. So the rounds are short and many, each goes over all points, and the order is shuffled: all meet the machine at rest. */
static void time_all(const contest *in, table least)
{
    call *calls[MAX_POINTS];
    size_t passes[MAX_POINTS];
    for (size_t at = 0; at < in->points_len; at++) {
        calls[at] = make_calls(in, in->points[at]);
        time_round(in, calls[at], 1, least[at]);
        passes[at] = 1 + BATCH_NS / (least[at][0] * in->inputs * units(in, in->points[at]));
    }
    for (size_t round = 0; round < ROUNDS; round++)
        for (size_t at = 0; at < in->points_len; at++)
            time_round(in, calls[at], passes[at], least[at]);
}

/* ---- commands ---- */

/* Writes a line for each contestant at each point, with its number where there are any. */
static void write_lines(const contest *in, const double (*values)[MAX_CONTESTANTS])
{
    for (size_t at = 0; at < in->points_len; at++)
        for (size_t who = 0; who < in->count; who++) {
            printf("%s %zu %s", in->name, at, in->contestants[who].name);
            if (values != NULL)
                printf(" %f", values[at][who]);
            putchar('\n');
        }
}

static const contest *find_contest(const char *name)
{
    for (size_t i = 0; i < CONTESTS; i++)
        if (strcmp(contests[i].name, name) == 0)
            return &contests[i];
    return NULL;
}

/* The contestant of that name, or the count. */
static size_t find_contestant(const contest *in, const char *name)
{
    size_t who = 0;
    while (who < in->count && strcmp(in->contestants[who].name, name) != 0)
        who++;
    return who;
}

/* Reads lines 'CONTEST POINT NAME VALUE', of which the least value counts. `whole`: for all inputs, not for one coefficient or record. */
static bool read_values(table values[CONTESTS], bool whole)
{
    size_t at, lines = 0, expected = 0;
    char contest_name[64], name[64];
    double value;
    while (scanf("%63s %zu %63s %lf", contest_name, &at, name, &value) == 4) {
        const contest *in = find_contest(contest_name);
        if (in == NULL || at >= in->points_len || find_contestant(in, name) == in->count)
            return false;
        value /= whole ? in->inputs * units(in, in->points[at]) : 1;
        double *kept = &values[in - contests][at][find_contestant(in, name)];
        if (*kept == 0 || value < *kept)
            *kept = value;
        lines++;
    }
    for (size_t i = 0; i < CONTESTS; i++)
        expected += contests[i].points_len * contests[i].count;
    return feof(stdin) && lines >= expected;
}

static int count_inputs(const contest *in, size_t at, const char *name)
{
    if (in == NULL || at >= in->points_len || find_contestant(in, name) == in->count)
        return 2;
    run_inputs(&in->contestants[find_contestant(in, name)], make_calls(in, in->points[at]), in->inputs, 1);
    return 0;
}

/* Does for one contest what a command without further words says; false where there is no such command. */
static bool obey(const char *command, const contest *in, table values, int *result)
{
    if (strcmp(command, "agree") == 0)
        *result |= !agree_everywhere(in);
    else if (strcmp(command, "list") == 0)
        write_lines(in, NULL);
    else if (strcmp(command, "time") == 0) {
        time_all(in, values);
        write_lines(in, values);
    } else if (strcmp(command, "times") == 0)
        print_times(in, values);
    else if (strcmp(command, "counts") == 0)
        print_counts(in, values);
    else
        return false;
    return true;
}

int main(int argc, char **argv)
{
    static table values[CONTESTS];
    if (argc == 5 && strcmp(argv[1], "count") == 0)
        return count_inputs(find_contest(argv[2]), strtoul(argv[3], NULL, 10), argv[4]);
    const char *command = argc == 2 ? argv[1] : "";
    bool times = strcmp(command, "times") == 0, counts = strcmp(command, "counts") == 0;
    if ((times || counts) && !read_values(values, counts))
        return 2;
    int result = 0;
    for (size_t i = 0; i < CONTESTS; i++)
        if (!obey(command, &contests[i], values[i], &result)) {
            fputs("bench agree | time | times | list | count CONTEST POINT NAME | counts\n", stderr);
            return 2;
        }
    return result;
}
