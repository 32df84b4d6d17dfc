/* What is printed. */
#include "contest.h"

#include <stdio.h>

static void print_head(const char *what, const char *unit)
{
    printf("%s%s\n n  k      q", what, unit);
}

static void print_point(point p)
{
    printf("%2zu %2zu %6u", p.n, p.k, (unsigned)p.q);
}

/* Whether numbers are also shown by the random word: a split takes none, and a record has no certain number of them. */
static bool by_word(const contest *in)
{
    return in->task == SAMPLES || in->task == VALUES;
}

/* `per_word`: each number divided by the random words of a coefficient. */
static void print_values(const contest *in, const char *what, const table values, bool per_word)
{
    print_head(what, per_word ? "random word" : in->unit);
    for (size_t who = 0; who < in->count; who++)
        printf(" %14s", in->contestants[who].title);
    putchar('\n');
    for (size_t at = 0; at < in->points_len; at++) {
        point p = in->points[at];
        print_point(p);
        for (size_t who = 0; who < in->count; who++)
            printf(" %14.*f", per_word || !by_word(in) ? 2 : 1, values[at][who] / (per_word ? words_needed(in, p, 1) : 1));
        putchar('\n');
    }
    putchar('\n');
}

/* The library's number, of that of the best of a kind. */
static double ratio(const contest *in, const double row[], kind kind)
{
    double worst = 0;
    for (size_t who = 1; who < in->count; who++)
        if (in->contestants[who].kind == kind && row[0] / row[who] > worst)
            worst = row[0] / row[who];
    return worst;
}

static void print_ratios(const contest *in, const char *what, const table values)
{
    print_head(what, "library / the best of");
    for (size_t g = 0; g < GOALS; g++)
        printf(" %14s", in->goals[g].title);
    putchar('\n');
    for (size_t at = 0; at < in->points_len; at++) {
        print_point(in->points[at]);
        for (size_t g = 0; g < GOALS; g++)
            printf(" %14.3f", ratio(in, values[at], in->goals[g].kind));
        putchar('\n');
    }
    putchar('\n');
}

static void print_goal(const contest *in, const goal *g, const table values)
{
    bool met = true;
    printf("goal: at most %.2f of %s", g->most, g->title);
    if (g->from > TP_MIN_SHARES)
        printf(" from n = %zu on", g->from);
    if (g->noise > 0)
        printf(", with %.0f in 100 allowed for noise", 100 * g->noise);
    putchar(':');
    for (size_t at = 0; at < in->points_len; at++) {
        point p = in->points[at];
        double r = ratio(in, values[at], g->kind);
        if (p.n < g->from || r <= g->most + g->noise)
            continue;
        printf("%s (%zu, %zu, %u) %.3f", met ? " missed at" : ",", p.n, p.k, (unsigned)p.q, r);
        met = false;
    }
    puts(met ? " met" : "");
}

static void print_tables(const contest *in, const char *what, const char *compared, const table values)
{
    printf("-- %s\n", in->title);
    print_values(in, what, values, false);
    if (by_word(in))
        print_values(in, what, values, true);
    print_ratios(in, compared, values);
}

void print_times(const contest *in, const table times)
{
    print_tables(in, "ns a ", "time: ", times);
    for (size_t g = 0; g < GOALS; g++)
        if (in->goals[g].most > 0)
            print_goal(in, &in->goals[g], times);
    putchar('\n');
}

void print_counts(const contest *in, const table counts)
{
    print_tables(in, "instructions a ", "instructions: ", counts);
}
