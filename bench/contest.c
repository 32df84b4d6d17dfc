/* The points, the contestants and the goals. */
#include "contest.h"

sampler plain_sample_gcc, careful_sample_gcc;
polynomial_sampler careful_polynomial_gcc;
noise_splitter plain_noise_gcc, careful_noise_gcc;
value_converter plain_value_gcc, careful_value_gcc;
step_sampler plain_steps_gcc, careful_steps_gcc;
#ifdef WITH_CLANG
sampler plain_sample_clang, careful_sample_clang;
polynomial_sampler careful_polynomial_clang;
noise_splitter plain_noise_clang, careful_noise_clang;
value_converter plain_value_clang, careful_value_clang;
step_sampler plain_steps_clang, careful_steps_clang;
enum { COMPILERS = 2 };
#else
enum { COMPILERS = 1 };
#endif

static const point sampler_points[] = {{2, 2, 3329}, {3, 3, 3329}, {4, 8, 12289}, {8, 16, 12289}};
static const point split_points[] = {{2, 2, 3329}, {3, 3, 3329}, {4, 2, 3329}, {8, 3, 3329}};
static const point value_points[] = {{2, 12, 3329}, {4, 12, 3329}, {8, 16, 12289}};
static const point step_points[] = {{3, 2, 3329}, {8, 16, 12289}};

/* The last is a polynomial's alone. */
static const enum tp_code sampler_checks[] = {TP_SHARE_COUNT, TP_STRING_LENGTH, TP_MODULUS,    TP_X_COUNT,     TP_Y_COUNT,   TP_X_WIDTH,
                                              TP_Y_WIDTH,     TP_WORD_COUNT,    TP_WORD_RANGE, TP_OUTPUT_ROOM, TP_WORK_ROOM, TP_COEFFICIENT_COUNT};
static const enum tp_code split_checks[] = {TP_SHARE_COUNT, TP_SET_NUMBER, TP_NOISE_SET, TP_NOISE_LENGTH, TP_OUTPUT_ROOM};
static const enum tp_code value_checks[] = {TP_SHARE_COUNT, TP_STRING_LENGTH, TP_MODULUS,    TP_X_COUNT,
                                            TP_X_WIDTH,     TP_WORD_COUNT,    TP_WORD_RANGE, TP_OUTPUT_ROOM};
static const enum tp_code step_checks[] = {TP_SHARE_COUNT, TP_STRING_LENGTH, TP_MODULUS,    TP_X_COUNT,     TP_Y_COUNT,   TP_X_WIDTH,
                                           TP_Y_WIDTH,     TP_WORD_COUNT,    TP_WORD_RANGE, TP_OUTPUT_ROOM, TP_WORK_ROOM, TP_RECORD_ROOM};

#define CALLS_SAMPLE(kind, title, name) {kind, title, #name, false, .sample = name}
#define CALLS_STARTING(kind, title, name) {kind, title, #name, false, .starting = name}
#define CALLS_POLYNOMIAL(kind, title, name) {kind, title, #name, true, .polynomial = name}
#define CALLS_SPLIT(kind, title, name) {kind, title, #name, true, .split = name}
#define CALLS_CONVERT(kind, title, name) {kind, title, #name, true, .convert = name}
#define CALLS_STEPS(kind, title, name) {kind, title, #name, true, .steps = name}

const contest contests[CONTESTS] = {
    {
        .name = "samples",
        .title = "samples",
        .unit = "sample",
        .points_len = 4,
        .points = sampler_points,
        .m = 1,
        .inputs = 64,
        .agreements = 20,
        .checks_len = 11,
        .checks = sampler_checks,
        .goals = {{PLAIN, "plain C", 0.75, 0, 2}, {CAREFUL, "careful C", 1.00, 0, 2}},
        .count = 1 + 2 * COMPILERS,
        .contestants =
            {
                CALLS_STARTING(LIBRARY, "library", tp_sample),
                CALLS_SAMPLE(PLAIN, "plain gcc", plain_sample_gcc),
#ifdef WITH_CLANG
                CALLS_SAMPLE(PLAIN, "plain clang", plain_sample_clang),
#endif
                CALLS_SAMPLE(CAREFUL, "careful gcc", careful_sample_gcc),
#ifdef WITH_CLANG
                CALLS_SAMPLE(CAREFUL, "careful clang", careful_sample_clang),
#endif
            },
    },
    {
        .name = "polynomials",
        .title = "polynomials of 256 coefficients",
        .unit = "coefficient",
        .points_len = 4,
        .points = sampler_points,
        .m = 256,
        .inputs = 1,
        .agreements = 4,
        .checks_len = 12,
        .checks = sampler_checks,
        .goals = {{SINGLE, "single calls", 1.00, 0.03, 2}, {CAREFUL, "careful C", 1.00, 0, 3}},
        .count = 2 + COMPILERS,
        .contestants =
            {
                CALLS_POLYNOMIAL(LIBRARY, "library", tp_sample_polynomial),
                CALLS_STARTING(SINGLE, "single calls", tp_sample),
                CALLS_POLYNOMIAL(CAREFUL, "careful gcc", careful_polynomial_gcc),
#ifdef WITH_CLANG
                CALLS_POLYNOMIAL(CAREFUL, "careful clang", careful_polynomial_clang),
#endif
            },
    },
    {
        .name = "noise",
        .title = "noise of 256 coefficients",
        .unit = "coefficient",
        .points_len = 4,
        .points = split_points,
        .task = SPLITS,
        .m = 256,
        .inputs = 4,
        .agreements = 100,
        .checks_len = 5,
        .checks = split_checks,
        .goals = {{PLAIN, "plain C", 1.00, 0, 2}, {CAREFUL, "careful C", 0, 0, 2}},
        .count = 1 + 2 * COMPILERS,
        .contestants =
            {
                CALLS_SPLIT(LIBRARY, "library", tp_split_noise),
                CALLS_SPLIT(PLAIN, "plain gcc", plain_noise_gcc),
#ifdef WITH_CLANG
                CALLS_SPLIT(PLAIN, "plain clang", plain_noise_clang),
#endif
                CALLS_SPLIT(CAREFUL, "careful gcc", careful_noise_gcc),
#ifdef WITH_CLANG
                CALLS_SPLIT(CAREFUL, "careful clang", careful_noise_clang),
#endif
            },
    },
    {
        .name = "values",
        .title = "values of k bits",
        .unit = "value",
        .points_len = 3,
        .points = value_points,
        .task = VALUES,
        .m = 1,
        .inputs = 64,
        .agreements = 20,
        .checks_len = 8,
        .checks = value_checks,
        .goals = {{PLAIN, "plain C", 0.75, 0, 2}, {CAREFUL, "careful C", 1.00, 0, 2}},
        .count = 1 + 2 * COMPILERS,
        .contestants =
            {
                CALLS_CONVERT(LIBRARY, "library", tp_convert_value),
                CALLS_CONVERT(PLAIN, "plain gcc", plain_value_gcc),
#ifdef WITH_CLANG
                CALLS_CONVERT(PLAIN, "plain clang", plain_value_clang),
#endif
                CALLS_CONVERT(CAREFUL, "careful gcc", careful_value_gcc),
#ifdef WITH_CLANG
                CALLS_CONVERT(CAREFUL, "careful clang", careful_value_clang),
#endif
            },
    },
    {
        .name = "steps",
        .title = "samples with step records",
        .unit = "record",
        .points_len = 2,
        .points = step_points,
        .task = STEPS,
        .m = 1,
        .inputs = 16,
        .agreements = 20,
        .checks_len = 12,
        .checks = step_checks,
        .goals = {{PLAIN, "plain C", 0, 0, 2}, {CAREFUL, "careful C", 0, 0, 2}},
        .count = 1 + 2 * COMPILERS,
        .contestants =
            {
                CALLS_STEPS(LIBRARY, "library", tp_sample_steps),
                CALLS_STEPS(PLAIN, "plain gcc", plain_steps_gcc),
#ifdef WITH_CLANG
                CALLS_STEPS(PLAIN, "plain clang", plain_steps_clang),
#endif
                CALLS_STEPS(CAREFUL, "careful gcc", careful_steps_gcc),
#ifdef WITH_CLANG
                CALLS_STEPS(CAREFUL, "careful clang", careful_steps_clang),
#endif
            },
    },
};
