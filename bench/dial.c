/*
 * Times the settings of the dial beside plain C. The library for C has no dial, so they are reached by the program `rounds`, which colours
 * a strip as often as it is told: what a round takes is the difference of a run with many rounds and a run with one.
 *
 * A run takes longer than the system leaves a process the core for, where there is other work. So the times are those of the processor,
 * of both sides, and not the clock's.
 */
#define _POSIX_C_SOURCE 200809L
#include "dial.h"
#include "cube_balance.h"
#include "frames.h"
#include "plain.h"
#include "timing.h"

#include <fcntl.h>
#include <spawn.h>
#include <stdio.h>
#include <stdlib.h>
#include <string.h>
#include <sys/resource.h>
#include <sys/wait.h>
#include <time.h>
#include <unistd.h>

/* The longest strip that the program takes, as a frame of 512 × 256, and the length of the head before it. */
enum { WIDTH = 512, HEIGHT = 256, PIXELS = WIDTH * HEIGHT, LENGTH = 3 * PIXELS, HEAD = 8 };

static char PROGRAM[] = "crates/rounds/out/rounds";

enum kind { OFF, MIX, HOLD };

/* An amount of mix is in 256ths. */
typedef struct {
    enum kind kind;
    uint32_t number;
} Setting;

/* Mix at 1. */
enum { FULL = 256 };

/* What is worked on: a strip with its curve by choice 1, where the results go, and the program's standard input and output. */
typedef struct {
    uint8_t source[LENGTH];
    uint8_t destination[LENGTH];
    size_t length;
    uint8_t curve[CUBE_BALANCE_CURVE_LENGTH];
    uint32_t method;
    Setting setting;
    int input;
    int output;
    int nowhere;
} Strip;

static void must(int so, const char *what)
{
    if (so)
        return;
    fprintf(stderr, "bench: %s\n", what);
    exit(1);
}

/* ---- The program ---- */

static int temporary(void)
{
    FILE *file = tmpfile();
    must(file != NULL, "no temporary file");
    return fileno(file);
}

static Strip *new_strip(void)
{
    Strip *s = calloc(1, sizeof *s);
    must(s != NULL, "no memory");
    s->input = temporary();
    s->output = temporary();
    s->nowhere = open("/dev/null", O_WRONLY);
    must(s->nowhere >= 0, "no /dev/null");
    return s;
}

static void write_at(int file, off_t place, const void *bytes, size_t length)
{
    must(pwrite(file, bytes, length, place) == (ssize_t)length, "a temporary file cannot be written");
}

/* A frame's first pixels, for both sides. */
static void set_strip(Strip *s, enum frame_kind kind, size_t pixels)
{
    make_frame(kind, WIDTH, HEIGHT, s->source);
    s->length = 3 * pixels;
    plain_curve(s->source, s->length, 1, s->curve);
    must(ftruncate(s->input, (off_t)(HEAD + s->length)) == 0, "a temporary file cannot be cut");
    write_at(s->input, HEAD, s->source, s->length);
}

/* The head, as the program's own comment has it: one round, and so many more. */
static void set_head(const Strip *s, uint32_t more)
{
    Setting set = s->setting;
    uint8_t head[HEAD] = {(uint8_t)set.kind, (uint8_t)(set.number % 256), (uint8_t)(set.number / 256), (uint8_t)s->method};
    for (int k = 0; k < 4; k++)
        head[4 + k] = (uint8_t)(more >> 8 * k);
    write_at(s->input, 0, head, sizeof head);
}

/* Runs the program on the input, from its start. */
static void run_program(const Strip *s, int output)
{
    char *arguments[] = {PROGRAM, NULL}, *environment[] = {NULL};
    posix_spawn_file_actions_t files;
    pid_t child;
    int status;
    must(lseek(s->input, 0, SEEK_SET) == 0, "a temporary file cannot be read from its start");
    must(posix_spawn_file_actions_init(&files) == 0, "no memory");
    must(posix_spawn_file_actions_adddup2(&files, s->input, STDIN_FILENO) == 0, "no memory");
    must(posix_spawn_file_actions_adddup2(&files, output, STDOUT_FILENO) == 0, "no memory");
    must(posix_spawn(&child, PROGRAM, &files, NULL, arguments, environment) == 0, "the program rounds cannot be started");
    must(waitpid(child, &status, 0) == child && status == 0, "the program rounds failed");
    posix_spawn_file_actions_destroy(&files);
}

/* ---- The same bytes ---- */

/* At amount 1 an engineer would not mix. */
static void plain_under(Strip *s)
{
    uint32_t number = s->setting.number;
    if (s->setting.kind == OFF)
        memcpy(s->destination, s->source, s->length);
    else if (s->setting.kind == HOLD)
        plain_hold(s->method, number, s->source, s->length, s->destination);
    else if (number == FULL)
        plain_colour(s->curve, s->method, s->source, s->length, s->destination);
    else
        plain_mix(s->curve, s->method, number, s->source, s->length, s->destination);
}

/* Three rounds, so that the later ones count too: the program has to write 0, a line feed and plain C's bytes. */
static void same_under(Strip *s)
{
    static uint8_t written[2 + LENGTH + 1];
    must(ftruncate(s->output, 0) == 0 && lseek(s->output, 0, SEEK_SET) == 0, "a temporary file cannot be cut");
    set_head(s, 2);
    run_program(s, s->output);
    plain_under(s);
    must(pread(s->output, written, sizeof written, 0) == (ssize_t)(2 + s->length), "the program rounds wrote too little or too much");
    must(memcmp(written, "0\n", 2) == 0, "the program rounds was refused");
    must(memcmp(written + 2, s->destination, s->length) == 0, "the program rounds and plain C differ");
}

static const Setting SETTINGS[] = {{OFF, 0},    {MIX, 0},  {MIX, 1},  {MIX, 100},  {MIX, 128},  {MIX, 255},
                                   {MIX, FULL},  {HOLD, 0}, {HOLD, 1}, {HOLD, 400}, {HOLD, 764}, {HOLD, 765}};

enum { SETTING_COUNT = sizeof SETTINGS / sizeof *SETTINGS };

static void same_settings(Strip *s)
{
    for (s->method = 1; s->method <= 2; s->method++) {
        for (size_t k = 0; k < SETTING_COUNT; k++) {
            s->setting = SETTINGS[k];
            same_under(s);
        }
    }
}

static const size_t STRIP_SIZES[] = {1, 1001, PIXELS};

enum { STRIP_SIZE_COUNT = sizeof STRIP_SIZES / sizeof *STRIP_SIZES };

void check_dial(void)
{
    Strip *s = new_strip();
    for (enum frame_kind kind = 0; kind < FRAME_KINDS; kind++) {
        for (size_t k = 0; k < STRIP_SIZE_COUNT; k++) {
            set_strip(s, kind, STRIP_SIZES[k]);
            same_settings(s);
        }
    }
    free(s);
    printf("bench: the program rounds and plain C give the same bytes, on %d kinds of frame, %d sizes, %d settings and both methods\n",
           (int)FRAME_KINDS, (int)STRIP_SIZE_COUNT, (int)SETTING_COUNT);
}

/* ---- Timing ---- */

/* The processor's time of all runs of the program so far. */
static double programs_time(void)
{
    struct rusage used;
    getrusage(RUSAGE_CHILDREN, &used);
    return (double)(used.ru_utime.tv_sec + used.ru_stime.tv_sec) + 1e-6 * (double)(used.ru_utime.tv_usec + used.ru_stime.tv_usec);
}

static double own_time(void)
{
    struct timespec t;
    clock_gettime(CLOCK_PROCESS_CPUTIME_ID, &t);
    return (double)t.tv_sec + 1e-9 * (double)t.tv_nsec;
}

static double seconds_of_program(const Strip *s, uint32_t more)
{
    set_head(s, more);
    double start = programs_time();
    run_program(s, s->nowhere);
    return programs_time() - start;
}

typedef void Call(Strip *);

static double seconds_of_calls(Call *call, Strip *s, uint32_t rounds)
{
    double start = own_time();
    for (uint32_t k = 0; k < rounds; k++)
        call(s);
    return own_time() - start;
}

static void library_call(Strip *s)
{
    uint32_t number = cube_balance_colour(s->curve, sizeof s->curve, s->method, s->source, s->length, s->destination, s->length);
    must(number == CUBE_BALANCE_ACCEPTED, "the library refused");
}

/* What is timed: a setting by the program, or a call in its place; and the rounds of a run, ours and plain C's, some 20 ms of each. */
typedef struct {
    const char *name;
    Setting setting;
    Call *call;
    uint32_t ours;
    uint32_t plain;
} Timed;

/* The first one is what the others are set beside. The library's call is the full balance too, with no dial before it. */
static const Timed TIMED[] = {
    {"full balance (mix at 1)", {MIX, FULL}, NULL, 120, 25},
    {"mix at 100/256", {MIX, 100}, NULL, 100, 25},
    {"hold at 400", {HOLD, 400}, NULL, 120, 25},
    {"off", {OFF, 0}, NULL, 1600, 1600},
    {"the library's call", {MIX, FULL}, library_call, 120, 25},
};

enum { TIMED_COUNT = sizeof TIMED / sizeof *TIMED };

/* The seconds of all runs: without the further rounds, with them, and plain C's. */
typedef struct {
    double few[RUNS];
    double many[RUNS];
    double plain[RUNS];
} Runs;

static double seconds_of_ours(Strip *s, const Timed *timed, uint32_t rounds)
{
    return timed->call == NULL ? seconds_of_program(s, rounds) : seconds_of_calls(timed->call, s, rounds);
}

static void time_turn(Strip *s, const Timed *timed, int turn, Runs *runs)
{
    s->setting = timed->setting;
    if (turn % 2 == 0)
        runs->plain[turn] = seconds_of_calls(plain_under, s, timed->plain);
    runs->few[turn] = seconds_of_ours(s, timed, 0);
    runs->many[turn] = seconds_of_ours(s, timed, timed->ours);
    if (turn % 2 == 1)
        runs->plain[turn] = seconds_of_calls(plain_under, s, timed->plain);
}

/* What a round takes. */
static Both times_under(const Timed *timed, Runs *runs)
{
    return (Both){.ours = scaled(less(times_of(runs->many), times_of(runs->few)), 1.0 / timed->ours),
                  .plain = scaled(times_of(runs->plain), 1.0 / timed->plain)};
}

/* ---- The table ---- */

/* A row in nanoseconds a pixel, beside the full balance of the same strip and method. */
static void row(enum frame_kind kind, uint32_t method, const char *name, Both seconds, Times full)
{
    Both ns = both_scaled(seconds, 1e9 / PIXELS);
    Times whole = scaled(full, 1e9 / PIXELS);
    printf("| %s | %u | %s | %#.3g | %#.3g | %#.3g | %#.3g | %.2f | %.2f | %.2f | %.2f |\n", frame_name(kind), method, name, ns.ours.best,
           ns.ours.median, ns.plain.best, ns.plain.median, ns.plain.best / ns.ours.best, ns.plain.median / ns.ours.median,
           ns.ours.best / whole.best, ns.ours.median / whole.median);
}

/* All of them in turns, and ours before plain C in every other turn, so that what else the machine does falls on all. */
static void method_rows(Strip *s, enum frame_kind kind)
{
    static Runs runs[TIMED_COUNT];
    Both times[TIMED_COUNT];
    for (int turn = 0; turn < RUNS; turn++)
        for (size_t k = 0; k < TIMED_COUNT; k++)
            time_turn(s, &TIMED[k], turn, &runs[k]);
    for (size_t k = 0; k < TIMED_COUNT; k++) {
        times[k] = times_under(&TIMED[k], &runs[k]);
        row(kind, s->method, TIMED[k].name, times[k], times[0].ours);
    }
    fflush(stdout);
}

static void frame_rows(Strip *s, enum frame_kind kind)
{
    set_strip(s, kind, PIXELS);
    same_settings(s);
    for (s->method = 1; s->method <= 2; s->method++)
        method_rows(s, kind);
}

void dial_table(void)
{
    Strip *s = new_strip();
    printf("\n### The dial, %d pixels\n\n", (int)PIXELS);
    printf("| frame | method | setting | ours, best, ns | median | plain C, best, ns | median | C / ours, best | median "
           "| ours / full balance, best | median |\n");
    printf("|---|---|---|---|---|---|---|---|---|---|---|\n");
    frame_rows(s, RANDOM);
    frame_rows(s, REAL_LOOKING);
    free(s);
}
