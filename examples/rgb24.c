/*
 * Balances raw rgb24 video: frames on standard input, coloured frames on standard output.
 *
 *     rgb24 [-q] WIDTH HEIGHT [CHOICE] [METHOD]    measures each frame as a shot of its own
 *     rgb24 [-q] -c CURVE WIDTH HEIGHT [METHOD]    colours every frame by the curve in the file CURVE
 *
 * CHOICE is 1 (cube, the default) or 2 (equalised); METHOD is 1 (Naik and Murthy) or 2 (Yang and Lee, the default). The file
 * CURVE has the bytes that cube_balance_curve writes.
 *
 * A curve for every frame flickers and undoes fades: a whole shot is one curve. The proved programs bin/measure and bin/colour
 * make that curve and colour by it, for streams of any length: `bin/measure <raw >curve`, then `bin/colour curve <raw >coloured`.
 * This filter is for C programmers, who see here how the two calls are made for frames.
 *
 * The time that the calls took for each frame goes to standard error, beside the slot of a frame at 24 frames a second, and a
 * summary at the end; with -q only failures are told. Exit status 2: bad arguments; 1: anything else that failed. docs/VIDEO.md
 * has the commands around it.
 */
#define _POSIX_C_SOURCE 200809L
#include "cube_balance.h"

#include <errno.h>
#include <signal.h>
#include <stdarg.h>
#include <stdbool.h>
#include <stdio.h>
#include <stdlib.h>
#include <string.h>
#include <time.h>

static const double SLOT_MS = 41.7;
static const char USAGE[] = "usage: rgb24 [-q] WIDTH HEIGHT [CHOICE] [METHOD]\n"
                            "   or: rgb24 [-q] -c CURVE WIDTH HEIGHT [METHOD]";

struct job {
    size_t frame_length; /* bytes */
    uint32_t choice, method;
    bool quiet;
    const char *curve_file;                   /* NULL where each frame is measured */
    uint8_t curve[CUBE_BALANCE_CURVE_LENGTH]; /* the file's, or the last frame's */
    uint8_t *source, *destination;            /* one frame each, for the whole run */
    double *times;                            /* milliseconds of every frame so far */
    size_t frames, room;
};

static _Noreturn void stop(int status, const char *format, ...)
{
    va_list arguments;
    va_start(arguments, format);
    fprintf(stderr, "rgb24: ");
    vfprintf(stderr, format, arguments);
    fprintf(stderr, "\n");
    va_end(arguments);
    exit(status);
}

/* A whole number from 1 to `most`, in decimal digits and nothing else: strtoul alone would take "-1", " 1" and "1x". */
static unsigned long number_of(const char *name, const char *text, unsigned long most)
{
    size_t digits = strspn(text, "0123456789");
    if (digits == 0 || text[digits] != '\0')
        stop(2, "%s is not a number: '%s'", name, text);
    errno = 0;
    unsigned long number = strtoul(text, NULL, 10);
    if (errno != 0 || number < 1 || number > most)
        stop(2, "%s is not from 1 to %lu: %s", name, most, text);
    return number;
}

/* A hyphen before a digit begins no option: "-5" is told of as a width. */
static bool is_option(const char *text)
{
    return text[0] == '-' && strspn(text + 1, "0123456789") == 0;
}

/* Takes the options, and hands back the place of the first argument after them. */
static int take_options(struct job *job, int argc, char **argv)
{
    int place = 1;
    for (; place < argc && is_option(argv[place]); place++) {
        if (strcmp(argv[place], "-q") == 0)
            job->quiet = true;
        else if (strcmp(argv[place], "-c") != 0)
            stop(2, "no such option: '%s'\n%s", argv[place], USAGE);
        else if (++place == argc)
            stop(2, "no file after -c\n%s", USAGE);
        else
            job->curve_file = argv[place];
    }
    return place;
}

static struct job job_of(int argc, char **argv)
{
    struct job job = {.choice = CUBE_BALANCE_CUBE, .method = CUBE_BALANCE_YANG_LEE};
    int place = take_options(&job, argc, argv);
    int left = argc - place;
    /* a choice is how to make a curve, so there is none where the curve is given */
    if (left < 2 || left > (job.curve_file == NULL ? 4 : 3))
        stop(2, "too %s arguments\n%s", left < 2 ? "few" : "many", USAGE);
    unsigned long width = number_of("width", argv[place++], CUBE_BALANCE_PIXEL_LIMIT);
    unsigned long height = number_of("height", argv[place++], CUBE_BALANCE_PIXEL_LIMIT);
    if (place < argc && job.curve_file == NULL)
        job.choice = (uint32_t)number_of("choice", argv[place++], 2);
    if (place < argc)
        job.method = (uint32_t)number_of("method", argv[place], 2);
    /* by division, since the product might not fit */
    if (width > CUBE_BALANCE_PIXEL_LIMIT / height)
        stop(2, "a frame of %lu by %lu has more than %d pixels", width, height, CUBE_BALANCE_PIXEL_LIMIT);
    job.frame_length = 3 * (size_t)width * height;
    return job;
}

/* The library says whether the bytes are a curve: with no pixel to colour and a method that is one, it can refuse nothing else. */
static void expect_curve(const struct job *job, const uint8_t *bytes, size_t length)
{
    uint32_t number = cube_balance_colour(bytes, length, job->method, NULL, 0, NULL, 0);
    if (number == CUBE_BALANCE_CURVE_LENGTH_WRONG)
        stop(1, "curve '%s': refused %u, it is not %d bytes long", job->curve_file, (unsigned)number, CUBE_BALANCE_CURVE_LENGTH);
    if (number != CUBE_BALANCE_ACCEPTED)
        stop(1, "curve '%s': refused %u, its entries break the rule", job->curve_file, (unsigned)number);
}

static void read_curve(struct job *job)
{
    uint8_t bytes[sizeof job->curve + 1] = {0}; /* one more, since a longer file has to show as one */
    FILE *file = fopen(job->curve_file, "rb");
    size_t length = file == NULL ? 0 : fread(bytes, 1, sizeof bytes, file);
    if (file == NULL || ferror(file))
        stop(1, "curve '%s': %s", job->curve_file, strerror(errno));
    fclose(file);
    expect_curve(job, bytes, length);
    memcpy(job->curve, bytes, sizeof job->curve);
}

/* Zeroed, since every byte lent to a call must have been set. */
static void *memory(size_t length)
{
    void *bytes = calloc(length, 1);
    if (bytes == NULL)
        stop(1, "no memory for %zu bytes", length);
    return bytes;
}

/* One frame from standard input, for whose bytes fread waits; false where the input ends before its first byte. */
static bool read_frame(const struct job *job)
{
    size_t got = fread(job->source, 1, job->frame_length, stdin);
    if (ferror(stdin))
        stop(1, "reading frame %zu: %s", job->frames + 1, strerror(errno));
    if (got != 0 && got < job->frame_length)
        stop(1, "frame %zu ended after %zu of %zu bytes", job->frames + 1, got, job->frame_length);
    return got != 0;
}

/* Flushed frame by frame, so that a failure is told of the frame that it hits, and a player downstream need not wait. */
static void write_frame(const struct job *job)
{
    size_t put = fwrite(job->destination, 1, job->frame_length, stdout);
    if (put < job->frame_length || fflush(stdout) != 0)
        stop(1, "writing frame %zu: %s", job->frames + 1, strerror(errno));
}

static double now_ms(void)
{
    struct timespec now;
    clock_gettime(CLOCK_MONOTONIC, &now);
    return 1000.0 * (double)now.tv_sec + (double)now.tv_nsec / 1e6;
}

static void expect_accepted(const struct job *job, const char *call, uint32_t number)
{
    if (number != CUBE_BALANCE_ACCEPTED)
        stop(1, "frame %zu: %s refused %u", job->frames + 1, call, (unsigned)number);
}

static void keep_time(struct job *job, double ms)
{
    if (job->frames == job->room) {
        job->room = job->room == 0 ? 1024 : 2 * job->room;
        job->times = realloc(job->times, job->room * sizeof *job->times);
        if (job->times == NULL)
            stop(1, "no memory for %zu times", job->room);
    }
    job->times[job->frames++] = ms;
}

/* Makes the frame's curve, and hands back the milliseconds that it took. */
static double measure_frame(struct job *job)
{
    double start = now_ms();
    expect_accepted(job, "cube_balance_curve",
                    cube_balance_curve(job->source, job->frame_length, job->choice, job->curve, sizeof job->curve));
    return now_ms() - start;
}

static double colour_frame(const struct job *job)
{
    double start = now_ms();
    expect_accepted(job, "cube_balance_colour",
                    cube_balance_colour(job->curve, sizeof job->curve, job->method, job->source, job->frame_length,
                                        job->destination, job->frame_length));
    return now_ms() - start;
}

static void tell_times(const struct job *job, double curve, double colour)
{
    double together = curve + colour, share = 100.0 * together / SLOT_MS;
    if (job->curve_file != NULL)
        fprintf(stderr, "frame %zu: colour %.3f ms, %.1f %% of %.1f ms\n", job->frames, colour, share, SLOT_MS);
    else
        fprintf(stderr, "frame %zu: curve %.3f ms, colour %.3f ms, together %.3f ms, %.1f %% of %.1f ms\n", job->frames,
                curve, colour, together, share, SLOT_MS);
}

static void balance_frame(struct job *job)
{
    double curve = job->curve_file == NULL ? measure_frame(job) : 0;
    double colour = colour_frame(job);
    write_frame(job);
    keep_time(job, curve + colour);
    if (!job->quiet)
        tell_times(job, curve, colour);
}

static int by_size(const void *a, const void *b)
{
    double x = *(const double *)a, y = *(const double *)b;
    return (x > y) - (x < y);
}

static size_t over_the_slot(const struct job *job)
{
    size_t over = 0;
    for (size_t i = 0; i < job->frames; i++)
        over += job->times[i] > SLOT_MS;
    return over;
}

static void summary(const struct job *job)
{
    size_t middle = job->frames / 2;
    qsort(job->times, job->frames, sizeof *job->times, by_size);
    double median = job->frames % 2 ? job->times[middle] : (job->times[middle - 1] + job->times[middle]) / 2;
    fprintf(stderr, "%zu frames: median %.3f ms, worst %.3f ms, %zu over %.1f ms\n", job->frames, median,
            job->times[job->frames - 1], over_the_slot(job), SLOT_MS);
}

int main(int argc, char **argv)
{
    struct job job = job_of(argc, argv);
    if (job.curve_file != NULL)
        read_curve(&job);
    signal(SIGPIPE, SIG_IGN); /* a closed pipe is then a failed write, which is told */
    job.source = memory(job.frame_length);
    job.destination = memory(job.frame_length);
    while (read_frame(&job))
        balance_frame(&job);
    if (job.frames == 0)
        stop(1, "no frame on standard input");
    if (fclose(stdout) != 0)
        stop(1, "closing standard output: %s", strerror(errno));
    if (!job.quiet)
        summary(&job);
    return 0;
}
