/*
 * What the programs `measure` and `colour` do, by the library for C: raw rgb24 from standard input in pieces of the same size, and what
 * comes of it to standard output. bench/filters.py times it beside them.
 *
 *     filter measure CHOICE
 *     filter colour CURVE METHOD [off | mix K | hold V]
 *     filter read
 *
 * Each piece is coloured by cube_balance_colour. For mix plain C's loop follows; for hold the curve has the value for every intensity but
 * black's and white's, which a hold leaves as they are; off writes a piece from where it was read. The library has a curve of a whole
 * strip only, for which the stream would have to be held in memory: so measuring is plain C's histogram, piece by piece, and plain C's
 * fixing. `read` does nothing with what it reads: with the library's own time for measuring, in the benchmark's first table, that is what
 * the library and the pipe take.
 */
#define _POSIX_C_SOURCE 200809L
#include "cube_balance.h"
#include "plain.h"

#include <fcntl.h>
#include <stdio.h>
#include <stdlib.h>
#include <string.h>
#include <unistd.h>

/* The bytes of a piece, as in crates/pieces. */
enum { PIECE = 196608 };

/* Mix at 1, which is no mix. */
enum { FULL = 256 };

static uint8_t piece[PIECE];

static void must(int so, const char *what)
{
    if (so)
        return;
    fprintf(stderr, "filter: %s\n", what);
    exit(1);
}

/* Reads until the piece is full or the input ends. */
static size_t read_piece(void)
{
    size_t size = 0;
    ssize_t came = 1;
    while (size < PIECE && came > 0) {
        came = read(STDIN_FILENO, piece + size, PIECE - size);
        must(came >= 0, "the input cannot be read");
        size += (size_t)came;
    }
    return size;
}

static void write_all(const uint8_t *bytes, size_t length)
{
    while (length > 0) {
        ssize_t gone = write(STDOUT_FILENO, bytes, length);
        must(gone > 0, "the output cannot be written");
        bytes += gone;
        length -= (size_t)gone;
    }
}

static uint32_t number(const char *text)
{
    return (uint32_t)strtoul(text, NULL, 10);
}

static void measure(uint32_t choice)
{
    uint32_t counts[PLAIN_SUMS] = {0};
    uint8_t curve[CUBE_BALANCE_CURVE_LENGTH];
    size_t size;
    do {
        size = read_piece();
        plain_count(piece, size, counts);
    } while (size == PIECE);
    plain_fix(counts, choice, curve);
    write_all(curve, sizeof curve);
}

/* How a stream is coloured. */
typedef struct {
    uint8_t curve[CUBE_BALANCE_CURVE_LENGTH];
    uint32_t method;
    uint32_t mix;
} Grade;

static void read_curve(const char *name, uint8_t *curve)
{
    int file = open(name, O_RDONLY);
    must(file >= 0 && read(file, curve, CUBE_BALANCE_CURVE_LENGTH) == CUBE_BALANCE_CURVE_LENGTH, "the curve cannot be read");
    close(file);
}

/* The entries for 0 and 765 stay. */
static void hold(uint32_t v, uint8_t *curve)
{
    for (uint32_t s = 1; s < PLAIN_SUMS - 1; s++) {
        curve[2 * s] = (uint8_t)(v % 256);
        curve[2 * s + 1] = (uint8_t)(v / 256);
    }
}

static void write_coloured(const Grade *g, size_t size)
{
    static uint8_t room[PIECE];
    uint32_t answer = cube_balance_colour(g->curve, sizeof g->curve, g->method, piece, size, room, size);
    must(answer == CUBE_BALANCE_ACCEPTED, "the library refused");
    if (g->mix < FULL)
        plain_blend(g->mix, piece, size, room);
    write_all(room, size);
}

static void colour(const Grade *g)
{
    size_t size;
    do {
        size = read_piece();
        write_coloured(g, size);
    } while (size == PIECE);
}

static void copy(void)
{
    size_t size;
    do {
        size = read_piece();
        write_all(piece, size);
    } while (size == PIECE);
}

static void read_alone(void)
{
    while (read_piece() == PIECE)
        continue;
}

static void colour_as_told(char **words)
{
    Grade g = {.method = number(words[1]), .mix = FULL};
    const char *setting = words[2] == NULL ? "" : words[2];
    read_curve(words[0], g.curve);
    if (strcmp(setting, "mix") == 0)
        g.mix = number(words[3]);
    if (strcmp(setting, "hold") == 0)
        hold(number(words[3]), g.curve);
    if (strcmp(setting, "off") == 0)
        copy();
    else
        colour(&g);
}

int main(int count, char **arguments)
{
    const char *job = count > 1 ? arguments[1] : "";
    if (strcmp(job, "measure") == 0 && count == 3)
        measure(number(arguments[2]));
    else if (strcmp(job, "colour") == 0 && count >= 4 && count <= 6)
        colour_as_told(arguments + 2);
    else if (strcmp(job, "read") == 0 && count == 2)
        read_alone();
    else
        must(0, "usage: filter measure CHOICE | colour CURVE METHOD [off | mix K | hold V] | read");
    return 0;
}
