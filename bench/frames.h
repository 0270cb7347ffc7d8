/* The frames that the benchmark measures, all made here and the same in every run. */
#ifndef FRAMES_H
#define FRAMES_H

#include <stddef.h>
#include <stdint.h>

/* The kinds of frame, and how many they are. */
enum frame_kind { RANDOM, SMOOTH, FLAT, REAL_LOOKING, FRAME_KINDS };

const char *frame_name(enum frame_kind kind);

/* Fills width × height pixels of three bytes. */
void make_frame(enum frame_kind kind, size_t width, size_t height, uint8_t *pixels);

#endif
