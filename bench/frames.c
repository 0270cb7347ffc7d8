#include "frames.h"

/* A number that the arguments alone decide (a mix of shifts and multiplications; any would do). */
static uint32_t noise(uint32_t x, uint32_t y, uint32_t layer)
{
    uint32_t h = x * 0x9E3779B1u ^ y * 0x85EBCA77u ^ layer * 0xC2B2AE3Du;
    h = (h ^ h >> 15) * 0x2C1B3C6Du;
    h = (h ^ h >> 12) * 0x297A2D39u;
    return h ^ h >> 15;
}

/* Noise on a grid of `cell` pixels, 0 to 1, and between the grid's points by smooth weights. */
static double smooth_noise(double x, double y, double cell, uint32_t layer)
{
    double u = x / cell, v = y / cell;
    uint32_t i = (uint32_t)u, j = (uint32_t)v;
    u -= i;
    v -= j;
    u = u * u * (3 - 2 * u);
    v = v * v * (3 - 2 * v);
    double corner[4];
    for (uint32_t k = 0; k < 4; k++)
        corner[k] = noise(i + k % 2, j + k / 2, layer) / 4294967295.0;
    double top = corner[0] + u * (corner[1] - corner[0]);
    double bottom = corner[2] + u * (corner[3] - corner[2]);
    return top + v * (bottom - top);
}

static uint8_t sample(double x)
{
    return (uint8_t)(x < 0 ? 0 : x > 255 ? 255 : x + 0.5);
}

/* Every sample by itself. */
static void random_pixel(size_t x, size_t y, uint8_t *p)
{
    for (uint32_t c = 0; c < 3; c++)
        p[c] = (uint8_t)(noise((uint32_t)x, (uint32_t)y, c) >> 24);
}

/* A sky: each channel a slope over the whole frame. */
static void smooth_pixel(double u, double v, uint8_t *p)
{
    p[0] = sample(30 + 120 * v + 40 * u);
    p[1] = sample(60 + 130 * v);
    p[2] = sample(110 + 120 * v - 30 * u);
}

/* One tone, as of a leader card. */
static void flat_pixel(uint8_t *p)
{
    p[0] = 96;
    p[1] = 128;
    p[2] = 144;
}

/* A scene: light in patches of many sizes, colour in large ones, darker towards the corners, and grain on every sample. */
static void scene_pixel(size_t x, size_t y, double u, double v, uint8_t *p)
{
    double light = 0, weight = 0.5, cell = 512;
    for (uint32_t layer = 0; layer < 6; layer++) {
        light += weight * smooth_noise((double)x, (double)y, cell, 16 + layer);
        weight /= 2;
        cell /= 2.5;
    }
    light *= 1.1 - (u - 0.5) * (u - 0.5) - (v - 0.5) * (v - 0.5);
    for (uint32_t c = 0; c < 3; c++) {
        double tint = 0.7 + 0.6 * smooth_noise((double)x, (double)y, 300, 32 + c);
        double grain = (double)(noise((uint32_t)x, (uint32_t)y, 48 + c) % 9) - 4;
        p[c] = sample(190 * light * tint + grain);
    }
}

const char *frame_name(enum frame_kind kind)
{
    static const char *const names[FRAME_KINDS] = {
        [RANDOM] = "random", [SMOOTH] = "smooth", [FLAT] = "flat", [REAL_LOOKING] = "real-looking"};
    return names[kind];
}

static void make_pixel(enum frame_kind kind, size_t x, size_t y, double u, double v, uint8_t *p)
{
    switch (kind) {
    case RANDOM: random_pixel(x, y, p); break;
    case SMOOTH: smooth_pixel(u, v, p); break;
    case FLAT: flat_pixel(p); break;
    default: scene_pixel(x, y, u, v, p); break;
    }
}

void make_frame(enum frame_kind kind, size_t width, size_t height, uint8_t *pixels)
{
    for (size_t y = 0; y < height; y++)
        for (size_t x = 0; x < width; x++)
            make_pixel(kind, x, y, (double)x / (double)width, (double)y / (double)height, pixels + 3 * (y * width + x));
}
