/* Reads drawn and spoiled lines through include/rueladle.h. Lines are drawn here by hand, with no code of the library.
 * Ends with status 1 at the first reading that is not as it must be. */
#include "rueladle.h"

#include <stdio.h>
#include <stdlib.h>
#include <string.h>

enum { SYMBOLS = 240, MOST = 3840, ROOM = 100, OLD = 0xA5 };

static uint16_t line[MOST + SYMBOLS];
static uint8_t payload[60];
static int readings = 0;

static const uint32_t depths[3] = {8, 10, 12};
static const uint32_t sizes[5] = {1, 2, 3, 8, 16};

/* the unit of levels at a depth */
static uint32_t unit(uint32_t depth) { return depth == 8 ? 1 : depth == 10 ? 4 : 16; }

/* symbol k of the payload, at one bit or two to a symbol */
static uint32_t symbol(int bits, int k) {
    int per = 8 / bits;
    return payload[k / per] >> (8 - bits * (k % per + 1)) & ((1u << bits) - 1);
}

/* fills symbol k with a level */
static void fill(uint32_t n, int k, uint32_t level) {
    for (uint32_t j = 0; j < n; j++) line[(uint32_t)k * n + j] = (uint16_t)level;
}

static void draw_1x(uint32_t n, uint32_t zero, uint32_t one) {
    for (int k = 0; k < SYMBOLS; k++) fill(n, k, symbol(1, k) ? one : zero);
}

static void draw_2x(uint32_t q, uint32_t n) {
    for (int k = 0; k < SYMBOLS; k++) fill(n, k, (16 + 73 * symbol(2, k)) * q);
}

/* adds to one sample of symbol k */
static void nudge(uint32_t n, int k, int by) { line[(uint32_t)k * n] = (uint16_t)(line[(uint32_t)k * n] + by); }

static void fail(const char *what, const char *detail) {
    printf("capture: C program: %s: %s\n", what, detail);
    exit(1);
}

/* Reads so many bytes of the line into a buffer of so much room, and holds all that is told and written to what is wanted.
 * The samples lie at an odd address, and the buffer between bytes that must stay. */
static void read_as(const char *what, uint32_t depth, size_t bytes, size_t room, uint32_t refusal, uint64_t place, size_t length,
                    const uint8_t *want) {
    static uint8_t samples[2 * (MOST + SYMBOLS) + 2];
    uint8_t buffer[ROOM + 2];
    for (size_t i = 0; i < MOST + SYMBOLS; i++) {
        samples[2 * i + 1] = (uint8_t)(line[i] & 255);
        samples[2 * i + 2] = (uint8_t)(line[i] >> 8);
    }
    memset(buffer, OLD, sizeof buffer);
    struct rueladle_reading r = rueladle_read_line(depth, samples + 1, bytes, buffer + 1, room);
    if (r.refusal != refusal) fail(what, "refusal");
    if (r.place != place) fail(what, "place");
    if (r.length != length) fail(what, "length");
    for (size_t i = 0; i < sizeof buffer; i++) {
        int found = i >= 1 && i < 1 + length;
        if (buffer[i] != (found ? want[i - 1] : OLD)) fail(what, found ? "payload" : "a byte that must stay");
    }
    readings++;
}

static void found(const char *what, uint32_t depth, uint32_t n, size_t length) {
    read_as(what, depth, 480 * n, 60, 0, 0, length, payload);
    read_as(what, depth, 480 * n, ROOM, 0, 0, length, payload);
}

static void no_run_in(const char *what, uint32_t depth, uint32_t n) { read_as(what, depth, 480 * n, 60, 0, 0, 0, payload); }

static void refused(const char *what, uint32_t depth, size_t bytes, size_t room, uint32_t refusal, uint64_t place) {
    read_as(what, depth, bytes, room, refusal, place, 0, payload);
}

/* every depth and several weights, as drawn */
static void drawn(void) {
    for (int d = 0; d < 3; d++)
        for (int s = 0; s < 5; s++) {
            uint32_t q = unit(depths[d]), n = sizes[s];
            draw_1x(n, 4 * q, 20 * q), found("1X, closest levels", depths[d], n, 30);
            draw_1x(n, 16 * q, 32 * q), found("1X, highest zero", depths[d], n, 30);
            draw_1x(n, 4 * q, 100 * q), found("1X, widest levels", depths[d], n, 30);
            draw_2x(q, n), found("2X", depths[d], n, 60);
        }
}

/* every sample off by as much as the tolerance allows, towards the other values */
static void tolerated(void) {
    for (int d = 0; d < 3; d++) {
        uint32_t q = unit(depths[d]), n = 8, e = (16 * q - 1) / 4, f = (73 * q - 1) / 2;
        draw_1x(n, 4 * q + e, 20 * q - e), found("1X, at the tolerance", depths[d], n, 30);
        draw_2x(q, n);
        for (int k = 0; k < SYMBOLS; k++) fill(n, k, symbol(2, k) == 3 ? 235 * q - f : (16 + 73 * symbol(2, k)) * q + f);
        found("2X, at the tolerance, upwards", depths[d], n, 60);
        for (int k = 0; k < SYMBOLS; k++) fill(n, k, symbol(2, k) == 0 ? 16 * q + f : (16 + 73 * symbol(2, k)) * q - f);
        found("2X, at the tolerance, downwards", depths[d], n, 60);
        draw_1x(n, 4 * q + 4 * q, 20 * q - 4 * q), no_run_in("1X, past the tolerance", depths[d], n);
    }
}

/* the sums at which a symbol and a run-in change */
static void edges(void) {
    uint8_t other[60];
    for (int d = 0; d < 3; d++) { /* 2 (O - Z) must exceed 16 q n */
        uint32_t q = unit(depths[d]), n = 8;
        draw_1x(n, 10 * q, 18 * q), no_run_in("1X, run-in one short", depths[d], n);
        for (int k = 0; k < 16; k++)
            if (symbol(1, k)) nudge(n, k, 1);
        found("1X, run-in just there", depths[d], n, 30);
    }
    memcpy(other, payload, sizeof other);
    draw_1x(8, 4, 40), fill(8, 239, 22); /* Z + O = 352, S = 176 */
    other[29] |= 1, read_as("1X, S = 176", 8, 3840, 60, 0, 0, 30, other);
    nudge(8, 239, -1);
    other[29] &= 0xFE, read_as("1X, S = 175", 8, 3840, 60, 0, 0, 30, other);
    static const uint32_t sums[6] = {419, 420, 1003, 1004, 1587, 1588}, values[6] = {0, 1, 1, 2, 2, 3};
    for (int i = 0; i < 6; i++) {
        memcpy(other, payload, sizeof other);
        draw_2x(1, 8), fill(8, 239, sums[i] / 8), nudge(8, 239, (int)(sums[i] % 8));
        other[59] = (uint8_t)((other[59] & 0xFC) | values[i]), read_as("2X, a sum at a cut", 8, 3840, 60, 0, 0, 60, other);
    }
    draw_2x(1, 8), fill(8, 6, 52), nudge(8, 6, 3), found("2X, run-in just there", 8, 8, 60); /* S = 419 is still a 0 */
    nudge(8, 6, 1), no_run_in("2X, run-in gone", 8, 8);
}

/* lines that carry nothing */
static void unmarked(void) {
    for (int d = 0; d < 3; d++) {
        memset(line, 0, sizeof line), no_run_in("black", depths[d], 8);
        for (int i = 0; i < MOST; i++) line[i] = (uint16_t)(256 * unit(depths[d]) - 1);
        no_run_in("white", depths[d], 16);
        for (int i = 0; i < MOST; i++) line[i] = (uint16_t)(i % 256);
        no_run_in("ramp", depths[d], 8);
    }
}

/* each refusal at its edge, and which goes before which */
static void refusals(void) {
    static const uint32_t wrong[] = {0, 7, 9, 11, 13, 16, 264, 4294967295u};
    static const size_t counts[] = {0, 1, 239, 241, 1919, 1921, 3839, 3841, 4080};
    draw_2x(1, 8);
    for (size_t i = 0; i < sizeof wrong / sizeof *wrong; i++) {
        refused("depth", wrong[i], 3840, 60, 11, 0);
        refused("depth before all", wrong[i], 3841, 0, 11, 0);
    }
    for (size_t i = 0; i < sizeof counts / sizeof *counts; i++) {
        refused("sample count", 8, 2 * counts[i], 60, 1, counts[i]);
        refused("sample count before room", 8, 2 * counts[i], 0, 1, counts[i]);
        refused("odd bytes", 8, 2 * counts[i] + 1, 60, 1, counts[i]);
    }
    refused("odd bytes over a good count", 8, 3841, 60, 1, 1920);
    refused("odd bytes under a good count", 8, 3839, 60, 1, 1919);
    refused("odd bytes over the longest line", 8, 7681, 60, 1, 3840);
    refused("room 59", 8, 3840, 59, 4, 59), refused("room 0", 8, 3840, 0, 4, 0);
    for (int d = 0; d < 3; d++) {
        uint32_t q = unit(depths[d]);
        draw_2x(q, 8), line[1919] = (uint16_t)(256 * q - 1);
        line[1920] = 65535; /* behind the line: not looked at */
        found("largest sample", depths[d], 8, 60);
        line[1919] = (uint16_t)(256 * q), refused("sample size, last", depths[d], 3840, 60, 2, 1919);
        line[7] = 65535, refused("sample size, first counts", depths[d], 3840, 60, 2, 7);
        refused("sample size before room", depths[d], 3840, 59, 2, 7);
        refused("sample count before sample size", depths[d], 3838, 60, 1, 1919);
        line[0] = (uint16_t)(256 * q), refused("sample size, at 0", depths[d], 3840, 60, 2, 0);
    }
}

int main(void) {
    for (int i = 0; i < 60; i++) payload[i] = (uint8_t)(37 * i);
    payload[0] = 0xEB, payload[1] = 0x52;
    payload[59] |= 3; /* so that the last symbol of 2X bears the largest sample */
    drawn(), tolerated(), edges(), unmarked(), refusals();
    printf("capture: C program, %d readings right\n", readings);
    return 0;
}
