/* Reading one video line for a capture program: docs/CAPTURE.md has the rules. */
#ifndef RUELADLE_H
#define RUELADLE_H

#include <stddef.h>
#include <stdint.h>

#ifdef __cplusplus
extern "C" {
#endif

/* The room that a payload asks for, in bytes. A payload itself has 30 bytes (1X) or 60 (2X). */
#define RUELADLE_PAYLOAD_ROOM 60

/* What came of a reading. */
struct rueladle_reading {
    uint32_t refusal; /* 0: not refused; else 11, 1, 2 or 4, tested in this order */
    uint64_t place;   /* of a refusal: the count, sample or length that it points to; else 0 */
    uint64_t length;  /* the payload's length; 0 where the line has no run-in, or was refused */
};

/*
 * Reads one line by 1X, else 2X.
 * depth: 8, 10 or 12 bits. samples: two bytes each, low byte first; sample_bytes is their length in bytes.
 * A payload that is found is written to the front of payload; no other byte of it changes, and none where no payload is found.
 * The pointers are not null, the lengths are those of the memory lent, and the two don't overlap: nothing else is asked.
 */
struct rueladle_reading rueladle_read_line(uint32_t depth, const uint8_t *samples, size_t sample_bytes, uint8_t *payload,
                                           size_t payload_room);

#ifdef __cplusplus
}
#endif

#endif
