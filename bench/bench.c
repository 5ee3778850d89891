/* The work that is measured, in plain C: reading one line off bytes by 1X, else 2X, and offering a line to a reader that watches
 * the numbers 1, 2 and 3. docs/LINES.md, BLOCKS.md, READER.md and TRAY.md have the rules. Compiled once for each compiler, with
 * the compiler's name behind each function's. */
#include "rueladle.h"

#include <endian.h>
#include <string.h>

#define JOINED(a, b) a##_##b
#define NAMED(a, b) JOINED(a, b)
#define CALL(name) NAMED(name, COMPILER)

enum {
    SYMBOLS = 240,
    WIDEST = 16,
    ROOM = 60,
    TRAY_LEAST = 1630,
    PARTS = 4,
    PART_MOST = 51,
    STAYS = 255,
    ENTRIES_MOST = 9,
    WATCHED = 3,
};

/* What an offer came to: a refusal's number and place, or the figures of its answer. */
struct offer_reading {
    uint32_t refusal;
    uint64_t place, length, used, skipped;
};

/* --- lines --- */

/* the unit of levels at a depth, 0 where there is no such depth */
static uint32_t unit(uint32_t depth) { return depth == 8 ? 1 : depth == 10 ? 4 : depth == 12 ? 16 : 0; }

/* samples of a symbol, 0 where no line has so many samples */
static uint32_t symbol_width(size_t count) {
    return count % SYMBOLS == 0 && count / SYMBOLS <= WIDEST ? (uint32_t)(count / SYMBOLS) : 0;
}

/* the first sample at the limit or above, or the count; the largest is looked for first, many samples at once */
static size_t too_large(const uint16_t *line, size_t count, uint32_t limit) {
    uint16_t most = 0;
    for (size_t i = 0; i < count; i++) most = line[i] > most ? line[i] : most;
    if (most < limit) return count;
    size_t i = 0;
    while (line[i] < limit) i++;
    return i;
}

/* sums of n samples each; n is a constant where this is inlined */
static inline __attribute__((always_inline)) void sums(const uint16_t *line, uint32_t n, uint32_t from, uint32_t to,
                                                       uint32_t *levels) {
    for (uint32_t k = from; k < to; k++) {
        uint32_t all = 0;
        for (uint32_t i = 0; i < n; i++) all += line[k * n + i];
        levels[k] = all;
    }
}

static void symbol_levels(const uint16_t *line, uint32_t n, uint32_t from, uint32_t to, uint32_t *levels) {
    switch (n) {
    case 6: sums(line, 6, from, to, levels); break;
    case 8: sums(line, 8, from, to, levels); break;
    case 16: sums(line, 16, from, to, levels); break;
    default: sums(line, n, from, to, levels);
    }
}

/* Whether 1X finds its run-in EB 52 in the first 16 levels, and the cut: the largest level at a zero and the smallest at a one. */
static int run_in_1x(const uint32_t *levels, uint32_t n, uint32_t q, uint32_t *cut) {
    uint32_t z = 0, o = UINT32_MAX;
    for (int k = 0; k < 16; k++) {
        if (0xEB52 >> (15 - k) & 1)
            o = levels[k] < o ? levels[k] : o;
        else
            z = levels[k] > z ? levels[k] : z;
    }
    *cut = z + o;
    return o >= z && 2 * (o - z) > 16 * q * n;
}

static uint8_t byte_1x(const uint32_t *levels, uint32_t cut) {
    uint32_t byte = 0;
    for (int k = 0; k < 8; k++) byte = byte << 1 | (2 * levels[k] >= cut);
    return (uint8_t)byte;
}

static uint8_t byte_2x(const uint32_t *levels, const uint32_t *cuts) {
    uint32_t byte = 0;
    for (int k = 0; k < 4; k++) {
        uint32_t s = 2 * levels[k];
        byte = byte << 2 | ((s >= cuts[0]) + (s >= cuts[1]) + (s >= cuts[2]));
    }
    return (uint8_t)byte;
}

/* Reads a line that has passed its tests: the payload's length, 0 where there is no run-in. Only the run-in's symbols are summed
 * before it is found. */
static size_t find(const uint16_t *line, uint32_t n, uint32_t q, uint8_t *payload) {
    uint32_t levels[SYMBOLS], cut, cuts[3];
    symbol_levels(line, n, 0, 16, levels);
    if (run_in_1x(levels, n, q, &cut)) {
        symbol_levels(line, n, 16, SYMBOLS, levels);
        for (int j = 0; j < 30; j++) payload[j] = byte_1x(levels + 8 * j, cut);
        return 30;
    }
    for (uint32_t v = 0; v < 3; v++) cuts[v] = n * q * (2 * 16 + 73 * (2 * v + 1));
    if (byte_2x(levels, cuts) != 0xEB || byte_2x(levels + 4, cuts) != 0x52) return 0;
    symbol_levels(line, n, 16, SYMBOLS, levels);
    for (int j = 0; j < 60; j++) payload[j] = byte_2x(levels + 4 * j, cuts);
    return 60;
}

struct rueladle_reading CALL(c_read_line)(uint32_t depth, const uint8_t *samples, size_t sample_bytes, uint8_t *payload,
                                          size_t payload_room) {
    uint16_t line[SYMBOLS * WIDEST];
    uint32_t q = unit(depth);
    size_t count = sample_bytes / 2;
    uint32_t n = sample_bytes % 2 == 0 ? symbol_width(count) : 0;
    if (q == 0) return (struct rueladle_reading){11, 0, 0};
    if (n == 0) return (struct rueladle_reading){1, count, 0};
    for (size_t i = 0; i < count; i++) {
        uint16_t s;
        memcpy(&s, samples + 2 * i, 2);
        line[i] = le16toh(s);
    }
    size_t at = too_large(line, count, 256 * q);
    if (at < count) return (struct rueladle_reading){2, at, 0};
    if (payload_room < ROOM) return (struct rueladle_reading){4, payload_room, 0};
    return (struct rueladle_reading){0, 0, find(line, n, q, payload)};
}

/* --- blocks --- */

static uint32_t steps[256];

__attribute__((constructor)) static void make_steps(void) {
    for (uint32_t byte = 0; byte < 256; byte++) {
        uint32_t r = byte << 24;
        for (int bit = 0; bit < 8; bit++) r = r << 1 ^ (r >> 31) * 0x04C11DB7u;
        steps[byte] = r;
    }
}

static uint32_t crc_on(uint32_t r, const uint8_t *bytes, size_t n) {
    for (size_t i = 0; i < n; i++) r = r << 8 ^ steps[(r >> 24) ^ bytes[i]];
    return r;
}

static uint32_t big_endian(const uint8_t *b) {
    return (uint32_t)b[0] << 24 | (uint32_t)b[1] << 16 | (uint32_t)b[2] << 8 | b[3];
}

struct block {
    uint8_t number, version, part, last, length;
    const uint8_t *body;
    uint32_t message_crc;
};

/* Reads the block at the front of n bytes: a fault's cause, or 0; next is the length to the next block, n where none follows. */
static uint8_t read_block(const uint8_t *b, size_t n, struct block *block, size_t *next) {
    *next = n;
    if (n < 2 || b[1] < 5 || b[1] + 2u > n) return 1;
    size_t end = b[1] + 2u;
    if (crc_on(UINT32_MAX, b, end - 4) != big_endian(b + end - 4)) return 2;
    *next = end;
    *block = (struct block){b[0], b[2] >> 4, b[2] >> 2 & 3, b[2] & 3, (uint8_t)(end - 7), b + 3, 0};
    if (block->part > block->last) return 3;
    if (block->last > 0 && block->part == block->last) {
        if (block->length < 4) return 4;
        block->length -= 4;
        block->message_crc = big_endian(block->body + block->length);
    }
    return 0;
}

/* --- the reader --- */

struct part {
    uint64_t frame;
    uint32_t message_crc;
    uint8_t held, length, bytes[PART_MOST];
};

struct slot {
    uint8_t number, version, last;
    struct part parts[PARTS];
};

struct reader {
    uint32_t depth;
    uint64_t floor;
    struct slot slots[WATCHED];
};

/* A tray that is being written: faults stand behind the messages, so they wait. */
struct tray {
    uint8_t *bytes, messages, fault_count, faults[ENTRIES_MOST][4];
    size_t end;
};

static void fault(struct tray *tray, uint8_t layer, uint8_t cause, uint8_t number, size_t place) {
    uint8_t *f = tray->faults[tray->fault_count++];
    f[0] = layer, f[1] = cause, f[2] = number, f[3] = (uint8_t)place;
}

static void drop_parts(struct slot *slot) {
    for (int i = 0; i < PARTS; i++) slot->parts[i].held = 0;
}

/* Joins all parts of a slot into the tray, or tells a fault, and drops them. */
static void join(struct slot *slot, size_t place, struct tray *tray) {
    uint8_t *at = tray->bytes + tray->end + 3;
    size_t length = 0;
    for (int i = 0; i <= slot->last; i++) length += slot->parts[i].length;
    if (slot->last > 0) {
        uint32_t r = UINT32_MAX;
        for (int i = 0; i <= slot->last; i++) r = crc_on(r, slot->parts[i].bytes, slot->parts[i].length);
        if (r != slot->parts[slot->last].message_crc) {
            drop_parts(slot);
            fault(tray, 2, 1, slot->number, place);
            return;
        }
    }
    at[-3] = slot->number, at[-2] = slot->version, at[-1] = (uint8_t)length;
    for (int i = 0; i <= slot->last; i++) {
        memcpy(at, slot->parts[i].bytes, slot->parts[i].length);
        at += slot->parts[i].length;
    }
    tray->end += 3 + length;
    tray->messages++;
    drop_parts(slot);
}

/* Takes a watched block that was read at a frame. */
static void take(struct slot *slot, const struct block *block, uint64_t frame, size_t place, struct tray *tray) {
    int held = 0;
    if (block->version != slot->version || block->last != slot->last) {
        drop_parts(slot);
        slot->version = block->version;
        slot->last = block->last;
    }
    for (int i = 0; i < PARTS; i++)
        if (slot->parts[i].held && frame - slot->parts[i].frame > STAYS) slot->parts[i].held = 0;
    struct part *part = &slot->parts[block->part];
    part->frame = frame;
    part->message_crc = block->message_crc;
    part->held = 1;
    part->length = block->length;
    memcpy(part->bytes, block->body, block->length);
    for (int i = 0; i < PARTS; i++) held += slot->parts[i].held;
    if (held > slot->last) join(slot, place, tray);
}

/* Follows the blocks of a payload; how many were read that aren't watched. */
static size_t follow(struct reader *r, const uint8_t *payload, size_t length, uint64_t frame, struct tray *tray) {
    size_t skipped = 0, next;
    for (size_t place = 2; place < length && payload[place] != 0; place += next) {
        struct block block;
        uint8_t cause = read_block(payload + place, length - place, &block, &next);
        if (cause != 0) {
            fault(tray, 1, cause, payload[place], place);
            continue;
        }
        int i = 0;
        while (i < WATCHED && r->slots[i].number != block.number) i++;
        if (i < WATCHED)
            take(&r->slots[i], &block, frame, place, tray);
        else
            skipped++;
    }
    return skipped;
}

static size_t finish(struct tray *tray) {
    tray->bytes[0] = tray->messages;
    tray->bytes[tray->end] = tray->fault_count;
    memcpy(tray->bytes + tray->end + 1, tray->faults, 4u * tray->fault_count);
    return tray->end + 1 + 4u * tray->fault_count;
}

static struct offer_reading offer(struct reader *r, uint64_t frame, const uint16_t *line, size_t count, uint8_t *bytes,
                                  size_t room) {
    uint8_t payload[ROOM];
    struct tray tray = {.bytes = bytes, .end = 1};
    uint32_t q = unit(r->depth), n = symbol_width(count);
    if (n == 0) return (struct offer_reading){1, count, 0, 0, 0};
    size_t at = too_large(line, count, 256 * q);
    if (at < count) return (struct offer_reading){2, at, 0, 0, 0};
    if (frame < r->floor) return (struct offer_reading){3, 0, 0, 0, 0};
    if (room < TRAY_LEAST) return (struct offer_reading){4, room, 0, 0, 0};
    r->floor = frame;
    size_t length = find(line, n, q, payload);
    size_t skipped = follow(r, payload, length, frame, &tray);
    return (struct offer_reading){0, 0, length, finish(&tray), skipped};
}

/* Offers a line so many times to a new reader, at the frames 0, 1, 2 and so on; what the last offer came to. */
struct offer_reading CALL(c_offer_rounds)(uint32_t depth, const uint16_t *line, size_t count, uint32_t rounds, uint8_t *tray,
                                          size_t room) {
    struct reader r = {.depth = depth};
    struct offer_reading last = {0, 0, 0, 0, 0};
    if (unit(depth) == 0) return (struct offer_reading){11, 0, 0, 0, 0};
    for (uint8_t i = 0; i < WATCHED; i++) r.slots[i].number = i + 1;
    for (uint32_t i = 0; i < rounds; i++) last = offer(&r, i, line, count, tray, room);
    return last;
}
