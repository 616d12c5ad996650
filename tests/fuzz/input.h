/* Taking the fuzzer's input apart, and mutating it file by file.
 *
 *   byte 0       the rooms: bits 0-1 for the first lent buffer and bits 2-3 for
 *                the second (0 exact, 1 one byte short, 2 none, 3 larger); bit 4
 *                tells at which end of a buffer the forbidden page lies
 *   bytes 1-10   the lengths of GRA, TRE, EDG, QRY and REL, two bytes each,
 *                big-endian
 *   the rest     the five files one after the other
 *
 * Every input is of use: where it is too short for its lengths, the files have
 * what is left. */
#ifndef INPUT_H
#define INPUT_H

#include <stddef.h>
#include <stdint.h>
#include <string.h>

enum { GRA, TRE, EDG, QRY, REL, FILES };
enum { HEAD = 1 + 2 * FILES };

typedef struct input {
    uint8_t rooms;
    const uint8_t *file[FILES];
    size_t len[FILES];
} input;

static inline input take_apart(const uint8_t *data, size_t size) {
    input taken = {0};
    if (size < HEAD) {
        for (int which = 0; which < FILES; which++)
            taken.file[which] = data;
        return taken;
    }
    taken.rooms = data[0];
    const uint8_t *at = data + HEAD;
    size_t left = size - HEAD;
    for (int which = 0; which < FILES; which++) {
        size_t len = (size_t)data[1 + 2 * which] << 8 | data[2 + 2 * which];
        if (len > left)
            len = left;
        taken.file[which] = at;
        taken.len[which] = len;
        at += len;
        left -= len;
    }
    return taken;
}

/* Puts an input together; answers its size, or 0 where it is too large. */
static inline size_t put_together(const input *from, uint8_t *data, size_t most) {
    size_t size = HEAD;
    for (int which = 0; which < FILES; which++)
        size += from->len[which];
    if (size > most)
        return 0;
    uint8_t *at = data + HEAD;
    data[0] = from->rooms;
    for (int which = 0; which < FILES; which++) {
        data[1 + 2 * which] = (uint8_t)(from->len[which] >> 8);
        data[2 + 2 * which] = (uint8_t)from->len[which];
        if (from->len[which] > 0)
            memcpy(at, from->file[which], from->len[which]);
        at += from->len[which];
    }
    return size;
}

#endif
