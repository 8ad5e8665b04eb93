/*
 * Reads a million LINK frames by liberldist and by libei of Erlang/OTP, in alternating blocks of one run, and
 * prints the time of each in nanoseconds a frame, the least of all blocks.
 *
 * Of each frame both read the operation and the two pids. liberldist also looks that the frame is whole, that
 * it is a control message, and that nothing is left over.
 */
#include "erldist.h"

#include <ei.h>
#include <stdio.h>
#include <stdlib.h>
#include <string.h>
#include <time.h>

enum { FRAMES = 1000000, BLOCKS = 20, BLOCK = FRAMES / BLOCKS };

/* LINK from <a@h.1.0.1> to <b@h.1.0.1>, with the id of each pid at 16 and 34. */
static const uint8_t LINK[46] = {
    0, 0, 0, 0x2A, 0x70, 0x83, 0x68, 3, 0x61, 1, 0x58, 0x77, 3, 0x61, 0x40, 0x68, 0, 0, 0, 1, 0, 0, 0, 0, 0, 0, 0, 1,
    0x58, 0x77, 3, 0x62, 0x40, 0x68, 0, 0, 0, 1, 0, 0, 0, 0, 0, 0, 0, 1,
};

/* Returns the seconds of this thread's processor time. */
static double seconds(void) {
    struct timespec now;
    clock_gettime(CLOCK_THREAD_CPUTIME_ID, &now);
    return (double)now.tv_sec + 1e-9 * (double)now.tv_nsec;
}

/* Reads the frames of a block, and returns the sum of the ids, or 0 if one isn't read. */
static uint64_t by_erldist(const uint8_t *bytes, size_t length) {
    uint64_t sum = 0;
    for (size_t at = 0; at < length;) {
        erldist_frame frame;
        erldist_seen_pid from, to;
        if (erldist_frame_head(bytes + at, length - at, &frame) != ERLDIST_OK || frame.length == 0) {
            return 0;
        }
        if (erldist_read_pid(bytes + at + frame.from.offset, frame.from.length, &from) != ERLDIST_OK ||
            erldist_read_pid(bytes + at + frame.to.offset, frame.to.length, &to) != ERLDIST_OK) {
            return 0;
        }
        sum += frame.operation + from.id + to.id;
        at += frame.length;
    }
    return sum;
}

/* Does the same by libei. */
static uint64_t by_ei(const uint8_t *bytes, size_t length) {
    uint64_t sum = 0;
    for (size_t at = 0; at < length; at += sizeof LINK) {
        const char *frame = (const char *)bytes + at;
        int index = 5, version, arity;
        long operation;
        erlang_pid from, to;
        if (ei_decode_version(frame, &index, &version) || ei_decode_tuple_header(frame, &index, &arity) ||
            ei_decode_long(frame, &index, &operation) || ei_decode_pid(frame, &index, &from) ||
            ei_decode_pid(frame, &index, &to)) {
            return 0;
        }
        sum += (uint64_t)operation + from.num + to.num;
    }
    return sum;
}

int main(void) {
    uint8_t *bytes = malloc((size_t)FRAMES * sizeof LINK);
    if (!bytes) {
        return 1;
    }
    for (size_t i = 0; i < FRAMES; i++) {
        memcpy(bytes + i * sizeof LINK, LINK, sizeof LINK);
        bytes[i * sizeof LINK + 19] = (uint8_t)(i % 251);
    }
    double least[2] = {1e9, 1e9};
    for (int round = 0; round < 5; round++) {
        for (int block = 0; block < BLOCKS; block++) {
            const uint8_t *part = bytes + (size_t)block * BLOCK * sizeof LINK;
            double first = seconds();
            uint64_t mine = by_erldist(part, BLOCK * sizeof LINK);
            double second = seconds();
            uint64_t theirs = by_ei(part, BLOCK * sizeof LINK);
            double third = seconds();
            if (mine == 0 || mine != theirs) {
                printf("the two read something else\n");
                return 1;
            }
            least[0] = second - first < least[0] ? second - first : least[0];
            least[1] = third - second < least[1] ? third - second : least[1];
        }
    }
    printf("liberldist %.0f ns, libei %.0f ns a frame\n", 1e9 * least[0] / BLOCK, 1e9 * least[1] / BLOCK);
    return 0;
}
