/* Reads a LINK, writes the UNLINK_ID that takes it back and a send_name, and computes a digest, by
 * liberldist. */
#include "erldist.h"

#include <stdio.h>
#include <string.h>

/* LINK from <a@h, id 1> to <b@h, id 1>, both of creation 1. */
static const char *const LINK =
    "0000002A708368036101587703614068000000010000000000000001587703624068000000010000000000000001";

/* Reads hexadecimal digits, and returns the number of bytes. */
static size_t unhex(const char *digits, uint8_t *out) {
    size_t n = 0;
    unsigned byte;
    while (sscanf(digits + 2 * n, "%2x", &byte) == 1) {
        out[n++] = (uint8_t)byte;
    }
    return n;
}

/* Prints a name and bytes in hexadecimal digits. */
static void show(const char *name, const uint8_t *bytes, size_t length) {
    printf("%s ", name);
    for (size_t i = 0; i < length; i++) {
        printf("%02X", bytes[i]);
    }
    printf("\n");
}

int main(void) {
    uint8_t bytes[64];
    size_t length = unhex(LINK, bytes);

    erldist_frame frame;
    uint32_t result = erldist_frame_head(bytes, length, &frame);
    printf("frame result %u length %zu operation %u\n", result, frame.length, frame.operation);
    show("from", bytes + frame.from.offset, frame.from.length);
    show("to", bytes + frame.to.offset, frame.to.length);

    erldist_seen_pid sender;
    const uint8_t *at = bytes + frame.from.offset;
    result = erldist_read_pid(at, frame.from.length, &sender);
    printf("pid result %u node %.*s id %u serial %u creation %u\n", result, (int)sender.node.length,
           (const char *)at + sender.node.offset, sender.id, sender.serial, sender.creation);

    /* With its last byte missing the frame needs more bytes. */
    result = erldist_frame_head(bytes, length - 1, &frame);
    printf("cut result %u length %zu\n", result, frame.length);

    /* The control term begins behind the length and the byte 112. */
    size_t term;
    result = erldist_term_len(bytes + 5, length - 5, &term);
    printf("term result %u length %zu\n", result, term);

    const uint8_t *from_node = (const uint8_t *)"a@h", *to_node = (const uint8_t *)"b@h";
    erldist_pid from = {1, 0, 1}, to = {1, 0, 1};
    uint8_t out[64];
    size_t needed;

    /* Too small a buffer is told the length. */
    result = erldist_put_unlink_id(7, from_node, 3, &from, to_node, 3, &to, out, 8, &needed);
    printf("small result %u length %zu\n", result, needed);
    result = erldist_put_unlink_id(7, from_node, 3, &from, to_node, 3, &to, out, sizeof out, &needed);
    printf("unlink_id result %u length %zu\n", result, needed);
    show("bytes", out, needed);

    /* send_name of a@h, written and read again. */
    erldist_message name = {.kind = ERLDIST_SEND_NAME, .flags = 0x403050124, .creation = 1}, seen;
    result = erldist_put_message(&name, from_node, 3, out, sizeof out, &needed);
    printf("send_name result %u length %zu\n", result, needed);
    show("bytes", out, needed);
    result = erldist_read_message(ERLDIST_ACCEPTOR, out, needed, &seen);
    printf("read result %u length %zu kind %u flags %llX creation %u name %.*s\n", result, seen.length, seen.kind,
           (unsigned long long)seen.flags, seen.creation, (int)seen.name.length, (const char *)out + seen.name.offset);

    uint8_t digest[16];
    const char *cookie = "secret";
    erldist_digest((const uint8_t *)cookie, strlen(cookie), 4042322160u, digest);
    show("digest", digest, sizeof digest);
    return 0;
}
