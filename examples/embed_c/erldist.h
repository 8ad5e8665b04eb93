/*
 * liberldist: terms, frames and handshake messages of Erlang's distribution protocol.
 * (ERTS User's Guide, External Term Format and Distribution Protocol.)
 *
 * No function allocates, blocks or keeps a pointer. Each is a proved function of crates/c_library. The
 * comments here tell its contract in words.
 *
 * The caller owes, and nothing checks:
 *   - A pointer is never null, also where the length behind it is 0.
 *   - So many bytes as the length says can be read, and those of an output can be written.
 *   - An output overlaps no other argument.
 */
#ifndef ERLDIST_H
#define ERLDIST_H

#include <stddef.h>
#include <stdint.h>

#ifdef __cplusplus
extern "C" {
#endif

/* Results. 1 to 5 are faults of terms, 6 to 9 faults of frames, 10 a fault of handshake messages. */
enum {
    ERLDIST_OK = 0,
    ERLDIST_CUT = 1,              /* The bytes end inside a term. */
    ERLDIST_MALFORMED = 2,        /* No term goes on so. Of a node's name: it is no atom. */
    ERLDIST_OUT_OF_PROFILE = 3,   /* A kind of term that this library doesn't read. */
    ERLDIST_TOO_DEEP = 4,         /* More than 64 levels of terms, one in another. */
    ERLDIST_TERM_TOO_LONG = 5,    /* More than 1,048,576 bytes. */
    ERLDIST_NOT_PASS_THROUGH = 6, /* The first byte behind the length isn't 112. */
    ERLDIST_BAD_CONTROL = 7,      /* No control message of the profile, bytes left over, or an Id of 0. */
    ERLDIST_FRAME_TOO_LONG = 8,   /* More than 1,048,576 bytes, or a message that doesn't fit. */
    ERLDIST_TERM = 9,             /* The control term or the message doesn't read. */
    ERLDIST_BAD_MESSAGE = 10,     /* No handshake message for this reader. */
    ERLDIST_NO_ROOM = 100         /* The buffer is too small. */
};

/* Operations. (Distribution Protocol, Protocol between Connected Nodes; New Link Protocol.) */
enum {
    ERLDIST_TICK = 0,
    ERLDIST_LINK = 1,
    ERLDIST_SEND = 2,
    ERLDIST_EXIT = 3,
    ERLDIST_REG_SEND = 6,
    ERLDIST_EXIT2 = 8,
    ERLDIST_MONITOR_P = 19,
    ERLDIST_DEMONITOR_P = 20,
    ERLDIST_MONITOR_P_EXIT = 21,
    ERLDIST_PAYLOAD_EXIT = 24,
    ERLDIST_PAYLOAD_EXIT2 = 26,
    ERLDIST_PAYLOAD_MONITOR_P_EXIT = 28,
    ERLDIST_UNLINK_ID = 35,
    ERLDIST_UNLINK_ID_ACK = 36
};

/* A place in bytes. A part that isn't there has the length 0. */
typedef struct {
    size_t offset;
    size_t length;
} erldist_place;

/* The head of a frame. At each place stands a term without a version byte. */
typedef struct {
    size_t length;           /* The number of bytes of the frame, or 0 if more bytes are needed. */
    uint64_t id;             /* The Id of UNLINK_ID and UNLINK_ID_ACK, else 0. */
    erldist_place from;      /* The sender: a pid, or a registered name that was monitored. */
    erldist_place to;        /* The receiver: a pid, or its registered name. */
    erldist_place reference; /* The reference of a monitor. */
    erldist_place payload;   /* The message or the reason. */
    uint32_t operation;      /* The number of the operation, as the frame has it. */
} erldist_frame;

/* Readers of handshake messages. 'N' begins a send_name for an acceptor, and a challenge for a dialer. */
enum {
    ERLDIST_ACCEPTOR = 0,
    ERLDIST_DIALER = 1
};

/* Kinds of handshake messages. (Distribution Protocol, Distribution Handshake.) */
enum {
    ERLDIST_NO_KIND = 0,
    ERLDIST_SEND_NAME = 1,      /* flags, creation, name */
    ERLDIST_STATUS = 2,         /* status */
    ERLDIST_CHALLENGE = 3,      /* flags, challenge, creation, name */
    ERLDIST_CHALLENGE_REPLY = 4, /* challenge, digest */
    ERLDIST_CHALLENGE_ACK = 5   /* digest */
};

/* Statuses. (Distribution Protocol, Distribution Handshake.) */
enum {
    ERLDIST_STATUS_OK = 1,
    ERLDIST_STATUS_OK_SIMULTANEOUS = 2,
    ERLDIST_STATUS_NOK = 3,
    ERLDIST_STATUS_NOT_ALLOWED = 4,
    ERLDIST_STATUS_ALIVE = 5,
    ERLDIST_STATUS_TRUE = 6,
    ERLDIST_STATUS_FALSE = 7
};

/* A handshake message. Its kind decides on the fields that it has. */
typedef struct {
    size_t length;      /* Of a message that was read: the number of its bytes, or 0 if more are needed. */
    uint64_t flags;     /* The flags of the sender. */
    erldist_place name; /* Of a message that was read: the place of the sender's name. */
    uint32_t kind;
    uint32_t status;
    uint32_t challenge; /* The challenge of the sender. */
    uint32_t creation;  /* The creation of the sender. */
    uint8_t digest[16]; /* The digest of the sender's cookie and the receiver's challenge. */
} erldist_message;

/* The numbers of a pid. (External Term Format, NEW_PID_EXT.) */
typedef struct {
    uint32_t id;
    uint32_t serial;
    uint32_t creation;
} erldist_pid;

/* A pid that was read. Its node's name is UTF-8, or letters of Latin-1. */
typedef struct {
    erldist_place node;
    uint32_t latin1; /* 0 for UTF-8, 1 for Latin-1. */
    uint32_t id;
    uint32_t serial;
    uint32_t creation;
} erldist_seen_pid;

/* Returns ERLDIST_OK, and writes the length of the term at the front, version byte included. Returns the
 * first fault from the left if there is none, 1 to 5, and writes 0. (External Term Format.) */
uint32_t erldist_term_len(const uint8_t *bytes, size_t bytes_length, size_t *length);

/* Returns ERLDIST_OK, and writes the head of the frame at the front. Offsets count from the first byte.
 * Returns the fault if the bytes are no frame, 6 to 9, and writes an empty head.
 * (Distribution Protocol, Protocol between Connected Nodes.) */
uint32_t erldist_frame_head(const uint8_t *bytes, size_t bytes_length, erldist_frame *frame);

/* Returns ERLDIST_OK, and writes the pid at a place of a frame. `bytes` are the bytes of the place, and the
 * offset of the name counts from their first. Returns ERLDIST_MALFORMED if they are no NEW_PID_EXT, and
 * `pid` stays as it was. A pid behind lists with no elements is none, though a frame may have one.
 * (External Term Format, NEW_PID_EXT.) */
uint32_t erldist_read_pid(const uint8_t *bytes, size_t bytes_length, erldist_seen_pid *pid);

/* The next three write a frame to `out`, and its length to `length`, and return ERLDIST_OK. Each term is
 * in its canonical spelling. The bytes of `out` behind the frame stay. They return ERLDIST_MALFORMED if
 * the name of a node isn't UTF-8 of at most 255 characters, and write 0 to `length`. Then they return
 * ERLDIST_BAD_CONTROL if `id` is 0, and write 0 too. They return ERLDIST_NO_ROOM if `out` is shorter than
 * the frame, and write the length that is needed. Unless they return ERLDIST_OK, `out` stays as it was. */

/* Writes LINK. (Distribution Protocol, Protocol between Connected Nodes.) */
uint32_t erldist_put_link(const uint8_t *from_node, size_t from_node_length, const erldist_pid *from,
                          const uint8_t *to_node, size_t to_node_length, const erldist_pid *to,
                          uint8_t *out, size_t out_length, size_t *length);

/* Writes UNLINK_ID. (Distribution Protocol, New Link Protocol.) */
uint32_t erldist_put_unlink_id(uint64_t id, const uint8_t *from_node, size_t from_node_length,
                               const erldist_pid *from, const uint8_t *to_node, size_t to_node_length,
                               const erldist_pid *to, uint8_t *out, size_t out_length, size_t *length);

/* Writes UNLINK_ID_ACK. (Distribution Protocol, New Link Protocol.) */
uint32_t erldist_put_unlink_id_ack(uint64_t id, const uint8_t *from_node, size_t from_node_length,
                                   const erldist_pid *from, const uint8_t *to_node, size_t to_node_length,
                                   const erldist_pid *to, uint8_t *out, size_t out_length, size_t *length);

/* Returns ERLDIST_OK, and writes the message at the front, for a reader of this role. Offsets count from the
 * first byte. If more bytes are needed, the kind is ERLDIST_NO_KIND. Returns ERLDIST_BAD_MESSAGE if the
 * message is whole and none of the table. (Distribution Protocol, Distribution Handshake.) */
uint32_t erldist_read_message(uint32_t role, const uint8_t *bytes, size_t bytes_length,
                              erldist_message *message);

/* Writes the message to `out`, and its length to `out_needed`, and returns ERLDIST_OK. Neither its length nor
 * its place of a name is read: its name is `name`. The bytes of `out` behind the message stay. Returns
 * ERLDIST_BAD_MESSAGE if there is no such kind or status, and writes 0. It does so too if the kind has a
 * name, and `name` is that of no node. Returns ERLDIST_NO_ROOM if `out` is shorter than the message, and writes the length that is
 * needed. Unless it returns ERLDIST_OK, `out` stays as it was.
 * (Distribution Protocol, Distribution Handshake.) */
uint32_t erldist_put_message(const erldist_message *message, const uint8_t *name, size_t name_length,
                             uint8_t *out, size_t out_length, size_t *out_needed);

/* Writes the digest of the cookie and the challenge: MD5 of the cookie and the challenge in decimal.
 * (Distribution Protocol, Distribution Handshake.) */
void erldist_digest(const uint8_t *cookie, size_t cookie_length, uint32_t challenge, uint8_t out[16]);

#ifdef __cplusplus
}
#endif

#endif
