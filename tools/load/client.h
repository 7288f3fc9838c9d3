/* A client of a message bus over a Unix socket, without any D-Bus library: what the load needs, and no more. */
#ifndef CLIENT_H
#define CLIENT_H

#include <stdbool.h>
#include <stddef.h>
#include <stdint.h>

enum kind { call = 1, method_return = 2, error_reply = 3, signal_message = 4 };

/* Which bus is loaded, and how clients are let in: `anonymous`, `external`, or `cookie` with the last of a keyring. */
struct way_in {
    const char *path, *mechanism, *keyring;
};

/* Bytes that wait to be read or written. */
struct buffer {
    uint8_t *bytes;
    size_t start, end, room;
};

struct connection {
    int fd;
    uint32_t serial;
    char name[64];
    struct buffer in, out;
    bool waits_to_write;
    long seen;
    int step;
};

/* A message to be written; no reply is wanted but of a call. */
struct message {
    enum kind kind;
    uint32_t reply_serial;
    const char *path, *interface, *member, *destination, *signature;
    const uint8_t *body;
    size_t body_length;
};

/* A message that was read, which lies in its connection's buffer. */
struct seen {
    enum kind kind;
    uint32_t serial, reply_serial;
    const char *sender;
    const uint8_t *body;
    size_t body_length;
};

/* Ends the process, and says why. */
_Noreturn void fail(const char *format, ...);

uint32_t u32_at(const uint8_t *bytes);

/* Connects, authenticates and says Hello. */
void connect_to_bus(struct connection *c, const struct way_in *way);

/* Puts a message into what is to be written, and answers its serial. */
uint32_t put_message(struct connection *c, const struct message *m);

/* The same of a call to the bus, with a text and a number where these are given. */
uint32_t put_bus_call(struct connection *c, const char *member, const char *signature, const char *text,
                      const uint32_t *number);

/* Such a call by a socket that waits, and its reply. */
struct seen ask_bus(struct connection *c, const char *member, const char *signature, const char *text,
                    const uint32_t *number);

/* Writes what waits; false where the socket takes no more. */
bool flush(struct connection *c);

/* Reads what there is; false where there is nothing. */
bool fill(struct connection *c);

/* Looks at the first message that was read; answers its length, or 0 where it isn't whole yet. */
size_t look(const struct buffer *b, struct seen *seen);

#endif
