#include "client.h"
#include <errno.h>
#include <stdarg.h>
#include <stdio.h>
#include <stdlib.h>
#include <string.h>
#include <sys/socket.h>
#include <sys/un.h>
#include <unistd.h>

void fail(const char *format, ...)
{
    va_list words;
    va_start(words, format);
    fprintf(stderr, "load: ");
    vfprintf(stderr, format, words);
    fprintf(stderr, "\n");
    va_end(words);
    exit(1);
}

/* ---- Bytes that wait. */

/* Room for so many bytes more, of which none lies before `start` of another use. */
static uint8_t *make_room(struct buffer *b, size_t more)
{
    if (b->start == b->end)
        b->start = b->end = 0;
    if (b->start > 0 && b->end + more > b->room) {
        memmove(b->bytes, b->bytes + b->start, b->end - b->start);
        b->end -= b->start;
        b->start = 0;
    }
    if (b->end + more > b->room) {
        b->room = (b->end + more) * 2;
        b->bytes = realloc(b->bytes, b->room);
        if (!b->bytes)
            fail("no memory");
    }
    return b->bytes + b->end;
}

static void put(struct buffer *b, const void *bytes, size_t length)
{
    memcpy(make_room(b, length), bytes, length);
    b->end += length;
}

static void put_u32(struct buffer *b, uint32_t value)
{
    put(b, &value, 4);
}

/* Zeros up to a multiple of `size`, counted from the message's start. */
static void align(struct buffer *b, size_t message, size_t size)
{
    while ((b->end - b->start - message) % size)
        put(b, "", 1);
}

static void put_text(struct buffer *b, const char *text)
{
    put_u32(b, strlen(text));
    put(b, text, strlen(text) + 1);
}

/* ---- Messages, little-endian. */

static void put_field(struct buffer *b, size_t message, uint8_t code, char type, const char *text)
{
    if (!text)
        return;
    align(b, message, 8);
    put(b, (char[]){ code, 1, type, 0 }, 4);
    if (type == 'g') {
        put(b, (char[]){ strlen(text) }, 1);
        put(b, text, strlen(text) + 1);
    } else {
        put_text(b, text);
    }
}

/* Puts a message into what is to be written, and answers its serial. */
uint32_t put_message(struct connection *c, const struct message *m)
{
    struct buffer *b = &c->out;
    make_room(b, 512 + m->body_length);
    size_t message = b->end - b->start;
    uint8_t no_reply = m->kind == call ? 0 : 1;
    put(b, (uint8_t[]){ 'l', m->kind, no_reply, 1 }, 4);
    put_u32(b, m->body_length);
    put_u32(b, ++c->serial);
    put_u32(b, 0);
    put_field(b, message, 1, 'o', m->path);
    put_field(b, message, 2, 's', m->interface);
    put_field(b, message, 3, 's', m->member);
    if (m->reply_serial) {
        align(b, message, 8);
        put(b, (char[]){ 5, 1, 'u', 0 }, 4);
        put_u32(b, m->reply_serial);
    }
    put_field(b, message, 6, 's', m->destination);
    put_field(b, message, 8, 'g', m->signature);
    uint32_t fields = b->end - b->start - message - 16;
    memcpy(b->bytes + b->start + message + 12, &fields, 4);
    align(b, message, 8);
    put(b, m->body, m->body_length);
    return c->serial;
}

static size_t up(size_t place, size_t size)
{
    return (place + size - 1) / size * size;
}

uint32_t u32_at(const uint8_t *bytes)
{
    uint32_t value;
    memcpy(&value, bytes, 4);
    return value;
}

/* Looks at the first message that waits; answers its length, or 0 where it isn't whole yet. */
size_t look(const struct buffer *b, struct seen *seen)
{
    const uint8_t *m = b->bytes + b->start;
    size_t length = b->end - b->start;
    if (length < 16)
        return 0;
    if (m[0] != 'l')
        fail("the bus wrote no little-endian message");
    size_t fields = u32_at(m + 12), body = u32_at(m + 4), whole = up(16 + fields, 8) + body;
    if (length < whole)
        return 0;
    *seen = (struct seen){ .kind = m[1], .serial = u32_at(m + 8), .body = m + whole - body, .body_length = body };
    for (size_t place = 16; place < 16 + fields;) {
        place = up(place, 8);
        uint8_t code = m[place];
        char type = m[place + 2];
        place += 4;
        if (type == 'g') {
            place += 1 + m[place] + 1;
        } else if (type == 'u') {
            if (code == 5)
                seen->reply_serial = u32_at(m + place);
            place += 4;
        } else {
            if (code == 7)
                seen->sender = (const char *)m + place + 4;
            place += 4 + u32_at(m + place) + 1;
        }
    }
    return whole;
}

/* ---- SHA-1, for the cookie. */

static uint32_t turned(uint32_t x, int n)
{
    return x << n | x >> (32 - n);
}

static void sha1_block(uint32_t state[5], const uint8_t *p)
{
    uint32_t w[80], a = state[0], b = state[1], c = state[2], d = state[3], e = state[4];
    for (int i = 0; i < 80; i++)
        w[i] = i < 16 ? (uint32_t)p[4 * i] << 24 | p[4 * i + 1] << 16 | p[4 * i + 2] << 8 | p[4 * i + 3]
                      : turned(w[i - 3] ^ w[i - 8] ^ w[i - 14] ^ w[i - 16], 1);
    for (int i = 0; i < 80; i++) {
        uint32_t f = i < 20 ? (b & c) | (~b & d) : i / 20 == 2 ? (b & c) | (b & d) | (c & d) : b ^ c ^ d;
        uint32_t k = i < 20 ? 0x5a827999 : i < 40 ? 0x6ed9eba1 : i < 60 ? 0x8f1bbcdc : 0xca62c1d6;
        uint32_t next = turned(a, 5) + f + e + k + w[i];
        e = d, d = c, c = turned(b, 30), b = a, a = next;
    }
    state[0] += a, state[1] += b, state[2] += c, state[3] += d, state[4] += e;
}

static void sha1_hex(const char *text, char hex[41])
{
    uint32_t state[5] = { 0x67452301, 0xefcdab89, 0x98badcfe, 0x10325476, 0xc3d2e1f0 };
    uint8_t padded[512] = { 0 };
    size_t length = strlen(text), whole = up(length + 9, 64);
    if (whole > sizeof padded)
        fail("the challenge is too long");
    memcpy(padded, text, length);
    padded[length] = 0x80;
    for (int i = 0; i < 8; i++)
        padded[whole - 1 - i] = (uint64_t)length * 8 >> 8 * i;
    for (size_t place = 0; place < whole; place += 64)
        sha1_block(state, padded + place);
    for (int i = 0; i < 5; i++)
        sprintf(hex + 8 * i, "%08x", state[i]);
}

/* ---- Authentication, by a socket that waits. */

static void say(int fd, const char *text)
{
    size_t length = strlen(text);
    while (length > 0) {
        ssize_t written = send(fd, text, length, MSG_NOSIGNAL);
        if (written <= 0)
            fail("the bus ends in the authentication: %s", strerror(errno));
        text += written;
        length -= written;
    }
}

/* Reads the line that the bus answers with, and nothing behind it. */
static void hear(int fd, char *line, size_t room)
{
    ssize_t length = recv(fd, line, room - 1, 0);
    if (length < 2 || line[length - 1] != '\n')
        fail("the bus ends in the authentication");
    line[length - 2] = 0;
}

static void to_hex(const char *text, char *hex)
{
    for (; *text; text++, hex += 2)
        sprintf(hex, "%02x", (unsigned char)*text);
}

static void from_hex(const char *hex, char *text)
{
    unsigned value;
    for (; sscanf(hex, "%2x", &value) == 1; hex += 2)
        *text++ = value;
    *text = 0;
}

static void answer_challenge(int fd, const char *line, const char *keyring_path)
{
    char shown[512], challenge[256], cookie[256] = "", text[640], digest[41], hex[512], all[600];
    if (strncmp(line, "DATA ", 5) || strlen(line) > 900)
        fail("the bus asks for no cookie: %s", line);
    from_hex(line + 5, shown);
    if (sscanf(shown, "%*s %*s %255s", challenge) != 1)
        fail("the bus sends no challenge: %s", shown);
    FILE *keyring = keyring_path ? fopen(keyring_path, "r") : NULL;
    if (!keyring)
        fail("there is no keyring");
    while (fscanf(keyring, "%*s %*s %255s", cookie) == 1)
        continue;
    fclose(keyring);
    snprintf(text, sizeof text, "%s:load:%s", challenge, cookie);
    sha1_hex(text, digest);
    snprintf(text, sizeof text, "load %s", digest);
    to_hex(text, hex);
    snprintf(all, sizeof all, "DATA %s\r\n", hex);
    say(fd, all);
}

static void authenticate(int fd, const struct way_in *way)
{
    char line[1024], user[32], hex[64];
    snprintf(user, sizeof user, "%u", (unsigned)getuid());
    to_hex(user, hex);
    if (send(fd, "", 1, MSG_NOSIGNAL) != 1)
        fail("the bus takes no byte");
    if (!strcmp(way->mechanism, "anonymous"))
        snprintf(line, sizeof line, "AUTH ANONYMOUS\r\n");
    else
        snprintf(line, sizeof line, "AUTH %s %s\r\n",
                 !strcmp(way->mechanism, "cookie") ? "DBUS_COOKIE_SHA1" : "EXTERNAL", hex);
    say(fd, line);
    hear(fd, line, sizeof line);
    if (!strcmp(way->mechanism, "cookie")) {
        answer_challenge(fd, line, way->keyring);
        hear(fd, line, sizeof line);
    }
    if (strncmp(line, "OK ", 3))
        fail("the bus lets nobody in: %s", line);
    say(fd, "BEGIN\r\n");
}

/* ---- Connections. */

bool flush(struct connection *c)
{
    while (c->out.start < c->out.end) {
        ssize_t written = send(c->fd, c->out.bytes + c->out.start, c->out.end - c->out.start, MSG_NOSIGNAL);
        if (written < 0 && errno == EAGAIN)
            return false;
        if (written <= 0)
            fail("the bus closed a connection: %s", strerror(errno));
        c->out.start += written;
    }
    return true;
}

/* Reads what there is, without waiting where the socket doesn't. */
bool fill(struct connection *c)
{
    enum { piece = 262144 };
    ssize_t got = recv(c->fd, make_room(&c->in, piece), piece, 0);
    if (got < 0 && errno == EAGAIN)
        return false;
    if (got <= 0)
        fail("the bus closed a connection");
    c->in.end += got;
    return true;
}

/* Waits for the reply to this serial, whose body stays readable until more is read. */
static struct seen wait_reply(struct connection *c, uint32_t serial)
{
    struct seen seen;
    for (;;) {
        size_t length;
        while ((length = look(&c->in, &seen)) == 0)
            fill(c);
        c->in.start += length;
        if (seen.kind == error_reply)
            fail("the bus answers an error");
        if (seen.reply_serial == serial)
            return seen;
    }
}

uint32_t put_bus_call(struct connection *c, const char *member, const char *signature, const char *text,
                             const uint32_t *number)
{
    struct buffer body = { 0 };
    if (text)
        put_text(&body, text);
    if (number) {
        align(&body, 0, 4);
        put_u32(&body, *number);
    }
    uint32_t serial = put_message(c, &(struct message){ .kind = call, .path = "/org/freedesktop/DBus",
        .interface = "org.freedesktop.DBus", .member = member, .destination = "org.freedesktop.DBus",
        .signature = signature, .body = body.bytes, .body_length = body.end });
    free(body.bytes);
    return serial;
}

/* A call of the bus before the load begins, and its reply. */
struct seen ask_bus(struct connection *c, const char *member, const char *signature, const char *text,
                           const uint32_t *number)
{
    uint32_t serial = put_bus_call(c, member, signature, text, number);
    flush(c);
    return wait_reply(c, serial);
}

void connect_to_bus(struct connection *c, const struct way_in *way)
{
    struct sockaddr_un address = { .sun_family = AF_UNIX };
    *c = (struct connection){ .fd = socket(AF_UNIX, SOCK_STREAM | SOCK_CLOEXEC, 0) };
    snprintf(address.sun_path, sizeof address.sun_path, "%s", way->path);
    if (c->fd < 0 || connect(c->fd, (struct sockaddr *)&address, sizeof address) < 0)
        fail("%s: %s", way->path, strerror(errno));
    authenticate(c->fd, way);
    struct seen hello = ask_bus(c, "Hello", NULL, NULL, NULL);
    snprintf(c->name, sizeof c->name, "%s", (const char *)hello.body + 4);
}
