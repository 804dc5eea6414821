/* Streams of GIOP messages at random, by a seed: lawful ones, cut into pieces in 1.2 and interleaved, and damage
 * done to them. The layouts are those of CORBA 3.3 Part 2, 9.4, for the interface of examples/calculator.json. */
#ifndef STREAMS_H
#define STREAMS_H

#include <stdint.h>
#include <string.h>

static uint32_t seed = 41;

static uint32_t at_random(uint32_t below) {
    seed = seed * 1664525u + 1013904223u;
    return (uint32_t)(((uint64_t)(seed >> 4) * below) >> 28);
}

struct octets {
    size_t size;
    uint8_t at[8192];
};

static void put(struct octets *to, const void *from, size_t size) {
    if (to->size + size <= sizeof to->at) {
        memcpy(to->at + to->size, from, size);
        to->size += size;
    }
}

static void put_octet(struct octets *to, uint32_t octet) {
    uint8_t it = (uint8_t)octet;
    put(to, &it, 1);
}

/* Pads to a multiple of n octets, by any values. */
static void pad(struct octets *to, size_t n) {
    while (to->size % n != 0) {
        put_octet(to, at_random(4) == 0 ? at_random(256) : 0);
    }
}

static void put_number(struct octets *to, uint32_t number, size_t width, int little) {
    pad(to, width);
    for (size_t i = 0; i < width; i++) {
        put_octet(to, number >> 8 * (little ? i : width - 1 - i));
    }
}

static void put_octets(struct octets *to, const char *from, size_t size, int little) {
    put_number(to, (uint32_t)size, 4, little);
    put(to, from, size);
}

static void put_string(struct octets *to, const char *text, int little) {
    put_octets(to, text, strlen(text) + 1, little);
}

static void put_contexts(struct octets *to, int little) {
    uint32_t count = at_random(4) == 0 ? 1 + at_random(2) : 0;
    put_number(to, count, 4, little);
    for (uint32_t i = 0; i < count; i++) {
        put_number(to, at_random(20), 4, little);
        put_octets(to, "\0\1\2\3\4\5\6", at_random(8), little);
    }
}

static void put_header(struct octets *to, uint32_t minor, int little, uint32_t kind) {
    put(to, "GIOP\1", 5);
    put_octet(to, minor);
    put_octet(to, little ? 1 : 0);
    put_octet(to, kind);
    put(to, "\0\0\0\0", 4);
}

/* Writes the size of the message that these octets are. */
static void close_header(struct octets *it, int little) {
    for (size_t i = 0; i < 4; i++) {
        it->at[8 + i] = (uint8_t)((it->size - 12) >> 8 * (little ? i : 3 - i));
    }
}

static const char *const KEYS[] = {"k", "", "another key"};

static void put_target(struct octets *to, uint32_t minor, int little) {
    const char *key = KEYS[at_random(3)];
    if (minor == 2) {
        uint32_t target = at_random(8) == 0 ? 1 : 0;
        put_number(to, target, 2, little);
        if (target == 1) {
            put_number(to, at_random(3), 4, little);
        }
    }
    put_octets(to, key, strlen(key), little);
}

/* The ins of an operation; those of `list` are up to so many longs. */
static void put_ins(struct octets *to, uint32_t operation, uint32_t longs, int little) {
    uint32_t count = operation == 1 ? 2 : operation == 2 ? at_random(longs + 1) : 0;
    if (operation == 2) {
        put_number(to, count, 4, little);
    }
    for (uint32_t i = 0; i < count; i++) {
        put_number(to, at_random(1u << 28), 4, little);
    }
    if (operation == 3) {
        put_string(to, KEYS[at_random(3)], little);
    }
}

static const char *const OPERATIONS[] = {"ping", "add", "list", "tell", "nothing"};

/* A Request (9.4.2): of 1.2, or of 1.0 and 1.1. */
static void put_request(struct octets *to, uint32_t minor, int little, uint32_t id) {
    uint32_t operation = at_random(40) == 0 ? 4 : at_random(4);
    uint32_t expected = operation == 3 ? at_random(2) : at_random(8) > 0;
    put_header(to, minor, little, 0);
    if (minor == 2) {
        put_number(to, id, 4, little);
        put_octet(to, expected ? at_random(8) > 0 ? 3 : 1 : 0);
        put(to, "\0\0\0", 3);
        put_target(to, minor, little);
        put_string(to, OPERATIONS[operation], little);
        put_contexts(to, little);
        if (operation > 0 && operation < 4) {
            pad(to, 8);
        }
    } else {
        put_contexts(to, little);
        put_number(to, id, 4, little);
        put_octet(to, expected);
        if (minor == 1) {
            put(to, "\0\0\0", 3);
        }
        put_target(to, minor, little);
        put_string(to, OPERATIONS[operation], little);
        put_octets(to, "", 0, little);
    }
    put_ins(to, operation, 30, little);
    close_header(to, little);
}

/* A message that a client may send, and now and then one that it may not. */
static void put_message(struct octets *to, uint32_t ids) {
    uint32_t minor = at_random(3), which = at_random(60), id = at_random(ids);
    int little = (int)at_random(2);
    to->size = 0;
    if (which < 40) {
        put_request(to, minor, little, id);
    } else if (which < 50) {
        put_header(to, minor, little, 3); /* a LocateRequest (9.4.5) */
        put_number(to, id, 4, little);
        put_target(to, minor, little);
        close_header(to, little);
    } else if (which < 58) {
        put_header(to, minor, little, 2); /* a CancelRequest (9.4.4) */
        put_number(to, id, 4, little);
        close_header(to, little);
    } else {
        put_header(to, minor, little, which == 58 ? 1 : 5 + at_random(3));
        if (which == 58 || at_random(2)) {
            put_number(to, id, 4, little);
        }
        close_header(to, little);
    }
}

/* Appends the next piece of a message of 1.2 from a place on (9.4.9), or all of another. Where it went on to. */
static size_t put_piece(struct octets *to, const struct octets *message, size_t from) {
    size_t unsent = message->size - from, room = 8 * (3 + at_random(12)) - (from == 0 ? 0 : 16);
    uint8_t more = unsent > room && message->at[5] == 2 && (message->at[7] <= 1 || message->at[7] == 3) ? 2 : 0;
    size_t begins = to->size, size = more ? room : unsent;
    int little = message->at[6] & 1;
    if (from > 0) {
        put_header(to, 2, little, 7);
        put(to, message->at + 12, 4);
    }
    put(to, message->at + from, size);
    if (to->size >= begins + 12) {
        to->at[begins + 6] |= more;
        for (size_t i = 0; i < 4; i++) {
            to->at[begins + 8 + i] = (uint8_t)((to->size - begins - 12) >> 8 * (little ? i : 3 - i));
        }
    }
    return from + size;
}

/* Some messages, of which up to four are sent a piece of each in turn. */
static inline void put_stream(struct octets *to, uint32_t messages, uint32_t ids) {
    static struct octets lanes[4];
    size_t sent[4] = {0, 0, 0, 0};
    to->size = 0;
    for (uint32_t i = 0; i < 4; i++) {
        put_message(&lanes[i], ids);
    }
    while (messages > 0) {
        uint32_t lane = at_random(4);
        sent[lane] = put_piece(to, &lanes[lane], sent[lane]);
        if (sent[lane] == lanes[lane].size) {
            put_message(&lanes[lane], ids);
            sent[lane] = 0;
            messages--;
        }
    }
}

/* Some octets are changed, dropped, sent twice or put in. */
static inline void damage(struct octets *it) {
    size_t at = at_random((uint32_t)it->size + 1), size = at_random(12);
    size = size > it->size - at ? it->size - at : size;
    switch (at_random(5)) {
    case 0:
        memset(it->at + at, at_random(2) ? 0xFF : 0, size > 4 ? 4 : size);
        break;
    case 1:
        memmove(it->at + at, it->at + at + size, it->size - at - size);
        it->size -= size;
        break;
    case 2:
        if (it->size + size <= sizeof it->at) {
            memmove(it->at + at + size, it->at + at, it->size - at);
            it->size += size;
        }
        break;
    case 3:
        it->size = at;
        break;
    default:
        if (size > 0) {
            it->at[at] ^= (uint8_t)(1u << at_random(8));
        }
    }
}

#endif
