/* Tests of libgiop from outside. Expected values are worked by hand from CORBA 3.3 Part 2, 9.4.1, and
 * from what include/giop.h says; none comes from the library's own output.
 *
 * It prints the name of each test that failed and ends with status 1, or prints how many passed. Every
 * allocation of the library goes through the functions of check.h, which count and refuse. */
#include "check.h"

/* A Request of 1.2, big endian, id 1, to the key "k", of the operation "ping" (9.4.2). */
static const uint8_t PING[48] = {
    'G', 'I', 'O', 'P', 1, 2, 0, 0, 0, 0, 0, 36, 0, 0, 0, 1, 3, 0, 0, 0, 0, 0, 0, 0,
    0, 0, 0, 1, 'k', 0, 0, 0, 0, 0, 0, 5, 'p', 'i', 'n', 'g', 0, 0, 0, 0, 0, 0, 0, 0};
/* A CancelRequest of 1.0, little endian, of id 7 (9.4.4). */
static const uint8_t CANCEL[16] = {'G', 'I', 'O', 'P', 1, 0, 1, 2, 4, 0, 0, 0, 7, 0, 0, 0};
/* A CloseConnection of 1.2, little endian (9.4.7). */
static const uint8_t CLOSE[12] = {'G', 'I', 'O', 'P', 1, 2, 1, 5, 0, 0, 0, 0};
/* A Fragment of 1.2, little endian, of id 9, more to come: 12 + 20 octets are a multiple of 8 (9.4.9). */
static const uint8_t PIECE[32] = {'G', 'I', 'O', 'P', 1, 2, 3, 7, 20, 0, 0, 0, 9, 0, 0, 0,
                                  1, 2, 3, 4, 5, 6, 7, 8, 9, 10, 11, 12, 13, 14, 15, 16};

static const giop_message HEADS[4] = {
    {2, 0, 0, GIOP_REQUEST, 36, 1, 1},
    {0, 1, 0, GIOP_CANCEL_REQUEST, 4, 7, 1},
    {2, 1, 1, GIOP_FRAGMENT, 20, 9, 1},
    {2, 1, 0, GIOP_CLOSE_CONNECTION, 0, 0, 0},
};

#define STREAM_SIZE (sizeof PING + sizeof CANCEL + sizeof PIECE + sizeof CLOSE)

static void make_stream(uint8_t stream[STREAM_SIZE]) {
    memcpy(stream, PING, sizeof PING);
    memcpy(stream + sizeof PING, CANCEL, sizeof CANCEL);
    memcpy(stream + sizeof PING + sizeof CANCEL, PIECE, sizeof PIECE);
    memcpy(stream + sizeof PING + sizeof CANCEL + sizeof PIECE, CLOSE, sizeof CLOSE);
}

static const uint8_t *payload_of(size_t number) {
    const uint8_t *whole[4] = {PING, CANCEL, PIECE, CLOSE};
    return whole[number] + 12;
}

static int same_head(giop_message a, giop_message b) {
    return a.minor == b.minor && a.little_endian == b.little_endian && a.more == b.more
        && a.kind == b.kind && a.size == b.size && a.id == b.id && a.has_id == b.has_id;
}

/* Takes all messages that are there, the first of which has this number in the stream. */
static size_t takes(giop_framer *framer, size_t number) {
    giop_message head = {9, 9, 9, 9, 9, 9, 9};
    giop_fault fault = {77, 77};
    uint8_t payload[64];
    size_t size;
    uint32_t status;
    while ((status = giop_framer_next(framer, &head, &fault)) == GIOP_OK) {
        CHECK(number < 4 && same_head(head, HEADS[number]));
        size = 99;
        CHECK(giop_framer_payload(framer, payload, sizeof payload, &size) == GIOP_OK);
        CHECK(size == head.size && memcmp(payload, payload_of(number), size) == 0);
        number++;
    }
    CHECK(status == GIOP_WAITS && fault.at == 77 && fault.number == 77);
    return number;
}

static void each_cut_gives_the_same_messages(void) {
    uint8_t stream[STREAM_SIZE];
    make_stream(stream);
    for (size_t cut = 0; cut <= STREAM_SIZE; cut++) {
        giop_framer framer = GIOP_FRAMER_CLOSED;
        size_t rest = 99;
        CHECK(giop_framer_new(&framer, 100) == GIOP_OK);
        CHECK(giop_framer_feed(&framer, stream, cut) == GIOP_OK);
        size_t taken = takes(&framer, 0);
        CHECK(giop_framer_feed(&framer, stream + cut, STREAM_SIZE - cut) == GIOP_OK);
        CHECK(takes(&framer, taken) == 4);
        CHECK(giop_framer_rest(&framer, &rest) == GIOP_OK && rest == 0);
        giop_framer_free(&framer);
    }
}

static void octets_may_come_one_by_one(void) {
    uint8_t stream[STREAM_SIZE];
    giop_framer framer = GIOP_FRAMER_CLOSED;
    size_t taken = 0;
    make_stream(stream);
    CHECK(giop_framer_new(&framer, 36) == GIOP_OK);
    for (size_t i = 0; i < STREAM_SIZE; i++) {
        CHECK(giop_framer_feed(&framer, stream + i, 1) == GIOP_OK);
        taken = takes(&framer, taken);
        CHECK(taken == (size_t)((i >= 107) + (i >= 95) + (i >= 63) + (i >= 47)));
    }
    giop_framer_free(&framer);
}

/* A header that is refused: its octets, and where and why (9.4.1, in the order of PROFILE.md). */
static const struct refused {
    uint8_t octets[12];
    size_t at;
    uint32_t number;
} REFUSED[] = {
    {{'g', 'I', 'O', 'P', 1, 2, 0, 0, 0, 0, 0, 4}, 0, GIOP_BAD_MAGIC},
    {{'G', 'i', 'O', 'P', 1, 2, 0, 0, 0, 0, 0, 4}, 1, GIOP_BAD_MAGIC},
    {{'G', 'I', 'o', 'P', 1, 2, 0, 0, 0, 0, 0, 4}, 2, GIOP_BAD_MAGIC},
    {{'G', 'I', 'O', 'p', 9, 9, 9, 9, 9, 9, 9, 9}, 3, GIOP_BAD_MAGIC},
    {{'G', 'I', 'O', 'P', 2, 0, 0, 0, 0, 0, 0, 4}, 4, GIOP_BAD_VERSION},
    {{'G', 'I', 'O', 'P', 1, 3, 9, 9, 0, 0, 0, 4}, 5, GIOP_BAD_VERSION},
    {{'G', 'I', 'O', 'P', 1, 0, 2, 0, 0, 0, 0, 4}, 6, GIOP_RESERVED_FLAGS},
    {{'G', 'I', 'O', 'P', 1, 2, 4, 9, 0, 0, 0, 4}, 6, GIOP_RESERVED_FLAGS},
    {{'G', 'I', 'O', 'P', 1, 1, 0, 7, 0, 0, 0, 4}, 7, GIOP_BAD_KIND},
    {{'G', 'I', 'O', 'P', 1, 2, 0, 8, 9, 0, 0, 4}, 7, GIOP_BAD_KIND},
    {{'G', 'I', 'O', 'P', 1, 2, 0, 5, 0, 0, 0, 101}, 8, GIOP_TOO_LARGE},
    {{'G', 'I', 'O', 'P', 1, 2, 1, 0, 0, 0, 0, 1}, 8, GIOP_TOO_LARGE},
    {{'G', 'I', 'O', 'P', 1, 2, 0, 5, 0, 0, 0, 1}, 8, GIOP_BAD_SIZE},
    {{'G', 'I', 'O', 'P', 1, 0, 0, 2, 0, 0, 0, 8}, 8, GIOP_BAD_SIZE},
    {{'G', 'I', 'O', 'P', 1, 0, 0, 0, 0, 0, 0, 3}, 8, GIOP_BAD_SIZE},
    {{'G', 'I', 'O', 'P', 1, 2, 2, 0, 0, 0, 0, 8}, 8, GIOP_FRAGMENT_SIZE},
    {{'G', 'I', 'O', 'P', 1, 2, 2, 2, 0, 0, 0, 4}, 6, GIOP_NOT_FRAGMENTABLE},
    {{'G', 'I', 'O', 'P', 1, 1, 2, 0, 0, 0, 0, 8}, 6, GIOP_NOT_FRAGMENTABLE},
};

/* The same headers out of the caller's octets, and the id as soon as its octets are there: at 12 to 15 of these. */
static void a_header_is_read_without_a_handle(void) {
    uint8_t stream[STREAM_SIZE];
    make_stream(stream);
    size_t begins = 0;
    for (size_t number = 0; number < 4; begins += 12 + HEADS[number].size, number++) {
        for (size_t size = 0; size <= STREAM_SIZE - begins; size++) {
            giop_message head = {9, 9, 9, 9, 9, 9, 9}, wanted = HEADS[number];
            giop_fault fault = {77, 77};
            uint32_t status = giop_header(size == 0 ? NULL : stream + begins, size, 36, &head, &fault);
            CHECK(status == (size < 12 ? GIOP_WAITS : GIOP_OK) && fault.at == 77 && fault.number == 77);
            if (size < 16) {
                wanted.id = wanted.has_id = 0;
            }
            CHECK(size < 12 ? head.minor == 9 && head.has_id == 9 : same_head(head, wanted));
        }
    }
}

/* A Reply of 1.0, big endian, of id 7 behind a context of 4 octets, which ends at 28 (9.4.3.1): its id is there with
 * 32 octets; and one whose count of contexts is more than its octets, which has none. */
static void an_early_id_stands_behind_the_contexts(void) {
    uint8_t reply[36] = {'G', 'I', 'O', 'P', 1, 0, 0, 1, 0, 0, 0, 24, 0, 0, 0, 1, 0, 0,
                         0,   1,   0,   0,   0, 4, 8, 8, 8, 8, 0, 0, 0, 7, 0, 0, 0, 0};
    giop_message head = {9, 9, 9, 9, 9, 9, 9};
    giop_fault fault = {77, 77};
    CHECK(giop_header(reply, 31, 24, &head, &fault) == GIOP_OK && head.has_id == 0 && head.id == 0);
    CHECK(giop_header(reply, 32, 24, &head, &fault) == GIOP_OK && head.has_id == 1 && head.id == 7);
    CHECK(head.kind == GIOP_REPLY && head.size == 24 && head.minor == 0 && head.more == 0);
    CHECK(giop_header(reply, 36, 23, &head, &fault) == GIOP_FAULT && fault.at == 8 && fault.number == GIOP_TOO_LARGE);
    CHECK(head.kind == GIOP_REPLY && head.size == 24 && head.id == 7);
    reply[15] = 9;
    CHECK(giop_header(reply, 36, 24, &head, &fault) == GIOP_OK && head.has_id == 0 && head.id == 0);
}

static void headers_are_refused_at_their_place(void) {
    for (size_t i = 0; i < sizeof REFUSED / sizeof *REFUSED; i++) {
        giop_framer framer = GIOP_FRAMER_CLOSED;
        giop_message head = {9, 9, 9, 9, 9, 9, 9};
        giop_fault fault = {77, 77};
        size_t rest = 99;
        CHECK(giop_framer_new(&framer, 100) == GIOP_OK);
        CHECK(giop_framer_feed(&framer, CLOSE, sizeof CLOSE) == GIOP_OK);
        CHECK(giop_framer_feed(&framer, REFUSED[i].octets, 11) == GIOP_OK);
        CHECK(giop_framer_next(&framer, &head, &fault) == GIOP_OK);
        CHECK(giop_framer_next(&framer, &head, &fault) == GIOP_WAITS);
        CHECK(giop_framer_feed(&framer, REFUSED[i].octets + 11, 1) == GIOP_OK);
        for (int again = 0; again < 2; again++) {
            CHECK(giop_framer_next(&framer, &head, &fault) == GIOP_FAULT);
            CHECK(fault.at == REFUSED[i].at && fault.number == REFUSED[i].number);
            CHECK(same_head(head, HEADS[3]));
        }
        CHECK(giop_framer_rest(&framer, &rest) == GIOP_OK && rest == 12);
        giop_framer_free(&framer);
        fault.at = fault.number = 77;
        CHECK(giop_header(REFUSED[i].octets, 12, 100, &head, &fault) == GIOP_FAULT);
        CHECK(fault.at == REFUSED[i].at && fault.number == REFUSED[i].number && same_head(head, HEADS[3]));
    }
}

static void a_small_buffer_is_told_the_size(void) {
    giop_framer framer = GIOP_FRAMER_CLOSED;
    giop_message head;
    giop_fault fault;
    uint8_t buffer[40];
    size_t size = 99;
    memset(buffer, 0xEE, sizeof buffer);
    CHECK(giop_framer_new(&framer, 100) == GIOP_OK);
    CHECK(giop_framer_payload(&framer, buffer, 40, &size) == GIOP_WAITS && size == 99);
    CHECK(giop_framer_feed(&framer, PING, sizeof PING) == GIOP_OK);
    CHECK(giop_framer_payload(&framer, buffer, 40, &size) == GIOP_WAITS && size == 99);
    CHECK(giop_framer_next(&framer, &head, &fault) == GIOP_OK);
    CHECK(giop_framer_payload(&framer, NULL, 0, &size) == GIOP_SMALL && size == 36);
    CHECK(giop_framer_payload(&framer, buffer, 35, &size) == GIOP_SMALL && buffer[0] == 0xEE);
    CHECK(giop_framer_payload(&framer, buffer, 36, &size) == GIOP_OK && size == 36);
    CHECK(memcmp(buffer, PING + 12, 36) == 0 && buffer[36] == 0xEE);
    CHECK(giop_framer_payload(&framer, buffer + 1, 39, &size) == GIOP_OK && size == 36);
    CHECK(giop_framer_next(&framer, &head, &fault) == GIOP_WAITS);
    CHECK(giop_framer_payload(&framer, buffer, 40, &size) == GIOP_WAITS && size == 36);
    giop_framer_free(&framer);
}

static void a_closed_handle_answers_closed(void) {
    giop_framer framer = GIOP_FRAMER_CLOSED, zeroed;
    giop_message head = {9, 9, 9, 9, 9, 9, 9};
    giop_fault fault = {77, 77};
    uint8_t buffer[4] = {1, 2, 3, 4};
    size_t number = 99;
    memset(&zeroed, 0, sizeof zeroed);
    giop_framer_free(&zeroed);
    CHECK(giop_framer_feed(&zeroed, PING, sizeof PING) == GIOP_CLOSED);
    for (int turn = 0; turn < 2; turn++) {
        CHECK(giop_framer_feed(&framer, PING, sizeof PING) == GIOP_CLOSED);
        CHECK(giop_framer_feed(&framer, NULL, 0) == GIOP_CLOSED);
        CHECK(giop_framer_next(&framer, &head, &fault) == GIOP_CLOSED);
        CHECK(giop_framer_payload(&framer, buffer, 4, &number) == GIOP_CLOSED);
        CHECK(giop_framer_rest(&framer, &number) == GIOP_CLOSED);
        CHECK(head.minor == 9 && fault.at == 77 && fault.number == 77);
        CHECK(number == 99 && buffer[0] == 1 && buffer[3] == 4);
        /* and so again when it was opened and freed, twice */
        CHECK(giop_framer_new(&framer, 100) == GIOP_OK);
        CHECK(giop_framer_feed(&framer, PING, sizeof PING) == GIOP_OK);
        giop_framer_free(&framer);
        giop_framer_free(&framer);
    }
}

static void an_open_handle_is_opened_again(void) {
    giop_framer framer = GIOP_FRAMER_CLOSED;
    giop_message head;
    giop_fault fault;
    size_t rest = 99;
    CHECK(giop_framer_new(&framer, 35) == GIOP_OK);
    CHECK(giop_framer_feed(&framer, PING, sizeof PING) == GIOP_OK);
    CHECK(giop_framer_next(&framer, &head, &fault) == GIOP_FAULT && fault.number == GIOP_TOO_LARGE);
    CHECK(giop_framer_new(&framer, 36) == GIOP_OK);
    CHECK(giop_framer_rest(&framer, &rest) == GIOP_OK && rest == 0);
    CHECK(giop_framer_feed(&framer, PING, sizeof PING) == GIOP_OK);
    CHECK(giop_framer_next(&framer, &head, &fault) == GIOP_OK && head.size == 36);
    giop_framer_free(&framer);
}

/* The head of PING (9.4.2), worked by hand: its fields end at 48, which is a multiple of 8. */
static void the_head_of_a_request(void) {
    const giop_message *ping = &HEADS[0];
    giop_request head = {9, 9, 9, 9, 9, 9};
    giop_fault fault = {77, 77};
    uint8_t operation[8], key[2], octets[36];
    memset(operation, 0xEE, sizeof operation);
    memset(key, 0xEE, sizeof key);
    CHECK(giop_request_head(ping, PING + 12, 36, &head, operation, 3, key, 2, &fault) == GIOP_SMALL);
    CHECK(head.operation == 4 && head.key == 1 && operation[0] == 0xEE && key[0] == 0xEE);
    CHECK(giop_request_head(ping, PING + 12, 36, &head, operation, 8, key, 0, &fault) == GIOP_SMALL);
    CHECK(operation[0] == 0xEE);
    CHECK(giop_request_head(ping, PING + 12, 36, &head, operation, 4, key, 1, &fault) == GIOP_OK);
    CHECK(head.body == 48 && head.id == 1 && head.flags == 3 && head.target == 0);
    CHECK(memcmp(operation, "ping", 4) == 0 && operation[4] == 0xEE);
    CHECK(key[0] == 'k' && key[1] == 0xEE && fault.at == 77 && fault.number == 77);
    /* response flags of 2, at 16, are none of 0, 1 and 3 */
    memcpy(octets, PING + 12, 36);
    octets[4] = 2;
    CHECK(giop_request_head(ping, octets, 36, &head, operation, 8, key, 2, &fault) == GIOP_FAULT);
    CHECK(fault.at == 16 && fault.number == GIOP_CDR_BAD_LABEL && head.flags == 3);
    /* an addressing disposition of 3, at 20, is none of 0, 1 and 2 */
    octets[4] = 3;
    octets[9] = 3;
    CHECK(giop_request_head(ping, octets, 36, &head, operation, 8, key, 2, &fault) == GIOP_FAULT);
    CHECK(fault.at == 20 && fault.number == GIOP_CDR_BAD_LABEL);
    /* the octets end within the request id, which stands at 12 */
    CHECK(giop_request_head(ping, octets, 3, &head, operation, 8, key, 2, &fault) == GIOP_FAULT);
    CHECK(fault.at == 12 && fault.number == GIOP_CDR_SHORT);
    CHECK(giop_request_head(ping, NULL, 0, &head, operation, 8, key, 2, &fault) == GIOP_FAULT);
    CHECK(fault.at == 12 && fault.number == GIOP_CDR_SHORT);
    /* the name of the operation, counted at 32, has no null at its end */
    memcpy(octets, PING + 12, 36);
    octets[28] = 's';
    CHECK(giop_request_head(ping, octets, 36, &head, operation, 8, key, 2, &fault) == GIOP_FAULT);
    CHECK(fault.at == 32 && fault.number == GIOP_CDR_BAD_STRING);
}

/* Each allocation is refused in turn: the call says so, and goes well when it is made again. */
static void refused_memory_changes_nothing(void) {
    long before = blocks;
    for (long grant = 0; grant < 12; grant++) {
        giop_framer framer = GIOP_FRAMER_CLOSED;
        giop_message head = {9, 9, 9, 9, 9, 9, 9};
        giop_fault fault = {77, 77};
        uint8_t payload[64];
        size_t size = 99, rest = 99;
        left = grant;
        if (giop_framer_new(&framer, 100) != GIOP_OK) {
            CHECK(giop_framer_rest(&framer, &rest) == GIOP_CLOSED);
            left = -1;
            CHECK(giop_framer_new(&framer, 100) == GIOP_OK);
        }
        uint32_t status = giop_framer_feed(&framer, PING, sizeof PING);
        if (status != GIOP_OK) {
            CHECK(status == GIOP_NO_MEMORY);
            CHECK(giop_framer_rest(&framer, &rest) == GIOP_OK && rest == 0);
            left = -1;
            CHECK(giop_framer_feed(&framer, PING, sizeof PING) == GIOP_OK);
        }
        status = giop_framer_next(&framer, &head, &fault);
        if (status != GIOP_OK) {
            CHECK(status == GIOP_NO_MEMORY && fault.at == 0 && fault.number == GIOP_MEMORY_RAN_OUT);
            CHECK(giop_framer_rest(&framer, &rest) == GIOP_OK && rest == sizeof PING);
            CHECK(head.minor == 9);
            left = -1;
            CHECK(giop_framer_next(&framer, &head, &fault) == GIOP_OK);
        }
        left = -1;
        CHECK(same_head(head, HEADS[0]));
        CHECK(giop_framer_payload(&framer, payload, 64, &size) == GIOP_OK && size == 36);
        CHECK(memcmp(payload, PING + 12, 36) == 0);
        giop_framer_free(&framer);
        CHECK(blocks == before);
    }
}

/* Streams at random, by a fixed seed: in pieces they give what they give at once. */
static uint32_t seed = 41;

static uint32_t at_random(uint32_t below) {
    seed = seed * 1664525u + 1013904223u;
    return (seed >> 8) % below;
}

struct summary {
    size_t messages, octets, rest;
    uint32_t status;
    giop_fault fault;
};

static struct summary drains(giop_framer *framer, struct summary so_far) {
    giop_message head;
    giop_fault fault = {0, 0};
    while ((so_far.status = giop_framer_next(framer, &head, &fault)) == GIOP_OK) {
        so_far.messages++;
        so_far.octets += head.size;
    }
    so_far.fault = fault;
    CHECK(giop_framer_rest(framer, &so_far.rest) == GIOP_OK);
    return so_far;
}

static void streams_at_random(void) {
    const uint8_t *parts[4] = {PING, CANCEL, PIECE, CLOSE};
    const size_t sizes[4] = {sizeof PING, sizeof CANCEL, sizeof PIECE, sizeof CLOSE};
    for (int turn = 0; turn < 20000; turn++) {
        uint8_t stream[512];
        size_t size = 0;
        struct summary whole = {0, 0, 0, 0, {0, 0}}, pieces = {0, 0, 0, 0, {0, 0}};
        giop_framer one = GIOP_FRAMER_CLOSED, other = GIOP_FRAMER_CLOSED;
        for (uint32_t i = at_random(8) + 1; i > 0; i--) {
            uint32_t part = at_random(4);
            memcpy(stream + size, parts[part], sizes[part]);
            size += sizes[part];
        }
        for (uint32_t i = at_random(3); i > 0; i--) {
            stream[at_random((uint32_t)size)] = (uint8_t)at_random(256);
        }
        CHECK(giop_framer_new(&one, 100) == GIOP_OK && giop_framer_new(&other, 100) == GIOP_OK);
        CHECK(giop_framer_feed(&one, stream, size) == GIOP_OK);
        whole = drains(&one, whole);
        for (size_t at = 0; at < size;) {
            size_t piece = at_random(40);
            if (piece > size - at) {
                piece = size - at;
            }
            CHECK(giop_framer_feed(&other, stream + at, piece) == GIOP_OK);
            at += piece;
            pieces = drains(&other, pieces);
        }
        CHECK(whole.messages == pieces.messages && whole.octets == pieces.octets);
        CHECK(whole.status == pieces.status && whole.rest == pieces.rest);
        CHECK(whole.fault.at == pieces.fault.at && whole.fault.number == pieces.fault.number);
        CHECK(12 * whole.messages + whole.octets + whole.rest == size);
        giop_framer_free(&one);
        giop_framer_free(&other);
    }
}

/* Before 1.2 the id of a Request or of a Reply stands behind its service contexts (9.4.2.1): here the context 6 of
 * two octets, which ends at 26, and the id 5 at 28. Then a count of contexts that the octets can't hold. */
static const uint8_t EARLY[32] = {
    'G', 'I', 'O', 'P', 1, 1, 0, 1, 0, 0, 0, 20, 0, 0, 0, 1, 0, 0, 0, 6, 0, 0, 0, 2, 4, 5, 0, 0, 0, 0, 0, 5};

static void a_request_id_is_found_in_each_version(void) {
    giop_framer framer = {0};
    giop_message head = {9, 9, 9, 9, 9, 9, 9};
    giop_fault fault;
    uint8_t octets[32];
    CHECK(giop_framer_new(&framer, 100) == GIOP_OK);
    memcpy(octets, EARLY, sizeof octets);
    for (uint8_t minor = 0; minor < 2; minor++) {
        octets[5] = minor;
        CHECK(giop_framer_feed(&framer, octets, sizeof octets) == GIOP_OK);
        CHECK(giop_framer_next(&framer, &head, &fault) == GIOP_OK && head.has_id == 1 && head.id == 5);
    }
    /* in 1.2 it is the first field */
    octets[5] = 2;
    CHECK(giop_framer_feed(&framer, octets, sizeof octets) == GIOP_OK);
    CHECK(giop_framer_next(&framer, &head, &fault) == GIOP_OK && head.has_id == 1 && head.id == 1);
    octets[5] = 1;
    octets[12] = 1;
    CHECK(giop_framer_feed(&framer, octets, sizeof octets) == GIOP_OK);
    CHECK(giop_framer_next(&framer, &head, &fault) == GIOP_OK && head.has_id == 0 && head.id == 0);
    giop_framer_free(&framer);
}

int main(void) {
    a_request_id_is_found_in_each_version();
    each_cut_gives_the_same_messages();
    octets_may_come_one_by_one();
    a_header_is_read_without_a_handle();
    an_early_id_stands_behind_the_contexts();
    headers_are_refused_at_their_place();
    a_small_buffer_is_told_the_size();
    a_closed_handle_answers_closed();
    an_open_handle_is_opened_again();
    the_head_of_a_request();
    refused_memory_changes_nothing();
    streams_at_random();
    CHECK(blocks == 0);
    printf("%d passed, %d failed\n", passed, failed);
    return failed != 0;
}
