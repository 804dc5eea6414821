/* Both ends of a connection over memory, by schedules at random from a fixed seed: what their programs do, and how
 * many octets arrive. Where no octet is damaged and the heap refuses nothing, an end fails at its own limits or
 * where the connection was closed, and in no other way; a call that is done at the client was answered so at the
 * server. Else statuses, numbers and buffers are as include/giop.h has them, and the heap is left as it was.
 *
 * Usage: worlds [TURNS]     so many schedules, a few by default
 *
 * It prints what failed and ends with status 1, or prints how many passed. */
#include "check.h"
#include "streams.h"

static const char CALCULATOR[] =
    "{\"operations\":{\"ping\":{},\"add\":{\"ins\":[[\"a\",\"long\"],[\"b\",\"long\"]],\"outs\":[[\"sum\",\"long\"]]},"
    "\"echo\":{\"ins\":[[\"t\",\"string\"]],\"outs\":[[\"t\",\"string\"]]},\"tell\":{\"oneway\":true,\"ins\":"
    "[[\"t\",\"string\"]]}},\"exceptions\":{\"IDL:E:1.0\":[[\"why\",\"long\"]]}}";

enum { IDS = 5, GUARD = 8 };

static giop_client client;
static giop_server server;
static giop_framer beside[2]; /* beside the client and the server, fed the same octets */
static int is_damaged, may_refuse; /* octets were damaged; the heap may refuse */
static uint8_t buffer[8192 + GUARD];

static uint32_t opens(const giop_limits *limits) {
    giop_interface interface = {0};
    giop_text_fault fault;
    uint32_t status = giop_interface_new(&interface, (const uint8_t *)CALCULATOR, strlen(CALCULATOR), &fault);
    status = status == GIOP_OK ? giop_client_new(&client, &interface, limits) : status;
    status = status == GIOP_OK ? giop_server_new(&server, &interface, limits) : status;
    for (int i = 0; status == GIOP_OK && i < 2; i++) {
        status = giop_framer_new(&beside[i], limits->message);
    }
    giop_interface_free(&interface);
    return status;
}

/* A status and its fault: OK and unwritten, or FAULT or NO_MEMORY with one of the numbers. */
static void judged(uint32_t status, const giop_end_fault *fault) {
    CHECK(status == GIOP_OK || status == GIOP_FAULT || (status == GIOP_NO_MEMORY && may_refuse));
    CHECK(status == GIOP_OK ? fault->number == 77 : fault->number - 1 < 15 && fault->part <= 9);
    CHECK((status == GIOP_NO_MEMORY) == (fault->number == GIOP_END_NO_MEMORY) || may_refuse);
}

/* ---- what the client does ---- */

static giop_client_entry entry_of(uint32_t id) {
    giop_client_entry entry;
    memset(&entry, 99, sizeof entry);
    CHECK(giop_client_entry_of(&client, id, &entry) == GIOP_OK);
    CHECK(entry.kind <= 13 && entry.over <= 1 && entry.outcome <= 5 && entry.completion <= 2);
    CHECK((entry.left > 0) == (entry.kind == GIOP_SENDING));
    return entry;
}

static const char *const NAMES[] = {"ping", "add", "echo", "tell", "nothing"};
static const uint8_t NUMBERS[8] = {0, 0, 0, 2, 0, 0, 0, 5};
/* A string of 48 octets, a count before it. */
static const uint8_t TEXT[52] = "\0\0\0\60" "a text that is sent in more than a single piece";
/* The same as JSON. */
static const char NUMBERS_JSON[] = "[2,5]", TEXT_JSON[] = "[\"a text that is sent in more than a single piece\"]";

static void calls(uint32_t id) {
    uint32_t operation = at_random(20) == 0 ? 4 : at_random(4);
    uint32_t minor = at_random(3), flags = operation == 3 ? 0 : minor == 2 && at_random(8) == 0 ? 1 : 3;
    const giop_call call = {minor, flags, 0};
    const giop_form form = {at_random(20) == 0 ? at_random(30) : 24 + 8 * at_random(6), at_random(2)};
    uint32_t values = at_random(2) ? GIOP_JSON : GIOP_BIG_ENDIAN;
    const char *text = operation == 1 ? NUMBERS_JSON : operation == 2 || operation == 3 ? TEXT_JSON : "[]";
    const uint8_t *octets = operation == 1 ? NUMBERS : TEXT;
    size_t of_octets = operation == 1 ? 8 : operation == 2 || operation == 3 ? sizeof TEXT : 0;
    const uint8_t *ins = values == GIOP_JSON ? (const uint8_t *)text : octets;
    size_t size = values == GIOP_JSON ? strlen(text) : of_octets;
    giop_end_fault fault = {77, 77, 77, 77};
    giop_client_entry before = entry_of(id);
    uint32_t status = giop_client_call(&client, id, &call, (const uint8_t *)"k", at_random(2),
                                       (const uint8_t *)NAMES[operation], strlen(NAMES[operation]), values, ins,
                                       at_random(20) == 0 ? size / 2 : size, &form, &fault);
    judged(status, &fault);
    CHECK(status == GIOP_OK || before.kind == entry_of(id).kind);
    CHECK(status != GIOP_OK || before.kind == GIOP_NOTHING || before.over == 1);
}

static void client_acts(uint32_t id) {
    const giop_call call = {at_random(3), 3, 0};
    const giop_form form = {24 + 8 * at_random(6), at_random(2)};
    giop_end_fault fault = {77, 77, 77, 77};
    giop_client_entry before = entry_of(id);
    uint32_t status;
    switch (at_random(4)) {
    case 0:
        status = giop_client_locate(&client, id, &call, (const uint8_t *)"k", 1, &form, &fault);
        CHECK(status != GIOP_OK || before.kind == GIOP_NOTHING || before.over == 1);
        break;
    case 1:
        status = giop_client_cancel(&client, id, at_random(2), &fault);
        CHECK(status != GIOP_OK || entry_of(id).kind == GIOP_CANCELLED);
        break;
    case 2:
        status = giop_client_send(&client, id, &fault);
        CHECK((status == GIOP_OK) <= (before.left > 0));
        break;
    default:
        status = giop_client_take(&client, id, &fault);
        CHECK((status == GIOP_OK) <= (before.over == 1 || before.kind == GIOP_NOTHING));
    }
    judged(status, &fault);
}

/* Octets that a client's end copies into room that may be too small: its outs, an exception, its members or a
 * forward. Their status, and how many there are. */
static uint32_t copied(uint32_t id, int what, size_t *size) {
    size_t room = at_random(3) == 0 ? at_random(12) : sizeof buffer - GUARD;
    uint32_t status = GIOP_SMALL, values = at_random(3);
    memset(buffer, 0xEE, sizeof buffer);
    for (int again = 0; status == GIOP_SMALL && again < 2; again++, room = *size) {
        uint8_t *at = room == 0 ? NULL : buffer;
        status = what == 0   ? giop_client_outs(&client, id, values, at, room, size)
                 : what == 1 ? giop_client_exception(&client, id, at, room, size)
                 : what == 2 ? giop_client_members(&client, id, values, at, room, size)
                             : giop_client_forward(&client, id, at, room, size);
        for (size_t i = 0; i < GUARD; i++) {
            CHECK(buffer[(status == GIOP_OK ? *size : 0) + i] == 0xEE);
        }
    }
    CHECK(status == GIOP_OK || status == GIOP_WAITS || (status == GIOP_NO_MEMORY && may_refuse));
    return status;
}

/* What a call came to is read: which of the four there are goes by its status (9.4.3). */
static void client_looks(uint32_t id) {
    static const uint8_t there[6] = {1, 2 + 4, 2, 8, 8, 0};
    giop_client_entry entry = entry_of(id);
    unsigned wanted = entry.kind == GIOP_DONE && entry.status < 6 ? there[entry.status] : 0;
    for (int what = 0; what < 4; what++) {
        size_t size = 99;
        uint32_t status = copied(id, what, &size);
        CHECK(status == GIOP_NO_MEMORY || (status == GIOP_OK) == (wanted >> what & 1));
        CHECK(status != GIOP_WAITS || size == 99);
        CHECK(status != GIOP_OK || what != 1 || size == entry.exception);
    }
}

/* ---- what the server does ---- */

static void server_acts(uint32_t id) {
    static const char broker[] = "IDL:omg.org/CORBA/UNKNOWN:1.0", own[] = "IDL:E:1.0";
    static const char nowhere[] = "IOR:00000000000000010000000000000000";
    const giop_form form = {24 + 8 * at_random(6), at_random(2)};
    giop_end_fault fault = {77, 77, 77, 77};
    giop_server_entry entry;
    uint32_t status;
    CHECK(giop_server_entry_of(&server, id, &entry) == GIOP_OK);
    switch (at_random(9)) {
    case 0:
        status = giop_server_answer_user(&server, id, (const uint8_t *)own, 9, 0, NUMBERS, 4, &form, &fault);
        break;
    case 1:
        status = giop_server_answer_system(&server, id, (const uint8_t *)broker, 29, 1, at_random(3), &form, &fault);
        break;
    case 2:
        status = giop_server_answer_locate(&server, id, at_random(2), at_random(2), &fault);
        break;
    case 3:
        status = giop_server_take(&server, id, &fault);
        break;
    case 4:
        status = giop_server_send(&server, id, &fault);
        CHECK((status == GIOP_OK) <= (entry.left > 0));
        break;
    case 5:
        status = giop_server_answer_forward(&server, id, (const uint8_t *)nowhere, 36, at_random(2), &form, &fault);
        break;
    default: /* as of `add`, of `echo`, or of the others */
        status = entry.operation == 3
                     ? giop_server_answer(&server, id, 0, NUMBERS + 4, 4, &form, &fault)
                     : giop_server_answer(&server, id, 0, TEXT, at_random(2) ? sizeof TEXT : 0, &form, &fault);
    }
    judged(status, &fault);
}

/* ---- the connection ---- */

/* The ids of the messages that are whole with these octets: a bit each. */
static uint32_t touched(int at_server, size_t size) {
    giop_message head;
    giop_fault fault;
    uint32_t ids = 0;
    long allowed = left;
    left = -1;
    CHECK(giop_framer_feed(&beside[at_server], buffer, size) == GIOP_OK);
    while (giop_framer_next(&beside[at_server], &head, &fault) == GIOP_OK) {
        CHECK(head.has_id == (head.kind != GIOP_CLOSE_CONNECTION && head.kind != GIOP_MESSAGE_ERROR) || is_damaged);
        ids |= head.has_id && head.id < IDS ? 1u << head.id : 0;
    }
    left = allowed;
    return ids;
}

/* What is stored for an id at either end, as one number. */
static uint64_t stored(int at_server, uint32_t id) {
    giop_server_entry entry;
    giop_client_entry called;
    if (at_server) {
        CHECK(giop_server_entry_of(&server, id, &entry) == GIOP_OK);
        return entry.kind | entry.awaits << 8 | entry.over << 16 | (uint64_t)entry.left << 32;
    }
    called = entry_of(id);
    return called.kind | called.status << 8 | called.over << 16 | (uint64_t)called.left << 32;
}

/* So much of what an end has to send arrives at the other, which changes what is stored for the ids of the messages
 * that are whole, and for no other. */
static void arrives(int at_server) {
    giop_end_fault fault = {77, 77, 77, 77};
    size_t size = 0;
    uint32_t status = at_server ? giop_client_outgoing(&client, buffer, sizeof buffer - GUARD, &size)
                                : giop_server_outgoing(&server, buffer, sizeof buffer - GUARD, &size);
    CHECK(status == GIOP_OK && size <= sizeof buffer - GUARD);
    size = size == 0 || at_random(2) ? size : at_random((uint32_t)size + 1);
    if (is_damaged && size > 0 && at_random(10) == 0) {
        buffer[at_random((uint32_t)size)] ^= (uint8_t)(1u << at_random(8));
    }
    uint64_t before[IDS];
    for (uint32_t id = 0; id < IDS; id++) {
        before[id] = stored(at_server, id);
    }
    status = at_server ? giop_server_feed(&server, buffer, size, &fault)
                       : giop_client_feed(&client, buffer, size, &fault);
    judged(status, &fault);
    uint32_t ids = touched(at_server, size);
    for (uint32_t id = 0; id < IDS; id++) {
        CHECK(ids >> id & 1 || stored(at_server, id) == before[id]);
    }
    if (status == GIOP_FAULT && !is_damaged && !may_refuse) {
        CHECK(fault.number == GIOP_END_CLOSED || fault.number == GIOP_END_TOO_MANY_CALLS
              || fault.number == GIOP_END_GATHER_FULL);
    }
    CHECK((at_server ? giop_client_wrote(&client, size) : giop_server_wrote(&server, size)) == GIOP_OK);
}

static void event(void) {
    uint32_t id = at_random(IDS), which = at_random(100);
    giop_end_fault fault = {77, 77, 77, 77};
    if (which < 20) {
        calls(id);
    } else if (which < 40) {
        client_acts(id);
    } else if (which < 60) {
        server_acts(id);
    } else if (which < 70) {
        client_looks(id);
    } else if (which < 99 || at_random(2)) {
        arrives((int)at_random(2));
    } else {
        judged(at_random(2) ? giop_client_close(&client, &fault) : giop_server_close(&server, &fault), &fault);
    }
}

/* All octets arrive; then what the client's entry says of a call is what the server's says. */
static void agreed(void) {
    giop_server_entry asked;
    for (int i = 0; i < 40; i++) {
        arrives(i % 2);
    }
    for (uint32_t id = 0; id < IDS; id++) {
        giop_client_entry called = entry_of(id);
        CHECK(giop_server_entry_of(&server, id, &asked) == GIOP_OK);
        if (!is_damaged && called.kind == GIOP_DONE && asked.kind == GIOP_ANSWERED && asked.over) {
            CHECK(called.status == asked.status);
        }
    }
}

static void one_turn(uint32_t turn) {
    const giop_limits limits = {turn % 4 ? 4000 : 120, turn % 5 ? 10 : 3, 1000};
    CHECK(opens(&limits) == GIOP_OK);
    is_damaged = turn % 3 == 1;
    may_refuse = turn % 3 == 2;
    left = may_refuse ? (long)at_random(300) : -1;
    for (uint32_t i = at_random(120); i > 0; i--) {
        event();
    }
    left = -1;
    agreed();
    giop_client_free(&client);
    giop_server_free(&server);
    giop_framer_free(&beside[0]);
    giop_framer_free(&beside[1]);
    CHECK(blocks == 0);
}

int main(int argc, char **argv) {
    uint32_t turns = argc > 1 ? (uint32_t)atoi(argv[1]) : 150;
    for (uint32_t turn = 0; turn < turns; turn++) {
        one_turn(turn);
    }
    printf("%d passed, %d failed\n", passed, failed);
    return failed != 0;
}
