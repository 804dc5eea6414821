/* Streams at random, by a fixed seed, against libgiop's framer and a server's end: whatever pieces they come in,
 * they come to the same; statuses and numbers are those of include/giop.h; no buffer is written behind what is
 * said; what a server answers to any stream is whole messages; and nothing is left of the heap, also where it
 * refuses at any moment.
 *
 * Usage: fuzz [TURNS]              so many streams, a few by default
 *        fuzz write FOLDER N       writes N streams, for `giopctl check` to read too
 *        fuzz read LIMITS FILE..   prints of each what a server's end makes of it, within the limits of a message, of
 *                                  calls and of gathered octets, as 1048576,1024,- where - stands for the default
 *
 * Without `write` and `read` it prints what failed and ends with status 1, or prints how many passed. */
#include "check.h"
#include "streams.h"

static const char CALCULATOR[] =
    "{\"operations\":{\"ping\":{},\"add\":{\"ins\":[[\"a\",\"long\"],[\"b\",\"long\"]],\"outs\":[[\"sum\",\"long\"]]},"
    "\"list\":{\"ins\":[[\"items\",{\"sequence\":\"long\"}]]},"
    "\"tell\":{\"oneway\":true,\"ins\":[[\"t\",\"string\"]]}}}";
static const giop_limits LIMITS = GIOP_LIMITS, SMALL = {400, 5, 300};

static uint32_t opens(giop_server *server, const giop_limits *limits) {
    giop_interface interface = {0};
    giop_text_fault fault;
    uint32_t status = giop_interface_new(&interface, (const uint8_t *)CALCULATOR, strlen(CALCULATOR), &fault);
    status = status == GIOP_OK ? giop_server_new(server, &interface, limits) : status;
    giop_interface_free(&interface);
    return status;
}

/* What was seen, as one number (FNV-1a). */
static uint64_t mixed(uint64_t sum, const void *octets, size_t size) {
    for (size_t i = 0; i < size; i++) {
        sum = (sum ^ ((const uint8_t *)octets)[i]) * 1099511628211u;
    }
    return sum;
}

static uint64_t with(uint64_t sum, uint64_t number) {
    return mixed(sum, &number, sizeof number);
}

static size_t piece_of(size_t left, int whole) {
    size_t size = whole ? left : at_random(50);
    return size < left ? size : left;
}

/* ---- the framer ---- */

/* Takes the messages that are there. `taken` counts their octets, headers included. */
static uint64_t drained(giop_framer *framer, uint64_t sum, size_t *taken) {
    static uint8_t payload[8192];
    giop_message head;
    giop_fault fault = {0, 0};
    uint32_t status;
    size_t size;
    while ((status = giop_framer_next(framer, &head, &fault)) == GIOP_OK) {
        CHECK(head.kind <= 7 && head.minor <= 2 && head.size <= 300);
        CHECK(giop_framer_payload(framer, payload, sizeof payload, &size) == GIOP_OK && size == head.size);
        sum = with(mixed(sum, payload, size), head.minor + 4u * head.kind + 32u * head.more);
        *taken += 12 + size;
    }
    CHECK(status == GIOP_WAITS ? fault.number == 0 : status == GIOP_FAULT && fault.number - 1 < 8 && fault.at < 12);
    return sum;
}

static uint64_t framed(const struct octets *stream, int whole) {
    giop_framer framer = GIOP_FRAMER_CLOSED;
    giop_message head;
    giop_fault fault = {0, 0};
    size_t taken = 0, rest = 0;
    uint64_t sum = 0;
    CHECK(giop_framer_new(&framer, 300) == GIOP_OK);
    for (size_t at = 0, size; at < stream->size; at += size) {
        size = piece_of(stream->size - at, whole);
        CHECK(giop_framer_feed(&framer, stream->at + at, size) == GIOP_OK);
        sum = drained(&framer, sum, &taken);
    }
    sum = with(sum, giop_framer_next(&framer, &head, &fault));
    CHECK(giop_framer_rest(&framer, &rest) == GIOP_OK && taken + rest == stream->size);
    giop_framer_free(&framer);
    return with(with(with(sum, fault.at), fault.number), rest);
}

/* ---- what a server's end holds ---- */

enum { GUARD = 8 };
static uint8_t buffer[16384 + GUARD];

/* Where a copy of this size went well, nothing behind it is written; else nothing is. */
static int is_guarded(uint32_t status, size_t size) {
    static const uint8_t kept[GUARD] = {0xEE, 0xEE, 0xEE, 0xEE, 0xEE, 0xEE, 0xEE, 0xEE};
    return memcmp(buffer + (status == GIOP_OK ? size : 0), kept, GUARD) == 0;
}

/* An operation, a key, a context, or the ins in each form, copied into room that may be too small. */
static uint64_t copied(giop_server *server, uint32_t id, int what, uint64_t sum) {
    uint32_t service = 0;
    size_t size = 99, room = at_random(3) == 0 ? at_random(12) : sizeof buffer - GUARD;
    uint32_t status;
    memset(buffer, 0xEE, sizeof buffer);
    for (int again = 0; again < 2; again++, room = size) {
        uint8_t *at = room == 0 ? NULL : buffer;
        status = what == 0   ? giop_server_operation(server, id, at, room, &size)
                 : what == 1 ? giop_server_key(server, id, at, room, &size)
                 : what < 5 ? giop_server_ins(server, id, (uint32_t)what - 2, at, room, &size)
                            : giop_server_context(server, id, (size_t)what - 5, &service, at, room, &size);
        CHECK(is_guarded(status, size));
        if (status != GIOP_SMALL) {
            break;
        }
        CHECK(size > room && again == 0);
    }
    CHECK(status == GIOP_OK || status == GIOP_WAITS || (status == GIOP_NO_MEMORY && left == 0));
    return with(status == GIOP_OK ? with(mixed(sum, buffer, size), size) : with(sum, status), service);
}

static giop_server_entry entry_of(giop_server *server, uint32_t id) {
    giop_server_entry entry;
    memset(&entry, 99, sizeof entry);
    CHECK(giop_server_entry_of(server, id, &entry) == GIOP_OK);
    CHECK(entry.kind <= 8 && entry.awaits <= 2 && entry.over <= 1 && entry.outcome <= 5);
    CHECK(entry.flags == 0 || entry.flags == 1 || entry.flags == 3);
    CHECK(entry.part <= 3 && entry.number <= 8 && (entry.number > 0) == (entry.part == 1 || entry.part == 3));
    CHECK((entry.part == 0) <= (entry.at == 0) && (entry.kind == GIOP_UNDECODED) <= (entry.part > 0));
    return entry;
}

static uint64_t seen(giop_server *server, uint32_t id, uint64_t sum) {
    giop_server_entry entry = entry_of(server, id);
    CHECK(entry.kind != GIOP_NOTHING);
    sum = with(with(with(with(sum, id), entry.kind), entry.awaits), entry.over);
    sum = with(with(with(with(sum, entry.outcome), entry.flags), entry.left), entry.status);
    sum = with(with(with(sum, entry.part), entry.number), entry.at);
    for (int what = 0; what < 7; what++) {
        sum = copied(server, id, what, sum);
    }
    return sum;
}

/* How many ids there are, each in the buffer of ids. */
static size_t ids_of(giop_server *server, uint32_t ids[64]) {
    size_t count = 0;
    uint32_t status = giop_server_ids(server, ids, 64, &count);
    CHECK(status == GIOP_OK || (status == GIOP_NO_MEMORY && left == 0));
    for (size_t i = 1; i < count; i++) {
        CHECK(ids[i - 1] < ids[i]);
    }
    return status == GIOP_OK ? count : 0;
}

static uint64_t all_seen(giop_server *server, uint64_t sum) {
    uint32_t ids[64];
    size_t count = ids_of(server, ids);
    for (size_t i = 0; i < count; i++) {
        sum = seen(server, ids[i], sum);
    }
    return with(sum, count);
}

static int is_end_fault(const giop_end_fault *fault) {
    return fault->number - 1 < 12 && fault->part <= 9;
}

/* What a server's end makes of a stream up to its first fault, as one number. */
static uint64_t heard(const struct octets *stream, const giop_limits *limits, int whole) {
    giop_server server = {0};
    giop_end_fault fault = {0, 0, 0, 0}, again = {0, 0, 0, 0};
    uint32_t status = GIOP_OK;
    size_t rest = 0;
    CHECK(opens(&server, limits) == GIOP_OK);
    for (size_t at = 0, size; at < stream->size && status == GIOP_OK; at += size) {
        size = piece_of(stream->size - at, whole);
        status = giop_server_feed(&server, stream->at + at, size, &fault);
    }
    CHECK(status == GIOP_OK || (status == GIOP_FAULT && is_end_fault(&fault)));
    if (status == GIOP_OK) {
        CHECK(giop_server_rest(&server, &rest) == GIOP_OK);
    } else {
        CHECK(giop_server_feed(&server, stream->at, 1, &again) == GIOP_FAULT && again.number == fault.number
              && again.part == fault.part && again.id == fault.id && again.at == fault.at);
    }
    uint64_t sum = with(with(with(all_seen(&server, status), fault.number), fault.part), fault.id);
    giop_server_free(&server);
    return with(with(sum, fault.at), rest);
}

/* ---- a server's end that answers ---- */

/* Takes what is outgoing, some of it, and gives it to a framer, which finds whole messages alone. */
static void written(giop_server *server, giop_framer *to, int all) {
    giop_message head;
    giop_fault fault;
    size_t size = 0;
    CHECK(giop_server_outgoing(server, buffer, sizeof buffer - GUARD, &size) == GIOP_OK);
    CHECK(giop_server_wrote(server, size + 1) == GIOP_SMALL);
    size = all || size == 0 ? size : at_random((uint32_t)size + 1);
    long allowed = left;
    left = -1;
    CHECK(giop_framer_feed(to, buffer, size) == GIOP_OK);
    uint32_t status;
    while ((status = giop_framer_next(to, &head, &fault)) == GIOP_OK) {
        CHECK(head.kind == GIOP_REPLY || head.kind == GIOP_LOCATE_REPLY || head.kind == GIOP_FRAGMENT
              || head.kind == GIOP_CLOSE_CONNECTION);
    }
    CHECK(status == GIOP_WAITS);
    left = allowed;
    CHECK(giop_server_wrote(server, size) == GIOP_OK);
}

/* One act at an id: it answers in some way, sends a piece, or takes the call out. */
static void acts(giop_server *server, uint32_t id) {
    static const char exception[] = "IDL:omg.org/CORBA/UNKNOWN:1.0";
    const uint8_t outs[5] = {0, 0, 0, 7, 0};
    giop_form form = {at_random(10) == 0 ? at_random(30) : 24 + 8 * at_random(8), at_random(2)};
    giop_end_fault fault = {77, 77, 77, 77};
    giop_server_entry before = entry_of(server, id), after;
    uint32_t status;
    switch (at_random(6)) {
    case 0:
    case 1:
        status = giop_server_answer(server, id, at_random(2), outs, at_random(2) ? 4 : at_random(6), &form, &fault);
        break;
    case 2:
        status = giop_server_answer_system(server, id, (const uint8_t *)exception, at_random(30), at_random(9),
                                           at_random(4), &form, &fault);
        break;
    case 3:
        status = giop_server_answer_locate(server, id, at_random(2), at_random(2), &fault);
        break;
    case 4:
        status = giop_server_send(server, id, &fault);
        break;
    default:
        status = giop_server_take(server, id, &fault);
    }
    CHECK(status == GIOP_OK || status == GIOP_FAULT || (status == GIOP_NO_MEMORY && left == 0));
    CHECK(status == GIOP_OK ? fault.number == 77 : is_end_fault(&fault));
    after = entry_of(server, id);
    CHECK(status == GIOP_OK || (before.kind == after.kind && before.left == after.left && before.over == after.over));
}

/* A server's end hears a stream and acts between its pieces. The heap refuses after so many allocations. */
static void answered(const struct octets *stream, long granted_to_it) {
    giop_server server = {0};
    giop_framer framer = GIOP_FRAMER_CLOSED;
    giop_end_fault fault = {0, 0, 0, 0};
    uint32_t status = GIOP_OK, ids[64];
    CHECK(giop_framer_new(&framer, 1u << 20) == GIOP_OK && opens(&server, &SMALL) == GIOP_OK);
    left = granted_to_it;
    for (size_t at = 0, size; at < stream->size && status == GIOP_OK; at += size) {
        size = piece_of(stream->size - at, 0);
        status = giop_server_feed(&server, stream->at + at, size, &fault);
        CHECK(status == GIOP_OK || (status == GIOP_FAULT && is_end_fault(&fault))
              || (status == GIOP_NO_MEMORY && left == 0 && fault.number == GIOP_END_NO_MEMORY));
        size_t count = ids_of(&server, ids);
        for (size_t i = 0; i < count && at_random(2); i++) {
            acts(&server, at_random(8) == 0 ? at_random(10) : ids[i]);
        }
        all_seen(&server, 0);
        written(&server, &framer, 0);
    }
    status = giop_server_close(&server, &fault);
    CHECK(status == GIOP_OK || status == GIOP_FAULT || (status == GIOP_NO_MEMORY && left == 0));
    left = -1;
    written(&server, &framer, 1);
    size_t rest = 99;
    CHECK(giop_framer_rest(&framer, &rest) == GIOP_OK && rest == 0);
    giop_server_free(&server);
    giop_framer_free(&framer);
}

static void one_turn(uint32_t turn) {
    static struct octets stream;
    put_stream(&stream, 1 + at_random(8), 6);
    for (uint32_t i = turn % 2 ? 1 + at_random(3) : 0; i > 0; i--) {
        damage(&stream);
    }
    CHECK(framed(&stream, 1) == framed(&stream, 0));
    CHECK(heard(&stream, &LIMITS, 1) == heard(&stream, &LIMITS, 0));
    CHECK(heard(&stream, &SMALL, 1) == heard(&stream, &SMALL, 0));
    answered(&stream, turn % 3 == 0 ? (long)at_random(150) : -1);
    CHECK(blocks == 0);
}

/* ---- streams that `giopctl check` reads too ---- */

static int write_streams(const char *folder, uint32_t count) {
    static struct octets stream;
    char name[4096];
    for (uint32_t i = 0; i < count; i++) {
        put_stream(&stream, 1 + at_random(8), 200);
        for (uint32_t n = i % 4 ? at_random(3) : 0; n > 0; n--) {
            damage(&stream);
        }
        snprintf(name, sizeof name, "%s/%u.giop", folder, (unsigned)i);
        FILE *file = fopen(name, "wb");
        if (!file || fwrite(stream.at, 1, stream.size, file) != stream.size || fclose(file) != 0) {
            return 1;
        }
    }
    return 0;
}

/* The lines of `giopctl check` without values and names: ID KIND [OPERATION], and `rest N` or the fault. */
static void print_table(giop_server *server) {
    static const char *const kinds[] = {"Nothing", "Gathering", "Asked", "Undecoded", "LocateAsked",
                                        "Answered", "LocateAnswered", "Delivered", "Cancelled"};
    static uint32_t ids[1024];
    size_t count = 0, size = 0;
    giop_server_ids(server, ids, 1024, &count);
    for (size_t i = 0; i < count; i++) {
        giop_server_entry entry = entry_of(server, ids[i]);
        printf("%u %s", (unsigned)ids[i], kinds[entry.kind]);
        if (giop_server_operation(server, ids[i], buffer, sizeof buffer, &size) == GIOP_OK) {
            printf(" %.*s", (int)size, (const char *)buffer);
        }
        printf("\n");
    }
}

static void print_fault(const giop_end_fault *fault) {
    printf("fault %u", (unsigned)fault->number);
    if (fault->number == GIOP_END_WIRE || fault->number == GIOP_END_NO_ID) {
        printf(" %u at %zu", (unsigned)fault->part, fault->at);
    } else if (fault->number == GIOP_END_CALL) {
        printf(" %u %u", (unsigned)fault->id, (unsigned)fault->part);
    }
    printf("\n");
}

/* The limits that a word says. */
static giop_limits limits_of(char *word) {
    giop_limits limits = GIOP_LIMITS;
    char *message = strtok(word, ","), *calls = strtok(NULL, ","), *gathered = strtok(NULL, ",");
    limits.message = *message == '-' ? limits.message : (uint32_t)strtoul(message, NULL, 10);
    limits.calls = *calls == '-' ? limits.calls : (uint32_t)strtoul(calls, NULL, 10);
    limits.gathered = *gathered == '-' ? limits.gathered : (uint64_t)strtoull(gathered, NULL, 10);
    return limits;
}

static int read_stream(const char *name, const giop_limits *limits) {
    static struct octets stream;
    giop_server server = {0};
    giop_end_fault fault;
    size_t rest = 0;
    FILE *file = fopen(name, "rb");
    if (!file || opens(&server, limits) != GIOP_OK) {
        return 1;
    }
    stream.size = fread(stream.at, 1, sizeof stream.at, file);
    fclose(file);
    uint32_t status = giop_server_feed(&server, stream.at, stream.size, &fault);
    print_table(&server);
    if (status == GIOP_OK) {
        giop_server_rest(&server, &rest);
        printf("rest %zu\n", rest);
    } else {
        print_fault(&fault);
    }
    giop_server_free(&server);
    return 0;
}

int main(int argc, char **argv) {
    if (argc == 4 && strcmp(argv[1], "write") == 0) {
        return write_streams(argv[2], (uint32_t)atoi(argv[3]));
    }
    if (argc > 3 && strcmp(argv[1], "read") == 0) {
        const giop_limits limits = limits_of(argv[2]);
        int wrong = 0;
        for (int i = 3; i < argc; i++) {
            printf("%s\n", argv[i]);
            wrong |= read_stream(argv[i], &limits);
        }
        return wrong;
    }
    uint32_t turns = argc > 1 ? (uint32_t)atoi(argv[1]) : 150;
    for (uint32_t turn = 0; turn < turns; turn++) {
        one_turn(turn);
    }
    printf("%d passed, %d failed\n", passed, failed);
    return failed != 0;
}
