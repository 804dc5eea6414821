/* Tests of libgiop: the number of each fault that a server's end has by what it hears, and the end has it for
 * good. What is expected is worked by hand from CORBA 3.3 Part 2, 9.4, and from what include/giop.h says; none
 * comes from the library's own output.
 *
 * It prints the name of each test that failed and ends with status 1, or prints how many passed. */
#include "check.h"

static const char PING[] = "{\"operations\":{\"ping\":{}}}";

/* LocateRequests of 1.2, big endian, with the ids 3 and 4, by the key "k" (9.4.5). */
#define WHERE(id) 'G', 'I', 'O', 'P', 1, 2, 0, 3, 0, 0, 0, 13, 0, 0, 0, id, 0, 0, 0, 0, 0, 0, 0, 1, 'k'
/* The first piece of a Request of 1.2, big endian, id 1, more to come: 12 octets behind the header (9.4.2). */
#define FIRST 'G', 'I', 'O', 'P', 1, 2, 2, 0, 0, 0, 0, 12, 0, 0, 0, 1, 3, 0, 0, 0, 0, 0, 0, 0
/* Fragments of it, in each byte order (9.4.9). */
#define BIG 'G', 'I', 'O', 'P', 1, 2, 0, 7, 0, 0, 0, 4, 0, 0, 0, 1
#define LITTLE 'G', 'I', 'O', 'P', 1, 2, 1, 7, 4, 0, 0, 0, 1, 0, 0, 0
#define REPLY 'G', 'I', 'O', 'P', 1, 2, 0, 1, 0, 0, 0, 12, 0, 0, 0, 1, 0, 0, 0, 0, 0, 0, 0, 0
#define ERROR 'G', 'I', 'O', 'P', 1, 2, 0, 6, 0, 0, 0, 0
#define CLOSE 'G', 'I', 'O', 'P', 1, 2, 0, 5, 0, 0, 0, 0
/* A Request of 1.0 that ends where its id would begin, at 16, behind a count of contexts (9.4.2). */
#define CUT 'G', 'I', 'O', 'P', 1, 0, 0, 0, 0, 0, 0, 4, 0, 0, 0, 0
/* A header of 1.3, which there isn't. */
#define BAD 'G', 'I', 'O', 'P', 1, 3, 0, 0, 0, 0, 0, 0

#define ROOM {1000, 3, 1000}

static const struct {
    giop_limits limits;
    giop_end_fault fault; /* the place, the number, the part and the id */
    size_t size;
    uint8_t octets[50];
} ROWS[] = {
    {ROOM, {5, GIOP_END_WIRE, GIOP_BAD_VERSION, 0}, 12, {BAD}},
    {{1000, 3, 12}, {8, GIOP_END_WIRE, GIOP_TOO_LARGE, 0}, 25, {WHERE(3)}},
    {ROOM, {0, GIOP_END_CALL, GIOP_CALL_ID_IN_USE, 3}, 50, {WHERE(3), WHERE(3)}},
    {ROOM, {0, GIOP_END_CALL, GIOP_CALL_STRAY, 1}, 16, {BIG}},
    {ROOM, {0, GIOP_END_CALL, GIOP_CALL_ORDER_DIFFERS, 1}, 40, {FIRST, LITTLE}},
    {ROOM, {0, GIOP_END_WRONG_DIRECTION, 0, 0}, 24, {REPLY}},
    {{1000, 1, 1000}, {0, GIOP_END_TOO_MANY_CALLS, 0, 0}, 50, {WHERE(3), WHERE(4)}},
    {{11, 3, 1000}, {0, GIOP_END_GATHER_FULL, 0, 0}, 24, {FIRST}},
    {ROOM, {0, GIOP_END_PEER_ERROR, 0, 0}, 12, {ERROR}},
    {ROOM, {0, GIOP_END_CLOSED, 0, 0}, 12, {CLOSE}},
    {ROOM, {16, GIOP_END_NO_ID, GIOP_CDR_SHORT, 0}, 16, {CUT}},
};

static int is(const giop_end_fault *fault, const giop_end_fault *wanted) {
    return fault->number == wanted->number && fault->part == wanted->part && fault->id == wanted->id
        && fault->at == wanted->at;
}

static void each_fault_has_its_number(void) {
    giop_interface interface = {0};
    giop_text_fault why;
    CHECK(giop_interface_new(&interface, (const uint8_t *)PING, strlen(PING), &why) == GIOP_OK);
    for (size_t i = 0; i < sizeof ROWS / sizeof ROWS[0]; i++) {
        giop_server server = {0};
        giop_end_fault fault = {77, 77, 77, 77}, again = {77, 77, 77, 77};
        CHECK(giop_server_new(&server, &interface, &ROWS[i].limits) == GIOP_OK);
        CHECK(giop_server_feed(&server, ROWS[i].octets, ROWS[i].size, &fault) == GIOP_FAULT);
        CHECK(is(&fault, &ROWS[i].fault));
        CHECK(giop_server_send(&server, 3, &again) == GIOP_FAULT && is(&again, &ROWS[i].fault));
        giop_server_free(&server);
    }
    giop_interface_free(&interface);
    CHECK(blocks == 0);
}

/* One octet, one call or one piece less, and the limit isn't met. */
static void what_a_limit_holds_is_heard(void) {
    static const giop_limits few = {12, 1, 13};
    static const uint8_t where[] = {WHERE(3)}, first[] = {FIRST};
    giop_interface interface = {0};
    giop_text_fault why;
    giop_end_fault fault = {77, 77, 77, 77};
    CHECK(giop_interface_new(&interface, (const uint8_t *)PING, strlen(PING), &why) == GIOP_OK);
    giop_server server = {0};
    CHECK(giop_server_new(&server, &interface, &few) == GIOP_OK);
    CHECK(giop_server_feed(&server, where, sizeof where, &fault) == GIOP_OK);
    CHECK(giop_server_new(&server, &interface, &few) == GIOP_OK);
    CHECK(giop_server_feed(&server, first, sizeof first, &fault) == GIOP_OK && fault.number == 77);
    giop_server_free(&server);
    giop_interface_free(&interface);
    CHECK(blocks == 0);
}

int main(void) {
    each_fault_has_its_number();
    what_a_limit_holds_is_heard();
    printf("%d passed, %d failed\n", passed, failed);
    return failed != 0;
}
