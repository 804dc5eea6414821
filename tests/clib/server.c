/* Tests of libgiop's end of a connection that answers calls, from outside. What is expected is worked by
 * hand from CORBA 3.3 Part 2, 9.4, and from what include/giop.h says; none comes from the library's own
 * output.
 *
 * It prints the name of each test that failed and ends with status 1, or prints how many passed. */
#include "check.h"

static const char ADD[] =
    "{\"operations\":{\"add\":{\"ins\":[[\"a\",\"long\"],[\"b\",\"long\"]],\"outs\":[[\"sum\",\"long\"]]},"
    "\"tell\":{\"oneway\":true,\"ins\":[[\"what\",\"string\"]]}},"
    "\"exceptions\":{\"IDL:E:1.0\":[[\"why\",\"long\"]]}}";

/* A Request of 1.2, big endian, id 1, to the key "k", of add (9.4.2): the head ends at 44, and the ins 2 and
 * 5 begin at 48, a multiple of 8. */
static const uint8_t ASK[56] = {
    'G', 'I', 'O', 'P', 1, 2, 0, 0, 0, 0, 0, 44, 0, 0, 0, 1, 3, 0, 0, 0, 0, 0, 0, 0, 0, 0, 0, 1, 'k', 0, 0, 0,
    0, 0, 0, 4, 'a', 'd', 'd', 0, 0, 0, 0, 0, 0, 0, 0, 0, 0, 0, 0, 2, 0, 0, 0, 5};
/* A Request of 1.0, little endian, id 2, flags 0, to the key "k", of tell with "hi" (9.4.2.1): contexts, id,
 * a boolean for the reply, key, operation, principal, and the in right behind it, at offset 48. */
static const uint8_t TELL[55] = {
    'G', 'I', 'O', 'P', 1, 0, 1, 0, 43, 0, 0, 0, 0, 0, 0, 0, 2, 0, 0, 0, 0, 0, 0, 0, 1, 0, 0, 0, 'k', 0, 0, 0,
    5, 0, 0, 0, 't', 'e', 'l', 'l', 0, 0, 0, 0, 0, 0, 0, 0, 3, 0, 0, 0, 'h', 'i', 0};
/* A LocateRequest of 1.2, big endian, id 3, by the key "k" (9.4.5). */
static const uint8_t WHERE[25] = {
    'G', 'I', 'O', 'P', 1, 2, 0, 3, 0, 0, 0, 13, 0, 0, 0, 3, 0, 0, 0, 0, 0, 0, 0, 1, 'k'};
/* A CancelRequest of 1.2, big endian, of id 1 (9.4.4). */
static const uint8_t CANCEL[16] = {'G', 'I', 'O', 'P', 1, 2, 0, 2, 0, 0, 0, 4, 0, 0, 0, 1};

/* The Reply to id 1 in 1.2, big endian: 7, at offset 24 (9.4.3). */
static const uint8_t SEVEN[28] = {
    'G', 'I', 'O', 'P', 1, 2, 0, 1, 0, 0, 0, 16, 0, 0, 0, 1, 0, 0, 0, 0, 0, 0, 0, 0, 0, 0, 0, 7};
/* The same in little endian by the exception IDL:E:1.0 with 258: status 1, the id of 10 octets, and the
 * member at the next multiple of 4 behind it. */
static const uint8_t EXCEPTION[44] = {
    'G', 'I', 'O', 'P', 1, 2, 1, 1, 32, 0, 0, 0, 1, 0, 0, 0, 1, 0, 0, 0, 0, 0, 0, 0, 10, 0, 0, 0,
    'I', 'D', 'L', ':', 'E', ':', '1', '.', '0', 0, 0, 0, 2, 1, 0, 0};
/* The same in big endian by UNKNOWN of the broker, minor 3, not completed: status 2, the id of 30 octets with
 * its null, up to 58, and both numbers from 60 on. */
static const uint8_t UNKNOWN[68] = {
    'G', 'I', 'O', 'P', 1, 2, 0, 1, 0, 0, 0, 56, 0, 0, 0, 1, 0, 0, 0, 2, 0, 0, 0, 0, 0, 0, 0, 30,
    'I', 'D', 'L', ':', 'o', 'm', 'g', '.', 'o', 'r', 'g', '/', 'C', 'O', 'R', 'B', 'A', '/',
    'U', 'N', 'K', 'N', 'O', 'W', 'N', ':', '1', '.', '0', 0, 0, 0, 0, 0, 0, 3, 0, 0, 0, 1};
/* The same by a forward: status 3, and a reference without a type id, its null at 28, and without profiles,
 * their count at 32 (9.4.3.1). Its text is an encapsulation: the byte order, and both at 4 and at 12. */
static const uint8_t FORWARD[36] = {
    'G', 'I', 'O', 'P', 1, 2, 0, 1, 0, 0, 0, 24, 0, 0, 0, 1, 0, 0, 0, 3, 0, 0, 0, 0, 0, 0, 0, 1};
static const char NOWHERE[] = "IOR:00000000000000010000000000000000";
/* A Request of 1.2 as ASK, with the contexts 1 of three octets and 9 of none: they stand from 40 on (7.7), and
 * the ins begin at 64. */
static const uint8_t TOLD[72] = {
    'G', 'I', 'O', 'P', 1, 2, 0, 0, 0, 0, 0, 60, 0, 0, 0, 1, 3, 0, 0, 0, 0, 0, 0, 0, 0, 0, 0, 1, 'k', 0, 0, 0,
    0, 0, 0, 4, 'a', 'd', 'd', 0, 0, 0, 0, 2, 0, 0, 0, 1, 0, 0, 0, 3, 7, 8, 9, 0, 0, 0, 0, 9, 0, 0, 0, 0,
    0, 0, 0, 2, 0, 0, 0, 5};
/* The LocateReply to id 3: OBJECT_HERE (9.4.6). */
static const uint8_t HERE[20] = {
    'G', 'I', 'O', 'P', 1, 2, 0, 4, 0, 0, 0, 8, 0, 0, 0, 3, 0, 0, 0, 1};
static const uint8_t CLOSE[12] = {'G', 'I', 'O', 'P', 1, 2, 0, 5, 0, 0, 0, 0};
/* A header of 1.3, which there isn't. */
static const uint8_t BAD[12] = {'G', 'I', 'O', 'P', 1, 3, 0, 0, 0, 0, 0, 0};
static const uint8_t ERROR[12] = {'G', 'I', 'O', 'P', 1, 2, 0, 6, 0, 0, 0, 0};

static const giop_limits LIMITS = {1000, 3, 1000};
static const giop_form FORM = GIOP_FORM;
static const giop_end_fault UNWRITTEN = {77, 77, 77, 77};

static int is(giop_end_fault fault, uint32_t number, uint32_t part, uint32_t id, size_t at) {
    return fault.number == number && fault.part == part && fault.id == id && fault.at == at;
}

static int is_unwritten(giop_end_fault fault) {
    return is(fault, 77, 77, 77, 77);
}

static uint32_t opens(giop_server *server) {
    giop_interface interface = {0};
    giop_text_fault fault;
    uint32_t status = giop_interface_new(&interface, (const uint8_t *)ADD, strlen(ADD), &fault);
    if (status == GIOP_OK) {
        status = giop_server_new(server, &interface, &LIMITS);
    }
    giop_interface_free(&interface); /* the end keeps its share */
    return status;
}

/* What is outgoing is this, and is written then. */
static int sends(giop_server *server, const uint8_t *octets, size_t size) {
    uint8_t buffer[128];
    size_t n = 99;
    return giop_server_outgoing(server, buffer, sizeof buffer, &n) == GIOP_OK && n == size
        && memcmp(buffer, octets, size) == 0 && giop_server_wrote(server, size) == GIOP_OK;
}

static giop_server_entry entry_of(giop_server *server, uint32_t id) {
    giop_server_entry entry;
    memset(&entry, 99, sizeof entry);
    CHECK(giop_server_entry_of(server, id, &entry) == GIOP_OK);
    return entry;
}

static int is_entry(giop_server_entry a, giop_server_entry b) {
    return a.operation == b.operation && a.key == b.key && a.contexts == b.contexts && a.at == b.at
        && a.number == b.number && a.left == b.left && a.status == b.status && a.part == b.part && a.kind == b.kind
        && a.awaits == b.awaits && a.over == b.over && a.outcome == b.outcome && a.flags == b.flags;
}

static void a_request_is_heard_in_pieces(giop_server *server) {
    static const uint8_t big[8] = {0, 0, 0, 2, 0, 0, 0, 5}, little[8] = {2, 0, 0, 0, 5, 0, 0, 0};
    static const giop_server_entry asked = {.operation = 3, .key = 1, .kind = GIOP_ASKED, .awaits = 1, .flags = 3};
    giop_end_fault fault = UNWRITTEN;
    giop_server_entry entry;
    uint8_t buffer[16];
    uint32_t ids[3] = {99, 99, 99};
    size_t size = 99, rest = 99;
    for (size_t i = 0; i < sizeof ASK; i += 5) {
        CHECK(entry_of(server, 1).kind == GIOP_NOTHING);
        CHECK(giop_server_feed(server, ASK + i, sizeof ASK - i < 5 ? sizeof ASK - i : 5, &fault) == GIOP_OK);
        CHECK(giop_server_rest(server, &rest) == GIOP_OK && rest == (i + 5 < sizeof ASK ? i + 5 : 0));
    }
    CHECK(is_unwritten(fault));
    CHECK(giop_server_ids(server, ids, 3, &size) == GIOP_OK && size == 1 && ids[0] == 1 && ids[1] == 99);
    entry = entry_of(server, 1);
    CHECK(is_entry(entry, asked) && asked.outcome == GIOP_PENDING);
    CHECK(giop_server_operation(server, 1, buffer, 2, &size) == GIOP_SMALL && size == 3);
    CHECK(giop_server_operation(server, 1, buffer, 3, &size) == GIOP_OK && memcmp(buffer, "add", 3) == 0);
    CHECK(giop_server_key(server, 1, buffer, 16, &size) == GIOP_OK && size == 1 && buffer[0] == 'k');
    size = 99;
    CHECK(giop_server_operation(server, 2, buffer, 16, &size) == GIOP_WAITS && size == 99);
    CHECK(giop_server_key(server, 2, buffer, 16, &size) == GIOP_WAITS && size == 99);
    CHECK(giop_server_ins(server, 1, 0, buffer, 7, &size) == GIOP_SMALL && size == 8);
    CHECK(giop_server_ins(server, 1, 0, buffer, 8, &size) == GIOP_OK && memcmp(buffer, big, 8) == 0);
    CHECK(giop_server_ins(server, 1, 1, buffer, 16, &size) == GIOP_OK && size == 8);
    CHECK(memcmp(buffer, little, 8) == 0);
    CHECK(giop_server_take(server, 1, &fault) == GIOP_FAULT && is(fault, GIOP_END_STILL_OPEN, 0, 0, 0));
}

static void a_request_is_answered(void) {
    static const uint8_t seven[4] = {0, 0, 0, 7}, little[5] = {7, 0, 0, 0, 0};
    giop_server server = {0};
    giop_end_fault fault = UNWRITTEN;
    giop_server_entry entry;
    giop_form bad = {20, 0};
    CHECK(opens(&server) == GIOP_OK);
    a_request_is_heard_in_pieces(&server);
    CHECK(giop_server_answer(&server, 1, 0, seven, 4, &bad, &fault) == GIOP_FAULT);
    CHECK(is(fault, GIOP_END_FORM, 0, 0, 0));
    CHECK(giop_server_answer(&server, 1, 0, seven, 3, &FORM, &fault) == GIOP_FAULT);
    CHECK(is(fault, GIOP_END_VALUES, GIOP_CDR_SHORT, 0, 0));
    CHECK(giop_server_answer(&server, 1, 1, little, 5, &FORM, &fault) == GIOP_FAULT);
    CHECK(is(fault, GIOP_END_VALUES, GIOP_CDR_TRAILING, 0, 4));
    CHECK(giop_server_answer(&server, 9, 0, NULL, 0, &FORM, &fault) == GIOP_FAULT);
    CHECK(is(fault, GIOP_END_CALL, GIOP_CALL_NOT_OPEN, 9, 0));
    CHECK(giop_server_answer_locate(&server, 1, 1, 0, &fault) == GIOP_FAULT);
    CHECK(is(fault, GIOP_END_CALL, GIOP_CALL_WRONG_KIND, 1, 0));
    CHECK(giop_server_send(&server, 1, &fault) == GIOP_FAULT);
    CHECK(is(fault, GIOP_END_CALL, GIOP_CALL_NOTHING_TO_SEND, 1, 0));
    fault = UNWRITTEN;
    CHECK(giop_server_answer(&server, 1, 0, seven, 4, &FORM, &fault) == GIOP_OK && is_unwritten(fault));
    entry = entry_of(&server, 1);
    CHECK(entry.kind == GIOP_ANSWERED && entry.awaits == 0 && entry.over == 1 && entry.status == 0);
    CHECK(entry.outcome == GIOP_REPLIED && entry.left == 0 && entry.operation == 3);
    CHECK(giop_server_wrote(&server, sizeof SEVEN + 1) == GIOP_SMALL);
    CHECK(sends(&server, SEVEN, sizeof SEVEN) && sends(&server, NULL, 0));
    CHECK(giop_server_send(&server, 1, &fault) == GIOP_FAULT);
    CHECK(is(fault, GIOP_END_CALL, GIOP_CALL_NOTHING_TO_SEND, 1, 0));
    CHECK(giop_server_take(&server, 1, &fault) == GIOP_OK && entry_of(&server, 1).kind == GIOP_NOTHING);
    giop_server_free(&server);
    CHECK(giop_server_wrote(&server, 0) == GIOP_CLOSED && blocks == 0);
}

static void a_request_is_answered_by_an_exception(void) {
    static const char id[] = "IDL:E:1.0", broker[] = "IDL:omg.org/CORBA/UNKNOWN:1.0", other[] = "IDL:X:1.0";
    static const uint8_t why[4] = {0, 0, 1, 2};
    giop_server server = {0};
    giop_end_fault fault = UNWRITTEN;
    giop_form little = {4096, 1};
    CHECK(opens(&server) == GIOP_OK);
    CHECK(giop_server_feed(&server, ASK, sizeof ASK, &fault) == GIOP_OK);
    CHECK(giop_server_answer_user(&server, 1, (const uint8_t *)id, 9, 0, why, 4, &little, &fault) == GIOP_OK);
    CHECK(entry_of(&server, 1).status == 1 && sends(&server, EXCEPTION, sizeof EXCEPTION));
    CHECK(giop_server_feed(&server, ASK, sizeof ASK, &fault) == GIOP_OK);
    CHECK(giop_server_answer_user(&server, 1, (const uint8_t *)id, 8, 0, NULL, 0, &FORM, &fault)
          == GIOP_FAULT);
    CHECK(is(fault, GIOP_END_CALL, GIOP_CALL_UNFIT, 1, 0));
    CHECK(giop_server_answer_system(&server, 1, (const uint8_t *)broker, 29, 3, 1, &FORM, &fault)
          == GIOP_OK);
    CHECK(entry_of(&server, 1).status == 2 && sends(&server, UNKNOWN, sizeof UNKNOWN));
    CHECK(giop_server_feed(&server, ASK, sizeof ASK, &fault) == GIOP_OK);
    CHECK(giop_server_answer_system(&server, 1, (const uint8_t *)other, 9, 3, 1, &FORM, &fault) == GIOP_OK);
    giop_server_free(&server);
    CHECK(blocks == 0);
}

static void a_request_is_answered_by_a_forward(void) {
    static const char none[] = "IOR:0", order[] = "IOR:02", wrong[] = "ior:0000000000000003";
    giop_server server = {0};
    giop_end_fault fault = UNWRITTEN;
    giop_form bad = {20, 0};
    uint8_t forever[36];
    memcpy(forever, FORWARD, sizeof forever);
    forever[19] = 4; /* LOCATION_FORWARD_PERM */
    CHECK(opens(&server) == GIOP_OK);
    CHECK(giop_server_feed(&server, ASK, sizeof ASK, &fault) == GIOP_OK);
    CHECK(giop_server_answer_forward(&server, 1, (const uint8_t *)NOWHERE, 36, 0, &bad, &fault) == GIOP_FAULT);
    CHECK(is(fault, GIOP_END_FORM, 0, 0, 0));
    CHECK(giop_server_answer_forward(&server, 1, (const uint8_t *)none, 3, 0, &FORM, &fault) == GIOP_FAULT);
    CHECK(is(fault, GIOP_END_TEXT, 1, 0, 0));
    CHECK(giop_server_answer_forward(&server, 1, (const uint8_t *)none, 5, 0, &FORM, &fault) == GIOP_FAULT);
    CHECK(is(fault, GIOP_END_TEXT, 2, 0, 0));
    /* the first octet is 2, and no byte order */
    CHECK(giop_server_answer_forward(&server, 1, (const uint8_t *)order, 6, 0, &FORM, &fault) == GIOP_FAULT);
    CHECK(is(fault, GIOP_END_REFERENCE, GIOP_CDR_BAD_ORDER, 0, 0));
    /* the type id says at 4 that it has three octets, and there are none */
    CHECK(giop_server_answer_forward(&server, 1, (const uint8_t *)wrong, 20, 0, &FORM, &fault) == GIOP_FAULT);
    CHECK(is(fault, GIOP_END_REFERENCE, GIOP_CDR_BAD_COUNT, 0, 4));
    CHECK(entry_of(&server, 1).kind == GIOP_ASKED);
    CHECK(giop_server_answer_forward(&server, 1, (const uint8_t *)NOWHERE, 36, 0, &FORM, &fault) == GIOP_OK);
    CHECK(entry_of(&server, 1).kind == GIOP_ANSWERED && entry_of(&server, 1).over == 1);
    CHECK(entry_of(&server, 1).status == 3 && sends(&server, FORWARD, sizeof FORWARD));
    CHECK(giop_server_feed(&server, ASK, sizeof ASK, &fault) == GIOP_OK);
    CHECK(giop_server_answer_forward(&server, 1, (const uint8_t *)NOWHERE, 36, 1, &FORM, &fault) == GIOP_OK);
    CHECK(entry_of(&server, 1).kind == GIOP_ANSWERED);
    CHECK(entry_of(&server, 1).status == 4 && sends(&server, forever, sizeof forever));
    giop_server_free(&server);
    CHECK(blocks == 0);
}

/* To a Request of 1.0 (9.4.2.1): contexts, id 2, a boolean for the reply, key, operation, principal, and the ins
 * right behind it. LOCATION_FORWARD_PERM has no place in its Reply. */
static void a_forward_for_good_is_of_1_2(void) {
    static const uint8_t asked[52] = {
        'G', 'I', 'O', 'P', 1, 0, 0, 0, 0, 0, 0, 40, 0, 0, 0, 0, 0, 0, 0, 2, 1, 0, 0, 0, 0, 0, 0, 1, 'k', 0, 0, 0,
        0, 0, 0, 4, 'a', 'd', 'd', 0, 0, 0, 0, 0, 0, 0, 0, 2, 0, 0, 0, 5};
    giop_server server = {0};
    giop_end_fault fault = UNWRITTEN;
    CHECK(opens(&server) == GIOP_OK);
    CHECK(giop_server_feed(&server, asked, sizeof asked, &fault) == GIOP_OK && entry_of(&server, 2).kind == GIOP_ASKED);
    CHECK(giop_server_answer_forward(&server, 2, (const uint8_t *)NOWHERE, 36, 1, &FORM, &fault) == GIOP_FAULT);
    CHECK(is(fault, GIOP_END_CALL, GIOP_CALL_UNFIT, 2, 0));
    CHECK(giop_server_answer_forward(&server, 2, (const uint8_t *)NOWHERE, 36, 0, &FORM, &fault) == GIOP_OK);
    giop_server_free(&server);
    CHECK(blocks == 0);
}

static void contexts_are_copied(void) {
    static const uint8_t three[3] = {7, 8, 9};
    giop_server server = {0};
    giop_end_fault fault = UNWRITTEN;
    uint32_t service = 99;
    uint8_t buffer[4] = {1, 1, 1, 1};
    size_t size = 99;
    CHECK(opens(&server) == GIOP_OK);
    CHECK(giop_server_feed(&server, TOLD, sizeof TOLD, &fault) == GIOP_OK);
    CHECK(entry_of(&server, 1).contexts == 2 && entry_of(&server, 1).kind == GIOP_ASKED);
    CHECK(giop_server_context(&server, 1, 2, &service, buffer, 4, &size) == GIOP_WAITS);
    CHECK(giop_server_context(&server, 7, 0, &service, buffer, 4, &size) == GIOP_WAITS);
    CHECK(service == 99 && size == 99);
    CHECK(giop_server_context(&server, 1, 0, &service, buffer, 2, &size) == GIOP_SMALL);
    CHECK(service == 1 && size == 3 && buffer[0] == 1);
    CHECK(giop_server_context(&server, 1, 0, &service, buffer, 4, &size) == GIOP_OK);
    CHECK(size == 3 && memcmp(buffer, three, 3) == 0 && buffer[3] == 1);
    CHECK(giop_server_context(&server, 1, 1, &service, NULL, 0, &size) == GIOP_OK && service == 9 && size == 0);
    giop_server_free(&server);
    CHECK(blocks == 0);
}

static void what_cant_be_decoded_is_told(void) {
    uint8_t cut[52], other[56], wrong[56];
    giop_server server = {0};
    giop_end_fault fault = UNWRITTEN;
    giop_server_entry entry;
    memcpy(cut, ASK, 52);
    cut[11] = 40;
    memcpy(other, ASK, 56);
    other[15] = 2, other[36] = 'b'; /* bdd, of id 2 */
    memcpy(wrong, ASK, 56);
    wrong[15] = 3, wrong[16] = 2; /* response flags of 2, of id 3 */
    CHECK(opens(&server) == GIOP_OK);
    CHECK(giop_server_feed(&server, cut, 52, &fault) == GIOP_OK);
    CHECK(giop_server_feed(&server, other, 56, &fault) == GIOP_OK);
    CHECK(giop_server_feed(&server, wrong, 56, &fault) == GIOP_OK);
    entry = entry_of(&server, 1);
    CHECK(entry.kind == GIOP_UNDECODED && entry.awaits == 1 && entry.part == GIOP_IN_BODY);
    CHECK(entry.number == GIOP_CDR_SHORT && entry.at == 52);
    entry = entry_of(&server, 2);
    CHECK(entry.kind == GIOP_UNDECODED && entry.part == GIOP_IN_OPERATION && entry.number == 0 && entry.at == 0);
    entry = entry_of(&server, 3);
    CHECK(entry.kind == GIOP_UNDECODED && entry.part == GIOP_IN_HEAD);
    CHECK(entry.number == GIOP_CDR_BAD_LABEL && entry.at == 16);
    giop_server_free(&server);
    CHECK(blocks == 0);
}

static void other_calls_are_told_apart(void) {
    giop_server server = {0};
    giop_end_fault fault = UNWRITTEN;
    giop_server_entry entry;
    uint32_t ids[2] = {99, 99};
    uint8_t buffer[16];
    size_t size = 99;
    CHECK(opens(&server) == GIOP_OK);
    CHECK(giop_server_feed(&server, TELL, sizeof TELL, &fault) == GIOP_OK);
    CHECK(giop_server_feed(&server, WHERE, sizeof WHERE, &fault) == GIOP_OK);
    CHECK(giop_server_feed(&server, ASK, sizeof ASK, &fault) == GIOP_OK);
    CHECK(giop_server_ids(&server, ids, 2, &size) == GIOP_OK && size == 3 && ids[0] == 1 && ids[1] == 2);
    CHECK(giop_server_ids(&server, NULL, 0, &size) == GIOP_OK && size == 3);
    entry = entry_of(&server, 2);
    CHECK(entry.kind == GIOP_DELIVERED && entry.over == 1 && entry.outcome == GIOP_ONE_WAY);
    CHECK(entry.flags == 0 && entry.operation == 4 && entry.awaits == 0);
    CHECK(giop_server_ins(&server, 2, 0, buffer, 16, &size) == GIOP_OK && size == 7);
    CHECK(memcmp(buffer, "\0\0\0\3hi", 7) == 0);
    entry = entry_of(&server, 3);
    CHECK(entry.kind == GIOP_LOCATE_ASKED && entry.awaits == 2 && entry.over == 0 && entry.key == 1);
    CHECK(entry.operation == 0 && entry.contexts == 0 && entry.part == 0);
    CHECK(giop_server_key(&server, 3, buffer, 16, &size) == GIOP_OK && size == 1 && buffer[0] == 'k');
    CHECK(giop_server_answer(&server, 3, 0, NULL, 0, &FORM, &fault) == GIOP_FAULT);
    CHECK(is(fault, GIOP_END_CALL, GIOP_CALL_WRONG_KIND, 3, 0));
    CHECK(giop_server_answer_locate(&server, 3, 1, 0, &fault) == GIOP_OK);
    entry = entry_of(&server, 3);
    CHECK(entry.kind == GIOP_LOCATE_ANSWERED && entry.status == 1 && entry.outcome == GIOP_LOCATED);
    CHECK(sends(&server, HERE, sizeof HERE));
    CHECK(giop_server_feed(&server, CANCEL, sizeof CANCEL, &fault) == GIOP_OK);
    entry = entry_of(&server, 1);
    CHECK(entry.kind == GIOP_CANCELLED && entry.outcome == GIOP_WAS_CANCELLED && entry.over == 1);
    CHECK(giop_server_close(&server, &fault) == GIOP_OK && sends(&server, CLOSE, sizeof CLOSE));
    CHECK(giop_server_close(&server, &fault) == GIOP_FAULT && is(fault, GIOP_END_CLOSED, 0, 0, 0));
    giop_server_free(&server);
    CHECK(blocks == 0);
}

/* Behind an orderly close nothing is heard, and no MessageError is due. */
static void a_closed_end_answers_its_fault(void) {
    giop_server server = {0};
    giop_end_fault fault = UNWRITTEN;
    uint8_t buffer[12];
    size_t size = 99;
    CHECK(opens(&server) == GIOP_OK);
    CHECK(giop_server_close(&server, &fault) == GIOP_OK && is_unwritten(fault) && sends(&server, CLOSE, sizeof CLOSE));
    CHECK(giop_server_feed(&server, ASK, sizeof ASK, &fault) == GIOP_FAULT && is(fault, GIOP_END_CLOSED, 0, 0, 0));
    CHECK(giop_server_error_message(&server, buffer, 12, &size) == GIOP_WAITS && size == 99);
    giop_server_free(&server);
    CHECK(blocks == 0);
}

static void a_reply_goes_out_in_pieces(void) {
    static const uint8_t seven[4] = {0, 0, 0, 7};
    giop_server server = {0};
    giop_end_fault fault = UNWRITTEN;
    giop_form small = {24, 0};
    uint8_t first[24], last[20] = {'G', 'I', 'O', 'P', 1, 2, 0, 7, 0, 0, 0, 8, 0, 0, 0, 1, 0, 0, 0, 7};
    memcpy(first, SEVEN, 24);
    first[6] = 2, first[11] = 12;
    CHECK(opens(&server) == GIOP_OK);
    CHECK(giop_server_feed(&server, ASK, sizeof ASK, &fault) == GIOP_OK);
    CHECK(giop_server_answer(&server, 1, 0, seven, 4, &small, &fault) == GIOP_OK);
    CHECK(entry_of(&server, 1).left == 1 && entry_of(&server, 1).over == 0);
    CHECK(entry_of(&server, 1).outcome == GIOP_PENDING && sends(&server, first, 24));
    CHECK(giop_server_send(&server, 1, &fault) == GIOP_OK && sends(&server, last, 20));
    CHECK(entry_of(&server, 1).left == 0 && entry_of(&server, 1).over == 1);
    giop_server_free(&server);
    CHECK(blocks == 0);
}

static void blocks_are_taken_for_pieces(void) {
    giop_interface interface = {0};
    giop_server server = {0};
    giop_limits limits = GIOP_LIMITS;
    giop_text_fault why;
    giop_end_fault fault = UNWRITTEN;
    uint8_t first[24];
    size_t count = 99;
    memcpy(first, ASK, 24);
    first[6] = 2, first[11] = 12;
    CHECK(giop_interface_new(&interface, (const uint8_t *)ADD, strlen(ADD), &why) == GIOP_OK);
    CHECK(giop_server_new(&server, &interface, &limits) == GIOP_OK);
    CHECK(giop_server_blocks(&server, &count) == GIOP_OK && count == 0);
    CHECK(giop_server_feed(&server, first, 24, &fault) == GIOP_OK && entry_of(&server, 1).kind == GIOP_GATHERING);
    CHECK(giop_server_blocks(&server, &count) == GIOP_OK && count == 1);
    giop_server_free(&server);
    giop_interface_free(&interface);
    CHECK(blocks == 0);
}

static void a_fault_fails_the_end(void) {
    giop_server server = {0};
    giop_end_fault fault = UNWRITTEN;
    uint8_t buffer[12];
    size_t size = 99;
    CHECK(opens(&server) == GIOP_OK);
    CHECK(giop_server_error_message(&server, buffer, 12, &size) == GIOP_WAITS && size == 99);
    CHECK(giop_server_feed(&server, ASK, sizeof ASK, &fault) == GIOP_OK);
    CHECK(giop_server_feed(&server, BAD, sizeof BAD, &fault) == GIOP_FAULT);
    CHECK(is(fault, GIOP_END_WIRE, GIOP_BAD_VERSION, 0, 5));
    CHECK(giop_server_error_message(&server, buffer, 11, &size) == GIOP_SMALL && size == 12);
    CHECK(giop_server_error_message(&server, buffer, 12, &size) == GIOP_OK && memcmp(buffer, ERROR, 12) == 0);
    fault = UNWRITTEN;
    CHECK(giop_server_send(&server, 1, &fault) == GIOP_FAULT);
    CHECK(is(fault, GIOP_END_WIRE, GIOP_BAD_VERSION, 0, 5) && entry_of(&server, 1).kind == GIOP_ASKED);
    giop_server_free(&server);
    CHECK(blocks == 0);
}

static void a_closed_handle_answers_closed(void) {
    giop_server server = {0};
    giop_interface interface = {0};
    giop_end_fault fault = UNWRITTEN;
    giop_server_entry entry;
    giop_limits limits = {((uint64_t)1 << 62) + 1, 1, 1};
    giop_text_fault why;
    uint8_t buffer[4];
    uint32_t id;
    size_t size = 99;
    entry.kind = 99;
    CHECK(giop_server_new(&server, &interface, &LIMITS) == GIOP_CLOSED && server.at == NULL);
    CHECK(giop_server_feed(&server, ASK, sizeof ASK, &fault) == GIOP_CLOSED);
    CHECK(giop_server_outgoing(&server, buffer, 4, &size) == GIOP_CLOSED);
    CHECK(giop_server_wrote(&server, 0) == GIOP_CLOSED);
    CHECK(giop_server_ids(&server, &id, 1, &size) == GIOP_CLOSED);
    CHECK(giop_server_entry_of(&server, 1, &entry) == GIOP_CLOSED && entry.kind == 99);
    CHECK(giop_server_operation(&server, 1, buffer, 4, &size) == GIOP_CLOSED);
    CHECK(giop_server_key(&server, 1, buffer, 4, &size) == GIOP_CLOSED);
    CHECK(giop_server_ins(&server, 1, 0, buffer, 4, &size) == GIOP_CLOSED);
    CHECK(giop_server_answer(&server, 1, 0, buffer, 4, &FORM, &fault) == GIOP_CLOSED);
    CHECK(giop_server_answer_user(&server, 1, buffer, 0, 0, buffer, 0, &FORM, &fault) == GIOP_CLOSED);
    CHECK(giop_server_answer_system(&server, 1, buffer, 0, 0, 0, &FORM, &fault) == GIOP_CLOSED);
    CHECK(giop_server_answer_forward(&server, 1, buffer, 0, 0, &FORM, &fault) == GIOP_CLOSED);
    CHECK(giop_server_context(&server, 1, 0, &id, buffer, 4, &size) == GIOP_CLOSED);
    CHECK(giop_server_answer_locate(&server, 1, 1, 0, &fault) == GIOP_CLOSED);
    CHECK(giop_server_send(&server, 1, &fault) == GIOP_CLOSED);
    CHECK(giop_server_take(&server, 1, &fault) == GIOP_CLOSED);
    CHECK(giop_server_close(&server, &fault) == GIOP_CLOSED);
    CHECK(giop_server_error_message(&server, buffer, 4, &size) == GIOP_CLOSED);
    CHECK(giop_server_rest(&server, &size) == GIOP_CLOSED);
    CHECK(giop_server_blocks(&server, &size) == GIOP_CLOSED);
    CHECK(is_unwritten(fault) && size == 99 && server.at == NULL);
    giop_server_free(&server);
    CHECK(giop_interface_new(&interface, (const uint8_t *)ADD, strlen(ADD), &why) == GIOP_OK);
    CHECK(giop_server_new(&server, &interface, &limits) == GIOP_FAULT && server.at == NULL);
    giop_interface_free(&interface);
    CHECK(blocks == 0);
}

/* A session with so many allocations granted: whether it went well, or memory ran out. */
static uint32_t session(giop_server *server) {
    static const uint8_t seven[4] = {0, 0, 0, 7};
    giop_end_fault fault = UNWRITTEN;
    uint8_t buffer[8];
    uint32_t ids[1], status = opens(server);
    size_t size;
    status = status == GIOP_OK ? giop_server_feed(server, ASK, sizeof ASK, &fault) : status;
    status = status == GIOP_OK ? giop_server_ids(server, ids, 1, &size) : status;
    status = status == GIOP_OK ? giop_server_ins(server, 1, 0, buffer, 8, &size) : status;
    return status == GIOP_OK ? giop_server_answer(server, 1, 0, seven, 4, &FORM, &fault) : status;
}

static void each_allocation_may_be_refused(void) {
    uint32_t status = GIOP_NO_MEMORY;
    long tried = 0, most = 0;
    while (status == GIOP_NO_MEMORY && tried < 1000) {
        giop_server server = {0};
        left = tried++;
        status = session(&server);
        left = -1;
        CHECK(status == GIOP_NO_MEMORY || (status == GIOP_OK && sends(&server, SEVEN, sizeof SEVEN)));
        most = blocks > most ? blocks : most;
        giop_server_free(&server);
        CHECK(blocks == 0);
    }
    /* The shared library has the C library's own heap, where none is counted. */
    CHECK(status == GIOP_OK && (tried > 20 || most == 0));
}

int main(void) {
    a_request_is_answered();
    a_request_is_answered_by_an_exception();
    a_request_is_answered_by_a_forward();
    a_forward_for_good_is_of_1_2();
    contexts_are_copied();
    what_cant_be_decoded_is_told();
    other_calls_are_told_apart();
    a_reply_goes_out_in_pieces();
    blocks_are_taken_for_pieces();
    a_closed_end_answers_its_fault();
    a_fault_fails_the_end();
    a_closed_handle_answers_closed();
    each_allocation_may_be_refused();
    printf("%d passed, %d failed\n", passed, failed);
    return failed != 0;
}
