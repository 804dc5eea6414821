/* Tests of libgiop's end of a connection that calls, from outside. What is expected is worked by hand from
 * CORBA 3.3 Part 2, 9.4, and from what include/giop.h says; none comes from the library's own output.
 *
 * It prints the name of each test that failed and ends with status 1, or prints how many passed. */
#include "check.h"

static const char ADD[] =
    "{\"operations\":{\"add\":{\"ins\":[[\"a\",\"long\"],[\"b\",\"long\"]],\"outs\":[[\"sum\",\"long\"]]},"
    "\"tell\":{\"oneway\":true,\"ins\":[[\"what\",\"string\"]]}},"
    "\"exceptions\":{\"IDL:E:1.0\":[[\"why\",\"long\"]]}}";

/* A Request of 1.2, big endian, id 1, to the key "k", of add (9.4.2): the head ends at 44, and the ins 2 and
 * 5 begin at 48, a multiple of 8. */
static const uint8_t ASK[56] = {
    'G', 'I', 'O', 'P', 1, 2, 0, 0, 0, 0, 0, 44, 0, 0, 0, 1, 3, 0, 0, 0, 0, 0, 0, 0, 0, 0, 0, 1, 'k', 0, 0, 0,
    0, 0, 0, 4, 'a', 'd', 'd', 0, 0, 0, 0, 0, 0, 0, 0, 0, 0, 0, 0, 2, 0, 0, 0, 5};
/* A Request of 1.0, little endian, id 2, flags 0, to the key "k", of tell with "hi" (9.4.2.1): contexts, id,
 * a boolean for the reply, key, operation, principal, and the in right behind it, at offset 48. */
static const uint8_t TELL[55] = {
    'G', 'I', 'O', 'P', 1, 0, 1, 0, 43, 0, 0, 0, 0, 0, 0, 0, 2, 0, 0, 0, 0, 0, 0, 0, 1, 0, 0, 0, 'k', 0, 0, 0,
    5, 0, 0, 0, 't', 'e', 'l', 'l', 0, 0, 0, 0, 0, 0, 0, 0, 3, 0, 0, 0, 'h', 'i', 0};
/* A LocateRequest of 1.2, big endian, id 3, by the key "k" (9.4.5), and one by a profile of two octets: the
 * disposition 1, the tag 0 at 20, and the octets. */
static const uint8_t WHERE[25] = {
    'G', 'I', 'O', 'P', 1, 2, 0, 3, 0, 0, 0, 13, 0, 0, 0, 3, 0, 0, 0, 0, 0, 0, 0, 1, 'k'};
static const uint8_t WHERE_BY_PROFILE[30] = {
    'G', 'I', 'O', 'P', 1, 2, 0, 3, 0, 0, 0, 18, 0, 0, 0, 3, 0, 1, 0, 0, 0, 0, 0, 0, 0, 0, 0, 2, 8, 9};
/* CancelRequests of 1.2, big endian, of the ids 1 and 3 (9.4.4). */
static const uint8_t CANCEL[16] = {'G', 'I', 'O', 'P', 1, 2, 0, 2, 0, 0, 0, 4, 0, 0, 0, 1};
static const uint8_t CANCEL_WHERE[16] = {'G', 'I', 'O', 'P', 1, 2, 0, 2, 0, 0, 0, 4, 0, 0, 0, 3};

/* The Reply to id 1 in 1.2, big endian: 7, at offset 24 (9.4.3). */
static const uint8_t SEVEN[28] = {
    'G', 'I', 'O', 'P', 1, 2, 0, 1, 0, 0, 0, 16, 0, 0, 0, 1, 0, 0, 0, 0, 0, 0, 0, 0, 0, 0, 0, 7};
/* The same in little endian by the exception IDL:E:1.0 with 258: status 1, the id of 10 octets, and the
 * member at the next multiple of 4 behind it. */
static const uint8_t EXCEPTION[44] = {
    'G', 'I', 'O', 'P', 1, 2, 1, 1, 32, 0, 0, 0, 1, 0, 0, 0, 1, 0, 0, 0, 0, 0, 0, 0, 10, 0, 0, 0,
    'I', 'D', 'L', ':', 'E', ':', '1', '.', '0', 0, 0, 0, 2, 1, 0, 0};
/* The same in big endian by UNKNOWN of the broker, minor 3, not completed: status 2, the id of 30 octets with
 * its null, up to 58, and both numbers from 60 on. */
static const uint8_t UNKNOWN[68] = {
    'G', 'I', 'O', 'P', 1, 2, 0, 1, 0, 0, 0, 56, 0, 0, 0, 1, 0, 0, 0, 2, 0, 0, 0, 0, 0, 0, 0, 30,
    'I', 'D', 'L', ':', 'o', 'm', 'g', '.', 'o', 'r', 'g', '/', 'C', 'O', 'R', 'B', 'A', '/',
    'U', 'N', 'K', 'N', 'O', 'W', 'N', ':', '1', '.', '0', 0, 0, 0, 0, 0, 0, 3, 0, 0, 0, 1};
/* The same by a forward: status 3, and a reference without a type id and profiles. Its text (7.6.9) is an
 * encapsulation of it, big endian, of which the id is at 4 and the count of profiles at 12. */
static const uint8_t FORWARD[36] = {
    'G', 'I', 'O', 'P', 1, 2, 0, 1, 0, 0, 0, 24, 0, 0, 0, 1, 0, 0, 0, 3, 0, 0, 0, 0, 0, 0, 0, 1,
    0, 0, 0, 0, 0, 0, 0, 0};
static const char NOWHERE[] = "IOR:00000000000000010000000000000000";
/* The Reply to id 1 with the context 6 of two octets (7.7): the out 7 begins at 40. */
static const uint8_t TOLD[44] = {
    'G', 'I', 'O', 'P', 1, 2, 0, 1, 0, 0, 0, 32, 0, 0, 0, 1, 0, 0, 0, 0, 0, 0, 0, 1, 0, 0, 0, 6, 0, 0, 0, 2,
    4, 5, 0, 0, 0, 0, 0, 0, 0, 0, 0, 7};
/* The same: the target is to be addressed by a reference, disposition 2; then with the status 9, which there
 * isn't. */
static const uint8_t ADDRESS[26] = {
    'G', 'I', 'O', 'P', 1, 2, 0, 1, 0, 0, 0, 14, 0, 0, 0, 1, 0, 0, 0, 5, 0, 0, 0, 0, 0, 2};
static const uint8_t NO_STATUS[24] = {
    'G', 'I', 'O', 'P', 1, 2, 0, 1, 0, 0, 0, 12, 0, 0, 0, 1, 0, 0, 0, 9, 0, 0, 0, 0};
/* The LocateReply to id 3: OBJECT_HERE (9.4.6). */
static const uint8_t HERE[20] = {
    'G', 'I', 'O', 'P', 1, 2, 0, 4, 0, 0, 0, 8, 0, 0, 0, 3, 0, 0, 0, 1};
static const uint8_t CLOSE[12] = {'G', 'I', 'O', 'P', 1, 2, 0, 5, 0, 0, 0, 0};
static const uint8_t ERROR[12] = {'G', 'I', 'O', 'P', 1, 2, 0, 6, 0, 0, 0, 0};

static const uint8_t KEY[1] = {'k'}, NAME[3] = {'a', 'd', 'd'}, INS[8] = {2, 0, 0, 0, 5, 0, 0, 0};
static const giop_limits LIMITS = {1000, 3, 1000};
static const giop_form FORM = GIOP_FORM;
static const giop_call CALL = GIOP_CALL;
static const giop_end_fault UNWRITTEN = {77, 77, 77, 77};

static int is(giop_end_fault fault, uint32_t number, uint32_t part, uint32_t id, size_t at) {
    return fault.number == number && fault.part == part && fault.id == id && fault.at == at;
}

static int is_unwritten(giop_end_fault fault) {
    return is(fault, 77, 77, 77, 77);
}

static uint32_t opens(giop_client *client) {
    giop_interface interface = {0};
    giop_text_fault fault;
    uint32_t status = giop_interface_new(&interface, (const uint8_t *)ADD, strlen(ADD), &fault);
    if (status == GIOP_OK) {
        status = giop_client_new(client, &interface, &LIMITS);
    }
    giop_interface_free(&interface); /* the end keeps its share */
    return status;
}

/* It calls add of 2 and 5 under the id 1. */
static uint32_t adds(giop_client *client, const giop_form *form, giop_end_fault *fault) {
    return giop_client_call(client, 1, &CALL, KEY, 1, NAME, 3, 1, INS, 8, form, fault);
}

/* What is outgoing is this, and is written then. */
static int sends(giop_client *client, const uint8_t *octets, size_t size) {
    uint8_t buffer[128];
    size_t n = 99;
    return giop_client_outgoing(client, buffer, sizeof buffer, &n) == GIOP_OK && n == size
        && memcmp(buffer, octets, size) == 0 && giop_client_wrote(client, size) == GIOP_OK;
}

static giop_client_entry entry_of(giop_client *client, uint32_t id) {
    giop_client_entry entry;
    memset(&entry, 99, sizeof entry);
    CHECK(giop_client_entry_of(client, id, &entry) == GIOP_OK);
    return entry;
}

static int is_entry(giop_client_entry a, giop_client_entry b) {
    return a.exception == b.exception && a.contexts == b.contexts && a.at == b.at && a.number == b.number
        && a.left == b.left && a.status == b.status && a.minor == b.minor && a.completion == b.completion
        && a.addressing == b.addressing && a.kind == b.kind && a.over == b.over && a.outcome == b.outcome;
}

static void a_call_is_answered(void) {
    static const giop_client_entry replied = {.kind = GIOP_DONE, .over = 1, .outcome = GIOP_REPLIED};
    static const uint8_t big[4] = {0, 0, 0, 7}, little[4] = {7, 0, 0, 0};
    giop_client client = {0};
    giop_end_fault fault = UNWRITTEN;
    giop_client_entry entry;
    uint8_t buffer[8];
    uint32_t ids[3] = {99, 99, 99};
    size_t size = 99, rest = 99;
    CHECK(opens(&client) == GIOP_OK);
    CHECK(entry_of(&client, 1).kind == GIOP_NOTHING && entry_of(&client, 1).over == 0);
    CHECK(adds(&client, &FORM, &fault) == GIOP_OK && is_unwritten(fault));
    CHECK(giop_client_wrote(&client, sizeof ASK + 1) == GIOP_SMALL);
    CHECK(sends(&client, ASK, sizeof ASK) && sends(&client, NULL, 0));
    entry = entry_of(&client, 1);
    CHECK(entry.kind == GIOP_WAITING && entry.over == 0 && entry.outcome == GIOP_PENDING && entry.left == 0);
    CHECK(giop_client_take(&client, 1, &fault) == GIOP_FAULT && is(fault, GIOP_END_STILL_OPEN, 0, 0, 0));
    fault = UNWRITTEN;
    for (size_t i = 0; i < sizeof SEVEN; i += 5) {
        CHECK(giop_client_outs(&client, 1, 0, buffer, 8, &size) == GIOP_WAITS && size == 99);
        CHECK(giop_client_feed(&client, SEVEN + i, sizeof SEVEN - i < 5 ? sizeof SEVEN - i : 5, &fault) == GIOP_OK);
        CHECK(giop_client_rest(&client, &rest) == GIOP_OK && rest == (i + 5 < sizeof SEVEN ? i + 5 : 0));
    }
    CHECK(is_unwritten(fault));
    CHECK(giop_client_ids(&client, ids, 3, &size) == GIOP_OK && size == 1 && ids[0] == 1 && ids[1] == 99);
    CHECK(giop_client_ids(&client, NULL, 0, &size) == GIOP_OK && size == 1);
    entry = entry_of(&client, 1);
    CHECK(entry.kind == GIOP_DONE && entry.status == GIOP_NO_EXCEPTION && entry.outcome == GIOP_REPLIED);
    CHECK(is_entry(entry, replied));
    CHECK(giop_client_outs(&client, 1, 0, buffer, 3, &size) == GIOP_SMALL && size == 4);
    CHECK(giop_client_outs(&client, 1, 0, buffer, 4, &size) == GIOP_OK && memcmp(buffer, big, 4) == 0);
    CHECK(giop_client_outs(&client, 1, 1, buffer, 8, &size) == GIOP_OK && size == 4);
    CHECK(memcmp(buffer, little, 4) == 0);
    size = 99;
    CHECK(giop_client_exception(&client, 1, buffer, 8, &size) == GIOP_WAITS);
    CHECK(giop_client_members(&client, 1, 0, buffer, 8, &size) == GIOP_WAITS);
    CHECK(giop_client_forward(&client, 1, buffer, 8, &size) == GIOP_WAITS && size == 99);
    CHECK(giop_client_take(&client, 1, &fault) == GIOP_OK && entry_of(&client, 1).kind == GIOP_NOTHING);
    giop_client_free(&client);
    CHECK(giop_client_wrote(&client, 0) == GIOP_CLOSED && blocks == 0);
}

static void a_call_is_answered_by_an_exception(void) {
    static const uint8_t why[4] = {0, 0, 1, 2};
    giop_client client = {0};
    giop_end_fault fault = UNWRITTEN;
    giop_client_entry entry;
    uint8_t buffer[32];
    size_t size = 99;
    CHECK(opens(&client) == GIOP_OK && adds(&client, &FORM, &fault) == GIOP_OK);
    CHECK(giop_client_feed(&client, EXCEPTION, sizeof EXCEPTION, &fault) == GIOP_OK);
    entry = entry_of(&client, 1);
    CHECK(entry.kind == GIOP_DONE && entry.status == GIOP_USER_EXCEPTION && entry.exception == 9);
    CHECK(giop_client_exception(&client, 1, buffer, 8, &size) == GIOP_SMALL && size == 9);
    memset(buffer, 9, sizeof buffer);
    CHECK(giop_client_exception(&client, 1, buffer, 9, &size) == GIOP_OK && memcmp(buffer, "IDL:E:1.0\11", 10) == 0);
    CHECK(giop_client_members(&client, 1, 0, buffer, 3, &size) == GIOP_SMALL && size == 4);
    CHECK(giop_client_members(&client, 1, 0, buffer, 32, &size) == GIOP_OK && memcmp(buffer, why, 4) == 0);
    CHECK(giop_client_outs(&client, 1, 0, buffer, 32, &size) == GIOP_WAITS);
    CHECK(adds(&client, &FORM, &fault) == GIOP_OK);
    CHECK(giop_client_feed(&client, UNKNOWN, sizeof UNKNOWN, &fault) == GIOP_OK);
    entry = entry_of(&client, 1);
    CHECK(entry.status == GIOP_SYSTEM_EXCEPTION && entry.minor == 3 && entry.completion == GIOP_COMPLETED_NO);
    CHECK(giop_client_exception(&client, 1, buffer, 32, &size) == GIOP_OK && size == 29);
    CHECK(memcmp(buffer, "IDL:omg.org/CORBA/UNKNOWN:1.0", 29) == 0);
    CHECK(giop_client_members(&client, 1, 0, buffer, 32, &size) == GIOP_WAITS);
    giop_client_free(&client);
    CHECK(blocks == 0);
}

static void other_replies_are_told_apart(void) {
    giop_client client = {0};
    giop_end_fault fault = UNWRITTEN;
    giop_client_entry entry;
    uint8_t buffer[40];
    size_t size = 99;
    CHECK(opens(&client) == GIOP_OK && adds(&client, &FORM, &fault) == GIOP_OK);
    CHECK(giop_client_feed(&client, FORWARD, sizeof FORWARD, &fault) == GIOP_OK);
    entry = entry_of(&client, 1);
    CHECK(entry.kind == GIOP_DONE && entry.status == GIOP_LOCATION_FORWARD && entry.over == 1 && entry.exception == 0);
    CHECK(giop_client_members(&client, 1, 0, buffer, 40, &size) == GIOP_WAITS && size == 99);
    CHECK(giop_client_forward(&client, 1, buffer, 35, &size) == GIOP_SMALL && size == 36);
    CHECK(giop_client_forward(&client, 1, buffer, 36, &size) == GIOP_OK && memcmp(buffer, NOWHERE, 36) == 0);
    CHECK(adds(&client, &FORM, &fault) == GIOP_OK);
    CHECK(giop_client_feed(&client, ADDRESS, sizeof ADDRESS, &fault) == GIOP_OK);
    entry = entry_of(&client, 1);
    CHECK(entry.status == GIOP_NEEDS_ADDRESSING_MODE && entry.addressing == 2);
    CHECK(adds(&client, &FORM, &fault) == GIOP_OK);
    CHECK(giop_client_feed(&client, NO_STATUS, sizeof NO_STATUS, &fault) == GIOP_OK);
    entry = entry_of(&client, 1);
    CHECK(entry.kind == GIOP_UNDECODED && entry.number == GIOP_CDR_BAD_LABEL && entry.at == 16);
    CHECK(entry.outcome == GIOP_NOT_DECODED && entry.over == 1 && entry.status == 0 && entry.addressing == 0);
    giop_client_free(&client);
    CHECK(blocks == 0);
}

static void contexts_are_copied(void) {
    giop_client client = {0};
    giop_end_fault fault = UNWRITTEN;
    uint32_t service = 99;
    uint8_t buffer[3] = {1, 1, 1};
    size_t size = 99;
    CHECK(opens(&client) == GIOP_OK && adds(&client, &FORM, &fault) == GIOP_OK);
    CHECK(entry_of(&client, 1).contexts == 0);
    CHECK(giop_client_context(&client, 1, 0, &service, buffer, 3, &size) == GIOP_WAITS);
    CHECK(giop_client_feed(&client, TOLD, sizeof TOLD, &fault) == GIOP_OK);
    CHECK(entry_of(&client, 1).kind == GIOP_DONE && entry_of(&client, 1).contexts == 1);
    CHECK(giop_client_context(&client, 1, 1, &service, buffer, 3, &size) == GIOP_WAITS);
    CHECK(service == 99 && size == 99);
    CHECK(giop_client_context(&client, 1, 0, &service, buffer, 1, &size) == GIOP_SMALL);
    CHECK(service == 6 && size == 2 && buffer[0] == 1);
    CHECK(giop_client_context(&client, 1, 0, &service, buffer, 3, &size) == GIOP_OK);
    CHECK(size == 2 && buffer[0] == 4 && buffer[1] == 5 && buffer[2] == 1);
    giop_client_free(&client);
    CHECK(blocks == 0);
}

static void other_calls_are_told_apart(void) {
    static const uint8_t tell[4] = {'t', 'e', 'l', 'l'}, hi[7] = {0, 0, 0, 3, 'h', 'i', 0}, profile[2] = {8, 9};
    giop_client client = {0};
    giop_end_fault fault = UNWRITTEN;
    giop_client_entry entry;
    giop_call early = {0, 0, 0}, by_profile = {2, 0, 1};
    giop_form little = {4096, 1};
    CHECK(opens(&client) == GIOP_OK);
    CHECK(giop_client_call(&client, 2, &early, KEY, 1, tell, 4, 0, hi, 7, &little, &fault) == GIOP_OK);
    CHECK(sends(&client, TELL, sizeof TELL));
    entry = entry_of(&client, 2);
    CHECK(entry.kind == GIOP_ONEWAY_SENT && entry.over == 1 && entry.outcome == GIOP_ONE_WAY);
    CHECK(giop_client_locate(&client, 3, &CALL, KEY, 1, &FORM, &fault) == GIOP_OK);
    CHECK(sends(&client, WHERE, sizeof WHERE) && entry_of(&client, 3).kind == GIOP_WAITING);
    CHECK(giop_client_feed(&client, HERE, sizeof HERE, &fault) == GIOP_OK);
    entry = entry_of(&client, 3);
    CHECK(entry.kind == GIOP_LOCATE_DONE && entry.status == GIOP_OBJECT_HERE && entry.outcome == GIOP_LOCATED);
    CHECK(giop_client_locate(&client, 3, &by_profile, profile, 2, &FORM, &fault) == GIOP_OK);
    CHECK(sends(&client, WHERE_BY_PROFILE, sizeof WHERE_BY_PROFILE));
    CHECK(giop_client_cancel(&client, 3, 0, &fault) == GIOP_OK && sends(&client, CANCEL_WHERE, sizeof CANCEL_WHERE));
    CHECK(adds(&client, &FORM, &fault) == GIOP_OK && sends(&client, ASK, sizeof ASK));
    CHECK(giop_client_cancel(&client, 1, 0, &fault) == GIOP_OK && sends(&client, CANCEL, sizeof CANCEL));
    entry = entry_of(&client, 1);
    CHECK(entry.kind == GIOP_CANCELLED && entry.outcome == GIOP_WAS_CANCELLED && entry.over == 0);
    CHECK(giop_client_feed(&client, SEVEN, sizeof SEVEN, &fault) == GIOP_OK && entry_of(&client, 1).over == 1);
    CHECK(giop_client_close(&client, &fault) == GIOP_OK && sends(&client, CLOSE, sizeof CLOSE));
    CHECK(giop_client_close(&client, &fault) == GIOP_FAULT && is(fault, GIOP_END_CLOSED, 0, 0, 0));
    giop_client_free(&client);
    CHECK(blocks == 0);
}

/* Behind an orderly close nothing is called, and no MessageError is due. */
static void a_closed_end_answers_its_fault(void) {
    giop_client client = {0};
    giop_end_fault fault = UNWRITTEN;
    uint8_t buffer[12];
    size_t size = 99;
    CHECK(opens(&client) == GIOP_OK);
    CHECK(giop_client_close(&client, &fault) == GIOP_OK && is_unwritten(fault) && sends(&client, CLOSE, sizeof CLOSE));
    CHECK(adds(&client, &FORM, &fault) == GIOP_FAULT && is(fault, GIOP_END_CLOSED, 0, 0, 0));
    CHECK(giop_client_error_message(&client, buffer, 12, &size) == GIOP_WAITS && size == 99);
    giop_client_free(&client);
    CHECK(blocks == 0);
}

static void a_call_goes_out_and_a_reply_comes_in_pieces(void) {
    giop_client client = {0};
    giop_end_fault fault = UNWRITTEN;
    giop_form small = {24, 0};
    uint8_t first[24], piece[24] = {'G', 'I', 'O', 'P', 1, 2, 2, 7, 0, 0, 0, 12, 0, 0, 0, 1};
    uint8_t last[20] = {'G', 'I', 'O', 'P', 1, 2, 0, 7, 0, 0, 0, 8, 0, 0, 0, 1, 0, 0, 0, 7};
    size_t count = 99;
    memcpy(first, ASK, 24);
    first[6] = 2, first[11] = 12;
    CHECK(opens(&client) == GIOP_OK && adds(&client, &small, &fault) == GIOP_OK);
    CHECK(sends(&client, first, 24));
    for (uint32_t i = 0; i < 4; i++) {
        CHECK(entry_of(&client, 1).kind == GIOP_SENDING && entry_of(&client, 1).left == 4 - i);
        memcpy(piece + 16, ASK + 24 + 8 * i, 8);
        piece[6] = i < 3 ? 2 : 0;
        CHECK(giop_client_send(&client, 1, &fault) == GIOP_OK && sends(&client, piece, 24));
    }
    CHECK(giop_client_send(&client, 1, &fault) == GIOP_FAULT);
    CHECK(is(fault, GIOP_END_CALL, GIOP_CALL_NOTHING_TO_SEND, 1, 0) && entry_of(&client, 1).kind == GIOP_WAITING);
    CHECK(giop_client_blocks(&client, &count) == GIOP_OK && count == 0);
    memcpy(first, SEVEN, 24);
    first[6] = 2, first[11] = 12;
    CHECK(giop_client_feed(&client, first, 24, &fault) == GIOP_OK && entry_of(&client, 1).kind == GIOP_GATHERING);
    CHECK(giop_client_blocks(&client, &count) == GIOP_OK && count == 1);
    CHECK(giop_client_feed(&client, last, 20, &fault) == GIOP_OK && entry_of(&client, 1).kind == GIOP_DONE);
    giop_client_free(&client);
    CHECK(blocks == 0);
}

static void a_refused_call_is_told_why(void) {
    static const uint8_t mul[3] = {'m', 'u', 'l'}, nine[9] = {2, 0, 0, 0, 5, 0, 0, 0, 9};
    giop_client client = {0};
    giop_end_fault fault = UNWRITTEN;
    giop_form bad = {20, 0};
    giop_call two = {2, 2, 0}, early = {1, 3, 1};
    CHECK(opens(&client) == GIOP_OK);
    CHECK(adds(&client, &bad, &fault) == GIOP_FAULT && is(fault, GIOP_END_FORM, 0, 0, 0));
    CHECK(giop_client_locate(&client, 1, &CALL, KEY, 1, &bad, &fault) == GIOP_FAULT);
    CHECK(is(fault, GIOP_END_FORM, 0, 0, 0));
    CHECK(giop_client_send(&client, 1, &fault) == GIOP_FAULT);
    CHECK(is(fault, GIOP_END_CALL, GIOP_CALL_NOTHING_TO_SEND, 1, 0));
    CHECK(giop_client_call(&client, 1, &CALL, KEY, 1, NAME, 3, 1, INS, 3, &FORM, &fault) == GIOP_FAULT);
    CHECK(is(fault, GIOP_END_VALUES, GIOP_CDR_SHORT, 0, 0));
    CHECK(giop_client_call(&client, 1, &CALL, KEY, 1, NAME, 3, 1, INS, 7, &FORM, &fault) == GIOP_FAULT);
    CHECK(is(fault, GIOP_END_VALUES, GIOP_CDR_SHORT, 0, 4));
    CHECK(giop_client_call(&client, 1, &CALL, KEY, 1, NAME, 3, 1, nine, 9, &FORM, &fault) == GIOP_FAULT);
    CHECK(is(fault, GIOP_END_VALUES, GIOP_CDR_TRAILING, 0, 8));
    CHECK(giop_client_call(&client, 1, &CALL, KEY, 1, mul, 3, 1, INS, 7, &FORM, &fault) == GIOP_FAULT);
    CHECK(is(fault, GIOP_END_CALL, GIOP_CALL_UNKNOWN_OPERATION, 1, 0));
    CHECK(giop_client_call(&client, 1, &two, KEY, 1, NAME, 3, 1, INS, 8, &FORM, &fault) == GIOP_FAULT);
    CHECK(is(fault, GIOP_END_CALL, GIOP_CALL_UNFIT, 1, 0));
    CHECK(giop_client_call(&client, 1, &early, KEY, 1, NAME, 3, 1, INS, 8, &FORM, &fault) == GIOP_FAULT);
    CHECK(is(fault, GIOP_END_CALL, GIOP_CALL_UNFIT, 1, 0));
    CHECK(giop_client_cancel(&client, 1, 0, &fault) == GIOP_FAULT);
    CHECK(is(fault, GIOP_END_CALL, GIOP_CALL_NOT_OPEN, 1, 0));
    CHECK(sends(&client, NULL, 0) && entry_of(&client, 1).kind == GIOP_NOTHING);
    CHECK(adds(&client, &FORM, &fault) == GIOP_OK && adds(&client, &FORM, &fault) == GIOP_FAULT);
    CHECK(is(fault, GIOP_END_CALL, GIOP_CALL_ID_IN_USE, 1, 0));
    CHECK(giop_client_locate(&client, 1, &CALL, KEY, 1, &FORM, &fault) == GIOP_FAULT);
    CHECK(is(fault, GIOP_END_CALL, GIOP_CALL_ID_IN_USE, 1, 0) && sends(&client, ASK, sizeof ASK));
    CHECK(giop_client_locate(&client, 2, &CALL, KEY, 1, &FORM, &fault) == GIOP_OK);
    CHECK(giop_client_locate(&client, 2, &CALL, KEY, 1, &FORM, &fault) == GIOP_FAULT);
    CHECK(is(fault, GIOP_END_CALL, GIOP_CALL_ID_IN_USE, 2, 0));
    giop_client_free(&client);
    CHECK(blocks == 0);
}

static void a_fault_fails_the_end(void) {
    giop_client client = {0};
    giop_end_fault fault = UNWRITTEN;
    uint8_t buffer[12];
    size_t size = 99;
    CHECK(opens(&client) == GIOP_OK);
    CHECK(giop_client_error_message(&client, buffer, 12, &size) == GIOP_WAITS && size == 99);
    CHECK(giop_client_feed(&client, SEVEN, sizeof SEVEN, &fault) == GIOP_FAULT);
    CHECK(is(fault, GIOP_END_CALL, GIOP_CALL_UNKNOWN_REPLY, 1, 0));
    CHECK(giop_client_error_message(&client, buffer, 11, &size) == GIOP_SMALL && size == 12);
    CHECK(giop_client_error_message(&client, buffer, 12, &size) == GIOP_OK && memcmp(buffer, ERROR, 12) == 0);
    fault = UNWRITTEN;
    CHECK(adds(&client, &FORM, &fault) == GIOP_FAULT);
    CHECK(is(fault, GIOP_END_CALL, GIOP_CALL_UNKNOWN_REPLY, 1, 0) && sends(&client, NULL, 0));
    giop_client_free(&client);
    CHECK(blocks == 0);
}

static void a_closed_handle_answers_closed(void) {
    giop_client client = {0};
    giop_interface interface = {0};
    giop_end_fault fault = UNWRITTEN;
    giop_client_entry entry;
    giop_limits limits = {((uint64_t)1 << 62) + 1, 1, 1};
    giop_text_fault why;
    uint8_t buffer[4];
    uint32_t id;
    size_t size = 99;
    entry.kind = 99;
    CHECK(giop_client_new(&client, &interface, &LIMITS) == GIOP_CLOSED && client.at == NULL);
    CHECK(giop_client_feed(&client, SEVEN, sizeof SEVEN, &fault) == GIOP_CLOSED);
    CHECK(giop_client_outgoing(&client, buffer, 4, &size) == GIOP_CLOSED);
    CHECK(giop_client_wrote(&client, 0) == GIOP_CLOSED);
    CHECK(adds(&client, &FORM, &fault) == GIOP_CLOSED);
    CHECK(giop_client_locate(&client, 1, &CALL, KEY, 1, &FORM, &fault) == GIOP_CLOSED);
    CHECK(giop_client_cancel(&client, 1, 0, &fault) == GIOP_CLOSED);
    CHECK(giop_client_send(&client, 1, &fault) == GIOP_CLOSED);
    CHECK(giop_client_ids(&client, &id, 1, &size) == GIOP_CLOSED);
    CHECK(giop_client_entry_of(&client, 1, &entry) == GIOP_CLOSED && entry.kind == 99);
    CHECK(giop_client_outs(&client, 1, 0, buffer, 4, &size) == GIOP_CLOSED);
    CHECK(giop_client_exception(&client, 1, buffer, 4, &size) == GIOP_CLOSED);
    CHECK(giop_client_members(&client, 1, 0, buffer, 4, &size) == GIOP_CLOSED);
    CHECK(giop_client_forward(&client, 1, buffer, 4, &size) == GIOP_CLOSED);
    CHECK(giop_client_context(&client, 1, 0, &id, buffer, 4, &size) == GIOP_CLOSED);
    CHECK(giop_client_take(&client, 1, &fault) == GIOP_CLOSED);
    CHECK(giop_client_close(&client, &fault) == GIOP_CLOSED);
    CHECK(giop_client_error_message(&client, buffer, 4, &size) == GIOP_CLOSED);
    CHECK(giop_client_rest(&client, &size) == GIOP_CLOSED);
    CHECK(giop_client_blocks(&client, &size) == GIOP_CLOSED);
    CHECK(is_unwritten(fault) && size == 99 && client.at == NULL);
    giop_client_free(&client);
    CHECK(giop_interface_new(&interface, (const uint8_t *)ADD, strlen(ADD), &why) == GIOP_OK);
    CHECK(giop_client_new(&client, &interface, &limits) == GIOP_FAULT && client.at == NULL);
    giop_interface_free(&interface);
    CHECK(blocks == 0);
}

/* A session with so many allocations granted: whether it went well, or memory ran out. */
static uint32_t session(giop_client *client, size_t *size) {
    giop_end_fault fault = UNWRITTEN;
    uint8_t buffer[40];
    uint32_t status = opens(client);
    status = status == GIOP_OK ? adds(client, &FORM, &fault) : status;
    status = status == GIOP_OK ? giop_client_feed(client, SEVEN, sizeof SEVEN, &fault) : status;
    status = status == GIOP_OK ? giop_client_outs(client, 1, 0, buffer, 40, size) : status;
    status = status == GIOP_OK ? adds(client, &FORM, &fault) : status;
    status = status == GIOP_OK ? giop_client_feed(client, FORWARD, sizeof FORWARD, &fault) : status;
    return status == GIOP_OK ? giop_client_forward(client, 1, buffer, 40, size) : status;
}

static void each_allocation_may_be_refused(void) {
    uint32_t status = GIOP_NO_MEMORY;
    long tried = 0, most = 0;
    while (status == GIOP_NO_MEMORY && tried < 1000) {
        giop_client client = {0};
        size_t size = 0;
        left = tried++;
        status = session(&client, &size);
        left = -1;
        CHECK(status == GIOP_NO_MEMORY || (status == GIOP_OK && size == 36));
        most = blocks > most ? blocks : most;
        giop_client_free(&client);
        CHECK(blocks == 0);
    }
    /* The shared library has the C library's own heap, where none is counted. */
    CHECK(status == GIOP_OK && (tried > 20 || most == 0));
}

int main(void) {
    a_call_is_answered();
    a_call_is_answered_by_an_exception();
    other_replies_are_told_apart();
    contexts_are_copied();
    other_calls_are_told_apart();
    a_call_goes_out_and_a_reply_comes_in_pieces();
    a_refused_call_is_told_why();
    a_closed_end_answers_its_fault();
    a_fault_fails_the_end();
    a_closed_handle_answers_closed();
    each_allocation_may_be_refused();
    printf("%d passed, %d failed\n", passed, failed);
    return failed != 0;
}
