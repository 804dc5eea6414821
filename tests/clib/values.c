/* Tests of values as JSON and as CDR from outside. What is expected is worked by hand from docs/FORMATS.md and
 * CORBA 3.3 Part 2, 9.3 and 9.4; none comes from the library's own output.
 *
 * It prints the name of each test that failed and ends with status 1, or prints how many passed. */
#include "check.h"

/* An operation for each type, whose only in is of it; add; and an exception. */
static const char TYPES[] =
    "{\"operations\":{"
    "\"add\":{\"ins\":[[\"a\",\"long\"],[\"b\",\"long\"]],\"outs\":[[\"sum\",\"long\"]]},"
    "\"none\":{},"
    "\"boolean\":{\"ins\":[[\"a\",\"boolean\"]]},"
    "\"char\":{\"ins\":[[\"a\",\"char\"]]},"
    "\"short\":{\"ins\":[[\"a\",\"short\"]]},"
    "\"ulong\":{\"ins\":[[\"a\",\"ulong\"]]},"
    "\"longlong\":{\"ins\":[[\"a\",\"octet\"],[\"b\",\"longlong\"]]},"
    "\"string\":{\"ins\":[[\"a\",{\"string\":4}]]},"
    "\"octets\":{\"ins\":[[\"a\",\"octets\"]]},"
    "\"enum\":{\"ins\":[[\"a\",{\"enum\":[\"RED\",\"GREEN\"]}]]},"
    "\"struct\":{\"ins\":[[\"a\",{\"struct\":[[\"b\",\"octet\"],[\"a\",\"ushort\"]]}]]},"
    "\"union\":{\"ins\":[[\"a\",{\"union\":\"long\",\"cases\":[[[1,2],\"a\",\"octet\"]]}]]},"
    "\"sequence\":{\"ins\":[[\"a\",{\"sequence\":\"long\",\"bound\":2}]]},"
    "\"array\":{\"ins\":[[\"a\",{\"array\":\"char\",\"length\":2}]]},"
    "\"reference\":{\"ins\":[[\"a\",\"reference\"]]}},"
    "\"exceptions\":{\"IDL:E:1.0\":[[\"why\",\"long\"]]}}";

static const uint8_t KEY[1] = {'k'}, ADD[3] = {'a', 'd', 'd'};
static const giop_limits LIMITS = {1000, 3, 1000};
static const giop_form FORM = GIOP_FORM;
static const giop_call CALL = GIOP_CALL;
static const giop_end_fault UNWRITTEN = {77, 77, 77, 77};

static int is(giop_end_fault fault, uint32_t number, uint32_t part, size_t at) {
    return fault.number == number && fault.part == part && fault.id == 0 && fault.at == at;
}

static int is_unwritten(giop_end_fault fault) {
    return fault.number == 77 && fault.part == 77 && fault.id == 77 && fault.at == 77;
}

static uint32_t opens(giop_interface *interface) {
    giop_text_fault fault;
    return giop_interface_new(interface, (const uint8_t *)TYPES, strlen(TYPES), &fault);
}

/* The ins of an operation from one form to another. */
static uint32_t converts(giop_interface *interface, const char *name, uint32_t from, const void *given, size_t size,
                         uint32_t to, uint8_t *buffer, size_t room, size_t *wrote, giop_end_fault *fault) {
    return giop_interface_convert(interface, GIOP_INS, (const uint8_t *)name, strlen(name), from, given, size, to,
                                  buffer, room, wrote, fault);
}

/* Values of each type: as JSON, as the library writes it, and as octets of a byte order. */
static const struct value {
    const char *name, *text, *written;
    uint32_t order;
    size_t size;
    uint8_t octets[24];
} VALUES[] = {
    {"none", " [ ] ", "[]", 0, 0, {0}},
    {"add", "[2,5]", "[2,5]", 0, 8, {0, 0, 0, 2, 0, 0, 0, 5}},
    {"add", "[2,\n5]", "[2,5]", 1, 8, {2, 0, 0, 0, 5, 0, 0, 0}},
    {"add", "[-222,-555]", "[-222,-555]", 0, 8, {255, 255, 255, 34, 255, 255, 253, 213}},
    {"boolean", "[true]", "[true]", 0, 1, {1}},
    {"char", "[\"\\u0041\"]", "[\"A\"]", 0, 1, {65}},
    {"char", "[\"\\u00e9\"]", "[\"\xC3\xA9\"]", 0, 1, {0xE9}},
    {"short", "[-2]", "[-2]", 1, 2, {0xFE, 0xFF}},
    {"ulong", "[4294967295]", "[4294967295]", 0, 4, {255, 255, 255, 255}},
    /* the second value is at the next multiple of 8 */
    {"longlong", "[9,-9223372036854775808]", "[9,-9223372036854775808]", 0, 16,
     {9, 0, 0, 0, 0, 0, 0, 0, 128, 0, 0, 0, 0, 0, 0, 0}},
    {"string", "[\"ping\"]", "[\"ping\"]", 0, 9, {0, 0, 0, 5, 'p', 'i', 'n', 'g', 0}},
    {"octets", "[\"00FFab\"]", "[\"00ffab\"]", 1, 7, {3, 0, 0, 0, 0, 255, 171}},
    {"enum", "[\"GREEN\"]", "[\"GREEN\"]", 0, 4, {0, 0, 0, 1}},
    /* in CDR in the order of the description, in JSON in that of the names */
    {"struct", "[{\"b\":1,\"a\":2}]", "[{\"a\":2,\"b\":1}]", 0, 4, {1, 0, 0, 2}},
    {"union", "[{\"value\":9,\"disc\":2}]", "[{\"disc\":2,\"value\":9}]", 0, 5, {0, 0, 0, 2, 9}},
    {"union", "[{\"disc\":3,\"value\":null}]", "[{\"disc\":3,\"value\":null}]", 1, 4, {3, 0, 0, 0}},
    {"sequence", "[[1,-2]]", "[[1,-2]]", 0, 12, {0, 0, 0, 2, 0, 0, 0, 1, 255, 255, 255, 254}},
    {"array", "[[\"a\",\"b\"]]", "[[\"a\",\"b\"]]", 0, 2, {'a', 'b'}},
    /* the nil reference: an empty type id and no profiles (7.6.2) */
    {"reference", "[\"IOR:00000000000000010000000000000000\"]", "[\"IOR:00000000000000010000000000000000\"]", 0, 12,
     {0, 0, 0, 1, 0, 0, 0, 0, 0, 0, 0, 0}},
};

static void values_of_each_type(void) {
    giop_interface interface = {0};
    CHECK(opens(&interface) == GIOP_OK);
    for (size_t i = 0; i < sizeof VALUES / sizeof *VALUES; i++) {
        const struct value *v = &VALUES[i];
        giop_end_fault fault = UNWRITTEN;
        uint8_t buffer[80];
        size_t size = 99, length = strlen(v->written);
        memset(buffer, 9, sizeof buffer);
        CHECK(converts(&interface, v->name, GIOP_JSON, v->text, strlen(v->text), v->order, buffer, 80, &size, &fault)
              == GIOP_OK);
        CHECK(size == v->size && memcmp(buffer, v->octets, size) == 0 && buffer[size] == 9);
        CHECK(converts(&interface, v->name, v->order, v->octets, v->size, GIOP_JSON, buffer, 80, &size, &fault)
              == GIOP_OK);
        CHECK(size == length && memcmp(buffer, v->written, size) == 0);
        CHECK(converts(&interface, v->name, GIOP_JSON, v->text, strlen(v->text), GIOP_JSON, buffer, length - 1, &size,
                       &fault) == GIOP_SMALL && size == length);
        CHECK(is_unwritten(fault));
    }
    giop_interface_free(&interface);
    CHECK(blocks == 0);
}

/* Texts and octets that are refused, each with its fault. */
static const struct refused {
    const char *name, *given;
    size_t size, at;
    uint32_t form, number, part;
} REFUSED[] = {
    {"add", "", 0, 0, GIOP_JSON, GIOP_END_JSON, GIOP_TEXT_BAD_JSON},
    {"add", "[2,5", 4, 0, GIOP_JSON, GIOP_END_JSON, GIOP_TEXT_BAD_JSON},
    {"add", "[2,5] 6", 7, 0, GIOP_JSON, GIOP_END_JSON, GIOP_TEXT_BAD_JSON},
    {"add", "[2,5\0]", 6, 0, GIOP_JSON, GIOP_END_JSON, GIOP_TEXT_BAD_JSON},
    {"add", "2", 1, 0, GIOP_JSON, GIOP_END_JSON, GIOP_TEXT_BAD_SHAPE},
    {"add", "{\"a\":2,\"b\":5}", 13, 0, GIOP_JSON, GIOP_END_JSON, GIOP_TEXT_BAD_SHAPE},
    {"add", "[2,\"a\"]", 7, 0, GIOP_JSON, GIOP_END_JSON, GIOP_TEXT_BAD_SHAPE},
    {"add", "[2,true]", 8, 0, GIOP_JSON, GIOP_END_JSON, GIOP_TEXT_BAD_SHAPE},
    {"add", "[2.5,5]", 7, 0, GIOP_JSON, GIOP_END_JSON, GIOP_TEXT_BAD_SHAPE},
    /* another form is told before what doesn't fit, wherever it stands */
    {"add", "[2147483648,true]", 17, 0, GIOP_JSON, GIOP_END_JSON, GIOP_TEXT_BAD_SHAPE},
    {"add", "[2147483648,\"a\"]", 16, 0, GIOP_JSON, GIOP_END_JSON, GIOP_TEXT_BAD_SHAPE},
    {"add", "[2147483648,5]", 14, 0, GIOP_JSON, GIOP_END_JSON, GIOP_TEXT_UNFIT},
    {"add", "[2]", 3, 0, GIOP_JSON, GIOP_END_JSON, GIOP_TEXT_UNFIT},
    {"add", "[2,5,\"\"]", 8, 0, GIOP_JSON, GIOP_END_JSON, GIOP_TEXT_UNFIT},
    {"string", "[\"seven\"]", 9, 0, GIOP_JSON, GIOP_END_JSON, GIOP_TEXT_UNFIT},
    {"add", "\0\0\0\2\0", 5, 4, GIOP_BIG_ENDIAN, GIOP_END_VALUES, GIOP_CDR_SHORT},
    {"add", "\0\0\0\2\0\0\0", 7, 4, GIOP_BIG_ENDIAN, GIOP_END_VALUES, GIOP_CDR_SHORT},
    {"boolean", "\2", 1, 0, GIOP_BIG_ENDIAN, GIOP_END_VALUES, GIOP_CDR_BAD_BOOLEAN},
    {"boolean", "\1\0", 2, 1, GIOP_LITTLE_ENDIAN, GIOP_END_VALUES, GIOP_CDR_TRAILING},
};

/* They are so of a conversion, and of the ins of a call. */
static void what_is_refused_is_told(void) {
    giop_interface interface = {0};
    giop_client client = {0};
    CHECK(opens(&interface) == GIOP_OK && giop_client_new(&client, &interface, &LIMITS) == GIOP_OK);
    for (size_t i = 0; i < sizeof REFUSED / sizeof *REFUSED; i++) {
        const struct refused *r = &REFUSED[i];
        giop_end_fault fault = UNWRITTEN;
        uint8_t buffer[1] = {9};
        size_t size = 99;
        CHECK(converts(&interface, r->name, r->form, r->given, r->size, GIOP_JSON, buffer, 1, &size, &fault)
              == GIOP_FAULT);
        CHECK(is(fault, r->number, r->part, r->at) && size == 99 && buffer[0] == 9);
        fault = UNWRITTEN;
        CHECK(giop_client_call(&client, 1, &CALL, KEY, 1, (const uint8_t *)r->name, strlen(r->name), r->form,
                               (const uint8_t *)r->given, r->size, &FORM, &fault) == GIOP_FAULT);
        CHECK(is(fault, r->number, r->part, r->at));
    }
    giop_client_free(&client);
    giop_interface_free(&interface);
}

static void which_values_there_are(void) {
    static const uint8_t id[] = "IDL:E:1.0", seven[4] = {0, 0, 0, 7};
    giop_interface interface = {0};
    giop_end_fault fault = UNWRITTEN;
    uint8_t buffer[4] = {9, 9, 9, 9};
    size_t size = 99;
    CHECK(giop_interface_convert(&interface, GIOP_OUTS, ADD, 3, 0, seven, 4, 2, buffer, 4, &size, &fault)
          == GIOP_CLOSED);
    CHECK(opens(&interface) == GIOP_OK);
    CHECK(giop_interface_convert(&interface, GIOP_OUTS, id, 9, 0, seven, 4, 2, buffer, 4, &size, &fault)
          == GIOP_WAITS);
    CHECK(giop_interface_convert(&interface, GIOP_MEMBERS, ADD, 3, 0, seven, 4, 2, buffer, 4, &size, &fault)
          == GIOP_WAITS);
    CHECK(giop_interface_convert(&interface, GIOP_INS, NULL, 0, 0, NULL, 0, 2, NULL, 0, &size, &fault) == GIOP_WAITS);
    CHECK(size == 99 && buffer[0] == 9 && is_unwritten(fault));
    CHECK(giop_interface_convert(&interface, GIOP_OUTS, ADD, 3, 0, seven, 4, 2, buffer, 4, &size, &fault) == GIOP_OK);
    CHECK(size == 3 && memcmp(buffer, "[7]\11", 4) == 0);
    CHECK(giop_interface_convert(&interface, GIOP_MEMBERS, id, 9, GIOP_JSON, (const uint8_t *)"[7]", 3, 0, buffer, 4,
                                 &size, &fault) == GIOP_OK);
    CHECK(size == 4 && memcmp(buffer, seven, 4) == 0);
    /* of no values there are no octets, and two of JSON */
    CHECK(converts(&interface, "none", 0, NULL, 0, 0, NULL, 0, &size, &fault) == GIOP_OK && size == 0);
    CHECK(converts(&interface, "none", 0, NULL, 0, 2, NULL, 0, &size, &fault) == GIOP_SMALL && size == 2);
    giop_interface_free(&interface);
    CHECK(blocks == 0);
}

/* A client calls add of 2 and 5 by one text of JSON, a server answers it by another, and each reads the other's. */
static uint32_t crosses(giop_client *client, giop_server *server, giop_end_fault *fault) {
    giop_interface interface = {0};
    uint8_t octets[128], text[8];
    size_t size = 0;
    uint32_t status = opens(&interface);
    status = status == GIOP_OK ? giop_client_new(client, &interface, &LIMITS) : status;
    status = status == GIOP_OK ? giop_server_new(server, &interface, &LIMITS) : status;
    giop_interface_free(&interface);
    status = status == GIOP_OK
                 ? giop_client_call(client, 1, &CALL, KEY, 1, ADD, 3, GIOP_JSON, (const uint8_t *)"[2,5]", 5, &FORM,
                                    fault)
                 : status;
    if (status == GIOP_OK) {
        CHECK(giop_client_outgoing(client, octets, 128, &size) == GIOP_OK && size == 56);
        status = giop_server_feed(server, octets, size, fault);
    }
    status = status == GIOP_OK ? giop_server_ins(server, 1, GIOP_JSON, text, 8, &size) : status;
    if (status == GIOP_OK) {
        CHECK(size == 5 && memcmp(text, "[2,5]", 5) == 0);
        status = giop_server_answer(server, 1, GIOP_JSON, (const uint8_t *)"[7]", 3, &FORM, fault);
    }
    if (status == GIOP_OK) {
        CHECK(giop_server_outgoing(server, octets, 128, &size) == GIOP_OK && size == 28);
        status = giop_client_feed(client, octets, size, fault);
    }
    status = status == GIOP_OK ? giop_client_outs(client, 1, GIOP_JSON, text, 8, &size) : status;
    CHECK(status != GIOP_OK || (size == 3 && memcmp(text, "[7]", 3) == 0));
    return status;
}

static void each_allocation_may_be_refused(void) {
    uint32_t status = GIOP_NO_MEMORY;
    long tried = 0, most = 0;
    while (status == GIOP_NO_MEMORY && tried < 1000) {
        giop_client client = {0};
        giop_server server = {0};
        giop_end_fault fault = UNWRITTEN;
        left = tried++;
        status = crosses(&client, &server, &fault);
        left = -1;
        CHECK(status == GIOP_OK || (status == GIOP_NO_MEMORY && (is_unwritten(fault) || is(fault, 8, 0, 0))));
        most = blocks > most ? blocks : most;
        giop_client_free(&client);
        giop_server_free(&server);
        CHECK(blocks == 0);
    }
    /* The shared library has the C library's own heap, where none is counted. */
    CHECK(status == GIOP_OK && (tried > 40 || most == 0));
}

static void a_refused_text_changes_nothing(void) {
    static const uint8_t id[] = "IDL:E:1.0";
    giop_client client = {0};
    giop_server server = {0};
    giop_interface interface = {0};
    giop_end_fault fault = UNWRITTEN;
    uint8_t octets[128];
    size_t size = 99;
    CHECK(opens(&interface) == GIOP_OK && giop_client_new(&client, &interface, &LIMITS) == GIOP_OK);
    CHECK(giop_server_new(&server, &interface, &LIMITS) == GIOP_OK);
    giop_interface_free(&interface);
    CHECK(giop_client_call(&client, 1, &CALL, KEY, 1, ADD, 3, 2, (const uint8_t *)"[2]", 3, &FORM, &fault)
          == GIOP_FAULT && is(fault, GIOP_END_JSON, GIOP_TEXT_UNFIT, 0));
    CHECK(giop_client_outgoing(&client, NULL, 0, &size) == GIOP_OK && size == 0);
    /* of an operation that there isn't the text is not read */
    CHECK(giop_client_call(&client, 1, &CALL, KEY, 1, KEY, 1, 2, NULL, 0, &FORM, &fault) == GIOP_FAULT);
    CHECK(fault.number == GIOP_END_CALL && fault.part == GIOP_CALL_UNKNOWN_OPERATION);
    CHECK(giop_client_call(&client, 1, &CALL, KEY, 1, ADD, 3, 2, (const uint8_t *)"[2,5]", 5, &FORM, &fault) == GIOP_OK);
    CHECK(giop_client_outgoing(&client, octets, 128, &size) == GIOP_OK && size == 56);
    CHECK(giop_server_feed(&server, octets, size, &fault) == GIOP_OK);
    CHECK(giop_server_answer(&server, 1, 2, (const uint8_t *)"7", 1, &FORM, &fault) == GIOP_FAULT);
    CHECK(is(fault, GIOP_END_JSON, GIOP_TEXT_BAD_SHAPE, 0));
    CHECK(giop_server_answer_user(&server, 1, id, 9, 2, (const uint8_t *)"[", 1, &FORM, &fault) == GIOP_FAULT);
    CHECK(is(fault, GIOP_END_JSON, GIOP_TEXT_BAD_JSON, 0));
    CHECK(giop_server_answer_user(&server, 1, id, 9, 2, (const uint8_t *)"[true]", 6, &FORM, &fault) == GIOP_FAULT);
    CHECK(is(fault, GIOP_END_JSON, GIOP_TEXT_BAD_SHAPE, 0));
    CHECK(giop_server_outgoing(&server, NULL, 0, &size) == GIOP_OK && size == 0);
    CHECK(giop_server_answer_user(&server, 1, id, 9, 2, (const uint8_t *)"[-1]", 4, &FORM, &fault) == GIOP_OK);
    CHECK(giop_server_outgoing(&server, octets, 128, &size) == GIOP_OK);
    CHECK(giop_client_feed(&client, octets, size, &fault) == GIOP_OK);
    CHECK(giop_client_members(&client, 1, GIOP_JSON, octets, 128, &size) == GIOP_OK);
    CHECK(size == 4 && memcmp(octets, "[-1]", 4) == 0);
    CHECK(giop_client_members(&client, 1, GIOP_JSON, octets, 3, &size) == GIOP_SMALL && size == 4);
    CHECK(giop_client_outs(&client, 1, GIOP_JSON, octets, 128, &size) == GIOP_WAITS);
    giop_client_free(&client);
    giop_server_free(&server);
    CHECK(blocks == 0);
}

int main(void) {
    values_of_each_type();
    what_is_refused_is_told();
    which_values_there_are();
    each_allocation_may_be_refused();
    a_refused_text_changes_nothing();
    printf("%d passed, %d failed\n", passed, failed);
    return failed != 0;
}
