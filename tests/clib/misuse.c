/* Handles of libgiop misused in each way that can be caught: used before they are opened, when they were freed,
 * freed twice, zeroed by hand, opened while they are open, opened by what is refused, made of an interface that is
 * freed; and buffers that are NULL where their size is 0. What is expected is what include/giop.h says.
 *
 * It prints the name of each test that failed and ends with status 1, or prints how many passed. */
#include "check.h"

static const char ADD[] =
    "{\"operations\":{\"ping\":{},"
    "\"add\":{\"ins\":[[\"a\",\"long\"],[\"b\",\"long\"]],\"outs\":[[\"sum\",\"long\"]]}}}";
static const giop_limits LIMITS = GIOP_LIMITS;
static const giop_limits TOO_MUCH = {((uint64_t)1 << 62) + 1, 1, 1};
static const giop_form FORM = GIOP_FORM;
static const giop_call CALL = GIOP_CALL;
/* A CloseConnection of 1.2 (9.4.7). */
static const uint8_t CLOSE[12] = {'G', 'I', 'O', 'P', 1, 2, 0, 5, 0, 0, 0, 0};

static void opens(giop_interface *interface) {
    giop_text_fault fault;
    CHECK(giop_interface_new(interface, (const uint8_t *)ADD, strlen(ADD), &fault) == GIOP_OK);
}

static int is(const giop_end_fault *fault, uint32_t number, uint32_t part) {
    return fault->number == number && fault->part == part;
}

/* ---- a handle that holds nothing ---- */

static void each_call_of_a_framer_is_closed(giop_framer *framer) {
    giop_message head;
    giop_fault fault = {77, 77};
    size_t size = 99;
    CHECK(giop_framer_feed(framer, CLOSE, sizeof CLOSE) == GIOP_CLOSED);
    CHECK(giop_framer_feed(framer, NULL, 0) == GIOP_CLOSED);
    CHECK(giop_framer_next(framer, &head, &fault) == GIOP_CLOSED && fault.number == 77);
    CHECK(giop_framer_payload(framer, NULL, 0, &size) == GIOP_CLOSED);
    CHECK(giop_framer_rest(framer, &size) == GIOP_CLOSED && size == 99);
    giop_framer_free(framer);
}

static void each_call_of_a_server_is_closed(giop_server *server) {
    giop_server_entry entry;
    giop_end_fault fault = {77, 77, 77, 77};
    uint32_t service = 99;
    size_t size = 99;
    entry.kind = 99;
    CHECK(giop_server_feed(server, NULL, 0, &fault) == GIOP_CLOSED);
    CHECK(giop_server_outgoing(server, NULL, 0, &size) == GIOP_CLOSED);
    CHECK(giop_server_wrote(server, 0) == GIOP_CLOSED);
    CHECK(giop_server_ids(server, NULL, 0, &size) == GIOP_CLOSED);
    CHECK(giop_server_entry_of(server, 1, &entry) == GIOP_CLOSED && entry.kind == 99);
    CHECK(giop_server_operation(server, 1, NULL, 0, &size) == GIOP_CLOSED);
    CHECK(giop_server_key(server, 1, NULL, 0, &size) == GIOP_CLOSED);
    CHECK(giop_server_ins(server, 1, 0, NULL, 0, &size) == GIOP_CLOSED);
    CHECK(giop_server_answer(server, 1, 0, NULL, 0, &FORM, &fault) == GIOP_CLOSED);
    CHECK(giop_server_answer_user(server, 1, NULL, 0, 0, NULL, 0, &FORM, &fault) == GIOP_CLOSED);
    CHECK(giop_server_answer_system(server, 1, NULL, 0, 0, 0, &FORM, &fault) == GIOP_CLOSED);
    CHECK(giop_server_answer_forward(server, 1, NULL, 0, 0, &FORM, &fault) == GIOP_CLOSED);
    CHECK(giop_server_context(server, 1, 0, &service, NULL, 0, &size) == GIOP_CLOSED);
    CHECK(giop_server_answer_locate(server, 1, 0, 0, &fault) == GIOP_CLOSED);
    CHECK(giop_server_send(server, 1, &fault) == GIOP_CLOSED);
    CHECK(giop_server_take(server, 1, &fault) == GIOP_CLOSED);
    CHECK(giop_server_close(server, &fault) == GIOP_CLOSED);
    CHECK(giop_server_error_message(server, NULL, 0, &size) == GIOP_CLOSED);
    CHECK(giop_server_rest(server, &size) == GIOP_CLOSED);
    CHECK(giop_server_blocks(server, &size) == GIOP_CLOSED);
    CHECK(is(&fault, 77, 77) && size == 99 && service == 99);
    giop_server_free(server);
}

static void each_call_of_a_client_is_closed(giop_client *client) {
    giop_client_entry entry;
    giop_end_fault fault = {77, 77, 77, 77};
    uint32_t service = 99;
    size_t size = 99;
    entry.kind = 99;
    CHECK(giop_client_feed(client, NULL, 0, &fault) == GIOP_CLOSED);
    CHECK(giop_client_outgoing(client, NULL, 0, &size) == GIOP_CLOSED);
    CHECK(giop_client_wrote(client, 0) == GIOP_CLOSED);
    CHECK(giop_client_ids(client, NULL, 0, &size) == GIOP_CLOSED);
    CHECK(giop_client_entry_of(client, 1, &entry) == GIOP_CLOSED && entry.kind == 99);
    CHECK(giop_client_call(client, 1, &CALL, NULL, 0, NULL, 0, 0, NULL, 0, &FORM, &fault) == GIOP_CLOSED);
    CHECK(giop_client_locate(client, 1, &CALL, NULL, 0, &FORM, &fault) == GIOP_CLOSED);
    CHECK(giop_client_cancel(client, 1, 0, &fault) == GIOP_CLOSED);
    CHECK(giop_client_send(client, 1, &fault) == GIOP_CLOSED);
    CHECK(giop_client_outs(client, 1, 0, NULL, 0, &size) == GIOP_CLOSED);
    CHECK(giop_client_exception(client, 1, NULL, 0, &size) == GIOP_CLOSED);
    CHECK(giop_client_members(client, 1, 0, NULL, 0, &size) == GIOP_CLOSED);
    CHECK(giop_client_forward(client, 1, NULL, 0, &size) == GIOP_CLOSED);
    CHECK(giop_client_context(client, 1, 0, &service, NULL, 0, &size) == GIOP_CLOSED);
    CHECK(giop_client_take(client, 1, &fault) == GIOP_CLOSED);
    CHECK(giop_client_close(client, &fault) == GIOP_CLOSED);
    CHECK(giop_client_error_message(client, NULL, 0, &size) == GIOP_CLOSED);
    CHECK(giop_client_rest(client, &size) == GIOP_CLOSED);
    CHECK(giop_client_blocks(client, &size) == GIOP_CLOSED);
    CHECK(is(&fault, 77, 77) && size == 99 && service == 99);
    giop_client_free(client);
}

/* Before it is opened, when it is freed, when it is freed twice, and when it is zeroed by hand then. */
static void handles_that_hold_nothing(void) {
    giop_interface interface = {0};
    giop_framer framer = {0};
    giop_server server = {0};
    giop_client client = {0};
    opens(&interface);
    for (int turn = 0; turn < 3; turn++) {
        each_call_of_a_framer_is_closed(&framer);
        each_call_of_a_server_is_closed(&server);
        each_call_of_a_client_is_closed(&client);
        CHECK(giop_framer_new(&framer, 100) == GIOP_OK && giop_server_new(&server, &interface, &LIMITS) == GIOP_OK);
        CHECK(giop_client_new(&client, &interface, &LIMITS) == GIOP_OK);
        giop_framer_free(&framer), giop_server_free(&server), giop_client_free(&client);
        CHECK(framer.at == NULL && server.at == NULL && client.at == NULL);
        if (turn == 1) {
            memset(&framer, 0, sizeof framer), memset(&server, 0, sizeof server), memset(&client, 0, sizeof client);
        }
    }
    giop_framer_free(&framer), giop_server_free(&server), giop_client_free(&client);
    giop_interface_free(&interface), giop_interface_free(&interface);
    CHECK(interface.at == NULL && giop_server_new(&server, &interface, &LIMITS) == GIOP_CLOSED);
    CHECK(giop_client_new(&client, &interface, &LIMITS) == GIOP_CLOSED && client.at == NULL && server.at == NULL);
    CHECK(blocks == 0);
}

/* ---- a handle that is opened again ---- */

static uint32_t entries(giop_client *client) {
    size_t count = 99;
    CHECK(giop_client_ids(client, NULL, 0, &count) == GIOP_OK);
    return (uint32_t)count;
}

static uint32_t pings(giop_client *client, uint32_t id) {
    giop_end_fault fault = {77, 77, 77, 77};
    return giop_client_call(client, id, &CALL, (const uint8_t *)"k", 1, (const uint8_t *)"ping", 4, 0, NULL, 0, &FORM,
                            &fault);
}

/* Where it isn't opened anew it is as it was; where it is, nothing is left of what it held. */
static void handles_that_are_open(void) {
    giop_interface interface = {0}, closed = {0};
    giop_client client = {0};
    giop_server server = {0};
    giop_end_fault fault;
    giop_text_fault text;
    size_t rest = 99;
    opens(&interface);
    CHECK(giop_client_new(&client, &interface, &LIMITS) == GIOP_OK && pings(&client, 5) == GIOP_OK);
    CHECK(giop_server_new(&server, &interface, &LIMITS) == GIOP_OK);
    CHECK(giop_server_feed(&server, CLOSE, 5, &fault) == GIOP_OK);
    CHECK(giop_client_new(&client, &closed, &LIMITS) == GIOP_CLOSED && entries(&client) == 1);
    CHECK(giop_client_new(&client, &interface, &TOO_MUCH) == GIOP_FAULT && entries(&client) == 1);
    CHECK(giop_server_new(&server, &closed, &LIMITS) == GIOP_CLOSED);
    CHECK(giop_server_new(&server, &interface, &TOO_MUCH) == GIOP_FAULT);
    CHECK(giop_server_rest(&server, &rest) == GIOP_OK && rest == 5);
    CHECK(giop_interface_new(&interface, NULL, 0, &text) == GIOP_FAULT && interface.at != NULL);
    giop_interface_free(&interface);
    CHECK(pings(&client, 6) == GIOP_OK && entries(&client) == 2);
    opens(&interface);
    CHECK(giop_client_new(&client, &interface, &LIMITS) == GIOP_OK && entries(&client) == 0);
    CHECK(giop_server_new(&server, &interface, &LIMITS) == GIOP_OK);
    CHECK(giop_server_rest(&server, &rest) == GIOP_OK && rest == 0);
    giop_interface_free(&interface), giop_server_free(&server), giop_client_free(&client);
    CHECK(blocks == 0);
}

/* Each allocation of opening a handle anew is refused in turn: it is as it was, until it is opened. */
static void handles_that_are_opened_without_memory(void) {
    giop_interface interface = {0};
    giop_client client = {0};
    uint32_t status = GIOP_NO_MEMORY;
    opens(&interface);
    CHECK(giop_client_new(&client, &interface, &LIMITS) == GIOP_OK && pings(&client, 5) == GIOP_OK);
    for (long granted_to_it = 0; status == GIOP_NO_MEMORY && granted_to_it < 100; granted_to_it++) {
        left = granted_to_it;
        status = giop_client_new(&client, &interface, &LIMITS);
        left = -1;
        CHECK(status == GIOP_OK || (status == GIOP_NO_MEMORY && entries(&client) == 1));
    }
    CHECK(status == GIOP_OK && entries(&client) == 0);
    giop_client_free(&client), giop_interface_free(&interface);
    CHECK(blocks == 0);
}

/* ---- buffers that are NULL ---- */

static void buffers_of_size_0(void) {
    giop_interface interface = {0};
    giop_framer framer = {0};
    giop_server server = {0};
    giop_client client = {0};
    giop_end_fault fault = {77, 77, 77, 77};
    size_t size = 99;
    opens(&interface);
    CHECK(giop_framer_new(&framer, 100) == GIOP_OK && giop_framer_feed(&framer, NULL, 0) == GIOP_OK);
    CHECK(giop_server_new(&server, &interface, &LIMITS) == GIOP_OK);
    CHECK(giop_client_new(&client, &interface, &LIMITS) == GIOP_OK);
    CHECK(giop_server_feed(&server, NULL, 0, &fault) == GIOP_OK);
    CHECK(giop_client_feed(&client, NULL, 0, &fault) == GIOP_OK);
    CHECK(giop_server_outgoing(&server, NULL, 0, &size) == GIOP_OK && size == 0);
    CHECK(giop_client_outgoing(&client, NULL, 0, &size) == GIOP_OK && size == 0);
    CHECK(giop_server_wrote(&server, 0) == GIOP_OK && giop_client_wrote(&client, 0) == GIOP_OK);
    CHECK(giop_server_ids(&server, NULL, 0, &size) == GIOP_OK && size == 0);
    CHECK(giop_client_ids(&client, NULL, 0, &size) == GIOP_OK && size == 0);
    CHECK(giop_server_answer(&server, 1, 0, NULL, 0, &FORM, &fault) == GIOP_FAULT);
    CHECK(is(&fault, GIOP_END_CALL, GIOP_CALL_NOT_OPEN) && fault.id == 1);
    CHECK(giop_client_call(&client, 1, &CALL, NULL, 0, NULL, 0, 0, NULL, 0, &FORM, &fault) == GIOP_FAULT);
    CHECK(is(&fault, GIOP_END_CALL, GIOP_CALL_UNKNOWN_OPERATION) && fault.id == 1);
    CHECK(giop_client_call(&client, 1, &CALL, NULL, 0, (const uint8_t *)"ping", 4, 0, NULL, 0, &FORM, &fault)
          == GIOP_OK);
    CHECK(giop_client_locate(&client, 2, &CALL, NULL, 0, &FORM, &fault) == GIOP_OK && entries(&client) == 2);
    giop_framer_free(&framer), giop_server_free(&server), giop_client_free(&client), giop_interface_free(&interface);
    CHECK(blocks == 0);
}

int main(void) {
    handles_that_hold_nothing();
    handles_that_are_open();
    handles_that_are_opened_without_memory();
    buffers_of_size_0();
    printf("%d passed, %d failed\n", passed, failed);
    return failed != 0;
}
