/* Tests of libgiop's interfaces from outside. What is expected is worked by hand from docs/FORMATS.md and
 * include/giop.h; none comes from the library's own output.
 *
 * It prints the name of each test that failed and ends with status 1, or prints how many passed. */
#include "check.h"

static const char ADD[] =
    "{\"operations\":{\"add\":{\"ins\":[[\"a\",\"long\"],[\"b\",\"long\"]],\"outs\":[[\"sum\",\"long\"]]}},"
    "\"exceptions\":{\"IDL:E:1.0\":[[\"why\",\"string\"]]}}";

static const giop_text_fault UNWRITTEN = {77, 77};

static uint32_t opens(giop_interface *interface, const char *text, giop_text_fault *fault) {
    *fault = UNWRITTEN;
    return giop_interface_new(interface, (const uint8_t *)text, strlen(text), fault);
}

static int is_unwritten(giop_text_fault fault) {
    return fault.number == 77 && fault.description == 77;
}

static void an_interface_is_opened_and_freed(void) {
    giop_interface interface = {0};
    giop_text_fault fault;
    CHECK(opens(&interface, ADD, &fault) == GIOP_OK && is_unwritten(fault));
    CHECK(interface.at != NULL);
    CHECK(opens(&interface, "{\"operations\":{}}", &fault) == GIOP_OK && is_unwritten(fault));
    giop_interface_free(&interface);
    CHECK(interface.at == NULL);
    giop_interface_free(&interface);
    CHECK(interface.at == NULL && blocks == 0);
}

/* Texts that are refused, each with the number of what is wrong, and of what is wrong with a description. */
static const struct refused {
    const char *text;
    uint32_t number, description;
} REFUSED[] = {
    {"", GIOP_TEXT_BAD_JSON, 0},
    {"{", GIOP_TEXT_BAD_JSON, 0},
    {"[]", GIOP_TEXT_BAD_SHAPE, 0},
    {"{\"operations\":{\"f\":{\"in\":[]}}}", GIOP_TEXT_BAD_SHAPE, 0},
    {"{\"operations\":{\"f\":{\"oneway\":true,\"outs\":[[\"r\",\"long\"]]}}}", GIOP_TEXT_BAD_SHAPE, 0},
    /* a name that no type has, one that stands for itself, and an exception that isn't there */
    {"{\"operations\":{\"f\":{\"ins\":[[\"a\",{\"type\":\"T\"}]]}}}", GIOP_TEXT_BAD_SHAPE, 0},
    {"{\"types\":{\"T\":{\"type\":\"T\"}},\"operations\":{\"f\":{\"ins\":[[\"a\",{\"type\":\"T\"}]]}}}",
     GIOP_TEXT_BAD_SHAPE, 0},
    {"{\"operations\":{\"f\":{\"raises\":[\"IDL:E:1.0\"]}}}", GIOP_TEXT_BAD_SHAPE, 0},
    {"{\"operations\":{\"f\":{\"ins\":[[\"a\",{\"enum\":[]}]]}}}", GIOP_TEXT_BAD_DESCRIPTION, 1},
    {"{\"operations\":{\"f\":{\"ins\":[[\"a\",{\"enum\":[\"x\",\"x\"]}]]}}}", GIOP_TEXT_BAD_DESCRIPTION, 2},
};

/* A type of two members, of which one has a name itself; an id, comments, and what is raised. */
static void the_types_of_an_interface_have_names(void) {
    static const char named[] = "{\"id\":\"IDL:P:1.0\",\"comment\":\"points\",\"types\":{\"Point\":{\"struct\":"
                                "[[\"x\",{\"type\":\"Half\"}],[\"y\",\"octet\"]]},\"Half\":\"short\"},\"operations\":"
                                "{\"move\":{\"ins\":[[\"to\",{\"type\":\"Point\"}]],\"comment\":\"there\","
                                "\"raises\":[\"IDL:E:1.0\"]}},\"exceptions\":{\"IDL:E:1.0\":[]}}";
    static const char there[] = "[{\"x\":258,\"y\":3}]";
    static const uint8_t octets[3] = {1, 2, 3};
    giop_interface interface = {0};
    giop_text_fault fault;
    giop_end_fault wrong;
    uint8_t text[32], copied[4] = {9, 9, 9, 9};
    size_t size;
    CHECK(opens(&interface, named, &fault) == GIOP_OK && is_unwritten(fault));
    CHECK(giop_interface_convert(&interface, 0, (const uint8_t *)"move", 4, GIOP_BIG_ENDIAN, octets, 3, GIOP_JSON, text,
                                 sizeof text, &size, &wrong)
          == GIOP_OK);
    CHECK(size == 17 && memcmp(text, there, 17) == 0);
    CHECK(giop_interface_convert(&interface, 0, (const uint8_t *)"move", 4, GIOP_JSON, (const uint8_t *)there, 17, 0,
                                 copied, sizeof copied, &size, &wrong)
          == GIOP_OK);
    CHECK(size == 3 && memcmp(copied, octets, 3) == 0 && copied[3] == 9);
    giop_interface_free(&interface);
    CHECK(blocks == 0);
}

static void a_refused_text_leaves_the_handle(void) {
    giop_interface interface = {0};
    giop_text_fault fault;
    CHECK(opens(&interface, ADD, &fault) == GIOP_OK);
    for (size_t i = 0; i < sizeof REFUSED / sizeof *REFUSED; i++) {
        giop_interface closed = {0};
        void *held = interface.at;
        CHECK(opens(&closed, REFUSED[i].text, &fault) == GIOP_FAULT && closed.at == NULL);
        CHECK(fault.number == REFUSED[i].number && fault.description == REFUSED[i].description);
        CHECK(opens(&interface, REFUSED[i].text, &fault) == GIOP_FAULT && interface.at == held);
    }
    giop_interface_free(&interface);
    CHECK(blocks == 0);
}

static void each_allocation_may_be_refused(void) {
    uint32_t status = GIOP_NO_MEMORY;
    long tried = 0, most = 0;
    while (status == GIOP_NO_MEMORY && tried < 1000) {
        giop_interface interface = {0};
        giop_text_fault fault;
        left = tried++;
        status = opens(&interface, ADD, &fault);
        left = -1;
        CHECK((status == GIOP_NO_MEMORY && interface.at == NULL) || status == GIOP_OK);
        CHECK(is_unwritten(fault));
        most = blocks > most ? blocks : most;
        giop_interface_free(&interface);
        CHECK(blocks == 0);
    }
    /* The shared library has the C library's own heap, where none is counted. */
    CHECK(status == GIOP_OK && (tried > 10 || most == 0));
}

int main(void) {
    an_interface_is_opened_and_freed();
    the_types_of_an_interface_have_names();
    a_refused_text_leaves_the_handle();
    each_allocation_may_be_refused();
    CHECK(blocks == 0);
    printf("%d passed, %d failed\n", passed, failed);
    return failed != 0;
}
