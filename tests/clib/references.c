/* The calls of libgiop over the caller's octets alone: the head of a Reply, references, corbalocs and profiles,
 * read and made.
 * Octets are worked by hand from CORBA 3.3 Part 2, 7.6, 9.4.3 and 9.7.2. */
#include "check.h"

/* A Reply of 1.2, big-endian: id 7, status 0, a context of id 1 with four octets; it ends at 36. */
static const uint8_t REPLY[24] = {0, 0, 0, 7, 0, 0, 0, 0, 0, 0, 0, 1, 0, 0, 0, 1, 0, 0, 0, 4, 9, 9, 9, 9};
/* Of 1.0, little-endian: no contexts, id 7, status 3; it ends at 24. */
static const uint8_t EARLY[12] = {0, 0, 0, 0, 7, 0, 0, 0, 3, 0, 0, 0};
/* IIOP 1.2 at h, port 2809, key k, no components. */
static const uint8_t PROFILE[24] = {0, 1, 2, 0, 0, 0, 0, 2, 'h', 0, 0x0A, 0xF9, 0, 0, 0, 1, 'k', 0, 0, 0, 0, 0, 0, 0};
/* A reference without a type id, which has that profile. */
static const char TEXT[] = "IOR:000000000000000100000000" "000000010000000000000018"
                           "0001020000000002" "68000af9000000016b00000000000000";
static const char CORBALOC[] = "corbaloc::1.2@h/k";

#define OCTETS(text) ((const uint8_t *)(text))

static giop_message header(uint8_t minor, uint8_t little_endian) {
    giop_message message = {0, 0, 0, GIOP_REPLY, 0, 0, 0};
    message.minor = minor;
    message.little_endian = little_endian;
    return message;
}

static void the_head_of_a_reply(void) {
    giop_message new = header(2, 0), old = header(0, 1);
    giop_reply reply = {77, 77, 77, 77};
    giop_fault fault = {77, 77};
    uint8_t octets[24];
    CHECK(giop_reply_head(&new, REPLY, sizeof REPLY, &reply, &fault) == GIOP_OK);
    CHECK(reply.body == 40 && reply.contexts == 1 && reply.id == 7 && reply.status == GIOP_NO_EXCEPTION);
    CHECK(giop_reply_head(&old, EARLY, sizeof EARLY, &reply, &fault) == GIOP_OK);
    CHECK(reply.body == 24 && reply.contexts == 0 && reply.id == 7 && reply.status == GIOP_LOCATION_FORWARD);
    CHECK(fault.at == 77 && fault.number == 77);
    /* a status of 6, at 16, is none of 1.2; one of 4, at 20, none of 1.0 */
    memcpy(octets, REPLY, sizeof octets);
    octets[7] = 6;
    CHECK(giop_reply_head(&new, octets, sizeof octets, &reply, &fault) == GIOP_FAULT);
    CHECK(fault.at == 16 && fault.number == GIOP_CDR_BAD_LABEL && reply.status == GIOP_LOCATION_FORWARD);
    memcpy(octets, EARLY, sizeof EARLY);
    octets[8] = 4;
    CHECK(giop_reply_head(&old, octets, sizeof EARLY, &reply, &fault) == GIOP_FAULT);
    CHECK(fault.at == 20 && fault.number == GIOP_CDR_BAD_LABEL);
    /* the count of the context's octets, at 28, is above the three that are left; the octets end within the id */
    CHECK(giop_reply_head(&new, REPLY, 23, &reply, &fault) == GIOP_FAULT);
    CHECK(fault.at == 28 && fault.number == GIOP_CDR_BAD_COUNT);
    CHECK(giop_reply_head(&new, REPLY, 3, &reply, &fault) == GIOP_FAULT);
    CHECK(fault.at == 12 && fault.number == GIOP_CDR_SHORT);
    CHECK(giop_reply_head(&new, NULL, 0, &reply, &fault) == GIOP_FAULT && fault.at == 12);
}

static void a_reference_has_profiles(void) {
    giop_end_fault fault = {77, 77, 77, 77};
    uint8_t octets[30];
    uint32_t tag = 77;
    size_t size = 77;
    memset(octets, 0xEE, sizeof octets);
    CHECK(giop_reference_profile(OCTETS(TEXT), strlen(TEXT), 1, &tag, octets, 30, &size, &fault) == GIOP_WAITS);
    CHECK(tag == 77 && size == 77);
    CHECK(giop_reference_profile(OCTETS(TEXT), strlen(TEXT), 0, &tag, octets, 23, &size, &fault) == GIOP_SMALL);
    CHECK(tag == 0 && size == 24 && octets[0] == 0xEE);
    CHECK(giop_reference_profile(OCTETS(TEXT), strlen(TEXT), 0, &tag, octets, 30, &size, &fault) == GIOP_OK);
    CHECK(memcmp(octets, PROFILE, 24) == 0 && octets[24] == 0xEE && fault.number == 77);
    CHECK(giop_reference_profile(OCTETS("ior"), 3, 0, &tag, octets, 30, &size, &fault) == GIOP_FAULT);
    CHECK(fault.at == 0 && fault.number == GIOP_END_TEXT && fault.part == 1 && fault.id == 0);
    CHECK(giop_reference_profile(OCTETS("IOR:0"), 5, 0, &tag, octets, 30, &size, &fault) == GIOP_FAULT);
    CHECK(fault.number == GIOP_END_TEXT && fault.part == 2);
    /* a byte order of 2, at 0 */
    CHECK(giop_reference_profile(OCTETS("IOR:02"), 6, 0, &tag, octets, 30, &size, &fault) == GIOP_FAULT);
    CHECK(fault.at == 0 && fault.number == GIOP_END_REFERENCE && fault.part == GIOP_CDR_BAD_ORDER);
    CHECK(size == 24 && tag == 0);
}

static void a_profile_has_a_host_and_a_key(void) {
    giop_profile profile = {77, 77, 77, 77, 77};
    giop_fault fault = {77, 77};
    uint8_t host[4], key[4], octets[24];
    memset(host, 0xEE, sizeof host);
    memset(key, 0xEE, sizeof key);
    CHECK(giop_iiop_profile(PROFILE, 24, &profile, host, 0, key, 4, &fault) == GIOP_SMALL && key[0] == 0xEE);
    CHECK(giop_iiop_profile(PROFILE, 24, &profile, host, 4, key, 4, &fault) == GIOP_OK);
    CHECK(profile.host == 1 && profile.key == 1 && profile.components == 0);
    CHECK(profile.port == 2809 && profile.minor == 2);
    CHECK(host[0] == 'h' && host[1] == 0xEE && key[0] == 'k' && key[1] == 0xEE && fault.number == 77);
    /* a major number of 2, at 1; no octets */
    memcpy(octets, PROFILE, sizeof octets);
    octets[1] = 2;
    CHECK(giop_iiop_profile(octets, 24, &profile, host, 4, key, 4, &fault) == GIOP_FAULT);
    CHECK(fault.at == 1 && fault.number == GIOP_CDR_BAD_LABEL);
    CHECK(giop_iiop_profile(NULL, 0, &profile, host, 4, key, 4, &fault) == GIOP_FAULT);
    CHECK(fault.at == 0 && fault.number == GIOP_CDR_SHORT && profile.port == 2809);
}

static void a_corbaloc_is_a_reference(void) {
    static const struct {
        const char *text;
        size_t at;
        uint32_t number;
    } refused[] = {
        {"IOR:00", 0, GIOP_CORBALOC_BAD_PREFIX},
        {"corbaloc:h", 9, GIOP_CORBALOC_BAD_PROTOCOL},
        {"corbaloc::", 10, GIOP_CORBALOC_BAD_HOST},
        {"corbaloc::h:70000/k", 12, GIOP_CORBALOC_BAD_PORT},
        {"corbaloc::2.0@h/k", 10, GIOP_CORBALOC_BAD_VERSION},
        {"corbaloc::h/%4", 12, GIOP_CORBALOC_BAD_ESCAPE},
        {"corbaloc::h/a b", 13, GIOP_CORBALOC_BAD_CHAR},
    };
    giop_fault fault = {77, 77};
    uint8_t text[128];
    size_t size = 77;
    CHECK(giop_corbaloc_reference(OCTETS(CORBALOC), strlen(CORBALOC), NULL, 0, &size, &fault) == GIOP_SMALL);
    CHECK(size == strlen(TEXT));
    CHECK(giop_corbaloc_reference(OCTETS(CORBALOC), strlen(CORBALOC), text, 128, &size, &fault) == GIOP_OK);
    CHECK(memcmp(text, TEXT, size) == 0 && fault.number == 77);
    for (size_t i = 0; i < sizeof refused / sizeof *refused; i++) {
        const char *given = refused[i].text;
        CHECK(giop_corbaloc_reference(OCTETS(given), strlen(given), text, 128, &size, &fault) == GIOP_FAULT);
        CHECK(fault.at == refused[i].at && fault.number == refused[i].number && size == strlen(TEXT));
    }
}

/* What omniNames of omniORB 4.2.5 printed, started with -ORBendPointPublish
 * giop:tcp:printer.example:2809,giop:tcp:printer2.example:2810. */
static const char PRINTED[] =
    "IOR:010000002b00000049444c3a6f6d672e6f72672f436f734e616d696e672f4e616d696e67436f6e746578744578743a312e3000000100000000"
    "0000009800000001010200100000007072696e7465722e6578616d706c6500f90a00000b0000004e616d6553657276696365000400000000000000"
    "080000000100000000545441010000001c00000001000000010001000100000001000105090101000100000009010100030000001c000000010000"
    "00110000007072696e746572322e6578616d706c650000fa0a035454410800000019c9096b0100733a";
static const char TYPE_ID[] = "IDL:omg.org/CosNaming/NamingContextExt:1.0";
/* A reference of the type id I, with PROFILE alone. */
static const char MADE[] = "IOR:000000000000000249000000" "000000010000000000000018"
                           "0001020000000002" "68000af9000000016b00000000000000";

/* The call answers OK and copies exactly these octets; it has no room in a buffer of one octet less. */
#define COPIES(call, wanted, wanted_size)                                                         \
    do {                                                                                          \
        uint8_t *buffer = copy;                                                                   \
        size_t room = (wanted_size), size = 77;                                                   \
        memset(copy, 0xEE, sizeof copy);                                                          \
        CHECK((call) == GIOP_OK && size == (wanted_size));                                        \
        CHECK(memcmp(copy, (wanted), (wanted_size)) == 0 && copy[(wanted_size)] == 0xEE);         \
        memset(copy, 0xEE, sizeof copy);                                                          \
        size = 77;                                                                                \
        room--;                                                                                   \
        CHECK((call) == GIOP_SMALL && size == (wanted_size) && copy[0] == 0xEE);                  \
    } while (0)

static uint8_t copy[1024];

static void a_profile_and_a_reference_are_made(void) {
    static const uint8_t early[20] = {0, 1, 0, 0, 0, 0, 0, 2, 'h', 0, 0xFF, 0xFF, 0, 0, 0, 4, 0, 1, 0xFE, 0xFF};
    uint8_t octets[64];
    size_t size = 77;
    COPIES(giop_iiop_octets(2, OCTETS("h"), 1, 2809, OCTETS("k"), 1, buffer, room, &size), PROFILE, 24);
    /* in 1.0 there is no room for components */
    COPIES(giop_iiop_octets(0, OCTETS("h"), 1, 65535, early + 16, 4, buffer, room, &size), early, 20);
    COPIES(giop_iiop_reference(OCTETS("I"), 1, 2, OCTETS("h"), 1, 2809, OCTETS("k"), 1, buffer, room, &size), MADE,
           strlen(MADE));
    COPIES(giop_iiop_reference(NULL, 0, 2, OCTETS("h"), 1, 2809, OCTETS("k"), 1, buffer, room, &size), TEXT,
           strlen(TEXT));
    /* a null in the host, or in the type id */
    CHECK(giop_iiop_octets(2, OCTETS("h"), 2, 2809, OCTETS("k"), 1, octets, 64, &size) == GIOP_FAULT && size == 77);
    CHECK(giop_iiop_reference(OCTETS("I"), 2, 2, OCTETS("h"), 1, 2809, OCTETS("k"), 1, octets, 64, &size) == GIOP_FAULT);
    CHECK(giop_iiop_reference(OCTETS("I"), 1, 2, OCTETS("h"), 2, 2809, OCTETS("k"), 1, octets, 64, &size) == GIOP_FAULT
          && size == 77);
    /* a null in the key is one octet of it; neither a host nor a key is asked for */
    CHECK(giop_iiop_octets(2, NULL, 0, 0, OCTETS("k"), 2, octets, 64, &size) == GIOP_OK && size == 24);
}

static void a_reference_has_a_type_id_and_octets(void) {
    static const uint8_t said[16] = {0, 0, 0, 0, 0, 0, 0, 1, 0, 0, 0, 0, 0, 0, 0, 0};
    static const char nil[] = "IOR:00000000000000010000000000000000";
    giop_end_fault fault = {77, 77, 77, 77};
    size_t size = 77;
    COPIES(giop_reference_type_id(OCTETS(PRINTED), strlen(PRINTED), buffer, room, &size, &fault), TYPE_ID,
           strlen(TYPE_ID));
    COPIES(giop_reference_octets(OCTETS(nil), strlen(nil), buffer, room, &size, &fault), said, 16);
    COPIES(giop_reference_text(said, 16, buffer, room, &size, &fault), nil, strlen(nil));
    CHECK(giop_reference_type_id(OCTETS(nil), strlen(nil), NULL, 0, &size, &fault) == GIOP_OK && size == 0);
    CHECK(fault.number == 77);
    /* no prefix; a byte order of 2, at 0; octets that end within the count of the type id, at 4 */
    size = 77;
    CHECK(giop_reference_type_id(OCTETS("ior"), 3, copy, 64, &size, &fault) == GIOP_FAULT);
    CHECK(fault.number == GIOP_END_TEXT && fault.part == 1);
    CHECK(giop_reference_octets(OCTETS("IOR:02"), 6, copy, 64, &size, &fault) == GIOP_FAULT);
    CHECK(fault.at == 0 && fault.number == GIOP_END_REFERENCE && fault.part == GIOP_CDR_BAD_ORDER);
    CHECK(giop_reference_text(said, 6, copy, 64, &size, &fault) == GIOP_FAULT);
    CHECK(fault.at == 4 && fault.number == GIOP_END_REFERENCE && fault.part == GIOP_CDR_SHORT && size == 77);
}

static void a_reference_is_said_as_a_corbaloc(void) {
    static const char said[] = "corbaloc:iiop:1.2@printer.example:2809/NameService";
    /* two profiles of k, 1.0 at h:1 and 1.2 at g:2, with one of tag 7 between them */
    static const char two[] = "IOR:000000000000000100000000" "00000003"
                              "0000000000000011" "0001000000000002" "680000010000000" "16b000000"
                              "0000000700000002" "cafe0000"
                              "0000000000000018" "0001020000000002" "6700000200000001" "6b00000000000000";
    static const char addresses[] = "corbaloc:iiop:1.0@h:1,iiop:1.2@g:2/k";
    /* no corbaloc says it: the nil reference; a host that is empty; a second key, l in place of k */
    static const char nil[] = "IOR:00000000000000010000000000000000";
    static const char bare[] = "IOR:000000000000000100000000" "00000001"
                               "0000000000000011" "0001000000000001" "0000000100000001" "6b";
    char keys[sizeof two];
    giop_end_fault fault = {77, 77, 77, 77};
    giop_fault wrong = {77, 77};
    size_t size = 77;
    COPIES(giop_reference_corbaloc(OCTETS(PRINTED), strlen(PRINTED), buffer, room, &size, &fault), said, strlen(said));
    COPIES(giop_reference_corbaloc(OCTETS(two), strlen(two), buffer, room, &size, &fault), addresses,
           strlen(addresses));
    COPIES(giop_corbaloc_reference(OCTETS("corbaloc:iiop:1.2@h:2809/k"), 26, buffer, room, &size, &wrong), TEXT,
           strlen(TEXT));
    COPIES(giop_reference_corbaloc(OCTETS(TEXT), strlen(TEXT), buffer, room, &size, &fault), "corbaloc:iiop:1.2@h:2809/k",
           26);
    memcpy(keys, two, sizeof two);
    keys[strlen(two) - 15] = 'c';
    CHECK(giop_reference_corbaloc(OCTETS(keys), strlen(keys), copy, 99, &size, &fault) == GIOP_WAITS);
    CHECK(giop_reference_corbaloc(OCTETS(nil), strlen(nil), copy, 99, &size, &fault) == GIOP_WAITS);
    CHECK(giop_reference_corbaloc(OCTETS(bare), strlen(bare), copy, 99, &size, &fault) == GIOP_WAITS && size == 77);
    CHECK(fault.number == 77);
    CHECK(giop_reference_corbaloc(OCTETS("corbaloc::h"), 11, copy, 99, &size, &fault) == GIOP_FAULT);
    CHECK(fault.number == GIOP_END_TEXT && fault.part == 1 && size == 77);
}

/* Each allocation is refused in turn: the call says so, and nothing is left behind. */
static void refused_memory_writes_nothing(void) {
    long before = blocks;
    for (long grant = 0; grant < 24; grant++) {
        giop_end_fault wrong = {77, 77, 77, 77};
        giop_fault fault = {77, 77};
        giop_profile profile = {77, 77, 77, 77, 77};
        uint8_t octets[128], host[4], key[4];
        uint32_t tag = 77, status;
        size_t size = 77;
        left = grant;
        status = giop_reference_profile(OCTETS(TEXT), strlen(TEXT), 0, &tag, octets, 128, &size, &wrong);
        CHECK(status == GIOP_OK ? size == 24 : status == GIOP_NO_MEMORY && size == 77 && tag == 77
              && wrong.number == GIOP_END_NO_MEMORY);
        left = grant;
        status = giop_iiop_profile(PROFILE, 24, &profile, host, 4, key, 4, &fault);
        CHECK(status == GIOP_OK ? profile.port == 2809 : status == GIOP_NO_MEMORY && profile.port == 77);
        left = grant;
        size = 77;
        status = giop_corbaloc_reference(OCTETS(CORBALOC), strlen(CORBALOC), octets, 128, &size, &fault);
        CHECK(status == GIOP_OK ? size == strlen(TEXT) : status == GIOP_NO_MEMORY && size == 77);
        left = grant;
        size = 77;
        status = giop_iiop_octets(2, OCTETS("h"), 1, 2809, OCTETS("k"), 1, octets, 128, &size);
        CHECK(status == GIOP_OK ? size == 24 : status == GIOP_NO_MEMORY && size == 77);
        /* a refusal asks for no memory */
        left = 0;
        CHECK(giop_iiop_octets(2, OCTETS("h"), 2, 2809, OCTETS("k"), 1, octets, 128, &size) == GIOP_FAULT);
        left = grant;
        size = 77;
        status = giop_iiop_reference(OCTETS("I"), 1, 2, OCTETS("h"), 1, 2809, OCTETS("k"), 1, octets, 128, &size);
        CHECK(status == GIOP_OK ? size == strlen(MADE) : status == GIOP_NO_MEMORY && size == 77);
        left = grant;
        size = 77;
        status = giop_reference_type_id(OCTETS(MADE), strlen(MADE), octets, 128, &size, &wrong);
        CHECK(status == GIOP_OK ? size == 1 : status == GIOP_NO_MEMORY && size == 77);
        left = grant;
        size = 77;
        status = giop_reference_octets(OCTETS(MADE), strlen(MADE), octets, 128, &size, &wrong);
        CHECK(status == GIOP_OK ? size == 48 : status == GIOP_NO_MEMORY && size == 77);
        left = grant;
        size = 77;
        status = giop_reference_text(PROFILE, 0, octets, 128, &size, &wrong);
        CHECK((status == GIOP_FAULT && wrong.number == GIOP_END_REFERENCE)
              || (status == GIOP_NO_MEMORY && wrong.number == GIOP_END_NO_MEMORY));
        left = grant;
        status = giop_reference_corbaloc(OCTETS(MADE), strlen(MADE), octets, 128, &size, &wrong);
        CHECK(status == GIOP_OK ? size == 26 : status == GIOP_NO_MEMORY && size == 77);
        left = -1;
    }
    CHECK(blocks == before);
}

int main(void) {
    the_head_of_a_reply();
    a_reference_has_profiles();
    a_profile_has_a_host_and_a_key();
    a_corbaloc_is_a_reference();
    a_profile_and_a_reference_are_made();
    a_reference_has_a_type_id_and_octets();
    a_reference_is_said_as_a_corbaloc();
    refused_memory_writes_nothing();
    printf("%d passed, %d failed\n", passed, failed);
    return failed != 0;
}
