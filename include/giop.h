/* libgiop: a stream of octets, split into GIOP messages (1.0, 1.1 and 1.2; CORBA 3.3 Part 2, 9.4), both ends of
 * a connection: a server's and a client's; and values, as CDR or as JSON.
 *
 * The library opens no socket, starts no thread, prints nothing and keeps no global state. What each
 * function does is proved over what its handle holds; docs/c.md says what that leaves to the caller.
 *
 * Handles. A handle is a struct that you declare and pass by its address. Begin with {0}, as
 * GIOP_FRAMER_CLOSED is, or with all octets zero: such a handle holds nothing, and each call answers
 * GIOP_CLOSED. The library owns what a handle points to. Don't copy a handle, don't write to it, and don't
 * pass NULL for one; two calls at one handle must not overlap. A handle may go to another thread, where a lock,
 * the start or the end of a thread, or a sequentially consistent atomic stands between its calls.
 *
 * Statuses. Each function says below which of these it answers, and it answers no other.
 */
#ifndef GIOP_H
#define GIOP_H

#include <stddef.h>
#include <stdint.h>

#ifdef __cplusplus
extern "C" {
#endif

#define GIOP_OK 0u        /* the call did what it is for */
#define GIOP_CLOSED 1u    /* the handle holds nothing; nothing has changed */
#define GIOP_NO_MEMORY 2u /* memory ran out; the call can be made again */
#define GIOP_WAITS 3u     /* no whole message is there yet, or none was taken */
#define GIOP_FAULT 4u     /* the octets are refused: see the giop_fault */
#define GIOP_SMALL 5u     /* the buffer is too small; nothing was copied */

/* What is wrong with a header, in the order in which headers are judged: the number of a giop_fault. */
#define GIOP_BAD_MAGIC 1u        /* the first four octets aren't GIOP */
#define GIOP_BAD_VERSION 2u      /* the version is none of 1.0, 1.1 and 1.2 */
#define GIOP_RESERVED_FLAGS 3u   /* one of the six upper flags is set; in 1.0 the byte order is above 1 */
#define GIOP_BAD_KIND 4u         /* the message type is above 7, or 7 before 1.2 */
#define GIOP_TOO_LARGE 5u        /* the message size is above the limit */
#define GIOP_BAD_SIZE 6u         /* the message size isn't one of the message type */
#define GIOP_FRAGMENT_SIZE 7u    /* more fragments follow, and the message is no multiple of 8 octets */
#define GIOP_NOT_FRAGMENTABLE 8u /* more fragments follow a message that none may continue */
#define GIOP_MEMORY_RAN_OUT 9u   /* memory ran out; it says nothing of the octets */

/* The message types (9.4.1): the kind of a giop_message. */
#define GIOP_REQUEST 0
#define GIOP_REPLY 1
#define GIOP_CANCEL_REQUEST 2
#define GIOP_LOCATE_REQUEST 3
#define GIOP_LOCATE_REPLY 4
#define GIOP_CLOSE_CONNECTION 5
#define GIOP_MESSAGE_ERROR 6
#define GIOP_FRAGMENT 7

/* What the header of a message says, and its request id. */
typedef struct giop_message {
    uint8_t minor;         /* the minor number of the version: 0, 1 or 2 */
    uint8_t little_endian; /* 1 where the message is little endian, else 0 */
    uint8_t more;          /* 1 where more fragments follow, else 0 */
    uint8_t kind;          /* the message type, 0 to 7 */
    uint32_t size;         /* the number of octets after the header */
    uint32_t id;           /* the request id; 0 where has_id is 0 */
    uint8_t has_id;        /* 1 where the message has a request id (9.4.2 to 9.4.9), else 0: a CloseConnection and a
                            * MessageError have none, and before 1.2 that of a Request or of a Reply stands behind
                            * its service contexts, which can be wrong */
} giop_message;

/* Why octets are refused, and where. */
typedef struct giop_fault {
    size_t at;       /* the offset of what is wrong, from the first octet of the message's header */
    uint32_t number; /* what is wrong, GIOP_BAD_MAGIC to GIOP_MEMORY_RAN_OUT */
} giop_fault;

/* What is wrong with a head or a profile: the number of a giop_fault that giop_request_head, giop_reply_head or
 * giop_iiop_profile writes. */
#define GIOP_CDR_SHORT 1u        /* the octets end before the field does */
#define GIOP_CDR_BAD_BOOLEAN 2u  /* a boolean is neither 0 nor 1 */
#define GIOP_CDR_BAD_STRING 3u   /* a string has no null at its end, or one within */
#define GIOP_CDR_BAD_COUNT 4u    /* a count is above what the octets can hold */
#define GIOP_CDR_BAD_LABEL 5u    /* the response flags, the addressing disposition, a reply status or the major
                                  * number of a profile is none of its values */
#define GIOP_CDR_BAD_ORDER 6u    /* a byte order is neither 0 nor 1 */
#define GIOP_CDR_BOUND_PASSED 7u /* a string or a sequence is longer than its bound */
#define GIOP_CDR_TRAILING 8u     /* octets stand behind the end */

/* What the head of a Request says (9.4.2). */
typedef struct giop_request {
    size_t body;      /* where the body stands, from the first octet of the message's header */
    size_t operation; /* the number of octets of the operation's name, without its null */
    size_t key;       /* the number of octets of the object's key; 0 where the target is no key */
    uint32_t id;      /* the request id */
    uint8_t flags;    /* the response flags: 0 for no reply, 1 for one without a body, 3 for a reply */
    uint8_t target;   /* the addressing disposition: 0 a key, 1 a profile, 2 a reference */
} giop_request;

/* What the head of a Reply says (9.4.3). */
typedef struct giop_reply {
    size_t body;     /* where the body stands, from the first octet of the message's header */
    size_t contexts; /* how many service contexts it has */
    uint32_t id;     /* the id of the request that is answered */
    uint32_t status; /* the reply status, GIOP_NO_EXCEPTION to GIOP_NEEDS_ADDRESSING_MODE */
} giop_reply;

/* A framer: it takes the octets of a stream in pieces of any size, and gives its messages. */
typedef struct giop_framer {
    void *at;
} giop_framer;

/* A handle that holds nothing: giop_framer framer = GIOP_FRAMER_CLOSED; */
#define GIOP_FRAMER_CLOSED {0}

/* Opens a handle, for messages whose size, which doesn't count the header, is at most the limit. What the
 * handle held before is freed. Answers GIOP_OK, or GIOP_NO_MEMORY: the handle is as it was. */
uint32_t giop_framer_new(giop_framer *framer, uint32_t limit);

/* Appends octets to those that are unread, and judges none of them. The octets are copied; they are the
 * caller's again when the call returns. octets may be NULL where size is 0. Answers GIOP_OK;
 * GIOP_NO_MEMORY: nothing has changed; or GIOP_CLOSED. */
uint32_t giop_framer_feed(giop_framer *framer, const uint8_t *octets, size_t size);

/* Takes the first message of the unread octets. The message that was taken before is gone. Answers
 *   GIOP_OK: its header and its request id are in *message, and its payload at hand for giop_framer_payload;
 *   GIOP_WAITS: neither a whole message nor a fault stands there; feed more;
 *   GIOP_FAULT: no message begins there, and *fault says why. It stays so: the stream can't be read on;
 *   GIOP_NO_MEMORY: a whole message stands there still, and *fault is 9 at 0;
 *   GIOP_CLOSED.
 * *message is written with GIOP_OK alone, *fault with GIOP_FAULT and GIOP_NO_MEMORY alone. */
uint32_t giop_framer_next(giop_framer *framer, giop_message *message, giop_fault *fault);

/* Copies the payload of the message that was taken last, which is the octets after its header, to the
 * front of the buffer, and writes its size to *size. The message stays at hand. Answers GIOP_OK;
 * GIOP_SMALL: the buffer has fewer octets than *size, and nothing was copied; GIOP_WAITS: no message was
 * taken, and *size is as it was; or GIOP_CLOSED. buffer may be NULL where room is 0. */
uint32_t giop_framer_payload(giop_framer *framer, uint8_t *buffer, size_t room, size_t *size);

/* Writes how many octets are unread to *rest. Answers GIOP_OK or GIOP_CLOSED. */
uint32_t giop_framer_rest(giop_framer *framer, size_t *rest);

/* Reads the header at the front of octets, which is the first twelve, and the request id behind it. limit is the
 * greatest message size that is accepted, which doesn't count the header; of at most 2^62 octets those beyond the
 * message aren't looked at. It takes no handle and no memory. Answers
 *   GIOP_OK: *message is written, as giop_framer_next writes it where the whole message is there; where some of it
 *     is wanting, has_id is 0 until the octets up to the id are there;
 *   GIOP_WAITS: fewer than twelve octets are there;
 *   GIOP_FAULT: they are no header, and *fault says why.
 * Each is written with its own status alone. octets may be NULL where size is 0. */
uint32_t giop_header(const uint8_t *octets, size_t size, uint32_t limit, giop_message *message, giop_fault *fault);

/* Reads the head of a Request out of its payload, and copies the operation's name, without a null, and the
 * object's key to the fronts of two buffers. message is the header that giop_framer_next wrote, whose kind
 * is GIOP_REQUEST and whose more is 0; payload is its payload, of at most 2^62 octets. It takes no handle
 * and no memory. Answers
 *   GIOP_OK: *request is written, and both are copied;
 *   GIOP_SMALL: *request is written, one of the buffers has fewer octets than it says, and neither is
 *     changed;
 *   GIOP_FAULT: the head is refused, and *fault says why and where, by the GIOP_CDR_ numbers.
 * *fault is written with GIOP_FAULT alone. No two of the arguments overlap. */
uint32_t giop_request_head(const giop_message *message, const uint8_t *payload, size_t size,
                           giop_request *request, uint8_t *operation, size_t operation_room,
                           uint8_t *key, size_t key_room, giop_fault *fault);

/* Reads the head of a Reply out of its payload. message is the header that giop_framer_next wrote, whose kind
 * is GIOP_REPLY and whose more is 0; payload is its payload, of at most 2^62 octets. It takes no handle and no
 * memory. Answers GIOP_OK: *reply is written; or GIOP_FAULT: the head is refused, and *fault says why and where,
 * by the GIOP_CDR_ numbers: a status that the version hasn't is GIOP_CDR_BAD_LABEL. Each is written with its
 * own status alone. payload may be NULL where size is 0. */
uint32_t giop_reply_head(const giop_message *message, const uint8_t *payload, size_t size,
                         giop_reply *reply, giop_fault *fault);

/* Frees what the handle holds, which holds nothing then. A second call does nothing. */
void giop_framer_free(giop_framer *framer);

/* ---- interfaces ----
 *
 * An interface says what the operations of an object take and give. It is made of JSON (docs/FORMATS.md), in
 * which types may have names.
 */
typedef struct giop_interface {
    void *at;
} giop_interface;

/* Why a text of JSON is refused. */
typedef struct giop_text_fault {
    uint32_t number;      /* what is wrong, one of GIOP_TEXT_ */
    uint32_t description; /* with GIOP_TEXT_BAD_DESCRIPTION what is wrong with one: 1 it is empty, 2 a name
                           * or a label is doubled, 3 a discriminant is bad, 4 it is nested too deep; else 0 */
} giop_text_fault;

#define GIOP_TEXT_BAD_JSON 1u        /* it is no JSON, or nests more than 127 deep */
#define GIOP_TEXT_BAD_SHAPE 2u       /* it has another form than the one that is asked for */
#define GIOP_TEXT_BAD_DESCRIPTION 3u /* a description describes no type of IDL */
#define GIOP_TEXT_UNFIT 4u           /* a value isn't of its description, or there are too many or too few; or what
                                      * the names of an interface's types stand for is more than 1,000,000 */

/* Opens a handle: the interface that a text of JSON says. What the handle held is let go. Answers GIOP_OK;
 * GIOP_FAULT: the text is refused, and *fault says why; or GIOP_NO_MEMORY. With both the handle is as it
 * was. *fault is written with GIOP_FAULT alone. json may be NULL where size is 0. */
uint32_t giop_interface_new(giop_interface *interface, const uint8_t *json, size_t size,
                            giop_text_fault *fault);

/* Lets go what the handle holds, which holds nothing then. A second call does nothing. */
void giop_interface_free(giop_interface *interface);

/* ---- faults ---- */

/* Why an end fails, or refuses a call of its program; or why values aren't read. */
typedef struct giop_end_fault {
    size_t at;       /* with WIRE, NO_ID, VALUES and REFERENCE the place of what is wrong; else 0. It counts
                      * from the first octet of the message's header, of the values, or of those that the text
                      * of a reference says, which is their byte order */
    uint32_t number; /* one of GIOP_END_ */
    uint32_t part;   /* with WIRE what is wrong with the header, with NO_ID, VALUES and REFERENCE one of
                      * GIOP_CDR_, with CALL one of GIOP_CALL_, with JSON one of GIOP_TEXT_, with TEXT 1 where it
                      * doesn't begin with IOR:, 2 where no even number of hexadecimal digits follows; else 0 */
    uint32_t id;     /* with CALL the request id; else 0 */
} giop_end_fault;

#define GIOP_END_WIRE 1u            /* the octets are no message */
#define GIOP_END_CALL 2u            /* what happens to the call of the id, or is to be done to it, is refused */
#define GIOP_END_WRONG_DIRECTION 3u /* the message is one that only the other end sends */
#define GIOP_END_TOO_MANY_CALLS 4u  /* the table holds as many entries as it may */
#define GIOP_END_GATHER_FULL 5u     /* all gathered octets together would be more than the limit */
#define GIOP_END_PEER_ERROR 6u      /* the peer sent a MessageError */
#define GIOP_END_CLOSED 7u          /* the connection was closed, by the peer or by this end */
#define GIOP_END_NO_MEMORY 8u       /* memory ran out: the status is GIOP_NO_MEMORY */
#define GIOP_END_STILL_OPEN 9u      /* the entry can't be taken out, since its call isn't over */
#define GIOP_END_NO_ID 10u          /* a message before 1.2 has no request id: a field of it has a fault */
#define GIOP_END_VALUES 11u         /* the octets are no such values */
#define GIOP_END_FORM 12u           /* messages can't be cut into pieces of this size */
#define GIOP_END_TEXT 13u           /* the text of a reference isn't IOR: and hexadecimal digits */
#define GIOP_END_REFERENCE 14u      /* the octets that it says are no reference */
#define GIOP_END_JSON 15u           /* the text of JSON isn't the values */

#define GIOP_CALL_ID_IN_USE 1u          /* a call begins with an id whose former call isn't over */
#define GIOP_CALL_STRAY 2u              /* a Fragment comes with an id for which nothing is gathered */
#define GIOP_CALL_ORDER_DIFFERS 3u      /* a Fragment has another byte order than what it continues */
#define GIOP_CALL_UNKNOWN_REPLY 4u      /* a reply comes with an id that waits for none */
#define GIOP_CALL_WRONG_KIND 5u         /* a Request is answered as a LocateRequest, or the other way round */
#define GIOP_CALL_NOT_OPEN 6u           /* the call that is to be answered isn't open */
#define GIOP_CALL_UNFIT 7u              /* what is to be sent has no place in a message, or doesn't answer */
#define GIOP_CALL_UNKNOWN_OPERATION 8u  /* the interface has no such operation */
#define GIOP_CALL_NOTHING_TO_SEND 9u    /* no piece of a message is left to be sent */

/* ---- references ----
 *
 * How an object is reached (7.6). These calls take no handle. A text has no null at its end; each buffer may be
 * NULL where its room is 0, and so may what is read where its size is 0. No two of the arguments overlap.
 */

/* How an object is reached over IIOP (9.7.2), but for the octets of its host and its key. */
typedef struct giop_profile {
    size_t host;       /* the number of octets of the host's name or address */
    size_t key;        /* the number of octets of the object's key */
    size_t components; /* how many components it has */
    uint16_t port;     /* the TCP port */
    uint8_t minor;     /* the minor number of the version of IIOP; the major number is 1 */
} giop_profile;

/* Copies the type id (7.6.2) of a reference, without a null, and writes its size; it may be empty. The reference is
 * given as its text. Answers GIOP_OK; GIOP_SMALL: the buffer has fewer octets than *octets, and none was copied;
 * GIOP_FAULT or GIOP_NO_MEMORY, and writes *fault, as giop_reference_profile. */
uint32_t giop_reference_type_id(const uint8_t *text, size_t size, uint8_t *buffer, size_t room, size_t *octets,
                                giop_end_fault *fault);

/* Copies the octets that the text of a reference says: those of its hexadecimal digits, of which the first is the
 * byte order. Writes how many they are. Answers as giop_reference_type_id. */
uint32_t giop_reference_octets(const uint8_t *text, size_t size, uint8_t *buffer, size_t room, size_t *octets,
                               giop_end_fault *fault);

/* Copies the text that says the octets of a reference, which are given from the byte order on: IOR: and lower-case
 * hexadecimal digits. Writes its size to *text_size. Answers as giop_reference_type_id; GIOP_FAULT: the octets are no
 * reference, as REFERENCE. */
uint32_t giop_reference_text(const uint8_t *octets, size_t size, uint8_t *buffer, size_t room, size_t *text_size,
                             giop_end_fault *fault);

/* Copies the octets of the profile at an index of a reference, the first at 0, and writes its tag, which is 0
 * for IIOP, and their number. The reference is given as its text (7.6.9): IOR: and hexadecimal digits. Answers
 *   GIOP_OK;
 *   GIOP_SMALL: the buffer has fewer octets than *octets, and none was copied;
 *   GIOP_WAITS: the reference has no such profile, and nothing is written;
 *   GIOP_FAULT: the text is refused, and *fault says why, as TEXT or REFERENCE;
 *   GIOP_NO_MEMORY: *fault has the number 8.
 * *fault is written with the last two alone, and nothing else then. The octets of a profile of tag 0 are what
 * giop_iiop_profile reads, and what giop_client_call takes as the data of an IIOP profile. */
uint32_t giop_reference_profile(const uint8_t *text, size_t size, size_t index, uint32_t *tag,
                                uint8_t *buffer, size_t room, size_t *octets, giop_end_fault *fault);

/* Reads the octets of an IIOP profile, of at most 2^62, and copies its host and its key to the fronts of two
 * buffers. Answers
 *   GIOP_OK: *profile is written, and both are copied;
 *   GIOP_SMALL: *profile is written, one of the buffers has fewer octets than it says, and neither is changed;
 *   GIOP_FAULT: they are refused, and *fault says why, by the GIOP_CDR_ numbers, and where, from the first of
 *     them on;
 *   GIOP_NO_MEMORY: they are a profile, and nothing is written.
 * *fault is written with GIOP_FAULT alone. */
uint32_t giop_iiop_profile(const uint8_t *octets, size_t size, giop_profile *profile,
                           uint8_t *host, size_t host_room, uint8_t *key, size_t key_room, giop_fault *fault);

/* Copies the octets of an IIOP profile (9.7.2): of version 1 and this minor number, 2 for most, by which an object is
 * reached at this host, at this TCP port, under this key; without components, in big endian. Writes how many they are.
 * Answers
 *   GIOP_OK: they are copied, and giop_iiop_profile reads these parts of them;
 *   GIOP_SMALL: the buffer has fewer octets than *octets, and none was copied;
 *   GIOP_FAULT: the host has a null or 2^32 - 1 octets or more, or the key has 2^32 or more; nothing is written;
 *   GIOP_NO_MEMORY: nothing is written. */
uint32_t giop_iiop_octets(uint8_t minor, const uint8_t *host, size_t host_size, uint16_t port,
                          const uint8_t *key, size_t key_size, uint8_t *buffer, size_t room, size_t *octets);

/* Copies the text (7.6.9) of a reference: of this type id, such as IDL:Calculator:1.0 or none, and with one profile,
 * which is that of giop_iiop_octets. Writes the text's size. Answers
 *   GIOP_OK: it is copied; giop_reference_type_id reads the type id of it, and giop_reference_profile the profile;
 *   GIOP_SMALL: the buffer has fewer octets than *octets, and none was copied;
 *   GIOP_FAULT: the type id or the host has a null or 2^32 - 1 octets or more, or the key or the profile has 2^32 or
 *     more; nothing is written;
 *   GIOP_NO_MEMORY: nothing is written. */
uint32_t giop_iiop_reference(const uint8_t *type_id, size_t type_id_size, uint8_t minor,
                             const uint8_t *host, size_t host_size, uint16_t port,
                             const uint8_t *key, size_t key_size, uint8_t *buffer, size_t room, size_t *octets);

/* What is wrong with a corbaloc: the number of a giop_fault that giop_corbaloc_reference writes. Its place is
 * counted from the first octet of the text. */
#define GIOP_CORBALOC_BAD_PREFIX 1u   /* the text doesn't begin with corbaloc: */
#define GIOP_CORBALOC_BAD_PROTOCOL 2u /* an address begins neither with : nor with iiop: */
#define GIOP_CORBALOC_BAD_HOST 3u     /* a host has no octet, or one that is no letter, digit, -, _ or . */
#define GIOP_CORBALOC_BAD_PORT 4u     /* a port isn't 1 to 5 digits, or is above 65535 */
#define GIOP_CORBALOC_BAD_VERSION 5u  /* a version isn't two numbers of 1 to 3 digits with a . between them, or
                                       * its major number isn't 1, or its minor number is above 255 */
#define GIOP_CORBALOC_BAD_ESCAPE 6u   /* a % in the key without two hexadecimal digits behind it */
#define GIOP_CORBALOC_BAD_CHAR 7u     /* an octet of the key that has to be escaped */
#define GIOP_CORBALOC_MEMORY 8u       /* memory ran out */
#define GIOP_CORBALOC_TOO_LONG 9u     /* it is a corbaloc that is too long for a profile or for a reference */

/* Copies the reference of a corbaloc (7.6.10.1) as a text of IOR: and hexadecimal digits: no type id, and an
 * IIOP profile for each address. Writes the text's size. Answers
 *   GIOP_OK;
 *   GIOP_SMALL: the buffer has fewer octets than *octets, and none was copied;
 *   GIOP_FAULT: the text is refused, and *fault says why and where, by the GIOP_CORBALOC_ numbers;
 *   GIOP_NO_MEMORY.
 * With the last two nothing else is written; *fault is written with GIOP_FAULT, and may be with GIOP_NO_MEMORY. */
uint32_t giop_corbaloc_reference(const uint8_t *text, size_t size, uint8_t *buffer, size_t room, size_t *octets,
                                 giop_fault *fault);

/* Copies the corbaloc (7.6.10.1) that says where the object of a reference is: an address in full for each IIOP profile
 * that can be read, in their order, and their key. The reference is given as its text; its type id, its components and
 * its other profiles aren't said. Writes the text's size. Answers
 *   GIOP_OK;
 *   GIOP_SMALL: the buffer has fewer octets than *octets, and none was copied;
 *   GIOP_WAITS: no corbaloc says it, and nothing is written: there is no such profile, or two have different keys, or
 *     a host is empty or has an octet that is no letter, digit, -, _ or .;
 *   GIOP_FAULT: the text is refused, and *fault says why, as TEXT or REFERENCE;
 *   GIOP_NO_MEMORY.
 * With the last two nothing else is written; *fault is written with GIOP_FAULT, and may be with GIOP_NO_MEMORY. */
uint32_t giop_reference_corbaloc(const uint8_t *text, size_t size, uint8_t *buffer, size_t room, size_t *octets,
                                 giop_end_fault *fault);

/* ---- values ----
 *
 * Values cross as octets in a form that you say: wherever a parameter is called values, it is one of these.
 */
#define GIOP_BIG_ENDIAN 0u    /* CDR in big endian */
#define GIOP_LITTLE_ENDIAN 1u /* CDR in little endian, as is every number but 0 and 2 */
#define GIOP_JSON 2u          /* a text of JSON, a list of the values (docs/FORMATS.md); where the library writes
                               * it, it has no blanks and no null */
/* CDR octets stand by themselves: the values one after another, each aligned as if the first octet had the
 * offset 0. */

/* Which values of an interface. */
#define GIOP_INS 0u     /* the in and inout parameters of the operation of a name */
#define GIOP_OUTS 1u    /* its result, and then its inout and out parameters */
#define GIOP_MEMBERS 2u /* the members of the exception of a repository id, as is every number above */

/* Copies values in another form than the one in which they are given: which of the interface they are, and the
 * name or the id without a null. Writes how many octets they are then. Answers
 *   GIOP_OK;
 *   GIOP_SMALL: the buffer has fewer octets than *size, and nothing was copied;
 *   GIOP_WAITS: the interface has no such operation or exception, and nothing is written;
 *   GIOP_FAULT: what is given is refused, and *fault says why, as VALUES or JSON;
 *   GIOP_NO_MEMORY;
 *   GIOP_CLOSED: the interface's handle holds nothing.
 * With the last three but for *fault nothing is written; *fault is written with GIOP_FAULT, and may be with
 * GIOP_NO_MEMORY. What is given is at most 2^62 octets. name, given and buffer may each be NULL where its size
 * is 0. */
uint32_t giop_interface_convert(giop_interface *interface, uint32_t which, const uint8_t *name, size_t name_size,
                                uint32_t given_values, const uint8_t *given, size_t given_size,
                                uint32_t wanted_values, uint8_t *buffer, size_t room, size_t *size,
                                giop_end_fault *fault);

/* ---- the end of a connection that answers calls ----
 *
 * An end is fed what was read of its client, in pieces of any size, and keeps a table: for each request id
 * what is stored of its call. Your program looks at the table, answers, writes what is outgoing, and takes
 * out the calls that are over. docs/PROFILE.md has what each message does to a call ("Calls").
 */
typedef struct giop_server {
    void *at;
} giop_server;

/* What an end may hold at most. A limit is met where the next message would pass it. */
typedef struct giop_limits {
    uint64_t gathered; /* the octets of all messages of which a piece is still to come: at most 2^62 */
    uint32_t calls;    /* entries in the table, those of calls that are over and not taken out included */
    uint32_t message;  /* the size of a message in octets, without its header */
} giop_limits;

#define GIOP_LIMITS {8388608u, 1024u, 1048576u}

/* How a message is sent. */
typedef struct giop_form {
    uint32_t piece;         /* how many octets a piece has at most, its header counted: a multiple of 8, and
                             * 24 at least; a message before 1.2 is one piece, whatever its size */
    uint32_t little_endian; /* the byte order of the message */
} giop_form;

#define GIOP_FORM {4096u, 0u}

/* What is stored for the id of a call at a server: the kind of a giop_server_entry. */
#define GIOP_NOTHING 0        /* nothing */
#define GIOP_GATHERING 1      /* a first piece of it came, its last didn't */
#define GIOP_ASKED 2          /* a Request that expects a reply came whole, and isn't answered */
#define GIOP_UNDECODED 3      /* a Request or a LocateRequest came whole that can't be decoded */
#define GIOP_LOCATE_ASKED 4   /* a LocateRequest came whole, and isn't answered */
#define GIOP_ANSWERED 5       /* a Request was answered */
#define GIOP_LOCATE_ANSWERED 6 /* a LocateRequest was answered */
#define GIOP_DELIVERED 7      /* a Request without a reply came whole */
#define GIOP_CANCELLED 8      /* a CancelRequest came for it */

/* What a call came to: the outcome of a giop_server_entry. */
#define GIOP_PENDING 0        /* it isn't over */
#define GIOP_WAS_CANCELLED 1  /* it was cancelled */
#define GIOP_ONE_WAY 2        /* it was a Request that expects no reply */
#define GIOP_REPLIED 3        /* it was a Request, and all of its reply was put out */
#define GIOP_LOCATED 4        /* it was a LocateRequest, and was answered */
#define GIOP_NOT_DECODED 5    /* it can't be decoded, and expects no reply */

/* In which part of a call a fault is that can't be decoded: the part of a giop_server_entry. */
#define GIOP_IN_HEAD 1      /* a field of the head is refused */
#define GIOP_IN_OPERATION 2 /* the interface has no such operation */
#define GIOP_IN_BODY 3      /* a value of the body is refused, or octets are left behind it */

typedef struct giop_server_entry {
    size_t operation; /* the number of octets of the operation's name, without its null; 0 where no Request
                       * is known */
    size_t key;       /* the number of octets of the object's key; 0 where the target is no key */
    size_t contexts;  /* how many service contexts the Request has; 0 where none is known */
    size_t at;        /* of a call that can't be decoded the place of what is wrong in its head or its body, from
                       * the first octet of the message's header; else 0 */
    uint32_t number;  /* what is wrong there, one of GIOP_CDR_; else 0 */
    uint32_t left;    /* how many pieces of the reply aren't sent yet: giop_server_send puts out one */
    uint32_t status;  /* the reply status of an answered Request (9.4.3), or the locate status; else 0 */
    uint8_t part;     /* of a call that can't be decoded one of GIOP_IN_; else 0 */
    uint8_t kind;     /* GIOP_NOTHING to GIOP_CANCELLED */
    uint8_t awaits;   /* what the call waits for: 1 a Reply, 2 a LocateReply, 0 nothing */
    uint8_t over;     /* 1 where the call is over, and may be taken out */
    uint8_t outcome;  /* GIOP_PENDING to GIOP_NOT_DECODED */
    uint8_t flags;    /* the response flags of the Request, as in giop_request; 0 where none is known */
} giop_server_entry;

/* Opens a handle: a server's end without calls, by the interface that another handle holds, within limits.
 * The end keeps a share of the interface, whose handle may be freed before it. What the handle held before
 * is freed. Answers GIOP_OK; GIOP_FAULT: the limit gathered is above 2^62; GIOP_NO_MEMORY; or GIOP_CLOSED:
 * the interface's handle holds nothing. With all but GIOP_OK the handle is as it was. */
uint32_t giop_server_new(giop_server *server, giop_interface *interface, const giop_limits *limits);

/* Takes in octets of the client, and hears each message that is whole. The octets are copied. Answers
 *   GIOP_OK;
 *   GIOP_FAULT: *fault says why the end has failed. Its table is that after the last message before the
 *     fault, and from now on each call that acts answers this fault;
 *   GIOP_NO_MEMORY: memory ran out, and has failed the end for good; *fault has the number 8;
 *   GIOP_CLOSED.
 * *fault is written with GIOP_FAULT and GIOP_NO_MEMORY alone, here and below. octets may be NULL where size
 * is 0. */
uint32_t giop_server_feed(giop_server *server, const uint8_t *octets, size_t size, giop_end_fault *fault);

/* Copies the first octets that are to be sent to the front of the buffer, as many as it has room for, and
 * writes to *size how many there are in all. They stay until giop_server_wrote. Answers GIOP_OK or
 * GIOP_CLOSED. buffer may be NULL where room is 0. */
uint32_t giop_server_outgoing(giop_server *server, uint8_t *buffer, size_t room, size_t *size);

/* The first octets that are to be sent were written, so many of them: they are outgoing no longer. Answers
 * GIOP_OK; GIOP_SMALL: fewer are to be sent, and nothing has changed; or GIOP_CLOSED. */
uint32_t giop_server_wrote(giop_server *server, size_t size);

/* Copies the first request ids for which something is stored, ascending, to the front of an array of so
 * many, as many as it has room for, and writes to *count how many there are in all. Answers GIOP_OK;
 * GIOP_NO_MEMORY: nothing is written; or GIOP_CLOSED. ids may be NULL where room is 0. */
uint32_t giop_server_ids(giop_server *server, uint32_t *ids, size_t room, size_t *count);

/* Writes what is stored for an id: the kind is GIOP_NOTHING where nothing is. Answers GIOP_OK or
 * GIOP_CLOSED. */
uint32_t giop_server_entry_of(giop_server *server, uint32_t id, giop_server_entry *entry);

/* Copies the operation of the Request under an id, without a null, to the front of the buffer, and writes
 * its size. Answers GIOP_OK; GIOP_SMALL: the buffer has fewer octets than *size, and nothing was copied;
 * GIOP_WAITS: no Request is known under the id, and *size is as it was; or GIOP_CLOSED. */
uint32_t giop_server_operation(giop_server *server, uint32_t id, uint8_t *buffer, size_t room, size_t *size);

/* Copies the key of the object of the Request or the LocateRequest under an id, and writes its size, which is
 * 0 where the target is no key. Answers as giop_server_operation; GIOP_WAITS: neither is known under the id. */
uint32_t giop_server_key(giop_server *server, uint32_t id, uint8_t *buffer, size_t room, size_t *size);

/* Writes the id of a service context (7.7) of the Request under an id to *service, the first at index 0, and
 * copies its octets. Answers GIOP_OK; GIOP_SMALL: the buffer has fewer octets than *size, and none was copied;
 * GIOP_WAITS: there is no such context, and nothing is written; or GIOP_CLOSED. */
uint32_t giop_server_context(giop_server *server, uint32_t id, size_t index, uint32_t *service,
                             uint8_t *buffer, size_t room, size_t *size);

/* Copies the ins of the Request under an id, in this form, and writes how many octets they are. Answers as
 * giop_server_operation; or GIOP_NO_MEMORY, or GIOP_FAULT: what is stored are no values of the operation. With
 * both nothing is written. */
uint32_t giop_server_ins(giop_server *server, uint32_t id, uint32_t values,
                         uint8_t *buffer, size_t room, size_t *size);

/* Answers the Request under an id without an exception (9.4.3): outs are the octets, in this form, of the
 * result and then of the inout and out parameters; of no values where the Request's flags are 1. The Reply has
 * the Request's version and no service contexts. Its first piece is outgoing then, and giop_server_send puts
 * out each other one. Answers
 *   GIOP_OK;
 *   GIOP_FAULT: *fault says why it isn't sent: FORM; VALUES or JSON; the end's own; or CALL with NOT_OPEN,
 *     WRONG_KIND or UNFIT;
 *   GIOP_NO_MEMORY: it can be answered again, unless the end has failed;
 *   GIOP_CLOSED.
 * Where it isn't sent, nothing has changed. outs are at most 2^62 octets; they may be NULL where size is
 * 0. */
uint32_t giop_server_answer(giop_server *server, uint32_t id, uint32_t values,
                            const uint8_t *outs, size_t size, const giop_form *form,
                            giop_end_fault *fault);

/* Answers the Request under an id by an exception of the interface: its repository id without a null, and
 * the octets of its members, in this form. Answers as giop_server_answer. */
uint32_t giop_server_answer_user(giop_server *server, uint32_t id,
                                 const uint8_t *exception, size_t exception_size,
                                 uint32_t values, const uint8_t *members, size_t members_size,
                                 const giop_form *form, giop_end_fault *fault);

/* Answers the Request under an id, also one that couldn't be decoded, by an exception of the broker: its
 * repository id without a null, a minor code, and whether the operation was completed: 0 yes, 1 no, any
 * other number that it isn't known. Answers as giop_server_answer. */
uint32_t giop_server_answer_system(giop_server *server, uint32_t id,
                                   const uint8_t *exception, size_t exception_size,
                                   uint32_t minor, uint32_t completion,
                                   const giop_form *form, giop_end_fault *fault);

/* Answers the Request under an id by where its object is (9.4.3.1): a reference, as a text (7.6.9) of IOR: and
 * hexadecimal digits, without a null. It is for this request alone where permanent is 0; any other number, in
 * 1.2 alone, is from now on. Answers as giop_server_answer; *fault may be TEXT or REFERENCE in place of
 * VALUES or JSON. */
uint32_t giop_server_answer_forward(giop_server *server, uint32_t id,
                                    const uint8_t *reference, size_t size, uint32_t permanent,
                                    const giop_form *form, giop_end_fault *fault);

/* Answers the LocateRequest under an id (9.4.6): that the object is here, or, where here is 0, that it isn't
 * known. Answers GIOP_OK; GIOP_FAULT or GIOP_NO_MEMORY, and nothing has changed; or GIOP_CLOSED. */
uint32_t giop_server_answer_locate(giop_server *server, uint32_t id, uint32_t here, uint32_t little_endian,
                                   giop_end_fault *fault);

/* Puts out the next piece of the Reply of an id. Answers GIOP_OK; GIOP_FAULT, as CALL with NOTHING_TO_SEND,
 * or GIOP_NO_MEMORY, and nothing has changed; or GIOP_CLOSED. */
uint32_t giop_server_send(giop_server *server, uint32_t id, giop_end_fault *fault);

/* Takes what is stored for an id out of the table, where its call is over. Answers GIOP_OK, also where
 * nothing is stored; GIOP_FAULT, as STILL_OPEN, and nothing has changed; or GIOP_CLOSED. */
uint32_t giop_server_take(giop_server *server, uint32_t id, giop_end_fault *fault);

/* Closes the connection (9.4.7): a CloseConnection is outgoing then, and the end's fault is CLOSED from now
 * on. Answers GIOP_OK; GIOP_FAULT or GIOP_NO_MEMORY, and nothing has changed; or GIOP_CLOSED. */
uint32_t giop_server_close(giop_server *server, giop_end_fault *fault);

/* Copies the MessageError (9.4.8) that the client is to be sent after the end's fault: 12 octets. Answers
 * GIOP_OK; GIOP_SMALL: the buffer has fewer octets than *size, and nothing was copied; GIOP_WAITS: no fault
 * asks for one, and *size is as it was; or GIOP_CLOSED. */
uint32_t giop_server_error_message(giop_server *server, uint8_t *buffer, size_t room, size_t *size);

/* Writes how many octets are unread to *rest. Answers GIOP_OK or GIOP_CLOSED. */
uint32_t giop_server_rest(giop_server *server, size_t *rest);

/* Writes how many blocks of 512 octets the end has taken for pieces of Requests to *count: at most the limit
 * gathered over 512, and one more for each entry that there may be. They serve the pieces to come until the
 * handle is freed. Answers GIOP_OK or GIOP_CLOSED. */
uint32_t giop_server_blocks(giop_server *server, size_t *count);

/* Frees what the handle holds, which holds nothing then. A second call does nothing. */
void giop_server_free(giop_server *server);

/* ---- the end of a connection that calls ----
 *
 * An end keeps a table: for each request id that your program gave out, what is stored of its call. Your
 * program calls, writes what is outgoing, feeds what was read of the server, looks at the table, and takes
 * out the calls that are over. docs/PROFILE.md has what each message does to a call ("Calls").
 *
 * Limits, forms and outcomes are those of the end that answers, above.
 */
typedef struct giop_client {
    void *at;
} giop_client;

/* How a call is made. */
typedef struct giop_call {
    uint8_t minor;  /* the minor number of its version: 0, 1, or any other for 2 */
    uint8_t flags;  /* the response flags of a Request: 0 for no reply, 1 for one whose body is empty unless
                     * it is an exception, 3 for a reply; before 1.2 0 or 3. A LocateRequest has none */
    uint8_t target; /* what the octets of the target are: 0 the object's key, any other number, in 1.2
                     * alone, the data of an IIOP profile (9.7.2) */
} giop_call;

#define GIOP_CALL {2u, 3u, 0u}

/* What is stored for the id of a call at a client: the kind of a giop_client_entry, which may also be
 * GIOP_NOTHING; GIOP_GATHERING: the first piece of its reply came, its last didn't; GIOP_UNDECODED: its reply
 * came and can't be decoded; or GIOP_CANCELLED: it was cancelled. */
#define GIOP_SENDING 9      /* its first piece went out, its last didn't */
#define GIOP_WAITING 10     /* all of it went out, and nothing of its reply came */
#define GIOP_DONE 11        /* it was a Request, and its Reply came */
#define GIOP_LOCATE_DONE 12 /* it was a LocateRequest, and its LocateReply came */
#define GIOP_ONEWAY_SENT 13 /* it was a Request without a reply, and all of it went out */

/* The reply status of a Reply (9.4.3): the status of an entry of GIOP_DONE, or of GIOP_ANSWERED. */
#define GIOP_NO_EXCEPTION 0u
#define GIOP_USER_EXCEPTION 1u
#define GIOP_SYSTEM_EXCEPTION 2u
#define GIOP_LOCATION_FORWARD 3u
#define GIOP_LOCATION_FORWARD_PERM 4u
#define GIOP_NEEDS_ADDRESSING_MODE 5u

/* The locate status of a LocateReply (9.4.6): that of an entry of GIOP_LOCATE_DONE, or of
 * GIOP_LOCATE_ANSWERED. */
#define GIOP_UNKNOWN_OBJECT 0u
#define GIOP_OBJECT_HERE 1u
#define GIOP_OBJECT_FORWARD 2u
#define GIOP_OBJECT_FORWARD_PERM 3u
#define GIOP_LOC_SYSTEM_EXCEPTION 4u
#define GIOP_LOC_NEEDS_ADDRESSING_MODE 5u

/* Whether the operation of a system exception was completed (9.4.3.2): the completion of an entry. */
#define GIOP_COMPLETED_YES 0u
#define GIOP_COMPLETED_NO 1u
#define GIOP_COMPLETED_MAYBE 2u

typedef struct giop_client_entry {
    size_t exception;    /* the number of octets of the repository id of its exception, without a null; 0 where
                          * its Reply has none */
    size_t contexts;     /* how many service contexts its Reply has; 0 where none came */
    size_t at;           /* of GIOP_UNDECODED where its reply has a fault, from the first octet of the message's
                          * header; else 0 */
    uint32_t number;     /* of GIOP_UNDECODED what is wrong there, one of GIOP_CDR_; else 0 */
    uint32_t left;       /* how many pieces of the call aren't sent yet: giop_client_send puts out one */
    uint32_t status;     /* the reply status of GIOP_DONE, the locate status of GIOP_LOCATE_DONE; else 0 */
    uint32_t minor;      /* the minor code of a system exception; else 0 */
    uint32_t completion; /* of a system exception one of GIOP_COMPLETED_; else 0 */
    int16_t addressing;  /* with GIOP_NEEDS_ADDRESSING_MODE the addressing disposition that is asked for; else 0 */
    uint8_t kind;        /* one of those above */
    uint8_t over;        /* 1 where the call is over, and may be taken out */
    uint8_t outcome;     /* GIOP_PENDING to GIOP_NOT_DECODED */
} giop_client_entry;

/* Opens a handle: a client's end without calls, by the interface that another handle holds, within limits.
 * The end keeps a share of the interface, whose handle may be freed before it. What the handle held before
 * is freed. Answers GIOP_OK; GIOP_FAULT: the limit gathered is above 2^62; GIOP_NO_MEMORY; or GIOP_CLOSED:
 * the interface's handle holds nothing. With all but GIOP_OK the handle is as it was. */
uint32_t giop_client_new(giop_client *client, giop_interface *interface, const giop_limits *limits);

/* Takes in octets of the server, and hears each message that is whole. The octets are copied. Answers
 *   GIOP_OK;
 *   GIOP_FAULT: *fault says why the end has failed. Its table is that after the last message before the
 *     fault, and from now on each call that acts answers this fault;
 *   GIOP_NO_MEMORY: memory ran out, and has failed the end for good; *fault has the number 8;
 *   GIOP_CLOSED.
 * *fault is written with GIOP_FAULT and GIOP_NO_MEMORY alone, here and below. octets may be NULL where size
 * is 0. */
uint32_t giop_client_feed(giop_client *client, const uint8_t *octets, size_t size, giop_end_fault *fault);

/* Copies the first octets that are to be sent to the front of the buffer, as many as it has room for, and
 * writes to *size how many there are in all. They stay until giop_client_wrote. Answers GIOP_OK or
 * GIOP_CLOSED. buffer may be NULL where room is 0. */
uint32_t giop_client_outgoing(giop_client *client, uint8_t *buffer, size_t room, size_t *size);

/* The first octets that are to be sent were written, so many of them: they are outgoing no longer. Answers
 * GIOP_OK; GIOP_SMALL: fewer are to be sent, and nothing has changed; or GIOP_CLOSED. */
uint32_t giop_client_wrote(giop_client *client, size_t size);

/* Calls an operation under an id (9.4.2): of the target that the octets are, as the call says, by the
 * operation's name without a null, with the octets, in this form, of its in and inout parameters. The Request
 * has no service contexts. Its first piece is outgoing then, and giop_client_send puts out each other one.
 * Answers
 *   GIOP_OK;
 *   GIOP_FAULT: *fault says why it isn't sent: FORM; VALUES or JSON; the end's own; or CALL with ID_IN_USE,
 *     UNKNOWN_OPERATION or UNFIT;
 *   GIOP_NO_MEMORY: it can be called again, unless the end has failed;
 *   GIOP_CLOSED.
 * Where it isn't sent, nothing has changed. ins are at most 2^62 octets; they aren't read where the interface
 * hasn't the operation. Each of target, operation and ins may be NULL where its size is 0. */
uint32_t giop_client_call(giop_client *client, uint32_t id, const giop_call *call,
                          const uint8_t *target, size_t target_size,
                          const uint8_t *operation, size_t operation_size,
                          uint32_t values, const uint8_t *ins, size_t size,
                          const giop_form *form, giop_end_fault *fault);

/* Asks under an id where the object is of the target that the octets are, as the call says (9.4.5). Its first
 * piece is outgoing then. Answers GIOP_OK; GIOP_FAULT: *fault says why it isn't sent: FORM; the end's own; or
 * CALL with ID_IN_USE or UNFIT; GIOP_NO_MEMORY; or GIOP_CLOSED. Where it isn't sent, nothing has changed. */
uint32_t giop_client_locate(giop_client *client, uint32_t id, const giop_call *call,
                            const uint8_t *target, size_t target_size,
                            const giop_form *form, giop_end_fault *fault);

/* Cancels the call of an id, whose reply isn't whole: a CancelRequest (9.4.4) of this byte order is outgoing
 * then, and no further piece of the call is sent. Answers GIOP_OK; GIOP_FAULT, as CALL with NOT_OPEN, or
 * GIOP_NO_MEMORY, and nothing has changed; or GIOP_CLOSED. */
uint32_t giop_client_cancel(giop_client *client, uint32_t id, uint32_t little_endian, giop_end_fault *fault);

/* Puts out the next piece of the call of an id. Answers GIOP_OK; GIOP_FAULT, as CALL with NOTHING_TO_SEND, or
 * GIOP_NO_MEMORY, and nothing has changed; or GIOP_CLOSED. */
uint32_t giop_client_send(giop_client *client, uint32_t id, giop_end_fault *fault);

/* Copies the first request ids for which something is stored, ascending, to the front of an array of so
 * many, as many as it has room for, and writes to *count how many there are in all. Answers GIOP_OK;
 * GIOP_NO_MEMORY: nothing is written; or GIOP_CLOSED. ids may be NULL where room is 0. */
uint32_t giop_client_ids(giop_client *client, uint32_t *ids, size_t room, size_t *count);

/* Writes what is stored for an id: the kind is GIOP_NOTHING where nothing is. Answers GIOP_OK or
 * GIOP_CLOSED. */
uint32_t giop_client_entry_of(giop_client *client, uint32_t id, giop_client_entry *entry);

/* Copies what the Reply under an id brought without an exception, in this form: the result and then the inout
 * and out parameters. Writes how many octets they are. Answers GIOP_OK; GIOP_SMALL: the buffer has fewer octets
 * than *size, and nothing was copied; GIOP_WAITS: no Reply of GIOP_NO_EXCEPTION is there, and *size is as it
 * was; GIOP_NO_MEMORY, or GIOP_FAULT: what is stored are no values of the operation, and with both nothing is
 * written; or GIOP_CLOSED. */
uint32_t giop_client_outs(giop_client *client, uint32_t id, uint32_t values,
                          uint8_t *buffer, size_t room, size_t *size);

/* Copies the repository id of the exception that the Reply under an id brought, the interface's or the
 * broker's, without a null, and writes its size. Answers GIOP_OK; GIOP_SMALL, as giop_client_outs; GIOP_WAITS:
 * no such Reply is there, and *size is as it was; or GIOP_CLOSED. */
uint32_t giop_client_exception(giop_client *client, uint32_t id, uint8_t *buffer, size_t room, size_t *size);

/* Copies the members of the exception of the interface that the Reply under an id brought, in this form, and
 * writes how many octets they are. Answers as giop_client_outs; GIOP_WAITS: no Reply of
 * GIOP_USER_EXCEPTION is there. */
uint32_t giop_client_members(giop_client *client, uint32_t id, uint32_t values,
                             uint8_t *buffer, size_t room, size_t *size);

/* Writes the id of a service context (7.7) of the Reply under an id to *service, the first at index 0, and
 * copies its octets. Answers GIOP_OK; GIOP_SMALL: the buffer has fewer octets than *size, and none was copied;
 * GIOP_WAITS: there is no such context, and nothing is written; or GIOP_CLOSED. */
uint32_t giop_client_context(giop_client *client, uint32_t id, size_t index, uint32_t *service,
                             uint8_t *buffer, size_t room, size_t *size);

/* Copies the reference to which the Reply under an id forwards, as a text (7.6.9): IOR: and hexadecimal
 * digits, without a null; and writes its size. Answers as giop_client_outs; GIOP_WAITS: no Reply of
 * GIOP_LOCATION_FORWARD or GIOP_LOCATION_FORWARD_PERM is there. */
uint32_t giop_client_forward(giop_client *client, uint32_t id, uint8_t *buffer, size_t room, size_t *size);

/* Takes what is stored for an id out of the table, where its call is over. Answers GIOP_OK, also where
 * nothing is stored; GIOP_FAULT, as STILL_OPEN, and nothing has changed; or GIOP_CLOSED. */
uint32_t giop_client_take(giop_client *client, uint32_t id, giop_end_fault *fault);

/* Closes the connection (9.4.7): a CloseConnection is outgoing then, and the end's fault is CLOSED from now
 * on. Answers GIOP_OK; GIOP_FAULT or GIOP_NO_MEMORY, and nothing has changed; or GIOP_CLOSED. */
uint32_t giop_client_close(giop_client *client, giop_end_fault *fault);

/* Copies the MessageError (9.4.8) that the server is to be sent after the end's fault: 12 octets. Answers
 * GIOP_OK; GIOP_SMALL: the buffer has fewer octets than *size, and nothing was copied; GIOP_WAITS: no fault
 * asks for one, and *size is as it was; or GIOP_CLOSED. */
uint32_t giop_client_error_message(giop_client *client, uint8_t *buffer, size_t room, size_t *size);

/* Writes how many octets are unread to *rest. Answers GIOP_OK or GIOP_CLOSED. */
uint32_t giop_client_rest(giop_client *client, size_t *rest);

/* Writes how many blocks of 512 octets the end has taken for pieces of replies to *count: at most the limit
 * gathered over 512, and one more for each entry that there may be. They serve the pieces to come until the
 * handle is freed. Answers GIOP_OK or GIOP_CLOSED. */
uint32_t giop_client_blocks(giop_client *client, size_t *count);

/* Frees what the handle holds, which holds nothing then. A second call does nothing. */
void giop_client_free(giop_client *client);

#ifdef __cplusplus
}
#endif

#endif
