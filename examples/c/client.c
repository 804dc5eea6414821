/* Calls `add` of an object for each two of its words: one connection, sixteen calls at a time, over poll.
 *
 * Usage: client HOST PORT KEY INTERFACE A B [A B]..     as in: client 127.0.0.1 2810 calc examples/demo.json 2 5
 *
 * It prints a line for each sum, in the order in which they come. A call whose reply isn't there after five
 * seconds is cancelled. The status is 1 where one has no sum, 2 where the words are others. */
#define _POSIX_C_SOURCE 200809L
#include <errno.h>
#include <fcntl.h>
#include <giop.h>
#include <netdb.h>
#include <poll.h>
#include <stdio.h>
#include <stdlib.h>
#include <string.h>
#include <sys/socket.h>
#include <time.h>
#include <unistd.h>

enum { AT_ONCE = 16, PATIENCE = 5 };

/* A call. Its request id is its place among the calls, which serves again once it is FREE. */
struct call {
    enum { FREE, ASKED, GIVEN_UP } state; /* GIVEN_UP was cancelled: a late reply may come under its id */
    char *const *words;
    time_t since;
};

static struct call calls[AT_ONCE];
static int failed; /* how many have no sum */
static giop_client end;

static uint32_t little_endian(void) {
    const uint16_t one = 1;
    return *(const uint8_t *)&one;
}

/* ---- calls ---- */

static void tell(const struct call *it, const char *what) {
    printf("%s + %s: %s\n", it->words[0], it->words[1], what);
    failed++;
}

/* Begins a call; its Request is outgoing then, since `add` is shorter than a piece. */
static void begin(uint32_t id, const char *key, char *const *words) {
    const giop_call call = GIOP_CALL;
    const giop_form form = {4096, little_endian()};
    const int32_t ins[2] = {atoi(words[0]), atoi(words[1])};
    giop_end_fault fault;
    uint32_t status = giop_client_call(&end, id, &call, (const uint8_t *)key, strlen(key),
                                       (const uint8_t *)"add", 3, form.little_endian,
                                       (const uint8_t *)ins, sizeof ins, &form, &fault);
    calls[id] = (struct call){status == GIOP_OK ? ASKED : FREE, words, time(NULL)};
    if (status != GIOP_OK) {
        tell(&calls[id], "not sent");
    }
}

/* What the reply of a call brought (9.4.3). */
static void tell_reply(uint32_t id, const giop_client_entry *entry) {
    const struct call *it = &calls[id];
    uint8_t text[1024];
    int32_t sum;
    size_t size;
    if (entry->kind == GIOP_UNDECODED) {
        snprintf((char *)text, sizeof text, "fault %u of its reply at %zu", (unsigned)entry->number, entry->at);
        tell(it, (const char *)text);
    } else if (entry->status == GIOP_NO_EXCEPTION) {
        giop_client_outs(&end, id, little_endian(), (uint8_t *)&sum, sizeof sum, &size);
        printf("%s + %s = %d\n", it->words[0], it->words[1], (int)sum);
    } else if (giop_client_exception(&end, id, text, sizeof text - 1, &size) == GIOP_OK
               || giop_client_forward(&end, id, text, sizeof text - 1, &size) == GIOP_OK) {
        text[size] = 0; /* the repository id of an exception, or a reference to ask instead */
        tell(it, (const char *)text);
    } else {
        tell(it, "another answer");
    }
}

/* Takes out the calls that are over, and cancels those that take too long. */
static void settle(void) {
    giop_client_entry entry;
    giop_end_fault fault;
    for (uint32_t id = 0; id < AT_ONCE; id++) {
        struct call *it = &calls[id];
        giop_client_entry_of(&end, id, &entry);
        if (it->state == ASKED && entry.over) {
            tell_reply(id, &entry);
        } else if (it->state == ASKED && time(NULL) - it->since >= PATIENCE) {
            giop_client_cancel(&end, id, little_endian(), &fault);
            tell(it, "no reply in time");
            it->state = GIVEN_UP;
        }
        if (it->state != FREE && giop_client_take(&end, id, &fault) == GIOP_OK) {
            it->state = FREE;
        }
    }
}

static int waiting(void) {
    int count = 0;
    for (uint32_t id = 0; id < AT_ONCE; id++) {
        count += calls[id].state == ASKED;
    }
    return count;
}

/* Begins as many calls as there are places for. The words that are left. */
static char *const *begin_all(const char *key, char *const *words) {
    for (uint32_t id = 0; id < AT_ONCE && *words; id++) {
        if (calls[id].state == FREE) {
            begin(id, key, words);
            words += 2;
        }
    }
    return words;
}

/* ---- the connection ---- */

/* A socket that is connected within PATIENCE, or -1. */
static int connected(const struct addrinfo *at) {
    int error = 0, it = socket(at->ai_family, at->ai_socktype, at->ai_protocol);
    socklen_t size = sizeof error;
    struct pollfd polled = {it, POLLOUT, 0};
    if (it >= 0 && fcntl(it, F_SETFL, O_NONBLOCK) == 0
        && (connect(it, at->ai_addr, at->ai_addrlen) == 0 || errno == EINPROGRESS)
        && poll(&polled, 1, PATIENCE * 1000) == 1
        && getsockopt(it, SOL_SOCKET, SO_ERROR, &error, &size) == 0 && error == 0) {
        return it;
    }
    close(it);
    return -1;
}

static int connect_to(const char *host, const char *port) {
    struct addrinfo hints = {.ai_socktype = SOCK_STREAM}, *found;
    int it = -1;
    if (getaddrinfo(host, port, &hints, &found) == 0) {
        for (const struct addrinfo *at = found; at && it < 0; at = at->ai_next) {
            it = connected(at);
        }
        freeaddrinfo(found);
    }
    return it;
}

/* Writes as much as the socket takes. 0 where the connection is broken. */
static int write_out(int to) {
    uint8_t octets[16384];
    size_t size;
    while (giop_client_outgoing(&end, octets, sizeof octets, &size) == GIOP_OK && size > 0) {
        ssize_t n = send(to, octets, size < sizeof octets ? size : sizeof octets, MSG_NOSIGNAL);
        if (n < 0) {
            return errno == EAGAIN || errno == EINTR;
        }
        giop_client_wrote(&end, (size_t)n);
    }
    return 1;
}

/* Reads once. 0 where the connection is over; what is wrong with it, if anything, is said to both sides. */
static int hear(int from) {
    uint8_t octets[16384], error[12];
    giop_end_fault fault;
    size_t size;
    ssize_t n = recv(from, octets, sizeof octets, 0);
    if (n <= 0) {
        return n < 0 && (errno == EAGAIN || errno == EINTR);
    }
    if (giop_client_feed(&end, octets, (size_t)n, &fault) == GIOP_OK) {
        return 1;
    }
    if (fault.number != GIOP_END_CLOSED) {
        fprintf(stderr, "fault %u.%u of call %u at %zu\n", (unsigned)fault.number, (unsigned)fault.part,
                (unsigned)fault.id, fault.at);
    }
    if (giop_client_error_message(&end, error, sizeof error, &size) == GIOP_OK) {
        send(from, error, size, MSG_NOSIGNAL);
    }
    return 0;
}

/* Waits until the socket is ready, a second at most, and reads and writes. 0 where the connection is over. */
static int turn(int socket) {
    size_t unwritten = 0;
    giop_client_outgoing(&end, NULL, 0, &unwritten);
    struct pollfd polled = {socket, (short)(unwritten > 0 ? POLLIN | POLLOUT : POLLIN), 0};
    if (poll(&polled, 1, 1000) < 0) {
        return errno == EINTR;
    }
    return (!(polled.revents & ~POLLOUT) || hear(socket)) && write_out(socket);
}

static int open_end(const char *name) {
    static uint8_t json[65536];
    const giop_limits limits = GIOP_LIMITS;
    giop_interface interface = {0};
    giop_text_fault fault;
    FILE *file = fopen(name, "rb");
    size_t size = file ? fread(json, 1, sizeof json, file) : 0;
    if (file) {
        fclose(file);
    }
    uint32_t status = giop_interface_new(&interface, json, size, &fault);
    status = status == GIOP_OK ? giop_client_new(&end, &interface, &limits) : status;
    giop_interface_free(&interface); /* the end keeps a share of it */
    return status == GIOP_OK;
}

int main(int argc, char **argv) {
    giop_end_fault fault;
    char *const *words = argv + 5;
    if (argc < 7 || argc % 2 == 0 || !open_end(argv[4])) {
        fprintf(stderr, "usage: client HOST PORT KEY INTERFACE A B [A B]..\n");
        return 2;
    }
    int open, socket = connect_to(argv[1], argv[2]);
    if (socket < 0) {
        fprintf(stderr, "client: no connection to %s\n", argv[1]);
        return 1;
    }
    do {
        words = begin_all(argv[3], words);
        open = waiting() > 0 && turn(socket);
        settle();
    } while (open);
    for (uint32_t id = 0; id < AT_ONCE; id++) {
        if (calls[id].state == ASKED) {
            tell(&calls[id], "no reply before the connection ended");
        }
    }
    if (giop_client_close(&end, &fault) == GIOP_OK) {
        write_out(socket);
    }
    close(socket);
    giop_client_free(&end);
    return failed > 0 || *words != NULL;
}
