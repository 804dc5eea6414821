/* Serves the object of calc.c: many connections in one thread, over poll.
 *
 * Usage: server PORT KEY INTERFACE     as in: server 2810 calc examples/demo.json
 *
 * It listens at 127.0.0.1 and says where; PORT 0 is any that is free. Each connection has an end of libgiop:
 * what is read goes in, calls are answered, and what is outgoing is written when the socket takes it. A
 * connection that is quiet for half a minute is closed. SIGTERM and SIGINT close them all, and end it. */
#define _POSIX_C_SOURCE 200809L
#include "calc.h"

#include <arpa/inet.h>
#include <errno.h>
#include <fcntl.h>
#include <poll.h>
#include <signal.h>
#include <stdio.h>
#include <stdlib.h>
#include <string.h>
#include <sys/socket.h>
#include <time.h>
#include <unistd.h>

enum { CONNECTIONS = 64, UNWRITTEN = 262144, QUIET = 30, PARTING = 5 };

struct connection {
    int socket; /* -1 where the place is free */
    enum { SERVES, DRAINS, PARTS } state; /* DRAINS writes what is left, PARTS waits for the client's close */
    time_t since;                         /* when octets last came or went */
    uint8_t error[12];                    /* the MessageError, which goes behind what is outgoing */
    size_t error_at, error_size;
    giop_server end; /* never copied: a connection keeps its place */
};

static struct connection connections[CONNECTIONS];
static giop_interface interface;
static const char *key;
static volatile sig_atomic_t stopped;

static void stop(int signal) {
    (void)signal;
    stopped = 1;
}

/* ---- a connection ---- */

static void end_connection(struct connection *it) {
    close(it->socket);
    giop_server_free(&it->end);
    it->socket = -1;
}

/* What comes next to be written: its front, and how much of it is at hand. */
static size_t next_octets(struct connection *it, uint8_t *octets, size_t room) {
    size_t size = 0;
    giop_server_outgoing(&it->end, octets, room, &size);
    if (size == 0) {
        size = it->error_size - it->error_at;
        memcpy(octets, it->error + it->error_at, size);
    }
    return size < room ? size : room;
}

static void went_out(struct connection *it, size_t size) {
    it->since = time(NULL);
    if (giop_server_wrote(&it->end, size) != GIOP_OK) { /* so few were not the end's: they were the error's */
        it->error_at += size;
    }
}

/* Reads once, and answers. 0 where the connection is to be ended. */
static int hear(struct connection *it) {
    uint8_t octets[16384]; /* what makes a call has 16 octets at least: CALC_CALLS of them at most */
    giop_end_fault fault;
    ssize_t n = recv(it->socket, octets, sizeof octets, 0);
    if (n < 0) {
        return errno == EAGAIN || errno == EINTR;
    }
    if (it->state != SERVES) {
        return n > 0; /* what comes now is dropped */
    }
    it->since = time(NULL);
    uint32_t status = giop_server_feed(&it->end, octets, (size_t)n, &fault);
    if (status == GIOP_OK) {
        calc_answer(&it->end, key);
    } else if (fault.number != GIOP_END_CLOSED) {
        fprintf(stderr, "fault %u.%u at %zu\n", (unsigned)fault.number, (unsigned)fault.part, fault.at);
        giop_server_error_message(&it->end, it->error, sizeof it->error, &it->error_size);
    }
    it->state = n == 0 || status != GIOP_OK ? DRAINS : SERVES;
    return 1;
}

/* Writes as much as the socket takes. 0 where the connection is to be ended. */
static int write_out(struct connection *it) {
    uint8_t octets[16384];
    size_t size;
    while ((size = next_octets(it, octets, sizeof octets)) > 0) {
        ssize_t n = send(it->socket, octets, size, MSG_NOSIGNAL);
        if (n < 0) {
            return errno == EAGAIN || errno == EINTR;
        }
        went_out(it, (size_t)n);
    }
    if (it->state == DRAINS) {
        /* to close a socket whose octets are unread may cost the client our last ones */
        shutdown(it->socket, SHUT_WR);
        it->state = PARTS;
    }
    return 1;
}

/* Closes a connection that is quiet for too long, or that outlives the program. */
static void watch(struct connection *it) {
    time_t quiet = time(NULL) - it->since;
    giop_end_fault fault;
    if (it->state == SERVES && (stopped || quiet > QUIET)) {
        giop_server_close(&it->end, &fault);
        it->state = DRAINS;
        it->since = time(NULL);
    } else if (it->state != SERVES && quiet > PARTING) {
        end_connection(it);
    }
}

static short awaited(struct connection *it) {
    size_t unwritten = 0;
    giop_server_outgoing(&it->end, NULL, 0, &unwritten);
    unwritten += it->error_size - it->error_at;
    /* a client that doesn't read its replies isn't read either */
    int reads = it->state == PARTS || (it->state == SERVES && unwritten < UNWRITTEN);
    return (short)((reads ? POLLIN : 0) | (unwritten > 0 || it->state == DRAINS ? POLLOUT : 0));
}

/* ---- the loop ---- */

static void accept_one(int listener) {
    const giop_limits limits = {1048576, CALC_CALLS, CALC_MESSAGE};
    struct connection *it = connections;
    while (it->socket >= 0) {
        it++;
    }
    *it = (struct connection){accept(listener, NULL, NULL), SERVES, time(NULL), {0}, 0, 0, {0}};
    if (it->socket >= 0) {
        fcntl(it->socket, F_SETFL, O_NONBLOCK);
        if (giop_server_new(&it->end, &interface, &limits) != GIOP_OK) {
            end_connection(it);
        }
    }
}

/* Waits a second at most, and does what the sockets are ready for. How many connections there are. */
static size_t turn(int listener) {
    struct pollfd polled[CONNECTIONS + 1];
    size_t open = 0;
    for (size_t i = 0; i < CONNECTIONS; i++) {
        struct connection *it = &connections[i];
        open += it->socket >= 0;
        polled[i] = (struct pollfd){it->socket, it->socket >= 0 ? awaited(it) : 0, 0};
    }
    polled[CONNECTIONS] = (struct pollfd){open < CONNECTIONS && !stopped ? listener : -1, POLLIN, 0};
    int ready = poll(polled, CONNECTIONS + 1, 1000) > 0;
    for (size_t i = 0; i < CONNECTIONS; i++) {
        struct connection *it = &connections[i];
        if (it->socket >= 0 && ready && (polled[i].revents & ~POLLOUT) && !hear(it)) {
            end_connection(it);
        }
        if (it->socket >= 0 && !write_out(it)) {
            end_connection(it);
        }
        if (it->socket >= 0) {
            watch(it);
        }
    }
    if (ready && polled[CONNECTIONS].revents) {
        accept_one(listener);
    }
    return open;
}

static int listen_at(uint16_t port) {
    struct sockaddr_in at = {0};
    socklen_t size = sizeof at;
    int one = 1, listener = socket(AF_INET, SOCK_STREAM, 0);
    at.sin_family = AF_INET;
    at.sin_port = htons(port);
    at.sin_addr.s_addr = htonl(INADDR_LOOPBACK);
    setsockopt(listener, SOL_SOCKET, SO_REUSEADDR, &one, sizeof one);
    if (bind(listener, (struct sockaddr *)&at, sizeof at) != 0 || listen(listener, 16) != 0
        || fcntl(listener, F_SETFL, O_NONBLOCK) != 0 || getsockname(listener, (struct sockaddr *)&at, &size) != 0) {
        perror("server");
        return -1;
    }
    printf("listening on 127.0.0.1:%d\n", ntohs(at.sin_port));
    fflush(stdout);
    return listener;
}

static int open_interface(const char *name) {
    static uint8_t json[65536];
    giop_text_fault fault;
    FILE *file = fopen(name, "rb");
    size_t size = file ? fread(json, 1, sizeof json, file) : 0;
    if (file) {
        fclose(file);
    }
    return giop_interface_new(&interface, json, size, &fault) == GIOP_OK;
}

int main(int argc, char **argv) {
    struct sigaction on_stop = {.sa_handler = stop};
    if (argc != 4 || !open_interface(argv[3])) {
        fprintf(stderr, "usage: server PORT KEY INTERFACE\n");
        return 2;
    }
    key = argv[2];
    for (size_t i = 0; i < CONNECTIONS; i++) {
        connections[i].socket = -1;
    }
    sigaction(SIGTERM, &on_stop, NULL);
    sigaction(SIGINT, &on_stop, NULL);
    int listener = listen_at((uint16_t)atoi(argv[1]));
    while (listener >= 0 && (turn(listener) > 0 || !stopped)) {
    }
    giop_interface_free(&interface);
    return listener < 0;
}
