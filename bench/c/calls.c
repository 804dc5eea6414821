/* Calls of `add` through the C interface of libgiop, both ends in one process.
 *
 * Usage: calls LOOP [CALLS]     LOOP is one of
 *   server        a server's end alone: Requests of `ping` and `add` in turn over 512 ids, each heard, answered,
 *                 written and taken out
 *   memory-1      both ends, one call at a time; what one sends is fed to the other
 *   memory-16     the same, 16 calls at a time
 *   loopback-1    the same over a connection on 127.0.0.1, one at a time
 *   loopback-16   16 at a time
 *
 * It prints a checksum of all that it saw of the calls: each field of each entry, and the octets that came of it. The
 * loops `c-server`, `c-memory-1` and so on of giop_bench are the same in Rattle: change both. */
#define _POSIX_C_SOURCE 200809L
#include <arpa/inet.h>
#include <giop.h>
#include <netinet/in.h>
#include <stdio.h>
#include <stdlib.h>
#include <string.h>
#include <sys/socket.h>
#include <unistd.h>

static const char JSON[] =
    "{\"operations\":{\"ping\":{},\"add\":{\"ins\":[[\"a\",\"long\"],[\"b\",\"long\"]],\"outs\":[[\"sum\",\"long\"]]},"
    "\"put\":{\"ins\":[[\"o\",\"octets\"]]}}}";
static const giop_limits LIMITS = GIOP_LIMITS;
static const giop_form FORM = GIOP_FORM;
static giop_client client;
static giop_server server;
static uint64_t checksum;

static void mixed(uint64_t value) {
    checksum = (checksum * 1099511628211u) ^ value;
}

/* Ends the program where a call didn't do what it is for. */
static void must(int went_well) {
    if (!went_well) {
        fprintf(stderr, "calls: a call failed\n");
        exit(1);
    }
}

/* ---- the ends ---- */

static void open_ends(void) {
    giop_interface interface = {0};
    giop_text_fault fault;
    must(giop_interface_new(&interface, (const uint8_t *)JSON, strlen(JSON), &fault) == GIOP_OK);
    must(giop_server_new(&server, &interface, &LIMITS) == GIOP_OK);
    must(giop_client_new(&client, &interface, &LIMITS) == GIOP_OK);
    giop_interface_free(&interface);
}

static void big(uint8_t *to, uint32_t number) {
    for (int i = 0; i < 4; i++) {
        to[i] = (uint8_t)(number >> (24 - 8 * i));
    }
}

static uint32_t of_big(const uint8_t *from) {
    return (uint32_t)from[0] << 24 | (uint32_t)from[1] << 16 | (uint32_t)from[2] << 8 | from[3];
}

/* Calls `add` under an id: it adds the id to 2. */
static void calls(uint32_t id) {
    const giop_call call = GIOP_CALL;
    giop_end_fault fault;
    uint8_t ins[8];
    big(ins, 2);
    big(ins + 4, id);
    must(giop_client_call(&client, id, &call, (const uint8_t *)"k", 1, (const uint8_t *)"add", 3, 0, ins, 8, &FORM,
                          &fault)
         == GIOP_OK);
}

/* All fields of an entry in one number. */
static uint64_t all_of(const giop_server_entry *entry) {
    uint64_t sizes = entry->operation ^ entry->key << 8 ^ entry->contexts << 16 ^ entry->at << 24;
    uint32_t numbers = entry->number ^ entry->left << 8 ^ entry->status << 16;
    uint32_t call = (uint32_t)entry->part ^ (uint32_t)entry->kind << 4 ^ (uint32_t)entry->awaits << 8;
    uint32_t end = (uint32_t)entry->over ^ (uint32_t)entry->outcome << 4 ^ (uint32_t)entry->flags << 8;
    return sizes ^ (uint64_t)numbers << 8 ^ (uint64_t)call << 32 ^ (uint64_t)end << 44;
}

/* Looks at all of an entry. Its kind. */
static uint8_t looks(uint32_t id) {
    giop_server_entry entry;
    must(giop_server_entry_of(&server, id, &entry) == GIOP_OK);
    mixed(all_of(&entry));
    return entry.kind;
}

/* Answers the call of an id, by the sum of its ins. How many octets these were. */
static size_t answers(uint32_t id) {
    giop_end_fault fault;
    uint8_t ins[8], outs[4] = {0};
    size_t size;
    must(looks(id) == GIOP_ASKED);
    must(giop_server_ins(&server, id, 0, ins, 8, &size) == GIOP_OK);
    if (size == 8) {
        big(outs, of_big(ins) + of_big(ins + 4));
    }
    must(giop_server_answer(&server, id, 0, outs, size / 2, &FORM, &fault) == GIOP_OK);
    return size;
}

/* Takes the call of an id out of the client's end, with its result. */
static void takes(uint32_t id) {
    giop_end_fault fault;
    uint8_t sum[4];
    size_t size;
    must(giop_client_outs(&client, id, 0, sum, 4, &size) == GIOP_OK && size == 4);
    must(giop_client_take(&client, id, &fault) == GIOP_OK);
    mixed(sum[3]);
}

/* ---- a server's end alone ---- */

static uint8_t PING[48] = "GIOP\1\2\0\0\0\0\0\44\0\0\0\1\3\0\0\0\0\0\0\0\0\0\0\1k\0\0\0\0\0\0\5ping";
static uint8_t ADD[56] = "GIOP\1\2\0\0\0\0\0\54\0\0\0\4\3\0\0\0\0\0\0\0\0\0\0\1k\0\0\0\0\0\0\4add\0\0\0\0\0\0\0\0"
                         "\0\0\0\0\2\0\0\0\5";

/* Serves the call of an id: it looks at its entry, answers and writes, looks again and takes it out. */
static void serves(uint32_t id) {
    giop_end_fault fault;
    uint8_t octets[64];
    size_t size;
    looks(id);
    mixed(answers(id));
    must(giop_server_outgoing(&server, octets, sizeof octets, &size) == GIOP_OK && size <= sizeof octets);
    mixed(octets[size - 1]);
    must(giop_server_wrote(&server, size) == GIOP_OK);
    mixed(size);
    looks(id);
    must(giop_server_take(&server, id, &fault) == GIOP_OK);
}

static void server_alone(uint32_t count) {
    giop_end_fault fault;
    size_t rest;
    for (uint32_t k = 0; k < count; k++) {
        uint8_t *asked = k % 2 ? ADD : PING;
        size_t size = k % 2 ? sizeof ADD : sizeof PING;
        big(asked + 12, k % 512);
        must(giop_server_feed(&server, asked, size, &fault) == GIOP_OK);
            serves(k % 512);
    }
    must(giop_server_rest(&server, &rest) == GIOP_OK);
    mixed(rest);
}

/* ---- both ends ---- */

static int sockets[2] = {-1, -1}; /* the client's and the server's, where there is a connection */

/* What the client sends goes to the server, or the other way round: so many octets. */
static void passes(int to_server, size_t wanted) {
    uint8_t octets[4096];
    giop_end_fault fault;
    size_t size;
    must((to_server ? giop_client_outgoing(&client, octets, sizeof octets, &size)
                    : giop_server_outgoing(&server, octets, sizeof octets, &size))
         == GIOP_OK);
    must(size == wanted && size <= sizeof octets);
    if (sockets[0] >= 0) {
        must(write(sockets[!to_server], octets, size) == (ssize_t)size);
    }
    must((to_server ? giop_client_wrote(&client, size) : giop_server_wrote(&server, size)) == GIOP_OK);
    for (size_t left = wanted; left > 0; left -= size) {
        if (sockets[0] >= 0) {
            ssize_t n = read(sockets[to_server], octets, sizeof octets);
            must(n > 0);
            size = (size_t)n;
        }
        must((to_server ? giop_server_feed(&server, octets, size, &fault)
                        : giop_client_feed(&client, octets, size, &fault))
             == GIOP_OK);
        }
}

static void both_ends(uint32_t count, uint32_t at_once) {
    giop_end_fault fault;
    for (uint32_t wave = 0; wave < count / at_once; wave++) {
        for (uint32_t id = 0; id < at_once; id++) {
            calls(id);
        }
        passes(1, 56 * (size_t)at_once);
        for (uint32_t id = 0; id < at_once; id++) {
            answers(id);
            must(giop_server_take(&server, id, &fault) == GIOP_OK);
        }
        passes(0, 28 * (size_t)at_once);
        for (uint32_t id = 0; id < at_once; id++) {
            takes(id);
        }
    }
}

static void connect_ends(void) {
    struct sockaddr_in at = {0};
    socklen_t size = sizeof at;
    int listener = socket(AF_INET, SOCK_STREAM, 0);
    at.sin_family = AF_INET;
    at.sin_addr.s_addr = htonl(INADDR_LOOPBACK);
    must(bind(listener, (struct sockaddr *)&at, sizeof at) == 0 && listen(listener, 1) == 0);
    must(getsockname(listener, (struct sockaddr *)&at, &size) == 0);
    sockets[0] = socket(AF_INET, SOCK_STREAM, 0);
    must(connect(sockets[0], (struct sockaddr *)&at, sizeof at) == 0);
    sockets[1] = accept(listener, NULL, NULL);
    must(sockets[1] >= 0);
    close(listener);
}

int main(int argc, char **argv) {
    const char *loop = argc > 1 ? argv[1] : "";
    int is_server = strcmp(loop, "server") == 0;
    uint32_t count = argc > 2 ? (uint32_t)atoi(argv[2]) : is_server ? 1000000 : 100000;
    const char *dash = strchr(loop, '-');
    must(is_server || (dash && (strncmp(loop, "memory", 6) == 0 || strncmp(loop, "loopback", 8) == 0)));
    open_ends();
    if (is_server) {
        server_alone(count);
    } else {
        if (loop[0] == 'l') {
            connect_ends();
        }
        both_ends(count, (uint32_t)atoi(dash + 1));
    }
    giop_client_free(&client);
    giop_server_free(&server);
    printf("%llu\n", (unsigned long long)checksum);
    return 0;
}
