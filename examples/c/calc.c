/* The operations of Demo::Calc, and the calls of an end answered by them. */
#include "calc.h"

#include <stdio.h>
#include <string.h>

/* What an operation does: it reads its ins at the front of the values, which are CDR in this machine's byte order,
 * leaves its outs there, and says how many octets these are. The ins are of the interface: libgiop has seen to it. */
struct operation {
    const char *name, *raises; /* the exception that it raises, whose members the outs are then; or NULL */
    size_t (*does)(uint8_t *values, size_t size);
};

static uint32_t little_endian(void) {
    const uint16_t one = 1;
    return *(const uint8_t *)&one;
}

static size_t ping(uint8_t *values, size_t size) {
    (void)values, (void)size;
    return 0;
}

/* The result is the same string. */
static size_t echo(uint8_t *values, size_t size) {
    (void)values;
    return size;
}

static size_t sum_of(uint8_t *values, const uint8_t *items, size_t count) {
    uint32_t total = 0, item;
    for (size_t i = 0; i < count; i++) {
        memcpy(&item, items + 4 * i, 4);
        total += item;
    }
    memcpy(values, &total, 4);
    return 4;
}

static size_t add(uint8_t *values, size_t size) {
    (void)size;
    return sum_of(values, values, 2);
}

/* A sequence is a count, and the items behind it. */
static size_t sum(uint8_t *values, size_t size) {
    return sum_of(values, values + 4, (size - 4) / 4);
}

/* A string is a count, its octets, and a null that is counted. */
static size_t tell(uint8_t *values, size_t size) {
    printf("told: %.*s\n", (int)(size - 5), (const char *)values + 4);
    fflush(stdout);
    return 0;
}

static size_t fail(uint8_t *values, size_t size) {
    const uint32_t code = 7;
    (void)size;
    memcpy(values, &code, 4);
    return 4;
}

static const struct operation OPERATIONS[] = {
    {"ping", NULL, ping}, {"add", NULL, add},   {"echo", NULL, echo},
    {"sum", NULL, sum},   {"tell", NULL, tell}, {"fail", "IDL:Demo/Bad:1.0", fail},
};

static const struct operation *operation_of(const uint8_t *name, size_t size) {
    for (size_t i = 0; i < sizeof OPERATIONS / sizeof *OPERATIONS; i++) {
        if (strlen(OPERATIONS[i].name) == size && memcmp(OPERATIONS[i].name, name, size) == 0) {
            return &OPERATIONS[i];
        }
    }
    return NULL;
}

static void refuse(giop_server *end, uint32_t id, const char *exception) {
    const giop_form form = {4096, little_endian()};
    giop_end_fault fault;
    giop_server_answer_system(end, id, (const uint8_t *)exception, strlen(exception), 0, 1, &form, &fault);
}

static int is_ours(giop_server *end, uint32_t id, const char *key) {
    uint8_t named[256];
    size_t size;
    return giop_server_key(end, id, named, sizeof named, &size) == GIOP_OK && size == strlen(key)
        && memcmp(named, key, size) == 0;
}

/* Does what a Request asks for, and answers it where a reply is expected. */
static void serve(giop_server *end, uint32_t id, const char *key, int expects_reply) {
    static uint8_t values[CALC_MESSAGE + 8];
    const giop_form form = {4096, little_endian()};
    const struct operation *asked = NULL;
    giop_end_fault fault;
    uint8_t name[16];
    size_t size;
    if (giop_server_operation(end, id, name, sizeof name, &size) == GIOP_OK) {
        asked = operation_of(name, size);
    }
    if (!asked) {
        refuse(end, id, "IDL:omg.org/CORBA/BAD_OPERATION:1.0");
    } else if (!is_ours(end, id, key)) {
        refuse(end, id, "IDL:omg.org/CORBA/OBJECT_NOT_EXIST:1.0");
    } else if (giop_server_ins(end, id, form.little_endian, values, sizeof values, &size) != GIOP_OK) {
        refuse(end, id, "IDL:omg.org/CORBA/NO_RESOURCES:1.0");
    } else {
        size = asked->does(values, size);
        if (expects_reply && asked->raises) {
            giop_server_answer_user(end, id, (const uint8_t *)asked->raises, strlen(asked->raises),
                                    form.little_endian, values, size, &form, &fault);
        } else if (expects_reply) {
            giop_server_answer(end, id, form.little_endian, values, size, &form, &fault);
        }
    }
}

/* Answers each call that waits, and takes out those that are over. */
void calc_answer(giop_server *end, const char *key) {
    giop_server_entry entry;
    giop_end_fault fault;
    uint32_t ids[CALC_CALLS]; /* the limit of calls: no id is left out */
    size_t count = 0;
    giop_server_ids(end, ids, CALC_CALLS, &count);
    for (size_t i = 0; i < count; i++) {
        giop_server_entry_of(end, ids[i], &entry);
        if (entry.awaits == 2) {
            giop_server_answer_locate(end, ids[i], 1, little_endian(), &fault);
        } else if (entry.awaits == 1 || entry.kind == GIOP_DELIVERED) {
            serve(end, ids[i], key, entry.awaits == 1);
        }
        while (giop_server_send(end, ids[i], &fault) == GIOP_OK) {
        }
        giop_server_take(end, ids[i], &fault); /* refused where pieces of a Request are still to come */
    }
}
