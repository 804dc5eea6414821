/* The object Demo::Calc of bench/omniorb/demo.idl, as its server calls it. */
#ifndef CALC_H
#define CALC_H

#include <giop.h>

enum { CALC_CALLS = 1024, CALC_MESSAGE = 65536 };

/* Answers each call that waits at an end, and takes out those that are over. The object has this key. The end's
 * limits are at most CALC_CALLS calls, and messages of CALC_MESSAGE octets. */
void calc_answer(giop_server *end, const char *key);

#endif
