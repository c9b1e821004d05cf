/* Tuned C as the code under test. */
#include "../tests/calls.h"
#include "../tests/reference/tuned.h"

const struct calls subject = CALLS_OF(tuned);
