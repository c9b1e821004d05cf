/* Plain C as the code under test. */
#include "../tests/calls.h"
#include "../tests/reference/plain.h"

const struct calls subject = CALLS_OF(plain);
