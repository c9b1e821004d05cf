/* The two descriptors over which a process gets the turn and gives it back. */
#ifndef TURN_H
#define TURN_H

enum { TURN_IN = 30, TURN_OUT = 31 };

#endif
