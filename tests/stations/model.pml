/* The protocol, for spin: an office, three stations, and a broker that loses,
 * doubles, reorders, forgets and goes back. What is left out: chunks, records
 * and snapshots, which only decide how a state is fetched; here a station that
 * follows a head has fetched its state, or not yet.
 *
 * A state of the file is a number. A head is what the office said: term, seq and
 * state; `made` keeps each that it ever said, so that a message that is late,
 * doubled or out of order is any of them. The broker keeps one.
 *
 * Asserted whenever a station commits: its state is one that the office had
 * under that number, and its place did not go back. And at every moment: if
 * faults ended now, all copies would become the file (`quiet`).
 *
 * FAULT, for a test of this test:
 *   1  a station takes an older head, too
 *   2  a station commits before what it has is whole
 *   3  an office that was restored goes on in its old line
 *   4  an office that comes back does not look at what the broker has       */
#ifndef FAULT
#define FAULT 0
#endif

#define STATIONS 3
#define MADE 3            /* heads that are made before it is quiet */
#define NEVER 0

byte made_term[8];        /* heads that the office made, in their order */
byte made_seq[8];
byte made_state[8];
byte made = 0;

byte file = 1;            /* the state of the file */
byte changes = 2;         /* what may still happen */
byte crashes = 1;
byte restores = 1;
byte losses = 1;
bool over = false;

byte term = 0, seq = 0, state = NEVER;   /* the office's disk */
byte old_term = 0, old_seq = 0, old_state = NEVER;   /* its backup */
bool ready = false;       /* its process knows what the broker has */

byte retained = 0;        /* the broker's head: its number plus one, or 0 */
byte saved = 0;           /* as it was when it last saved */

byte at_term[STATIONS];   /* the stations' copies */
byte at_seq[STATIONS];
byte at_state[STATIONS];
byte goal[STATIONS];      /* a head's number plus one, or 0 */

byte k, highest;          /* of look_around */
bool ahead;

#define R (retained - 1)
#define beyond(t, s, st) (t > term || (t == term && term > 0 && \
                          (s > seq || (s == seq && st != state))))

/* Does the broker or a station know of more than the office does? */
inline look_around() {
    ahead = false; highest = term; k = 0;
    if
    :: retained > 0 ->
        if :: made_term[R] > highest -> highest = made_term[R] :: else fi;
        if :: beyond(made_term[R], made_seq[R], made_state[R]) -> ahead = true :: else fi
    :: else
    fi;
    do
    :: k < STATIONS ->
        if :: at_term[k] > highest -> highest = at_term[k] :: else fi;
        if :: beyond(at_term[k], at_seq[k], at_state[k]) -> ahead = true :: else fi;
        k++
    :: else -> break
    od;
    if :: FAULT == 3 -> ahead = false :: else fi
}

inline publish() {
    made_term[made] = term; made_seq[made] = seq; made_state[made] = state;
    made++;
    retained = made
}

/* It has a connection, and looks: a line that is behind ends; a head that the
 * broker lost is published again. */
inline come_back() {
    look_around();
    if
    :: ahead || state == NEVER ->
        term = highest + 1; seq = 0; state = file; publish()
    :: else ->
        if
        :: FAULT == 4 -> skip
        :: FAULT != 4 && retained > 0 && made_term[R] == term &&
           made_seq[R] == seq && made_state[R] == state -> skip
        :: else -> publish()
        fi
    fi;
    ready = true
}

/* The file changed: kept first, and published behind that. */
inline keep_state() {
    if :: state != file -> seq++; state = file :: else fi
}

/* A station hears a head, and commits what it follows. */
inline hear(i, h) {
    if
    :: FAULT == 1 || made_term[h] > at_term[i] ||
       (made_term[h] == at_term[i] && made_seq[h] > at_seq[i]) ->
        if
        :: goal[i] == 0 || made_term[goal[i] - 1] < made_term[h] ||
           (made_term[goal[i] - 1] == made_term[h] &&
            made_seq[goal[i] - 1] <= made_seq[h]) -> goal[i] = h + 1
        :: else
        fi
    :: else
    fi
}

inline commit(i) {
    g = goal[i] - 1;
    assert(made_term[g] > at_term[i] ||
           (made_term[g] == at_term[i] && made_seq[g] > at_seq[i]));
    goal[i] = 0;
    at_term[i] = made_term[g]; at_seq[i] = made_seq[g];
    at_state[i] = made_state[g];
    if :: FAULT == 2 -> at_state[i]++ :: else fi;
    g = 0;
    do
    :: made_term[g] == at_term[i] && made_seq[g] == at_seq[i] &&
       made_state[g] == at_state[i] -> break
    :: else -> g++; assert(g < made)
    od;
    g = 0
}

active proctype office() {
    do
    :: d_step { !over && !ready && made < MADE -> come_back() }
    :: d_step { !over && ready && made < MADE && state != file ->
        look_around();
        if :: ahead -> ready = false :: else -> keep_state(); publish() fi }
    /* killed when it has kept a state, and before that is published */
    :: d_step { !over && ready && crashes > 0 && state != file ->
        crashes--; look_around();
        if :: ahead -> skip :: else -> keep_state() fi;
        ready = false }
    :: d_step { !over && restores > 0 && old_term == 0 && state != NEVER ->
        old_term = term; old_seq = seq; old_state = state }
    :: d_step { !over && restores > 0 && old_term > 0 && seq > old_seq ->
        restores--; term = old_term; seq = old_seq; state = old_state;
        file = old_state; ready = false }
    :: over -> break
    od
}

active proctype world() {
    do
    :: d_step { !over && changes > 0 -> changes--; file++ }
    :: d_step { !over && changes > 0 && file > 1 -> changes--; file-- }
    :: d_step { !over && losses > 0 && saved != retained -> saved = retained }
    :: d_step { !over && losses > 0 && retained > 0 ->
        losses--; retained = saved; ready = false }
    :: d_step { !over && losses > 0 && retained > 0 ->
        losses--; retained = 0; ready = false }
    :: over -> break
    od
}

active [STATIONS] proctype station() {
    byte i = _pid - 2, h = 0, g;

    do
    /* the broker's head, or any that ever was */
    :: atomic { !over && retained > 0 -> h = R; hear(i, h); h = 0 }
    :: atomic { !over && made > 0 ->
        h = 0;
        do
        :: h < made - 1 -> h++
        :: break
        od;
        hear(i, h); h = 0 }
    :: d_step { !over && goal[i] > 0 -> commit(i) }
    /* the connection ends: what was not committed is forgotten */
    :: d_step { !over && goal[i] > 0 -> goal[i] = 0 }
    :: over -> break
    od
}

/* Faults end: everybody connects, the office sees its file, each station hears
 * the broker's head until nothing is left to do. */
active proctype quiet() {
    byte i = 0, turn = 0, g;

    d_step {
        !over && made > 0 ->
        over = true;
        goal[0] = 0; goal[1] = 0; goal[2] = 0;
        do
        :: turn < 2 ->
            come_back();
            if
            :: state != file -> keep_state(); publish()
            :: else
            fi;
            i = 0;
            do
            :: i < STATIONS ->
                if :: retained > 0 -> hear(i, R) :: else fi;
                if :: goal[i] > 0 -> commit(i) :: else fi;
                i++
            :: else -> break
            od;
            turn++
        :: else -> break
        od;
        assert(at_state[0] == file && at_state[1] == file && at_state[2] == file)
    }
}
