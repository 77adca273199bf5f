/* Colours, shards and chains of a fleet, as far as the bell depends on them.
 *
 * A call on a shard or on a chain is made behind its lock, so it is one step here. A chain is a set
 * of marks: which of them is popped or picked first is left open. Each colour has a shard of its
 * own, and a turn takes one event.
 *
 *   K         workers, one for each core
 *   C         colours, 2 or 3; colour c begins on core c % OWNERS (K, if it isn't said)
 *   PINNED    the colours below this one are never stolen
 *   WORTH     from how many queued events on a colour is worth a steal
 *   EVENTS    how many events all handlers together may register, on any colours in any order
 *   IN_TURN   these go to the colours IN_TURN + EVENTS - 1, .., IN_TURN, in this order
 *   COARSE    a bed's counts are added up, and the shards looked at, in one step
 *   LONG      the handler of a pinned colour goes on until in no chain lies a mark that thieves may
 *             have, where they were told of one there, or all other workers have left: it ends only if
 *             somebody comes to help
 *   PAIR      the handlers of the first two colours register an event on each other for ever, and that
 *             of the second one on the third colour, once; the third colour is popped first, as
 *             others come behind it
 *   ENDS      for the property `ends`: a colour that was stolen isn't stolen again before it ran, as
 *             two thieves could pass it to and fro for ever
 */
#ifndef K
#define K 2
#endif
#ifndef OWNERS
#define OWNERS K
#endif
#ifndef C
#define C 2
#endif
#ifndef PINNED
#define PINNED 1
#endif
#ifndef WORTH
#define WORTH 1
#endif
#ifndef EVENTS
#define EVENTS 2
#endif

#define NONE 15

mtype = { Idle, Ready, Runs };

mtype stage[C] = Idle;
byte queued[C];        /* events that wait */
byte owner[C];
byte lies[C] = NONE;   /* the core in whose chain the mark lies */
bool good[C];          /* whether the mark says there that it is worth a steal */
bool hinted[K];        /* the chain's word: it may have a mark that is worth a steal */
byte puts = EVENTS;    /* events that handlers may still register */
#ifdef PAIR
bool is_served;        /* the event of the third colour was run */
#endif
#ifdef LONG
bool known[K];         /* thieves were told of a mark in this chain, and there still is one for them */
#endif
#ifdef UNMARKED
bool unmarked[C];      /* the colour was made ready by a caller that pushes no mark */
#define HAS_NO_MARK(c) unmarked[c]
#else
#define HAS_NO_MARK(c) false
#endif

/* How many colours were made ready, and how many left idle: each caller counts in a bed of its own.
 * With COARSE their difference. */
#ifdef COARSE
byte busy;
#define count_woken(by) busy++
#define count_idled(by) busy--
#else
byte woken[K + 1];
byte idled[K + 1];
#define count_woken(by) woken[by]++
#define count_idled(by) idled[by]++
#endif

#if C == 2
#define OTHERS_IN(k) (lies[0] == (k) || lies[1] == (k))
#define ALL_IDLE (stage[0] == Idle && stage[1] == Idle)
#define HAS_GOOD(k) ((lies[0] == (k) && good[0]) || (lies[1] == (k) && good[1]))
#else
#define OTHERS_IN(k) (lies[0] == (k) || lies[1] == (k) || lies[2] == (k))
#define ALL_IDLE (stage[0] == Idle && stage[1] == Idle && stage[2] == Idle)
#define HAS_GOOD(k) ((lies[0] == (k) && good[0]) || (lies[1] == (k) && good[1]) \
    || (lies[2] == (k) && good[2]))
#endif
#if K == 2
#define IS_GOOD (known[0] || known[1])
#else
#define IS_GOOD (known[0] || known[1] || known[2])
#endif

/* Whether thieves are told of a mark: an owner that pushes it alone takes it next, or once its batch is
 * run. */
#define FOR_THIEVES(is_worthy, is_crowded, by, to) (is_worthy && (is_crowded || by != to))

/* For LONG alone: thieves are told of a chain, or a mark was taken from it. */
#ifdef LONG
#define IS_KNOWN(to) known[to] = HAS_GOOD(to)
#define IS_LESS(from) known[from] = (known[from] && HAS_GOOD(from))
#else
#define IS_KNOWN(to) skip
#define IS_LESS(from) skip
#endif

/* What a chain's word says is stored behind the lock, so in the same step as the change: that there
 * may be a mark for thieves, where one came in or became worth it; that there is none, where a thief
 * found none or the chain is empty. */
#ifdef HINT_AFTER
#define STORES_HINT(to, is_worthy) skip
#else
#define STORES_HINT(to, is_worthy) hinted[to] = (hinted[to] || is_worthy)
#endif

inline any_colour(d) {
    if
    :: d = 0
    :: d = 1
#if C > 2
    :: d = 2
#endif
    fi
}

/* The colour of the next event that a handler registers. */
inline choose(d) {
#ifdef IN_TURN
    d = puts + IN_TURN
#else
    any_colour(d)
#endif
}

/* `register`: `to` is the core whose chain is told, or NONE; `is_new` asks for a mark, else for a
 * report. */
inline register(d, to, is_new, is_worthy) {
    queued[d]++;
    is_worthy = (d >= PINNED && queued[d] >= WORTH);
    if
    :: stage[d] == Idle -> stage[d] = Ready; is_new = true; to = owner[d]
    :: stage[d] == Ready -> is_new = false; to = owner[d]
    :: stage[d] == Runs -> is_new = false; to = NONE
    fi
}

/* `push`; whether the chain has other marks is answered beside. */
inline push(d, to, is_worthy, is_crowded) {
    atomic {
        assert(lies[d] == NONE);
        is_crowded = OTHERS_IN(to);
        lies[d] = to;
        good[d] = is_worthy;
        STORES_HINT(to, is_worthy)
    }
}

/* `retell`; whether the mark was found there. */
inline retell(d, to, is_worthy, is_found) {
    atomic {
        is_found = (lies[d] == to);
        if
        :: is_found -> good[d] = is_worthy; STORES_HINT(to, is_worthy)
        :: else
        fi
    }
}

/* `pop`: any mark of a chain, or NONE. */
inline pop(c, from) {
    atomic {
        if
#ifdef PAIR
        :: lies[2] == from -> c = 2; lies[2] = NONE; good[2] = false
        :: lies[0] == from && lies[2] != from -> c = 0; lies[0] = NONE; good[0] = false
        :: lies[1] == from && lies[2] != from -> c = 1; lies[1] = NONE; good[1] = false
#else
        :: lies[0] == from -> c = 0; lies[0] = NONE; good[0] = false
        :: lies[1] == from -> c = 1; lies[1] = NONE; good[1] = false
#if C > 2
        :: lies[2] == from -> c = 2; lies[2] = NONE; good[2] = false
#endif
#endif
        :: else -> c = NONE
        fi;
        hinted[from] = (hinted[from] && OTHERS_IN(from));
        IS_LESS(from)
    }
}

/* `pick`: any mark of a chain that is worth a steal, or NONE. */
inline pick(c, from) {
    atomic {
        if
        :: lies[0] == from && good[0] -> c = 0; lies[0] = NONE; good[0] = false
        :: lies[1] == from && good[1] -> c = 1; lies[1] = NONE; good[1] = false
#if C > 2
        :: lies[2] == from && good[2] -> c = 2; lies[2] = NONE; good[2] = false
#endif
        :: else -> c = NONE; hinted[from] = false
        fi;
        hinted[from] = (hinted[from] && OTHERS_IN(from));
        IS_LESS(from)
    }
}

/* `take`, `steal` and `finish` aren't refused. */
inline take(c, by) {
    atomic {
        assert(owner[c] == by && stage[c] == Ready && queued[c] > 0);
        queued[c]--;
        stage[c] = Runs
    }
}

inline steal(c, by, is_worthy) {
    atomic {
        assert(owner[c] != by && stage[c] == Ready && c >= PINNED);
        owner[c] = by;
#ifdef ENDS
        is_worthy = false
#else
        is_worthy = (queued[c] >= WORTH)
#endif
    }
}

inline finish(c, is_more, is_worthy) {
    atomic {
        is_more = queued[c] > 0;
        is_worthy = (c >= PINNED && queued[c] >= WORTH);
        stage[c] = (is_more -> Ready : Idle)
    }
}

/* `is_idle`: adds up what was left idle, then what was made ready, bed by bed; equal where `sum` is
 * 0. `are_drained`: looks at each shard until one isn't. */
#ifdef COARSE
inline add_up(sum, v) {
    sum = busy
}

inline look_at_shards(is_drained, v) {
    is_drained = ALL_IDLE
}
#else
inline add_up(sum, v) {
    sum = 0;
    v = 0;
    do
    :: atomic { v <= K -> sum = sum + idled[v]; v++ }
    :: atomic { v > K -> v = 0 } -> break
    od;
    do
    :: atomic { v <= K -> sum = sum - woken[v]; v++ }
    :: atomic { v > K -> v = 0 } -> break
    od
}

inline look_at_shards(is_drained, v) {
    is_drained = true;
    v = 0;
    do
    :: atomic { v < C && is_drained -> is_drained = (stage[v] == Idle); v++ }
    :: atomic { v >= C || !is_drained -> v = 0 } -> break
    od
}
#endif
