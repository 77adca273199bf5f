/* The bell of a fleet (crates/mely_bell/src/bell.rt and working.rt), step by step.
 *
 * Each read or write of a word that several threads use is a step of its own, in the order of the
 * code; all are sequentially consistent, as in the code. What a waker does under the mutex of a bed
 * is one step, since nobody else sees a part of it. `rung` says whether the bed's `rings` differ from
 * what its worker read when it lay down.
 *
 * How often a worker hunts before it lies down is left open, and so is how often it looks before its
 * patience ends where not all have begun: so a check holds for every number of looks.
 *
 * What a check is made of:
 *
 *   ROUNDS     how often the workers are let work, each time once all have left; an event is posted
 *              before each round, on the colour START or any
 *   LATE       each worker begins at any time; else all have begun
 *   REFUSED    from this round on, counted from 0, the machine refuses the last worker a thread: it
 *              begins when the first one has left
 *   CREW       a worker that would begin when another has left doesn't, as in `run_crew`: what is left
 *              is run once the fleet is closed
 *   OUTSIDER   so many events are posted from outside in the first round, at any time
 *   UNMARKED   so many events are registered from outside, and nobody pushes their marks
 *   HALTS      a worker may be halted once, for want of memory, when it is about to run
 *   ALONE      no worker has victims
 *   AT_ONCE    a worker leaves in one step, and looks at the words of all chains in one: for checks of
 *              three
 *   FROM_SLEEP the workers from this one on begin asleep, as they are once they have hunted in vain
 *              while a handler runs
 *   PROMPT     a worker is counted as searching as soon as it finds its own chain empty, lies down
 *              after its first hunt in vain, and its patience is a few looks: for checks that are too
 *              large without
 *   PLACES     a worker remembers by itself whether it has just looked at its own chain, as the code
 *              does: else it hunts from its own chain to its own chain
 *
 * Properties:
 *
 *   no end state that isn't one: nobody waits for ever while nobody else can make a step
 *   `quiet`    a worker that answers Quiet leaves nothing behind, where nobody posts from outside
 *   `cause`    a worker gives up because all others wait only once all have begun, where nothing
 *              runs, something is ready, and each mark lies in the chain of a core whose worker has
 *              left, or nowhere
 *   `patient`  with NO_CAUSE nobody gives up at all
 *   `clean`    after a round nobody is counted any more
 *   `again`    what was left behind is run in the next round
 *   `hunted`   with PLACES: a worker waits only when it has looked at each victim since it lay down
 *   `ends`     with ENDS: each run comes to an end, where each thread is run now and then and who
 *              waits for a mutex gets it. With PAIR, where it has none: the event of the third colour
 *              is run, or all leave, and it is run once the fleet is closed
 *
 * Wrong bells, which a check has to find:
 *
 *   FLAG_FIRST      a worker sets `asleep` before it is counted in `sleepers`
 *   NEVER_LAST      a worker waits even where all others do
 *   NEVER_FEWER     who began is counted for ever
 *   NO_NEWS         a worker gives up without regard to news under way
 *   LEAVE_UNTOLD    that a leaving worker wakes the others is no news under way
 *   LEAVE_UNRUNG    a worker leaves and wakes nobody
 *   NO_LAST_HUNT    a worker doesn't hunt between lying down and waiting
 *   NO_LOOK         who takes the count of those that search to 0 looks nowhere afterwards
 *   NO_SECOND_LOOK  who counted one more as searching, and found nobody to wake, doesn't either
 *   HINT_AFTER      what a chain's word says is stored once the caller has told of the mark
 *   UNCOUNTED       who was woken to search isn't counted as searching, though the waker counted it
 *   LEAVE_COUNTED   a worker leaves without giving back that it searches
 *   WOKEN_ALONE     a mark that the owner alone may take wakes nobody while somebody searches
 *   IN_VAIN_ONLY    a worker gives up, or leaves as another has, only where it has hunted in vain, and
 *                   its patience begins anew with each mark that it finds
 *   STALE_HOME      with PLACES: a worker that finds a mark still takes it that its last look was at its
 *                   own chain
 *
 * Another order, of which no check says that it is wrong:
 *
 *   CREW_AFTER      a worker that is about to wait counts itself before it reads how many are at work;
 *                   with two workers it is as good
 */
#include "fleet.pml"

#ifndef ROUNDS
#define ROUNDS 1
#endif

#if C == 2
#define IS_LEFT(c) (stage[c] == Idle || (stage[c] == Ready && (HAS_NO_MARK(c) \
    || (lies[c] != NONE && !is_here[lies[c]]))))
#define IS_STUCK (!ALL_IDLE && IS_LEFT(0) && IS_LEFT(1))
#else
#define IS_LEFT(c) (stage[c] == Idle || (stage[c] == Ready && (HAS_NO_MARK(c) \
    || (lies[c] != NONE && !is_here[lies[c]]))))
#define IS_STUCK (!ALL_IDLE && IS_LEFT(0) && IS_LEFT(1) && IS_LEFT(2))
#endif

/* A bed for each core. */
mtype = { Up, Asleep, Called };
mtype bed[K] = Up;     /* Called: woken to search, and counted as one that does */
bool rung[K];
bool waits[K];
bool held[K];          /* its worker holds the mutex */
#ifdef ENDS
bool wanted[K];        /* somebody else waits for the mutex, and is the next who gets it */
#define WANTS(b) wanted[b] = true
#define HAS(b) wanted[b] = false
#define IS_WANTED(b) wanted[b]
#else
#define WANTS(b) skip
#define HAS(b) skip
#define IS_WANTED(b) false
#endif

byte sleepers;
byte searching;
byte waiting;
byte begun_news;
byte ended_news;
byte begun;            /* both halves of the crew's word change in one step */
byte at_work;
bool has_given_up;
#ifdef HALTS
bool is_stopped;
byte halts = 1;
#endif

/* What only the properties look at. */
bool is_here[K];       /* its worker is at work */
byte began;            /* workers that began in this round */
byte gone;             /* workers that have left in this round */
bool outside_done;
bool first_left;
bool is_one_back;      /* a worker has left */

/* `wake`: as an owner (`as` is Up), or to search (Called). */
inline wake(b, as, did) {
    if
    :: atomic { bed[b] == Asleep -> bed[b] = as; did = true };
        atomic { sleepers--; WANTS(b) };
        atomic {
            !held[b];
            if
            :: waits[b] -> waits[b] = false; waiting--
            :: else
            fi;
            rung[b] = true;
            HAS(b)
        }
    :: atomic { bed[b] != Asleep -> did = false }
    fi
}

/* `ring_all`. */
inline ring_all(v, did) {
    v = 0;
    do
    :: v < K -> wake(v, Up, did); atomic { v++; did = false }
    :: else -> v = 0; break
    od
}

#if K == 2
#define HAS_HINT (hinted[0] || hinted[1])
#else
#define HAS_HINT (hinted[0] || hinted[1] || hinted[2])
#endif

/* `has_spoils`: looks at the word of each chain, one after another. */
inline look(v, did) {
#ifdef AT_ONCE
    did = HAS_HINT
#else
    v = 0;
    did = false;
    do
    :: atomic { v < K && !did -> did = hinted[v]; v++ }
    :: atomic { v == K || did -> v = 0 }; break
    od
#endif
}

/* `call`: sees to it that somebody searches, if somebody sleeps: an owner of a mark for thieves, or
 * else the first. */
inline call(v, did) {
    do
    :: searching > 0 -> break
    :: searching == 0 ->
        if
        :: sleepers == 0 -> break
        :: sleepers > 0
        fi;
        if
        :: searching > 0 -> break
        :: atomic { searching == 0 -> searching = 1 }
        fi;
        v = 0;
        did = false;
        do
        :: atomic { v < K && !did && !hinted[v] -> v++ }
        :: atomic { v < K && !did && hinted[v] -> did = false }; wake(v, Called, did); v++
        :: else -> v = 0; break
        od;
        do
        :: v < K && !did -> wake(v, Called, did); v++
        :: else -> v = 0; break
        od;
        if
        :: did -> did = false; break
        :: else
        fi;
        /* All are up. Others may have relied on this count. */
        if
        :: atomic { searching > 1 -> searching-- }; break
        :: atomic { searching == 1 -> searching = 0 }
        fi;
#ifdef NO_SECOND_LOOK
        break
#else
        look(v, did);
        if
        :: did -> did = false
        :: else -> break
        fi
#endif
    od
}

/* `search_no_more`: a worker found a mark, or has lain down. */
inline search_no_more(v, did) {
    if
    :: atomic { seeks && searching > 1 -> searching--; seeks = false }
    :: atomic { seeks && searching == 1 -> searching = 0; seeks = false };
#ifndef NO_LOOK
        look(v, did);
        if
        :: did -> did = false; call(v, did)
        :: else
        fi
#else
        skip
#endif
    :: !seeks
    fi
}

/* `pushed`; a report that makes a mark worth a steal calls alike. */
inline told(to, by, is_for_thieves, v, did) {
    if
    :: is_for_thieves -> IS_KNOWN(to); call(v, did)
    :: !is_for_thieves && by == to
    :: !is_for_thieves && by != to ->
        if
        :: sleepers == 0
#ifdef WOKEN_ALONE
        :: searching > 0
#endif
        :: sleepers > 0 -> wake(to, Up, did); did = false
        fi
    fi
}

/* `rise`: whoever woke it to search has counted it already. */
inline rise() {
    if
    :: atomic { lain && bed[me] == Asleep -> lain = false; bed[me] = Up }; sleepers--
#ifdef UNCOUNTED
    :: atomic { lain && bed[me] == Called -> lain = false; bed[me] = Up }
#else
    :: atomic { lain && bed[me] == Called -> lain = false; bed[me] = Up; seeks = true }
#endif
    :: atomic { lain && bed[me] == Up -> lain = false }
    :: !lain
    fi
}

#ifdef HINT_AFTER
#define STORES_HINT_AFTER(to, is_worthy) hinted[to] = (hinted[to] || is_worthy)
#else
#define STORES_HINT_AFTER(to, is_worthy) skip
#endif

/* What follows a registration by the caller `by`: a mark is pushed, or a chain is told. */
inline deliver(by, d, to, is_new, is_worthy, other, v, did) {
    if
    :: to != NONE && is_new ->
        count_woken(by);
        push(d, to, is_worthy, other);
        told(to, by, FOR_THIEVES(is_worthy, other, by, to), v, did);
        STORES_HINT_AFTER(to, is_worthy)
    :: to != NONE && !is_new ->
        retell(d, to, is_worthy, other);
        if
        :: other && is_worthy -> IS_KNOWN(to); call(v, did); STORES_HINT_AFTER(to, is_worthy)
        :: else
        fi
    :: else
    fi;
    atomic { d = 0; to = 0; is_new = false; is_worthy = false; other = false }
}

#ifdef HALTS
#define STOP_IF_TOLD if :: is_stopped -> d = 0; c = 0; goto stop :: else fi
#else
#define STOP_IF_TOLD skip
#endif

/* `is_over`: before a hunt a worker leaves where another has given up, and gives up itself where not all
 * have begun and its patience ends. The code looks before each step of a hunt, which is as good, as one
 * that finds nothing changes nothing. */
#if defined(NO_CAUSE) || defined(IN_VAIN_ONLY)
#define LEAVE_IF_OVER skip
#elif !defined(LATE) && !defined(REFUSED)
#define LEAVE_IF_OVER if :: has_given_up -> d = 0; c = 0; goto give_up :: else fi
#elif defined(ENDS) || defined(PROMPT)
#define LEAVE_IF_OVER \
    if :: has_given_up -> d = 0; c = 0; goto give_up :: else fi; \
    if \
    :: atomic { begun < K && patience > 0 -> patience-- } \
    :: begun < K && patience == 0 -> d = 0; c = 0; goto give_up \
    :: begun == K \
    fi
#else
#define LEAVE_IF_OVER \
    if :: has_given_up -> d = 0; c = 0; goto give_up :: else fi; \
    if :: begun < K -> d = 0; c = 0; goto give_up :: true fi
#endif

inline begin(me) {
    atomic { begun++; at_work++; is_here[me] = true; began++ }
}

proctype Worker(byte me) {
    byte c, d, to, v, crew;
    bool lain, has_missed, seeks, did, is_new, is_worthy, other;
    short sum;
#if defined(LATE) || defined(REFUSED)
    byte patience = 2;
#endif
#ifdef PLACES
    byte place, looked;
    bool is_home, is_long;
#endif

#if defined(LATE) || defined(REFUSED)
#ifdef CREW
    if
    :: is_one_back -> goto over
    :: else
    fi;
#endif
    begin(me);
#endif
#ifdef FROM_SLEEP
    if
    :: me >= FROM_SLEEP -> lain = true; goto asleep
    :: else
    fi;
#endif

#ifdef PLACES
free:
    STOP_IF_TOLD;
    LEAVE_IF_OVER;
    if
    :: is_home && is_long -> goto pause
    /* It has waited for a hint for long. */
    :: atomic { place == 0 && !lain && !is_long -> is_long = true };
        if
        :: atomic { !seeks -> searching++; seeks = true }
        :: true
        fi;
        goto free
    :: !(is_home && is_long)
    fi;

hunt:
    if
    :: place == 0 -> pop(c, me)
    :: else -> pick(c, (me + place) % K)
    fi;
    if
    :: c != NONE ->
        atomic {
            is_long = false;
            d = place;
            place = 0;
#ifndef STALE_HOME
            is_home = false
#endif
        };
        rise();
        search_no_more(v, did);
        if
        :: d == 0 -> goto popped
        :: else -> d = 0; goto picked
        fi
    :: atomic {
            c == NONE ->
            c = 0;
            is_home = (place == 0);
            looked = (place > 0 -> looked + 1 : looked);
            place = (place + 1) % K;
            if
            :: is_long = true
#if !defined(ENDS) && !defined(PROMPT)
            :: true
#endif
            fi
        };
        goto free
    fi;
#else
free:
    STOP_IF_TOLD;
    LEAVE_IF_OVER;
    pop(c, me);
    if
    :: c != NONE -> rise(); search_no_more(v, did); has_missed = false; goto popped
    :: c == NONE && has_missed -> c = 0; goto pause
    :: c == NONE && !has_missed -> c = 0; has_missed = true
    fi;
    if
    :: atomic { !seeks && !lain -> searching++; seeks = true }
#if !defined(ENDS) && !defined(PROMPT)
    :: !seeks && !lain
#endif
    :: seeks || lain
    fi;

hunt:
#ifndef ALONE
    d = 1;
    do
    :: d < K ->
        STOP_IF_TOLD;
        pick(c, (me + d) % K);
        if
        :: c != NONE -> d = 0; rise(); search_no_more(v, did); has_missed = false; goto picked
        :: else
        fi;
        d++
    :: else -> d = 0; break
    od;
    c = 0;
#endif
    goto free;
#endif

pause:
    /* A whole hunt has found nothing. */
    add_up(sum, v);
    if
    :: sum == 0 ->
        look_at_shards(other, v);
        if
        :: other ->
            other = false;
#if !defined(OUTSIDER) && !defined(UNMARKED)
            assert(ALL_IDLE);                                       /* quiet */
#endif
            goto leave
        :: else -> goto hunt
        fi
    :: else -> sum = 0
    fi;
    if
#if !defined(ENDS) && !defined(PROMPT)
    :: !lain -> goto hunt
#endif
    :: !lain ->
#ifdef PLACES
        atomic { rung[me] = false; lain = true; looked = 0 };
#else
        atomic { rung[me] = false; lain = true };
#endif
#ifdef FLAG_FIRST
        bed[me] = Asleep;
        sleepers++;
#else
        sleepers++;
        bed[me] = Asleep;
#endif
        search_no_more(v, did);
#ifdef NO_LAST_HUNT
        goto rest
#else
        goto hunt
#endif
    :: lain -> goto rest
    fi;

rest:
#ifdef IN_VAIN_ONLY
    if
    :: has_given_up -> goto give_up
    :: else
    fi;
    if
    :: begun < K ->
        if
#if !defined(ENDS) && !defined(PROMPT)
        :: goto hunt
#endif
        :: goto give_up
        fi
    :: else
    fi;
#else
    if
    :: begun < K -> goto hunt
    :: else
    fi;
#endif
#ifndef CREW_AFTER
    crew = at_work;
#endif
    to = ended_news;
    if
    :: atomic { rung[me] -> crew = 0; to = 0 }; goto rise_again
    :: atomic {
            !rung[me] && !IS_WANTED(me) ->
#ifdef PLACES
            assert(looked >= K - 1);                                /* hunted */
            looked = 0;
#endif
            held[me] = true; waits[me] = true; waiting++; v = waiting;
            other = IS_STUCK && began == K
        }
    fi;
#ifdef CREW_AFTER
    crew = at_work;
#endif
    if
#ifdef NEVER_LAST
    :: true ->
#else
    :: v < crew ->
#endif
        atomic { held[me] = false; other = false; crew = 0; to = 0; v = 0 };
asleep:
        rung[me];
        goto rise_again
#ifndef NEVER_LAST
    :: v >= crew ->
        atomic { waits[me] = false; waiting--; held[me] = false; crew = 0; v = 0 };
        if
#ifdef NO_NEWS
        :: true ->
#else
        :: begun_news == to ->
#endif
            assert(other);                                          /* cause */
            atomic { other = false; to = 0 };
            goto give_up
#ifndef NO_NEWS
        :: begun_news != to -> atomic { other = false; to = 0 }; goto hunt
#endif
        fi
#endif
    fi;

rise_again:
    rise();
#ifdef PLACES
    is_home = false;
    is_long = false;
#endif
    has_missed = false;
    goto free;

picked:
    steal(c, me, is_worthy);
    push(c, me, is_worthy, other);
    told(me, me, FOR_THIEVES(is_worthy, other, me, me), v, did);
    STORES_HINT_AFTER(me, is_worthy);
    atomic { is_worthy = false; other = false; c = 0 };
    goto free;

popped:
#ifdef HALTS
    if
    :: atomic { halts > 0 -> halts-- };
        /* Its take is refused: it puts back the mark in its hand. */
        push(c, me, c >= PINNED, other);
        told(me, me, FOR_THIEVES(c >= PINNED, other, me, me), v, did);
        atomic { other = false; c = 0 };
        goto stop
    :: true
    fi;
#endif
    take(c, me);
#ifdef PAIR
    /* The first two put each other, and one of them the third once. */
    if
    :: atomic { c < 2 -> d = 1 - c; register(d, to, is_new, is_worthy) };
        deliver(me, d, to, is_new, is_worthy, other, v, did);
        if
        :: atomic { c == 1 && puts > 0 -> puts = 0; d = 2; register(d, to, is_new, is_worthy) };
            deliver(me, d, to, is_new, is_worthy, other, v, did)
        :: else
        fi
    :: else -> is_served = true
    fi;
#else
    do
    :: atomic { puts > 0 -> puts--; choose(d); register(d, to, is_new, is_worthy) };
        deliver(me, d, to, is_new, is_worthy, other, v, did)
    :: break
    od;
#endif
#ifdef LONG
    if
    :: c < PINNED -> !IS_GOOD || at_work == 1   /* nobody is left to come for them */
    :: else
    fi;
#endif
    finish(c, is_new, is_worthy);
    if
    :: is_new ->
        push(c, me, is_worthy, other);
        told(me, me, FOR_THIEVES(is_worthy, other, me, me), v, did);
        STORES_HINT_AFTER(me, is_worthy)
    :: else ->
        count_idled(me);
        if
        :: sleepers == 0
        :: else ->
            add_up(sum, v);
            if
            :: sum == 0 -> ring_all(v, did)
            :: else -> sum = 0
            fi
        fi
    fi;
    atomic { is_new = false; is_worthy = false; other = false; c = 0 };
    goto free;

#ifdef HALTS
stop:
    is_stopped = true;
    goto leave;
#endif

give_up:
#ifdef NO_CAUSE
    assert(false);                                                  /* patient */
#endif
    has_given_up = true;

leave:
#ifdef AT_ONCE
    atomic {
#endif
    rise();
#ifndef LEAVE_COUNTED
    if
    :: atomic { seeks -> searching--; seeks = false }
    :: !seeks
    fi;
#endif
#ifndef LEAVE_UNTOLD
    begun_news++;
#endif
#ifdef NEVER_FEWER
    atomic { at_work--; is_here[me] = false };
#else
    atomic { at_work--; is_here[me] = false; other = (at_work == 0); crew = begun };
    if
    :: other ->
        atomic {
            other = (at_work == 0 && begun == crew);
            if
            :: other -> begun = 0
            :: else
            fi
        };
        if
        :: other -> has_given_up = false
        :: else
        fi
    :: else
    fi;
#endif
#ifndef LEAVE_UNRUNG
    ring_all(v, did);
#endif
#ifndef LEAVE_UNTOLD
    ended_news++;
#endif
#ifdef AT_ONCE
    }
#endif
#if defined(CREW) && (defined(LATE) || defined(REFUSED))
over:
#endif
    atomic {
        if :: me == 0 -> first_left = true :: else fi;
        is_one_back = true; gone++; c = 0; other = false; crew = 0
    }
}

#if defined(OUTSIDER) || defined(UNMARKED)
proctype Outsider() {
    byte d, to, v, n;
    bool did, is_new, is_worthy, other;
#ifdef UNMARKED
    n = UNMARKED;
    do
    :: atomic {
            n > 0 -> n--; any_colour(d); register(d, to, is_new, is_worthy);
            if
            :: to != NONE && is_new -> unmarked[d] = true
            :: else -> is_new = false
            fi
        };
        if
        :: is_new -> count_woken(K)
        :: else
        fi;
        atomic { d = 0; to = 0; is_new = false; is_worthy = false }
    :: n == 0 -> break
    od;
#endif
#ifdef OUTSIDER
    n = OUTSIDER;
    do
    :: n > 0 ->
        atomic { n--; begun_news++ };
        atomic { any_colour(d); register(d, to, is_new, is_worthy) };
        deliver(K, d, to, is_new, is_worthy, other, v, did);
        ended_news++
    :: n == 0 -> break
    od;
#endif
    outside_done = true
}
#endif

init {
    byte d, to, v, round;
    bool is_new, is_worthy, other;
    atomic {
        v = 0;
        do
        :: v < C -> owner[v] = v % OWNERS; v++
        :: else -> v = 0; break
        od;
#ifdef PAIR
        if
        :: owner[2] = 0
        :: owner[2] = 1
        fi
#endif
    }
    do
    :: round < ROUNDS ->
        atomic {
#ifdef START
            d = START;
#else
            any_colour(d);
#endif
            register(d, to, is_new, is_worthy);
            if
            :: to != NONE && is_new -> count_woken(K); push(d, to, is_worthy, other)
            :: else
            fi;
            d = 0; to = 0; is_new = false; is_worthy = false; other = false;
            gone = 0;
            began = 0;
            first_left = false;
            is_one_back = false;
            v = 0;
            do
            :: v < K ->
#if !defined(LATE) && !defined(REFUSED)
                begin(v);
#endif
#ifdef FROM_SLEEP
                if
                :: v >= FROM_SLEEP -> bed[v] = Asleep; sleepers++; waits[v] = true; waiting++
                :: else
                fi;
#endif
                v++
            :: else -> v = 0; break
            od;
            do
            :: v < K - 1 -> run Worker(v); v++
            :: else -> v = 0; break
            od;
#if defined(OUTSIDER) || defined(UNMARKED)
            if
            :: round == 0 -> run Outsider()
            :: else
            fi
#endif
        }
#ifdef REFUSED
        if
        :: round >= REFUSED -> first_left
        :: else
        fi;
#endif
        atomic { run Worker(K - 1) };
        gone == K;
#if defined(OUTSIDER) || defined(UNMARKED)
        outside_done;
#endif
        atomic {
            assert(at_work == 0 && waiting == 0 && sleepers == 0);  /* clean */
            assert(searching == 0);                                 /* clean */
#ifndef NEVER_FEWER
            assert(begun == 0 && !has_given_up);                    /* clean */
#endif
            v = 0;
            do
            :: v < K -> assert(bed[v] == Up && !waits[v] && !held[v]); v++
            :: else -> v = 0; break
            od
        };
#if !defined(UNMARKED) && !defined(LATE) && !defined(REFUSED) && !defined(HALTS)
#if defined(OUTSIDER)
        if
        :: round > 0 -> assert(ALL_IDLE)                            /* again */
        :: else
        fi;
#else
        assert(ALL_IDLE);                                           /* again */
#endif
#endif
        round++
    :: else -> break
    od
}

#ifdef PAIR
ltl ends { <> (is_served || gone == K) }
#elif defined(ENDS)
ltl ends { <> (gone == K) }
#endif
