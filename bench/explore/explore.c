// Runs a crew under one order of its atomic steps after another: see README.md.
//
// One thread runs at a time, on a stack of its own, and each atomic instruction, wait, wake, thread that is
// made or joined asks here who is next. `crew.h` names the places.
#define _GNU_SOURCE
#include <errno.h>
#include <signal.h>
#include <stdint.h>
#include <stdio.h>
#include <stdlib.h>
#include <string.h>
#include <sys/mman.h>
#include <time.h>
#include <unistd.h>
#include "crew.h"

typedef uint64_t u64;
typedef uint32_t u32;
typedef uint8_t u8;

enum { THREADS = 8, STACK = 1 << 17, HEAP = 1 << 20, DEPTH = 1 << 16 };
enum { FREE, READY, WAITS, JOINS, HOLDS, DONE };
enum { LOAD, STORE, CHANGE, EXCHANGE, FUTEX, THREAD };
enum { FINE, LATE, HANG, LONG, CAUSE, CLEAN, STATUS, CRASH, SPIN, WASTE, DEAF, CUT };
static const char *const verdicts[] = {"fine", "late", "hang", "long", "cause", "clean", "status", "crash", "spin", "waste", "deaf", "cut"};

// ---- threads

struct thread {
  void *at;        // the stack pointer while another runs
  u8 *top, *heap;  // the end of its stack, and where its memory begins
  u64 used, asks;  // how much of that it has taken, and how often it asked
  void *(*start)(void *);
  void *given;
  void *place;     // the word that it waits on or is about to use
  u64 count;       // what that word has to reach while it holds, or the number of a thread that it joins
  int state, site, kind, core, error, at_work, suspect, unmanned, set_aside, is_hit, runs;
  u64 since;       // steps since it last gave way
};

static struct thread threads[THREADS];
static int made, now;
static u8 *memory;
u32 explore_site, explore_wrong;
static void *host;              // the stack of main
extern int crew_main(void);

void explore_switch(void **from, void *to);
__asm__(".globl explore_switch\nexplore_switch:\n"
        " push %rbp\n push %rbx\n push %r12\n push %r13\n push %r14\n push %r15\n"
        " mov %rsp, (%rdi)\n mov %rsi, %rsp\n"
        " pop %r15\n pop %r14\n pop %r13\n pop %r12\n pop %rbx\n pop %rbp\n ret\n");

// ---- what is asked for

static int by_priority, by_turns, bound = 2, priorities = 3, first_only = 1, traces, quiet_spins, no_waste, thorough;
static int may_stop, may_memory, may_leave, refused = -1;
static long fails_at = -1;
static double most_seconds = 60;
static u64 most_runs = ~0ull, most_steps = 200000, slice = 400, seed0 = 1;
static char **words;
static int word_count;
static const char *replayed;

// ---- one run

static u64 steps, switches, asked;
static int spent;               // preemptions so far
static int verdict, status, was_late, is_stopped;
static u64 futex_waits, futex_wakes;
static u64 rng, changes[16], longest = 500;
static long priority[THREADS], lowest;
static u8 *bell;                // of the crew
static u64 word(long at) { return *(u64 *)(bell + at); }

struct choice {
  u8 taken, count;
  u8 who[THREADS];
  u8 cost[THREADS];
  u32 step;
};
static struct choice path[DEPTH];
static int depth, known;        // how many choices this run met, and how many of them are given

static u32 draw(void) {
  rng = rng * 6364136223846793005ull + 1442695040888963407ull;
  return rng >> 33;
}

static void finish(int what) __attribute__((noreturn));
static void finish(int what) {
  void *left;
  verdict = what;
  explore_switch(&left, host);
  __builtin_unreachable();
}

static struct { u64 runs, steps, spins, asked, stopped, found[CUT + 1]; int most; } sum;

// ---- the places in the sources

enum { OF_CREW = 1, HOLDING = 2, GIVES_UP = 4, LEAVING = 8, RUNNING = 16, STOPPING = 32, WAKING = 64 };
static u8 marks[sizeof site_names / sizeof *site_names];

static void mark_sites(void) {
  for (u32 i = 0; i < sizeof marks; i++) {
    const char *name = site_names[i];
    if (!strncmp(name, "crew: ", 6)) marks[i] |= strstr(name, "hold_until") ? HOLDING : OF_CREW;
    if (!strncmp(name, "crew: ", 6) && strstr(name, "::run fetch_add")) marks[i] |= RUNNING;
    if (!strncmp(name, "Ticketed::wake_one load", 23)) marks[i] |= WAKING;
    if (!strncmp(name, "Bell::stop", 10)) marks[i] |= STOPPING;
    if (!strncmp(name, "Bell::give_up", 13)) marks[i] |= GIVES_UP;
    if (!strncmp(name, "Bell::leave", 11)) marks[i] |= LEAVING;
  }
}

// ---- who is next

static int is_able(const struct thread *t) {
  if (t->state != HOLDS) return t->state == READY;
  if (t->count != ~0ull) return *(u64 *)t->place >= t->count;
  for (int i = 0; i < made; i++) {
    const struct thread *o = &threads[i];
    if (o != t && (o->state == READY || (o->state == HOLDS && o->count != ~0ull && is_able(o)))) return 0;
  }
  return 1;
}

static void trace(const struct thread *t, const char *what) {
  static const char *const kinds[] = {"load", "store", "change", "exchange", "futex", "thread"};
  char word[40] = "";
  if (bell && t->place) {
    long at = (u8 *)t->place - bell;
    static const struct { long at; const char *name; } names[] = {
        {Bell_stopped, "stopped"}, {Bell_crew, "crew"}, {Bell_has_given_up, "has_given_up"}, {Bell_begun_news, "begun_news"},
        {Bell_ended_news, "ended_news"}, {Bell_searching, "searching"}, {Bell_sleepers, "sleepers"}, {Bell_waiting, "waiting"}};
    for (u32 i = 0; i < sizeof names / sizeof *names; i++)
      if (names[i].at == at) snprintf(word, sizeof word, " %s", names[i].name);
    for (int bed = 0; bed < THREADS && !*word; bed++) {
      long in = (u8 *)t->place - (*(u8 **)(bell + Bell_beds) + bed * Bed_size);
      if (in < 0 || in >= Bed_size || bed >= *(long *)(bell + Bell_beds + 8)) continue;
      snprintf(word, sizeof word, " bed %d+%ld", bed, in);
    }
  }
  fprintf(stderr, "%6lu  thread %ld core %2d  %-34s %-8s%s = %ld %s\n", steps, t - threads, t->core, site_names[t->site],
          kinds[t->kind], word, t->place && t->kind < THREAD ? *(long *)t->place : 0, what);
}

static void go_to(int who) {
  if (who == now) return;
  struct thread *from = &threads[now];
  now = who;
  switches++;
  threads[who].since = 0;
  if (threads[who].state == HOLDS) threads[who].state = READY;
  explore_switch(&from->at, threads[who].at);
}

// Adds those who could be next, from `first` on, each at this cost.
static void offer(struct choice *c, int first, int cost) {
  for (int k = 0; k < made; k++) {
    int who = (first + k) % made, there = 0;
    for (int i = 0; i < c->count; i++) there |= c->who[i] == who;
    if (there || !is_able(&threads[who]) || spent + cost > bound) continue;
    c->who[c->count] = who;
    c->cost[c->count++] = cost;
  }
}

static int replay_of(int at);

static int choose(struct choice *c) {
  if (c->count == 1) return c->who[0];
  if (depth == DEPTH) finish(LONG);
  c->step = steps;
  if (replayed) {
    c->taken = replay_of(depth);
    if (c->taken >= c->count) c->taken = 0;
    path[depth] = *c;
  } else if (depth < known) {
    if (path[depth].count != c->count || path[depth].step != c->step) {
      fprintf(stderr, "explore: a run that isn't determined by its choices, at step %lu\n", steps);
      exit(2);
    }
    c->taken = path[depth].taken;
  } else {
    path[depth] = *c;
  }
  depth++;
  spent += c->cost[c->taken];
  return c->who[c->taken];
}

static int by_rank(int gives_way) {
  if (gives_way) priority[now] = --lowest;
  int best = -1;
  for (int i = 0; i < made; i++)
    if (is_able(&threads[i]) && (best < 0 || priority[i] > priority[best])) best = i;
  return best;
}

// The thread goes on, or another does; `gives_way` where it yields or has run for long.
static void decide(int gives_way) {
  struct thread *me = &threads[now];
  int next, able = is_able(me);
  if (by_priority) {
    for (int i = 0; i < priorities - 1; i++)
      if (steps == changes[i]) priority[now] = --lowest;
    next = by_rank(gives_way);
  } else if (by_turns) {
    next = -1;
    for (int k = 1; k <= made && next < 0; k++)
      if (is_able(&threads[(now + k) % made])) next = (now + k) % made;
  } else {
    struct choice c = {0};
    if (able && !gives_way) {
      offer(&c, now, 0);
      c.count = 1;
      c.who[0] = now;
      if (spent < bound) offer(&c, now + 1, 1);
    } else if (able) {
      // Whoever yields lets the next one run, where there is one; others, and itself, cost.
      offer(&c, now + 1, 0);
      if (c.count) {
        c.count = 1;
        if (spent < bound && gives_way == 1) offer(&c, now + 1, 1);
      }
    } else {
      offer(&c, now + 1, 0);
    }
    next = c.count ? choose(&c) : -1;
    me->set_aside = able && !gives_way && next != now && me->kind < FUTEX && me->state == READY && !thorough;
    me->is_hit = 0;
  }
  if (next < 0) {
    for (int i = 0; i < made; i++)
      if (threads[i].state == WAITS || threads[i].state == JOINS || threads[i].state == HOLDS) finish(HANG);
    finish(FINE);
  }
  go_to(next);
  // What others did meanwhile has nothing to do with the step that this one is about to make: the same run comes
  // again where it is set aside after that step, and so on until one has.
  if (me->set_aside && !me->is_hit) finish(CUT);
  me->set_aside = 0;
}

// Whoever was set aside before a step on this place has to make it now, as it isn't the same before and afterwards.
static void hit(const struct thread *me, const void *place, int kind) {
  for (int i = 0; i < made; i++) {
    struct thread *t = &threads[i];
    if (t != me && t->set_aside && t->place == place && (kind != LOAD || t->kind != LOAD)) t->is_hit = 1;
  }
}

static struct thread *enter(void *place, int kind) {
  struct thread *me = &threads[now];
  me->place = place;
  me->kind = kind;
  me->site = explore_site;
  steps++;
  me->since++;
  if (steps > most_steps) finish(LONG);
  return me;
}

static int is_alone(void) {
  int live = 0;
  for (int i = 0; i < made; i++) live += threads[i].state != DONE;
  return live == 1;
}

// ---- what the crew calls


// A worker that gives up since all others wait does so where no mark lies in the chain of one at work.
static void look_at_cause(struct thread *me, u8 *place, int kind) {
  if (place == bell + Bell_has_given_up) {
    if (kind == LOAD) me->suspect = 0;
    if (kind != LOAD && marks[me->site] & GIVES_UP) {
      if (me->suspect) finish(CAUSE);
      // That another's thread had not begun is a reason too.
      was_late |= me->unmanned;
    }
  }
  if (place == bell + Bell_crew && kind == LOAD)
    me->unmanned = word(Bell_crew) >> 32 < *(u64 *)(bell + Bell_beds + 8) - 1;
  if (place != bell + Bell_begun_news || kind != LOAD) return;
  me->suspect = 0;
  u8 *hints = *(u8 **)(bell + Bell_hints);
  for (int i = 0; i < made; i++)
    if (threads[i].at_work && threads[i].core >= 0 && *(u64 *)(hints + 256 * threads[i].core)) me->suspect = 1;
}

void explore_step(u8 *place, int kind) {
  if (marks[explore_site] & OF_CREW) {
    // Once a worker has told all to stop, another runs what it has in its hand, and one turn more.
    if (marks[explore_site] & RUNNING && is_stopped && ++threads[now].runs > 2 * atol(words[2])) finish(DEAF);
    return;
  }
  struct thread *me = enter(place, kind);
  int mine = me->site;
  if (marks[mine] & HOLDING) {
    me->state = HOLDS;     // which also says that this isn't a step to be set aside before
    decide(0);
    me->state = READY;
  } else if (me->since > slice) {
    sum.spins++;
    if (quiet_spins) finish(SPIN);
    me->since = 0;
    decide(2);
  } else {
    decide(0);
  }
  if (traces) trace(me, "");
  hit(me, place, kind);
  is_stopped |= marks[mine] & STOPPING;
  if (no_waste && marks[mine] & WAKING && *(u32 *)place && is_alone()) finish(WASTE);
  explore_site = mine;
  if (bell) {
    look_at_cause(me, place, kind);
    if (place == bell + Bell_crew && kind == CHANGE) me->at_work = !(marks[mine] & LEAVING);
  }
}

void explore_hold(void *script, u64 count) {
  (void)script;
  threads[now].count = count;
}

void explore_core(u8 *of, uint16_t core) {
  bell = of;
  threads[now].core = core;
  threads[now].at_work = 1;
}

// A round is over: nobody is counted any more.
void explore_round(void *script) {
  (void)script;
  if (!bell) return;
  u64 counted = word(Bell_searching) | word(Bell_sleepers) | word(Bell_waiting) | word(Bell_crew) | word(Bell_has_given_up);
  u8 *beds = *(u8 **)(bell + Bell_beds);
  for (long i = 0; i < *(long *)(bell + Bell_beds + 8) && i < THREADS; i++)
    counted |= *(u64 *)(beds + i * Bed_size + Bed_worker) | *(u64 *)(beds + i * Bed_size + Bed_waits);
  if (word(Bell_begun_news) != word(Bell_ended_news)) counted = 1;
  if (counted) finish(CLEAN);
}

long explore_syscall(long number, void *place, long op, long value, void *time) {
  struct thread *me = enter(place, FUTEX);
  int mine = me->site;
  (void)time;
  if (number != 202) finish(CRASH);
  decide(0);
  explore_site = mine;
  if (traces) trace(me, (op & 127) == 1 ? "wake" : "wait");
  if ((op & 127) == 1) {
    long woken = 0;
    futex_wakes++;
    for (int i = 0; i < made && woken < value; i++)
      if (threads[i].state == WAITS && threads[i].place == place) {
        threads[i].state = READY;
        woken++;
      }
    return woken;
  }
  futex_waits++;
  hit(me, place, LOAD);
  if (*(volatile u32 *)place != (u32)value) {
    me->error = EAGAIN;
    return -1;
  }
  me->state = WAITS;
  decide(0);
  explore_site = mine;
  return 0;
}

int explore_sched_yield(void) {
  struct thread *me = enter(0, THREAD);
  int mine = me->site;
  decide(1);
  explore_site = mine;
  return 0;
}

static void begin_thread(void) {
  struct thread *me = &threads[now];
  me->start(me->given);
  me->state = DONE;
  for (int i = 0; i < made; i++)
    if (threads[i].state == JOINS && threads[i].count == (u64)now) threads[i].state = READY;
  decide(0);
  __builtin_unreachable();
}

static void begin_main(void) {
  status = crew_main();
  finish(FINE);
}

static struct thread *add(void (*first)(void)) {
  struct thread *t = &threads[made];
  u8 *base = memory + (u64)made * (STACK + HEAP);
  memset(t, 0, sizeof *t);
  t->heap = base + STACK;
  t->top = base + STACK - 64;
  t->core = -1;
  t->state = READY;
  memset(base + STACK - 16384, 0, 16384);
  u64 *at = (u64 *)t->top;
  *--at = 0;
  *--at = (u64)first;
  at -= 6;
  t->at = at;
  priority[made] = 1000000 + (by_priority ? draw() % 1000000 : 0);
  made++;
  return t;
}

int explore_pthread_create(u64 *to, void *attributes, void *(*start)(void *), void *given) {
  struct thread *me = enter(0, THREAD);
  int mine = me->site;
  (void)attributes;
  if (refused-- == 0) return EAGAIN;
  if (made == THREADS) finish(CRASH);
  *to = made;
  struct thread *t = add(begin_thread);
  t->start = start;
  t->given = given;
  decide(0);
  explore_site = mine;
  return 0;
}

int explore_pthread_join(u64 who, void **result) {
  struct thread *me = enter(0, THREAD);
  if (threads[who].state != DONE) {
    me->state = JOINS;
    me->count = who;
  }
  decide(0);
  explore_site = 0;
  if (result) *result = 0;
  return 0;
}

int explore_pthread_detach(u64 who) { (void)who; return 0; }
u64 explore_pthread_self(void) { return now; }
int explore_pthread_attr_init(void *a) { (void)a; return 0; }
int explore_pthread_attr_destroy(void *a) { (void)a; return 0; }
int explore_pthread_attr_setstacksize(void *a, u64 n) { (void)a; (void)n; return 0; }
int explore_pthread_attr_setguardsize(void *a, u64 n) { (void)a; (void)n; return 0; }
void explore_abort(void) { finish(CRASH); }
void explore__exit(int code) { status = code; finish(FINE); }
long explore_write(int to, const void *from, u64 count) { (void)to; (void)from; return count; }
int explore_rattle_errno(void) { return threads[now].error; }
void explore_rattle_set_errno(int error) { threads[now].error = error; }
long explore_rattle_env(const void *name, void *to, u64 room) { (void)name; (void)to; (void)room; return -1; }
long explore_rattle_env_at(u64 n, void *to, u64 room) { (void)n; (void)to; (void)room; return -1; }
long explore___sysv_signal(int n, long how) { (void)n; (void)how; return 0; }
int explore___xpg_strerror_r(int n, char *to, u64 room) { (void)n; (void)to; (void)room; return 0; }

long explore_rattle_arg(u64 n, u8 *to, u64 room) {
  if (n > (u64)word_count) return -1;
  const char *from = n ? words[n - 1] : "crew";
  u64 length = strlen(from);
  if (length > room) return -2;
  memcpy(to, from, length);
  return length;
}

// Memory is taken thread by thread, so that a run's addresses depend on nothing but what each thread did.
void *explore_malloc(u64 count) {
  struct thread *me = &threads[now];
  if (made > 1 && asked++ == (u64)fails_at) return 0;
  count = (count + 15) & ~15ull;
  if (me->used + count > HEAP) finish(CRASH);
  u8 *block = me->heap + me->used;
  me->used += count;
  memset(block, 0, count);
  return block;
}

void explore_free(void *block) { (void)block; }
struct tried { u64 is_there; void *block; };

struct tried explore_rattle_alloc(u64 count, u64 align) {
  void *block = explore_malloc(count ? count : align);
  return (struct tried){block != 0, block ? block : memory};
}

struct tried explore_rattle_realloc(u8 *from, u64 old, u64 count, u64 align) {
  struct tried got = explore_rattle_alloc(count, align);
  if (got.is_there) memcpy(got.block, from, old < count ? old : count);
  return got;
}

void explore_rattle_dealloc(void *block) { (void)block; }

// ---- one run after another

static u64 asked_refused;
static long asked_fails;

static void run_once(void) {
  made = now = depth = spent = 0;
  steps = switches = asked = 0;
  bell = 0;
  status = was_late = is_stopped = 0;
  refused = asked_refused;
  fails_at = asked_fails;
  explore_site = 0;
  lowest = 0;
  add(begin_main);
  explore_switch(&host, threads[0].at);
}

static int judge(void) {
  // A handler that waits for others waits in vain where these have left: since a thread began late, or since all was
  // idle when they did.
  u64 holding = 0, at_work = 0;
  for (int i = 0; i < made; i++) {
    holding += threads[i].state == HOLDS;
    at_work += threads[i].at_work;
  }
  if (verdict == HANG && holding && (was_late || at_work < *(u64 *)(bell + Bell_beds + 8) - 1)) return LATE;
  if (verdict != FINE) return verdict;
  int stopped = status & 7, memory_ends = status >> 3 & 7, left = status >> 6;
  if (left >= 2) return STATUS;
  if (was_late) return LATE;
  sum.stopped += stopped > 0;
  if ((stopped && !may_stop) || (memory_ends && !may_memory) || (left && !may_leave)) return STATUS;
  return FINE;
}

static void print_path(void) {
  if (by_priority) {
    fprintf(stderr, "    drawn by seed %lu\n", seed0 + sum.runs);
    return;
  }
  fprintf(stderr, "    --replay ");
  for (int i = 0; i < depth; i++)
    if (path[i].taken) fprintf(stderr, "%d:%d,", i, path[i].taken);
  fprintf(stderr, "\n");
}

static void crash(int number) {
  (void)number;
  fprintf(stderr, "crash in run %lu at step %lu\n", sum.runs, steps);
  print_path();
  _exit(9);
}

// The next path depth first. Whether there is one.
static int goes_on(void) {
  while (depth > 0) {
    struct choice *c = &path[depth - 1];
    if (c->taken + 1 < c->count) {
      c->taken++;
      known = depth;
      return 1;
    }
    depth--;
  }
  return 0;
}

// What a replay chooses here: `at:option,` for each choice that isn't the first option.
static int replay_of(int at) {
  for (const char *it = replayed; *it;) {
    char *end;
    int place = strtol(it, &end, 10), option = *end == ':' ? strtol(end + 1, &end, 10) : 0;
    if (place == at) return option;
    it = *end ? end + 1 : end;
  }
  return 0;
}

static double seconds(void) {
  struct timespec t;
  clock_gettime(CLOCK_PROCESS_CPUTIME_ID, &t);
  return t.tv_sec + t.tv_nsec * 1e-9;
}

static void report(const char *end, double begun) {
  printf("%lu runs, %lu steps, %.1f s, %s:", sum.runs, sum.steps, seconds() - begun, end);
  for (int i = 0; i <= CUT; i++)
    if (sum.found[i]) printf(" %lu %s", sum.found[i], verdicts[i]);
  printf(", longest %d steps, %lu long slices, %lu waits, %lu wakes, gave up %lu, asked %lu\n", sum.most, sum.spins,
         futex_waits, futex_wakes, sum.stopped, sum.asked);
}

int main(int count, char **given) {
  int at = 1;
  for (; at < count && strcmp(given[at], "--"); at++) {
    char *name = given[at], *value = strchr(name, '=');
    u64 number = value ? strtoull(value + 1, 0, 10) : 1;
    if (!strncmp(name, "--bound", 7)) bound = number;
    else if (!strncmp(name, "--pct", 5)) by_priority = 1, priorities = number;
    else if (!strncmp(name, "--turns", 7)) by_turns = 1, most_runs = 1;
    else if (!strncmp(name, "--runs", 6)) most_runs = number;
    else if (!strncmp(name, "--steps", 7)) most_steps = number;
    else if (!strncmp(name, "--seconds", 9)) most_seconds = value ? atof(value + 1) : 1;
    else if (!strncmp(name, "--slice", 7)) slice = number;
    else if (!strncmp(name, "--seed", 6)) seed0 = number;
    else if (!strncmp(name, "--all", 5)) first_only = 0;
    else if (!strncmp(name, "--trace", 7)) traces = 1;
    else if (!strncmp(name, "--no-spin", 9)) quiet_spins = 1;
    else if (!strncmp(name, "--thorough", 10)) thorough = 1;
    else if (!strncmp(name, "--no-waste", 10)) no_waste = 1;
    else if (!strncmp(name, "--wrong", 7)) explore_wrong = number;
    else if (!strncmp(name, "--refuse", 8)) refused = number;
    else if (!strncmp(name, "--fail-alloc", 12)) fails_at = number;
    else if (!strncmp(name, "--replay", 8)) replayed = value ? value + 1 : "";
    else if (!strncmp(name, "--may", 5)) {
      may_stop = !!strstr(value, "stop");
      may_memory = !!strstr(value, "memory");
      may_leave = !!strstr(value, "leave");
    } else {
      fprintf(stderr, "explore: no flag %s\n", name);
      return 2;
    }
  }
  words = given + at + 1;
  word_count = count - at - 1;
  asked_refused = refused;
  asked_fails = fails_at;
  memory = mmap((void *)0x100000000000, (u64)THREADS * (STACK + HEAP), PROT_READ | PROT_WRITE,
                MAP_PRIVATE | MAP_ANONYMOUS | MAP_FIXED_NOREPLACE, -1, 0);
  if (memory == MAP_FAILED) return 2;
  stack_t other = {.ss_sp = malloc(1 << 16), .ss_size = 1 << 16};
  sigaltstack(&other, 0);
  struct sigaction on = {.sa_handler = crash, .sa_flags = SA_ONSTACK};
  sigaction(SIGILL, &on, 0);
  sigaction(SIGSEGV, &on, 0);
  mark_sites();
  if (replayed) most_runs = 1;
  double begun = seconds();
  const char *end = "whole";
  for (;;) {
    rng = (seed0 + sum.runs) * 7919 + 13;
    for (int i = 0; i < priorities - 1 && i < 16; i++) changes[i] = 1 + draw() % longest;
    run_once();
    int what = judge();
    sum.found[what]++;
    sum.runs++;
    sum.steps += steps;
    if (steps > (u64)sum.most) sum.most = steps;
    if (asked > sum.asked) sum.asked = asked;
    if (verdict == FINE && steps > longest) longest = steps;
    if (what != FINE && what != LATE && what != CUT) {
      fprintf(stderr, "%s in run %lu, %lu steps, status %d\n", verdicts[what], sum.runs, steps, status);
      sum.runs--;
      print_path();
      sum.runs++;
      if (first_only) {
        end = "found";
        break;
      }
    }
    if (by_priority) {
      if (sum.runs >= most_runs) break;
    } else if (!goes_on()) {
      break;
    }
    if (sum.runs >= most_runs || ((sum.runs & 255) == 0 && seconds() - begun > most_seconds)) {
      end = "cut off";
      break;
    }
  }
  report(end, begun);
  for (int i = HANG; i < CUT; i++)
    if (sum.found[i]) return 1;
  return 0;
}
