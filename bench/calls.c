// Time and stack of every public call, through the C library: 2 and 32 drones with up to 1,024 stops, then 64 with up to 2,048 and 2 with 1,024 each; nothing, one, two for each drone and all
// dependencies turned that can be; then plans that are ugly on purpose, each the worst of its kind that trying has found; then plans with leg lengths, the twins of some of those with any legs and with the longest; then
// plans at sites with near pairs, each beside the same plan without a site; then plans with one half of their drones in form 1 and one in form 2. A join is that of the first half of a plan's drones and
// the rest, so that reading the plan is reading the joined text. The cheapest directions are looked for within 1,000 choices. Microseconds are the best of many, and where a call is refused its number follows in brackets; stack is the most that a call wrote of a
// painted stack. `bench/run` builds and runs it; with a number of repeats as its word it prints a line for each time and stack, for bench/beside.py to read.
#define _GNU_SOURCE
#include "conductor.h"
#include <stdio.h>
#include <stdlib.h>
#include <string.h>
#include <sys/mman.h>
#include <time.h>
#include <ucontext.h>

// An older archive's calls have other names, and its header no version.
#ifndef CONDUCTOR_VERSION
#define conductor_lent_arrive board_arrive
#define conductor_lent_best_order board_best_order
#define conductor_lent_cost board_cost
#define conductor_lent_grant board_grant
#define conductor_lent_join board_join
#define conductor_lent_press board_press
#define conductor_lent_preview board_preview
#define conductor_lent_preview_all board_preview_all
#define conductor_lent_read board_read
#define conductor_lent_read_site board_read_site
#define conductor_lent_rounds board_rounds
#define conductor_lent_small_plan board_small_plan
#define conductor_lent_turn board_turn
#define conductor_lent_turn_all board_turn_all
#define conductor_lent_withdraw board_withdraw
#define conductor_lent_write board_write
#pragma weak board_read_site
#pragma weak board_join
#pragma weak board_withdraw
#endif

// An older archive's header has this macro itself, over the tables of its day.
#ifndef CONDUCTOR_LEND
#define CONDUCTOR_LEND(t)                                                                                                                  \
    (t).drone_count, 1, (t).dependency_count, 1, (t).form, 1, (t).names, CONDUCTOR_NAMES, (t).stop_counts, CONDUCTOR_DRONES,               \
        (t).locations, CONDUCTOR_STOPS, (t).times, CONDUCTOR_STOPS, (t).legs, CONDUCTOR_STOPS, (t).visited, CONDUCTOR_DRONES,              \
        (t).drone_flags, CONDUCTOR_DRONES, (t).dependencies, CONDUCTOR_DEPENDENCIES, (t).pairs, CONDUCTOR_PAIR_NUMBERS
#endif

enum { STACK = 1 << 20, PAINT = 0xC7, BUFFER = CONDUCTOR_TEXT, REPEATS = 300, ALL = CONDUCTOR_DEPENDENCIES, ANY = 0, LONGEST = 60, PAIRS = 256, ALIKE = 23 };

static conductor_tables field, east, west;
static uint8_t text[BUFFER], buffer[BUFFER];
static size_t text_length;

// ---- plans

static char *at;

// The form of the plans that follow; in form 2 all legs are of so many rounds, or any, and times are drawn out, so that they rise by them.
static int form = 1, legs, pace = 1;
static int at_first_stop;
static uint32_t state;

static void begin(int drones) {
    at = (char *)text, state = 1;
    at += sprintf(at, "plan=%d\nagents=%d\n", form, drones);
}

static void drone(int d, int stops) { at += sprintf(at, "name=survey-quad-%d\nstops=%d\n", d, stops), at_first_stop = 1; }

static int leg(void) {
    if (legs != ANY) return legs;
    state = state * 1664525u + 1013904223u;
    return 1 + (state >> 16) % LONGEST;
}

static void stop(int location, int time) {
    at += sprintf(at, "go=%d@%d", location, pace * time);
    if (form == 2) at += sprintf(at, "@%d", at_first_stop ? 0 : leg());
    at += sprintf(at, "\n"), at_first_stop = 0;
}

static void end(void) {
    at += sprintf(at, "end=plan\n");
    text_length = at - (char *)text;
}

// Every seventh stop is a crossing that thirty-two drones pass one after the other; the other stops are a drone's own.
static void crossings(int drones, int stops) {
    int step = drones == 2 ? 900 : drones > 32 ? 6000 : 10000, apart = drones > 32 ? 64 : 1024;
    begin(drones);
    for (int d = 0; d < drones; d++) {
        int m = stops / drones + (d < stops % drones), share = m < 7 ? 2 : 7, from = m < 7 ? 1 : 5;
        drone(d, m);
        for (int s = 0; s < m; s++) {
            int crossing = s % share == from && s < m - 1;
            stop(crossing ? d / 32 * 32 + s : 2000 + d * apart + s, s ? d * 2 * step + s * step : 0);
        }
    }
    end();
}

// Each of thirty-two drones passes one location at its second and at its last but one stop, so that everybody waits for all before him: 992 rounds, one drone at a time.
static void queue(int drones, int stops) {
    begin(drones);
    for (int d = 0; d < drones; d++) {
        drone(d, stops);
        for (int s = 0; s < stops; s++) stop(s == 1 || s == stops - 2 ? 7 + d / 32 : 2000 + d * (drones > 32 ? 64 : 1024) + s, s ? d * 1000 + s * 10 : 0);
    }
    end();
}

// Everybody in one queue: each drone comes at its second stop to where the one before it is at its last but one, so that one drone flies at a time and every leg is on the longest chain; and all pass one location more.
static void one_queue(int drones, int stops) {
    begin(drones);
    for (int d = 0; d < drones; d++) {
        drone(d, stops);
        for (int s = 0; s < stops; s++) stop(s == 1 && d ? 1000 + d - 1 : s == stops - 2 ? 1000 + d : s == 2 ? 7 : 2000 + d * 64 + s, s ? d * 1000 + s * 10 : 0);
    }
    end();
}

// Each drone shares every odd stop with the drone after it, which is there at its next stop: a column in which waits go from drone to drone at every step.
static void column(int drones, int stops) {
    begin(drones);
    for (int d = 0; d < drones; d++) {
        drone(d, stops);
        for (int s = 0; s < stops; s++) {
            int own = s == 0 || s == stops - 1 || (s % 2 ? d == drones - 1 : d == 0);
            stop(own ? 30000 + d * 64 + s : s % 2 ? 1000 + d * 64 + s : 1000 + (d - 1) * 64 + s - 1, s ? d * 5000 + s * 20 : 0);
        }
    }
    end();
}

// Locations that share one tree of so many (plan/src/sharing.rt), and one bucket of every short hash by their last bits, visited again and again.
static void one_bucket(int drones, int stops, int trees) {
    begin(drones);
    for (int d = 0; d < drones; d++) {
        drone(d, stops);
        for (int s = 0; s < stops; s++) {
            int block = 2 * d + s % 2;
            stop(block * trees + (trees * 64 - block * 17) % trees, s);
        }
    }
    end();
}

// The drone that is to have finished before the calls, if any.
static int finished = -1;

// Drone 0 has a long way to a location, a runner (the last drone) passes it `visits` times at once, and the others wait there for both. A round that is played asks for each of them the waits for the
// runner, which are met, before it comes to one that is not; where the runner has finished they are met from the first round on.
static void waiting(int others, int visits, int stops, int runner_finished) {
    int way = stops - 3 * others - (2 * visits + 1) - 3, meet = way > 2 * visits ? way + 10 : 2 * visits + 10;
    begin(others + 2);
    drone(0, way + 3), stop(20000, 0);
    for (int s = 1; s <= way; s++) stop(20000 + s, s);
    stop(7, meet), stop(29999, meet + 1);
    for (int d = 1; d <= others; d++) drone(d, 3), stop(30000 + d, 0), stop(7, meet + 10 + 3 * d), stop(31000 + d, meet + 11 + 3 * d);
    drone(others + 1, 2 * visits + 1), stop(32000, 0);
    for (int v = 0; v < visits; v++) stop(7, 2 * v + 1), stop(32001, 2 * v + 2);
    end();
    if (runner_finished) finished = others + 1;
}

// One drone goes to and fro between two locations, and others come to one of them afterwards: many stops at one location, all of one drone.
static void to_and_fro(int others, int stops) {
    int own = stops - 3 * others;
    begin(others + 1);
    drone(0, own), stop(20000, 0);
    for (int s = 1; s < own - 1; s++) stop(7 + s % 2, s);
    if (own > 1) stop(20001, own);
    for (int d = 1; d <= others; d++) drone(d, 3), stop(30000 + d, 0), stop(7, 5 * own + 10 * d), stop(31000 + d, 5 * own + 10 * d + 1);
    end();
}

// ---- sites

static uint8_t site[16384];
static size_t site_length; // 0: no site text
static int pairs[PAIRS][2], pair_count;

static void near_pair(int a, int b) { pairs[pair_count][0] = a < b ? a : b, pairs[pair_count][1] = a < b ? b : a, pair_count++; }

static int by_locations(const void *x, const void *y) {
    const int *a = x, *b = y;
    return a[0] != b[0] ? a[0] - b[0] : a[1] - b[1];
}

// The text of the pairs that were named, in their order.
static void end_site(void) {
    char *to = (char *)site;
    qsort(pairs, pair_count, sizeof *pairs, by_locations);
    to += sprintf(to, "site=1\npairs=%d\n", pair_count);
    for (int i = 0; i < pair_count; i++) to += sprintf(to, "near=%d,%d\n", pairs[i][0], pairs[i][1]);
    to += sprintf(to, "end=site\n");
    site_length = to - (char *)site;
}

// A site's location: its number in the site, and whether the locations' numbers follow each other or lie in few trees (plan/src/sharing.rt), 32 in each.
static int deep;
static int at_site(int i) { return deep ? i % 32 * 2048 + (2048 * 64 - i % 32 * 17 + i / 32) % 2048 : 1000 + i; }

enum shape { ROW, STAR, ALL_NEAR, APART };

// 256 pairs in a row, one location near 256, all pairs among 23 locations, or 256 pairs of which no two share a location.
static void near_pairs(enum shape shape) {
    pair_count = 0;
    for (int i = 0; i < PAIRS && shape != ALL_NEAR; i++) near_pair(at_site(shape == ROW ? i : shape == STAR ? 0 : 2 * i), at_site(shape == APART ? 2 * i + 1 : i + 1));
    for (int i = 0; i < ALIKE && shape == ALL_NEAR; i++)
        for (int j = 0; j < i; j++) near_pair(at_site(j), at_site(i));
    end_site();
}

// How many of a drone's stops are at the site: none; some; nearly all, with as many dependencies as may be; nearly all, and too many dependencies; the same with the highest drone first; nearly all, and at their ends the last two drones collide.
enum amount { NONE, SOME, MANY, TOO_MANY, TOO_MANY_BACK, LAST_COLLIDES };

// Visit v of drone d: a number in the site.
static int visited(enum shape shape, enum amount amount, int d, int v) {
    int to_and_fro = v % 6 < 4 ? v % 6 : 6 - v % 6;
    if (amount == TOO_MANY || amount == TOO_MANY_BACK) return shape == ROW ? (30 * d + v) % (PAIRS + 1) : shape == STAR ? (v % 2 ? 1 + (15 * d + v / 2) % PAIRS : 0) : shape == ALL_NEAR ? (7 * d + v) % ALIKE : (60 * d + 2 * v + v % 7 % 2) % (2 * PAIRS);
    switch (shape) {
    case ROW: return amount == SOME ? (4 * d + v) % (PAIRS + 1) : 4 * d + to_and_fro;
    case STAR: return d == 31 && (v == 3 || (amount != SOME && v == 20)) ? 0 : amount == SOME ? 1 + (4 * d + v) % PAIRS : 1 + 4 * d + to_and_fro;
    case ALL_NEAR: return (7 * d + v) % ALIKE;
    default: return 2 * ((4 * d + v % 5) % PAIRS) + v / 5 % 2;
    }
}

// Each drone has so many stops at the site, one drone after the other, and all others, its first and last too, for itself.
static void at_the_site(enum shape shape, enum amount amount, int drones, int stops) {
    int begins = 0;
    begin(drones);
    for (int d = 0; d < drones; d++) {
        int m = stops / drones, there = amount == NONE ? 0 : amount == SOME ? 8 : m - 2;
        // among 23 locations that are all near each other every two visits by different drones are a dependency
        if (shape == ALL_NEAR && amount == SOME) there = d < 45 ? 2 : 0;
        if (shape == ALL_NEAR && (amount == MANY || amount == LAST_COLLIDES)) m = d ? 4 : stops - 4, there = d ? 2 : m - 2;
        if (amount == TOO_MANY_BACK) begins = (drones - 1 - d) * (m + 2);
        drone(d, m), stop(20000 + d, 0);
        for (int s = 1; s < m - 1; s++) stop(s <= there ? at_site(visited(shape, amount, d, s - 1)) : 30000 + 32 * d + s % 32, begins + s);
        stop(amount == LAST_COLLIDES && d == drones - 1 ? 22000 + d - 1 : 22000 + d, begins + m - 1);
        begins += m + 2;
    }
    end();
}

// One location is near two others: drone 0 passes it twice, then drone 1 goes to and fro between those two.
static void two_near(int stops) {
    begin(2);
    drone(0, 5), stop(20000, 0), stop(at_site(0), 1), stop(20001, 2), stop(at_site(0), 3), stop(20002, 4);
    drone(1, stops - 5), stop(30000, 0);
    for (int s = 1; s < stops - 5; s++) stop(at_site(1 + s % 2), 10 + s);
    end();
}

// ---- the calls

static size_t free_drone, may_go, free_dependency, group_n, number, last_record;
static uint16_t group[CONDUCTOR_DEPENDENCIES];

// An archive from before site texts has no such call, and its header does not name it.
#ifdef CONDUCTOR_TABLES
conductor_read_answer conductor_lent_read_site(const uint8_t *site, size_t site_n, const uint8_t *text, size_t text_n,
                                      CONDUCTOR_TABLES(CONDUCTOR_NOTHING, CONDUCTOR_NOTHING, CONDUCTOR_NOTHING, CONDUCTOR_NOTHING));
#endif
#pragma weak conductor_lent_read_site
static size_t read_into(conductor_tables *tables, const uint8_t *plan, size_t length) {
    return site_length ? conductor_lent_read_site(site, site_length, plan, length, CONDUCTOR_LEND(*tables)).number : conductor_lent_read(plan, length, CONDUCTOR_LEND(*tables)).number;
}
static void read_plan(void) { number = read_into(&field, text, text_length); }

// Nor has one from before joins; its header has CONDUCTOR_TABLES.
#ifdef CONDUCTOR_TABLES
static int can_join(void) { return 0; }
static void join(void) {}
#else
#pragma weak conductor_lent_join
static int can_join(void) { return conductor_lent_join != 0; }
static void join(void) { number = conductor_lent_join(CONDUCTOR_LEND(east), CONDUCTOR_LEND(west), CONDUCTOR_LEND(field)).number; }
#endif
// Nor has one from before the search for the cheapest directions. It may enter so many choices here; bench/best.c lets it enter all.
enum { BUDGET = 1000 };
#ifndef CONDUCTOR_VERSION
static int can_search(void) { return 0; }
static void best_order(void) {}
#else
#pragma weak conductor_lent_best_order
static uint16_t list[CONDUCTOR_DEPENDENCIES];
static int can_search(void) { return conductor_lent_best_order != 0; }
static void best_order(void) { number = conductor_lent_best_order(CONDUCTOR_LEND(field), list, CONDUCTOR_DEPENDENCIES, BUDGET).number; }
#endif
static void write_plan(void) { number = conductor_lent_write(buffer, BUFFER, CONDUCTOR_LEND(field)).number; }
static void grant(void) { number = conductor_lent_grant(CONDUCTOR_LEND(field), free_drone).number; }
static void arrive(void) { number = conductor_lent_arrive(CONDUCTOR_LEND(field), free_drone).number; }
static void turn(void) { number = conductor_lent_turn(CONDUCTOR_LEND(field), free_dependency).number; }
static void preview(void) { number = conductor_lent_preview(CONDUCTOR_LEND(field), free_dependency).number; }
static void turn_all(void) { number = conductor_lent_turn_all(CONDUCTOR_LEND(field), group, group_n).number; }
static void preview_all(void) { number = conductor_lent_preview_all(CONDUCTOR_LEND(field), group, group_n).number; }
static void cost(void) { number = conductor_lent_cost(CONDUCTOR_LEND(field)).number; }
static void rounds(void) { number = conductor_lent_rounds(CONDUCTOR_LEND(field)).number; }
static void press(void) { number = conductor_lent_press(CONDUCTOR_LEND(field), 0, 0).number; }
static void small_plan(void) { number = conductor_lent_small_plan(CONDUCTOR_SMALL_PLANS - 1, buffer, BUFFER).number; }
static void nothing(void) {}

// Two refusals of a grant: 41 of tables that are not that of the records, those with an entry for each stop, and 40 where the last record, which is not in use, is not zero. The tables are named by the header alone, so that
// this file can be built with the header of another archive.
#define CONDUCTOR_STOPS 1
static void grant_short(void) { number = conductor_lent_grant(CONDUCTOR_LEND(field), free_drone).number; }
#undef CONDUCTOR_STOPS
static void grant_unused(void) { grant(); }

// A drone is withdrawn; and a cost where drone 0 is. An archive from before that call has neither.
#pragma weak conductor_lent_withdraw
static void withdraw(void) { number = conductor_lent_withdraw(CONDUCTOR_LEND(field), free_drone).number; }
static void cost_carried(void) { cost(); }

static const struct {
    const char *name;
    void (*call)(void);
} CALLS[] = {{"read", read_plan}, {"join", join}, {"write", write_plan}, {"grant", grant}, {"grant_short", grant_short}, {"grant_unused", grant_unused}, {"arrive", arrive}, {"withdraw", withdraw}, {"cost_carried", cost_carried}, {"turn", turn}, {"turn_all", turn_all}, {"preview", preview}, {"preview_all", preview_all}, {"cost", cost}, {"rounds", rounds}, {"press", press}, {"small_plan", small_plan}, {"best_order", best_order}};
enum { KINDS = sizeof CALLS / sizeof *CALLS };

// A grant that was given is taken back, so that each repeat does the same.
static void restore(void) { memset(field.drone_flags, 0, sizeof field.drone_flags); }

// Before a call: an arrival wants a drone that is under way, one refusal a record that is not zero, and one cost a drone that is withdrawn.
static void make_ready(void (*call)(void)) {
    if (call == arrive && may_go) field.drone_flags[free_drone] = 1;
    if (call == grant_unused) field.dependencies[last_record].flags ^= 4;
    if (call == cost_carried) field.drone_flags[0] = 2;
}

// After it, likewise.
static void undo(void (*call)(void)) {
    if (call == arrive && number == 0) field.visited[free_drone]--;
    if (call == grant_unused) field.dependencies[last_record].flags ^= 4;
    restore();
}

// ---- a plan's drones in two plans

// Lines of the text as a plan of so many drones, read into tables; in form 1, or in that of the text.
static size_t read_part(conductor_tables *of, const char *from, const char *until, int drones, int in_form) {
    char *to = (char *)buffer;
    to += sprintf(to, "plan=%d\nagents=%d\n", in_form, drones);
    while (from < until) {
        const char *next = strchr(from, '\n') + 1, *last = next - 1;
        if (in_form < form && *from == 'g') // without the leg
            while (*--last != '@') {}
        memcpy(to, from, last - from), to += last - from, *to++ = '\n';
        from = next;
    }
    to += sprintf(to, "end=plan\n");
    return read_into(of, buffer, to - (char *)buffer);
}

// The first half of the text's drones in `east` and the rest in `west`: whether there are two plans that are taken.
static int part_plan(int drones, int east_form) {
    const char *first = strstr((char *)text, "name="), *half = first, *last = strstr((char *)text, "end=plan");
    if (!can_join() || drones < 2) return 0;
    for (int d = 0; d < drones / 2; d++) half = strstr(half + 1, "name=");
    return read_part(&east, first, half, drones / 2, east_form) == 0 && read_part(&west, half, last, drones - drones / 2, form) == 0;
}

// ---- measuring

static double microseconds(clockid_t clock) {
    struct timespec t;
    clock_gettime(clock, &t);
    return t.tv_sec * 1e6 + t.tv_nsec / 1e3;
}

// A call above a millisecond is seldom left alone by others on the machine: there the thread's own clock is asked, which takes longer to read.
static double best_time(void (*call)(void), int repeats) {
    double best = 1e18;
    for (int i = 0; i < repeats; i++) {
        make_ready(call);
        double own = microseconds(CLOCK_THREAD_CPUTIME_ID), start = microseconds(CLOCK_MONOTONIC);
        call();
        double took = microseconds(CLOCK_MONOTONIC) - start;
        if (took > 1000) took = microseconds(CLOCK_THREAD_CPUTIME_ID) - own;
        if (took < best) best = took;
        undo(call);
    }
    return best;
}

static unsigned char *painted;
static ucontext_t here, there;
static char *entry;
static void (*measured)(void);

static void on_painted_stack(void) {
    entry = (char *)__builtin_frame_address(0);
    measured();
    swapcontext(&there, &here);
}

static long stack_of(void (*call)(void)) {
    memset(painted, PAINT, STACK);
    getcontext(&there);
    there.uc_stack.ss_sp = painted;
    there.uc_stack.ss_size = STACK;
    there.uc_link = &here;
    measured = call;
    makecontext(&there, on_painted_stack, 0);
    make_ready(call);
    swapcontext(&here, &there);
    long i = 0;
    while (i < STACK && painted[i] == PAINT) i++;
    undo(call);
    return entry - (char *)(painted + i);
}

static long most[KINDS];

// Turns up to `want` dependencies of neighbouring drones, or all that can be one after the other, then finds a drone that may go, a dependency that can be turned to and fro, and as long a list of them as one after the other gives.
static int prepare(int want) {
    int turned = 0;
    for (size_t p = 0; p < field.dependency_count[0] && turned < want; p++)
        if (want == ALL || (field.dependencies[p].first_drone % 2 == 0 && field.dependencies[p].second_drone == field.dependencies[p].first_drone + 1))
            turned += conductor_lent_turn(CONDUCTOR_LEND(field), p).number == 0;
    for (free_dependency = field.dependency_count[0]; free_dependency-- > 0;)
        if (conductor_lent_turn(CONDUCTOR_LEND(field), free_dependency).number == 0) {
            conductor_lent_turn(CONDUCTOR_LEND(field), free_dependency);
            break;
        }
    group_n = 0;
    for (size_t p = 0; p < field.dependency_count[0]; p++)
        if (conductor_lent_turn(CONDUCTOR_LEND(field), p).number == 0) group[group_n++] = p;
    turn_all();
    for (free_drone = 0; free_drone < field.drone_count[0]; free_drone++)
        if (conductor_lent_grant(CONDUCTOR_LEND(field), free_drone).number == 0) break;
    may_go = free_drone < field.drone_count[0];
    if (!may_go) free_drone = 0;
    restore();
    return turned;
}

static int repeats = REPEATS, lines;

static void timed(const char *shape, int k) {
    double took = best_time(CALLS[k].call, repeats);
    if (lines) printf("time\t%s\t%s\t%.2f\t%zu\n", shape, CALLS[k].name, took, number);
    else if (number) printf(" %s %.1f (%zu)", CALLS[k].name, took, number);
    else printf(" %s %.1f", CALLS[k].name, took);
}

static void measure(const char *kind, int want) {
    char shape[160], what[64];
    int done = finished;
    if (form == 1) sprintf(what, "%s", kind);
    else sprintf(what, legs == ANY ? "%s, any legs" : "%s, legs %d", kind, legs);
    finished = -1;
    read_plan();
    if (number) {
        printf("%-12s is refused by %zu\n", what, number);
        return;
    }
    if (done >= 0) field.visited[done] = field.stop_counts[done] - 1;
    int turned = prepare(want), stops = 0, apart = part_plan(field.drone_count[0], form);
    for (int d = 0; d < field.drone_count[0]; d++) stops += field.stop_counts[d];
    sprintf(shape, "%-10s %2d drones %4d stops %4d dependencies %4d turned", what, field.drone_count[0], stops, field.dependency_count[0], turned);
    if (!lines) printf("%s |", shape);
    for (int k = KINDS - 1; k >= 0; k--) {
        if ((CALLS[k].call == read_plan || CALLS[k].call == join) && (turned || done >= 0)) continue;
        if (CALLS[k].call == join && !apart) continue;
        if (CALLS[k].call == small_plan && stops > 1) continue; // it is lent no table
        if (!can_search() && CALLS[k].call == best_order) continue;
        if (!conductor_lent_withdraw && (CALLS[k].call == withdraw || CALLS[k].call == cost_carried)) continue;
        timed(shape, k);
        int flips = CALLS[k].call == turn || CALLS[k].call == turn_all;
        if (flips && repeats % 2) CALLS[k].call();
        long s = stack_of(CALLS[k].call);
        if (flips) CALLS[k].call();
        if (s > most[k]) most[k] = s;
    }
    if (!lines) printf("\n");
    fflush(stdout);
}

// The reading alone, of a plan that is refused, and the join that is refused as it is.
static void measure_reading(const char *what, int drones, int stops) {
    char shape[160];
    sprintf(shape, "%-10s %2d drones %4d stops", what, drones, stops);
    if (!lines) printf("%s |", shape);
    if (part_plan(drones, form)) timed(shape, 1);
    timed(shape, 0);
    if (!lines) printf("\n");
    fflush(stdout);
}

// A join of one plan in form 1 and one in form 2, and the reading of the joined text, which is written first.
static void measure_both_forms(const char *what) {
    char shape[160];
    read_plan();
    int drones = field.drone_count[0], stops = 0;
    for (int d = 0; d < drones; d++) stops += field.stop_counts[d];
    if (!part_plan(drones, 1)) return;
    sprintf(shape, "%s, one half in form 1, %2d drones %4d stops %4d dependencies", what, drones, stops, field.dependency_count[0]);
    if (!lines) printf("%s |", shape);
    timed(shape, 1);
    text_length = conductor_lent_write(text, BUFFER, CONDUCTOR_LEND(field)).detail;
    timed(shape, 0);
    if (!lines) printf("\n");
    fflush(stdout);
}

// The last record that the library looks at: tables may be longer than its full size.
static void find_last_record(void) {
    crossings(2, 100), read_plan();
    for (last_record = CONDUCTOR_DEPENDENCIES - 1; last_record > 0; last_record /= 2) {
        make_ready(grant_unused), cost();
        size_t refused = number;
        undo(grant_unused);
        if (refused) return;
    }
}

static void at_all_sizes(void) {
    static const int SIZES[][2] = {{2, 100},   {2, 384},  {2, 768},  {2, 992},   {2, 1023},  {2, 1024}, {32, 100},  {32, 384}, {32, 768},
                                   {32, 992}, {32, 1023}, {32, 1024}, {2, 2048}, {64, 768}, {64, 1984}, {64, 2047}, {64, 2048}};
    for (size_t i = 0; i < sizeof SIZES / sizeof *SIZES; i++) {
        int drones = SIZES[i][0], stops = SIZES[i][1], turned[] = {0, 1, stops > 1024 || drones > 32 ? 128 : 64, ALL};
        for (int t = 0; t < 4; t++) crossings(drones, stops), measure("crossings", turned[t]);
    }
}

static void ugly(void) {
    queue(32, 32), measure("queue", 0);
    queue(64, 32), measure("queue", 0);
    one_queue(64, 32), measure("one queue", 0);
    column(32, 32), measure("column", 0);
    column(64, 32), measure("column", 0);
    one_bucket(32, 32, 1024), measure("bucket", 0);
    one_bucket(16, 128, 2048), measure("bucket", 0);
    to_and_fro(0, 1), measure("alone", 0);
    to_and_fro(0, 1024), measure("to and fro", 0);
    to_and_fro(4, 1024), measure("to and fro", 0);
    to_and_fro(0, 2048), measure("to and fro", 0);
    to_and_fro(4, 2048), measure("to and fro", 0);
    waiting(30, 51, 1024, 0), measure("waiting", 0);
    waiting(20, 87, 1024, 0), measure("waiting", 0);
    waiting(20, 87, 1024, 1), measure("run out", 0);
    waiting(62, 34, 2048, 0), measure("waiting", 0);
    waiting(24, 151, 2048, 0), measure("waiting", 0);
    waiting(24, 151, 2048, 1), measure("run out", 0);
}

// The same with leg lengths, at full size. Each pace is the least that the longest legs fit.
static void with_legs(int rounds) {
    form = 2, legs = rounds;
    crossings(2, 2048), measure("crossings", 0);
    crossings(32, 1024), measure("crossings", 0);
    crossings(64, 2048), measure("crossings", 0);
    crossings(64, 2048), measure("crossings", 128);
    pace = 6;
    queue(64, 32), measure("queue", 0);
    one_queue(32, 32), measure("one queue", 0);
    one_queue(64, 16), measure("one queue", 0);
    one_queue(64, 32), measure("one queue", 0);
    pace = 3;
    column(64, 32), measure("column", 0);
    pace = 60;
    one_bucket(16, 128, 2048), measure("bucket", 0);
    to_and_fro(0, 2048), measure("to and fro", 0);
    to_and_fro(4, 2048), measure("to and fro", 0);
    waiting(62, 34, 2048, 0), measure("waiting", 0);
    waiting(24, 151, 2048, 0), measure("waiting", 0);
    waiting(24, 151, 2048, 1), measure("run out", 0);
    form = pace = 1;
}

// A plan without a site, then with it.
static void beside_its_site(enum shape shape, enum amount amount, int drones, int stops, int turned) {
    static const char *const SHAPES[] = {"row", "star", "all near", "apart"}, *const AMOUNTS[] = {"none there", "some there", "many there", "too many there", "too many there back", "last collides"};
    for (int with = 0; with < 2; with++) {
        char what[64];
        sprintf(what, "%s%s, %s, %s", SHAPES[shape], deep ? " deep" : "", AMOUNTS[amount], with ? "pairs" : "no site");
        site_length = 0;
        if (with && !conductor_lent_read_site) continue;
        if (with) near_pairs(shape);
        at_the_site(shape, amount, drones, stops);
        if (amount == TOO_MANY || amount == TOO_MANY_BACK || amount == LAST_COLLIDES) measure_reading(what, drones, stops);
        else measure(what, turned);
    }
    site_length = 0;
}

static void at_sites(void) {
    for (int shape = ROW; shape <= APART; shape++)
        for (int amount = NONE; amount <= LAST_COLLIDES; amount++) {
            int few = shape == ALL_NEAR && (amount == MANY || amount == LAST_COLLIDES);
            beside_its_site(shape, amount, few ? 2 : 64, 2048, 0);
            if (amount == SOME) beside_its_site(shape, amount, 64, 2048, ALL);
        }
    two_near(2048), measure("two near, no site", 0);
    pair_count = 0, near_pair(at_site(0), at_site(1)), near_pair(at_site(0), at_site(2)), end_site();
    two_near(2048);
    if (conductor_lent_read_site) measure("two near, pairs", 0);
    site_length = 0;
    deep = 1;
    beside_its_site(ROW, NONE, 64, 2048, 0), beside_its_site(ROW, MANY, 64, 2048, 0), beside_its_site(ROW, TOO_MANY, 64, 2048, 0);
    beside_its_site(STAR, MANY, 64, 2048, 0);
    deep = 0;
}

static void of_both_forms(void) {
    form = 2, legs = LONGEST;
    crossings(64, 2048), measure_both_forms("crossings");
    pace = 6;
    queue(64, 32), measure_both_forms("queue");
    pace = 60, legs = ANY;
    near_pairs(ROW), at_the_site(ROW, MANY, 64, 2048), measure_both_forms("row, many there, pairs");
    site_length = 0, form = pace = 1;
}

int main(int argc, char **argv) {
    if (argc > 1) repeats = atoi(argv[1]), lines = 1;
    painted = mmap(0, STACK, PROT_READ | PROT_WRITE, MAP_PRIVATE | MAP_ANONYMOUS, -1, 0);
    find_last_record();
    if (!lines) printf("microseconds, best of %d\n", repeats);
    at_all_sizes();
    ugly();
    with_legs(ANY);
    with_legs(LONGEST);
    at_sites();
    of_both_forms();
    if (!lines) printf("bytes of stack, the most seen (the harness itself %ld)\n", stack_of(nothing));
    for (int k = 0; k < KINDS; k++) printf(lines ? "stack\t%s\t%ld\n" : "  %-12s %ld\n", CALLS[k].name, most[k]);
    return 0;
}
