/* The field conductor for C and C++: the proved calls of libconductor.a, which needs nothing but memcpy and memset.
 *
 *     static conductor_tables field;
 *     conductor_read_answer taken = conductor_read(&field, text, length);
 *     if (taken.number) printf("refused with %zu: %s\n", taken.number, conductor_meaning(taken.number));
 *     conductor_answer granted = conductor_grant(&field, 1);
 *
 * TWO WAYS TO LEND THE TABLES. A `conductor_tables` has the twelve tables at full size, and conductor_grant and the other calls below take its
 * address. Where the tables lie apart, or are longer, each call has its twin over lent tables, conductor_lent_grant and so on, in which every table is
 * a pointer and a number of entries; the calls over the struct are nothing but these twins with the struct's tables.
 *
 * WHAT A CALL ASKS. Each pointer is valid for its number of entries and aligned as its type is, and no two tables overlap (but for the two
 * plans of a join, which are only read). A table of 0 entries may be NULL: it is refused by 41; a text, a list or a buffer of 0 entries may be NULL
 * too, and is an empty one. Tables may be longer than their full size; entries past it are neither read nor written. Any content of the
 * tables and any number is answered: what is wrong is refused by a number, and a refused call other than a reading and a join changes nothing.
 * docs/REFUSALS.md says what to do about each number.
 *
 * ONE CALL AT A TIME on one set of tables: nobody else reads or writes them meanwhile, neither another thread nor an interrupt's handler. Who
 * must call from a handler shuts it out of the call before, as for any table that both use. Calls on different sets may run at once, and a
 * handler may make calls on a set of its own in the middle of another's call: the calls are reentrant, since nothing is kept between them and
 * there is no variable outside the tables and the stack. No call waits, takes a lock, touches an interrupt's mask or asks the system for anything.
 *
 * NOTHING IS ALLOCATED. A call uses the tables and its stack. The most that each wrote of a painted stack, in bytes, over the plans of
 * bench/calls.c (full tables among them: 64 drones, 2,048 stops, 4,096 dependencies, 256 near pairs); a reading with a site text counts as read:
 *
 *     read         87,576    join        111,400    write        81,720    grant        82,008    arrive       81,976
 *     withdraw     81,704    turn         92,120    turn_all     92,120    preview      94,312    preview_all  94,312
 *     cost         94,136    rounds       94,424    best_order  255,960    press        82,232    small_plan    2,632
 *
 * These are measured and no proof bounds them: leave room. 128 KiB are enough for every call but best_order, for which 300 are.
 *
 * SAVE AND RESTORE. The tables are plain bytes without a pointer: who keeps sizeof(conductor_tables) bytes of them between two calls, and puts
 * them back later, goes on where he was; bindings/c/saved.c is a program that does it. Keep CONDUCTOR_LAYOUT beside them: it is another number
 * whenever the bytes of a conductor_tables mean something else, and the bytes are those of a little-endian machine. What comes back is
 * guarded by 40: every call but a reading first tests whether the tables hold an accepted plan with a possible progress (the plan's own
 * dependencies and no other, no drone where it still had to wait, turns without a ring, zeros where nothing is), and where they do not, it is
 * refused and changes nothing. 40 does not see that the bytes are yesterday's, or another sound plan's: who must know keeps the day or a
 * checksum beside them. */
#ifndef CONDUCTOR_H
#define CONDUCTOR_H
#include <stddef.h>
#include <stdint.h>
#ifdef __cplusplus
extern "C" {
#endif

#define CONDUCTOR_VERSION "0.2.0"
#define CONDUCTOR_VERSION_NUMBER 200 /* 10,000 for the first part, 100 for the second */
#define CONDUCTOR_LAYOUT 1           /* of the bytes of a conductor_tables */

/* full sizes: a table with fewer entries is refused by 41 */
enum {
    CONDUCTOR_DRONES = 64,
    CONDUCTOR_NAME = 24,
    CONDUCTOR_NAMES = CONDUCTOR_DRONES * CONDUCTOR_NAME, /* a name for each drone, zeros after it */
    CONDUCTOR_STOPS = 2048,
    CONDUCTOR_DEPENDENCIES = 4096,
    CONDUCTOR_PAIRS = 256,
    CONDUCTOR_PAIR_NUMBERS = 2 * CONDUCTOR_PAIRS /* the two locations of each near pair, the lower first, zeros after the pairs */
};

/* what a plan and a reply may come to */
enum {
    CONDUCTOR_TEXT = 65536,       /* bytes of a plan text, and of every text that conductor_write writes */
    CONDUCTOR_LOCATION = 65535,   /* locations from 0 */
    CONDUCTOR_TIME = 1000000,     /* times from 0 */
    CONDUCTOR_LEG = 60,           /* rounds of a leg from 1; 0 at stop 0 */
    CONDUCTOR_COST = 7618560,     /* cost from 0; the change of a preview as far either way */
    CONDUCTOR_BUDGET = 100000,    /* choices that conductor_best_order may be allowed to enter, from 1 */
    CONDUCTOR_SMALL_PLANS = 378,  /* small plans, numbered from 0 */
    CONDUCTOR_SMALL_TEXT = 128    /* bytes that are enough for each of them */
};

/* a dependency: planned first drone and its stop, planned second drone and its stop; flags: 1 turned, 2 fixed. `reserved` is zero
 * in all that a full table has after a reading or a join that wrote the tables (any reply but 41, 40, 16 and 1); a turn keeps it, and no
 * call looks at it */
typedef struct {
    uint16_t first_stop, second_stop;
    uint8_t first_drone, second_drone, flags, reserved;
} conductor_dependency;

/* number 0: done. detail: the dependency of a 23, the cost, the rounds, the length of the text, the granted drones; else 0 */
typedef struct {
    size_t number, detail;
} conductor_answer;

/* number 0: the turn would be done, and change is the cost after it less the cost now, at most CONDUCTOR_COST either way; else change
 * is 0 */
typedef struct {
    size_t number;
    int64_t change;
} conductor_change_answer;

/* number 0: the least cost, how many dependencies are to be turned for it, and how many choices were entered. 37: count is the budget, the
 * rest is 0; any other refusal: the rest is 0 */
typedef struct {
    size_t number, cost, length, count;
} conductor_order_answer;

/* number 0: taken. 1 to 6 come with an offset in the plan text, or in the joined text, 13 and 14 with one in the site text, 7 to 9 and 12
 * with a drone and its stop, 10 with two of each; the rest is 0 */
typedef struct {
    size_t number, offset, drone, stop, other_drone, other_stop;
} conductor_read_answer;

/* the twelve tables at full size in one place: zeroed before the first reading, as static storage is. Everywhere they are lent in one order:
 * drone_count 1 entry, dependency_count 1, form 1 (that of the plan's first line, `plan=1` or `plan=2`; 0 where there is no plan), names
 * CONDUCTOR_NAMES, stop_counts CONDUCTOR_DRONES, locations, times and legs CONDUCTOR_STOPS (a leg is that into the stop, in rounds: 0 at each
 * drone's stop 0, elsewhere 1 in a plan of form 1 and 1 to CONDUCTOR_LEG in one of form 2), visited and drone_flags (1 under way, 2 withdrawn)
 * CONDUCTOR_DRONES, dependencies CONDUCTOR_DEPENDENCIES, pairs CONDUCTOR_PAIR_NUMBERS (the near pairs of the site text with which the plan was
 * read; none, all zero, where it was read without one) */
typedef struct {
    uint16_t drone_count[1], dependency_count[1], stop_counts[CONDUCTOR_DRONES], locations[CONDUCTOR_STOPS], visited[CONDUCTOR_DRONES];
    uint32_t times[CONDUCTOR_STOPS];
    uint8_t names[CONDUCTOR_NAMES], legs[CONDUCTOR_STOPS], drone_flags[CONDUCTOR_DRONES], form[1];
    conductor_dependency dependencies[CONDUCTOR_DEPENDENCIES];
    uint16_t pairs[CONDUCTOR_PAIR_NUMBERS];
} conductor_tables;

/* The layout that the library has too, and that the bindings of other languages go by: where each field lies, how wide it is, and how
 * large the whole is. A compiler that lays them out otherwise stops here */
#if defined(__cplusplus) && __cplusplus >= 201103L
#define CONDUCTOR_HOLDS_(NAME, CONDITION) static_assert(CONDITION, #NAME)
#elif defined(__STDC_VERSION__) && __STDC_VERSION__ >= 201112L
#define CONDUCTOR_HOLDS_(NAME, CONDITION) _Static_assert(CONDITION, #NAME)
#else
#define CONDUCTOR_HOLDS_(NAME, CONDITION) typedef char NAME[(CONDITION) ? 1 : -1]
#endif
#define CONDUCTOR_WHOLE_(TYPE, BYTES) CONDUCTOR_HOLDS_(conductor_layout_of_##TYPE, sizeof(TYPE) == BYTES)
#define CONDUCTOR_FIELD_(TYPE, FIELD, AT, BYTES)                                                                                           \
    CONDUCTOR_HOLDS_(conductor_layout_of_##TYPE##_##FIELD, offsetof(TYPE, FIELD) == AT && sizeof(((TYPE *)0)->FIELD) == BYTES)
CONDUCTOR_WHOLE_(size_t, 8);
CONDUCTOR_FIELD_(conductor_dependency, first_stop, 0, 2);
CONDUCTOR_FIELD_(conductor_dependency, second_stop, 2, 2);
CONDUCTOR_FIELD_(conductor_dependency, first_drone, 4, 1);
CONDUCTOR_FIELD_(conductor_dependency, second_drone, 5, 1);
CONDUCTOR_FIELD_(conductor_dependency, flags, 6, 1);
CONDUCTOR_FIELD_(conductor_dependency, reserved, 7, 1);
CONDUCTOR_WHOLE_(conductor_dependency, 8);
CONDUCTOR_FIELD_(conductor_answer, number, 0, 8);
CONDUCTOR_FIELD_(conductor_answer, detail, 8, 8);
CONDUCTOR_WHOLE_(conductor_answer, 16);
CONDUCTOR_FIELD_(conductor_change_answer, number, 0, 8);
CONDUCTOR_FIELD_(conductor_change_answer, change, 8, 8);
CONDUCTOR_WHOLE_(conductor_change_answer, 16);
CONDUCTOR_FIELD_(conductor_order_answer, number, 0, 8);
CONDUCTOR_FIELD_(conductor_order_answer, cost, 8, 8);
CONDUCTOR_FIELD_(conductor_order_answer, length, 16, 8);
CONDUCTOR_FIELD_(conductor_order_answer, count, 24, 8);
CONDUCTOR_WHOLE_(conductor_order_answer, 32);
CONDUCTOR_FIELD_(conductor_read_answer, number, 0, 8);
CONDUCTOR_FIELD_(conductor_read_answer, offset, 8, 8);
CONDUCTOR_FIELD_(conductor_read_answer, drone, 16, 8);
CONDUCTOR_FIELD_(conductor_read_answer, stop, 24, 8);
CONDUCTOR_FIELD_(conductor_read_answer, other_drone, 32, 8);
CONDUCTOR_FIELD_(conductor_read_answer, other_stop, 40, 8);
CONDUCTOR_WHOLE_(conductor_read_answer, 48);
CONDUCTOR_FIELD_(conductor_tables, drone_count, 0, 2);
CONDUCTOR_FIELD_(conductor_tables, dependency_count, 2, 2);
CONDUCTOR_FIELD_(conductor_tables, stop_counts, 4, 2 * CONDUCTOR_DRONES);
CONDUCTOR_FIELD_(conductor_tables, locations, 4 + 2 * CONDUCTOR_DRONES, 2 * CONDUCTOR_STOPS);
CONDUCTOR_FIELD_(conductor_tables, visited, 4 + 2 * CONDUCTOR_DRONES + 2 * CONDUCTOR_STOPS, 2 * CONDUCTOR_DRONES);
CONDUCTOR_FIELD_(conductor_tables, times, 4 + 4 * CONDUCTOR_DRONES + 2 * CONDUCTOR_STOPS, 4 * CONDUCTOR_STOPS);
CONDUCTOR_FIELD_(conductor_tables, names, 4 + 4 * CONDUCTOR_DRONES + 6 * CONDUCTOR_STOPS, CONDUCTOR_DRONES * CONDUCTOR_NAME);
CONDUCTOR_FIELD_(conductor_tables, legs, 4 + 4 * CONDUCTOR_DRONES + 6 * CONDUCTOR_STOPS + CONDUCTOR_NAMES, CONDUCTOR_STOPS);
CONDUCTOR_FIELD_(conductor_tables, drone_flags, 4 + 4 * CONDUCTOR_DRONES + 7 * CONDUCTOR_STOPS + CONDUCTOR_NAMES, CONDUCTOR_DRONES);
CONDUCTOR_FIELD_(conductor_tables, form, 4 + 5 * CONDUCTOR_DRONES + 7 * CONDUCTOR_STOPS + CONDUCTOR_NAMES, 1);
/* one byte after `form` and two at the end are nobody's: a record lies at an even place, the whole ends where a time could begin */
CONDUCTOR_FIELD_(conductor_tables, dependencies, 6 + 5 * CONDUCTOR_DRONES + 7 * CONDUCTOR_STOPS + CONDUCTOR_NAMES, 8 * CONDUCTOR_DEPENDENCIES);
CONDUCTOR_FIELD_(conductor_tables, pairs, 6 + 5 * CONDUCTOR_DRONES + 7 * CONDUCTOR_STOPS + CONDUCTOR_NAMES + 8 * CONDUCTOR_DEPENDENCIES,
                 2 * CONDUCTOR_PAIR_NUMBERS);
CONDUCTOR_WHOLE_(conductor_tables,
                 8 + 5 * CONDUCTOR_DRONES + 7 * CONDUCTOR_STOPS + CONDUCTOR_NAMES + 8 * CONDUCTOR_DEPENDENCIES + 2 * CONDUCTOR_PAIR_NUMBERS);
#undef CONDUCTOR_HOLDS_
#undef CONDUCTOR_WHOLE_
#undef CONDUCTOR_FIELD_

/* ---- the calls over lent tables: what each does and is refused by stands at the call over the struct, below */

/* PLAN: what the tables are called after, where a call is lent more than one set. C1 to C4: what the call only reads, of the plan's tables with
 * the pairs, visited, drone_flags, dependencies */
#define CONDUCTOR_TABLES_OF_(PLAN, C1, C2, C3, C4)                                                                                         \
    C1 uint16_t *PLAN##_drone_count, size_t PLAN##_drone_count_n, C1 uint16_t *PLAN##_dependency_count, size_t PLAN##_dependency_count_n,  \
        C1 uint8_t *PLAN##_form, size_t PLAN##_form_n, C1 uint8_t *PLAN##_names, size_t PLAN##_names_n, C1 uint16_t *PLAN##_stop_counts,   \
        size_t PLAN##_stop_counts_n, C1 uint16_t *PLAN##_locations, size_t PLAN##_locations_n, C1 uint32_t *PLAN##_times,                  \
        size_t PLAN##_times_n, C1 uint8_t *PLAN##_legs, size_t PLAN##_legs_n, C2 uint16_t *PLAN##_visited, size_t PLAN##_visited_n,        \
        C3 uint8_t *PLAN##_drone_flags, size_t PLAN##_drone_flags_n, C4 conductor_dependency *PLAN##_dependencies,                         \
        size_t PLAN##_dependencies_n, C1 uint16_t *PLAN##_pairs, size_t PLAN##_pairs_n
#define CONDUCTOR_NOTHING_
#define CONDUCTOR_READ_(PLAN) CONDUCTOR_TABLES_OF_(PLAN, const, const, const, const)
#define CONDUCTOR_WRITTEN_(PLAN) CONDUCTOR_TABLES_OF_(PLAN, CONDUCTOR_NOTHING_, CONDUCTOR_NOTHING_, CONDUCTOR_NOTHING_, CONDUCTOR_NOTHING_)

conductor_read_answer conductor_lent_read(const uint8_t *text, size_t text_n, CONDUCTOR_WRITTEN_(plan));
conductor_read_answer conductor_lent_read_site(const uint8_t *site, size_t site_n, const uint8_t *text, size_t text_n, CONDUCTOR_WRITTEN_(plan));
conductor_read_answer conductor_lent_join(CONDUCTOR_READ_(first), CONDUCTOR_READ_(second), CONDUCTOR_WRITTEN_(joined));
conductor_answer conductor_lent_write(uint8_t *buffer, size_t buffer_n, CONDUCTOR_READ_(plan));
conductor_answer conductor_lent_grant(CONDUCTOR_TABLES_OF_(plan, const, const, CONDUCTOR_NOTHING_, const), size_t drone);
conductor_answer conductor_lent_arrive(CONDUCTOR_TABLES_OF_(plan, const, CONDUCTOR_NOTHING_, CONDUCTOR_NOTHING_, const), size_t drone);
conductor_answer conductor_lent_withdraw(CONDUCTOR_TABLES_OF_(plan, const, const, CONDUCTOR_NOTHING_, const), size_t drone);
conductor_answer conductor_lent_turn(CONDUCTOR_TABLES_OF_(plan, const, const, const, CONDUCTOR_NOTHING_), size_t dependency);
conductor_answer conductor_lent_turn_all(CONDUCTOR_TABLES_OF_(plan, const, const, const, CONDUCTOR_NOTHING_), const uint16_t *list, size_t list_n);
conductor_change_answer conductor_lent_preview(CONDUCTOR_READ_(plan), size_t dependency);
conductor_change_answer conductor_lent_preview_all(CONDUCTOR_READ_(plan), const uint16_t *list, size_t list_n);
conductor_answer conductor_lent_cost(CONDUCTOR_READ_(plan));
conductor_answer conductor_lent_rounds(CONDUCTOR_READ_(plan));
conductor_order_answer conductor_lent_best_order(CONDUCTOR_READ_(plan), uint16_t *list, size_t list_n, size_t budget);
conductor_answer conductor_lent_press(CONDUCTOR_TABLES_OF_(plan, const, CONDUCTOR_NOTHING_, CONDUCTOR_NOTHING_, const), size_t reported, size_t drone);
conductor_answer conductor_lent_small_plan(size_t number, uint8_t *buffer, size_t buffer_n);

#undef CONDUCTOR_TABLES_OF_
#undef CONDUCTOR_NOTHING_
#undef CONDUCTOR_READ_
#undef CONDUCTOR_WRITTEN_

/* ---- the calls over the struct: the same with the struct's tables, and nothing else */

#define CONDUCTOR_LENT_(t)                                                                                                                 \
    (t)->drone_count, 1, (t)->dependency_count, 1, (t)->form, 1, (t)->names, CONDUCTOR_NAMES, (t)->stop_counts, CONDUCTOR_DRONES,          \
        (t)->locations, CONDUCTOR_STOPS, (t)->times, CONDUCTOR_STOPS, (t)->legs, CONDUCTOR_STOPS, (t)->visited, CONDUCTOR_DRONES,          \
        (t)->drone_flags, CONDUCTOR_DRONES, (t)->dependencies, CONDUCTOR_DEPENDENCIES, (t)->pairs, CONDUCTOR_PAIR_NUMBERS

/* Reads a plan text, of form 1 or 2, without a site text: visits meet where their locations are equal, and there are no pairs. 41; 1; 2, 4,
 * 3, 5, 6 by line; 7, 8, 12, 9 by stop; 10 (at equal locations); 11. After 41 and 1 the tables are as before, after any other refusal their
 * full sizes are zeroed */
static inline conductor_read_answer conductor_read(conductor_tables *field, const void *text, size_t text_n) {
    return conductor_lent_read((const uint8_t *)text, text_n, CONDUCTOR_LENT_(field));
}

/* Reads a plan text with a site text, which lists the pairs of locations that are near each other: visits of different drones meet where
 * their locations are equal or near. 41; 13, 14 by line of the site text (empty: 13 at 0), with the offset there; then as conductor_read: 1;
 * 2, 4, 3, 5, 6; 7, 8, 12, 9; 10 (at equal or near locations); 11. After 41 and 1 the tables are as before, the pairs too; after any other
 * refusal their full sizes are zeroed, the pairs too. A site text may be of any length */
static inline conductor_read_answer conductor_read_site(conductor_tables *field, const void *site, size_t site_n, const void *text, size_t text_n) {
    return conductor_lent_read_site((const uint8_t *)site, site_n, (const uint8_t *)text, text_n, CONDUCTOR_LENT_(field));
}

/* Joins two plans, neither of them started, into one in a third set of tables: the first plan's drones come first, times are kept, and so
 * are the near pairs, which must be the same. The reply, and what is then in the third tables, are those of reading the joined plan's own
 * text: it has the lines that conductor_write gives of the first plan's drones and then of the second's, and is of form 2 if either plan is
 * (the drones of a plan of form 1 then have leg 1, and 0 at stop 0). No such text is made: lengths and offsets are reckoned. 41 (a table of any
 * of the three sets); 40 (the tables of either plan are not sound); 16 (a drone of either has visited its stop 1, is under way or withdrawn, or
 * a dependency of either is turned, or the near pairs differ; no site text and one with `pairs=0` are the same); then as reading the joined
 * text: 1; 4 (more than CONDUCTOR_DRONES drones, at the offset 7), 5, 6 by line; 10, with the drones as the joined plan numbers them; 11.
 * After 41, 40, 16 and 1 the third tables are as before, after any other refusal their full sizes are zeroed; they may hold anything before.
 * The first two are never written, and may be the same tables; the third must not overlap either */
static inline conductor_read_answer conductor_join(const conductor_tables *first, const conductor_tables *second, conductor_tables *joined) {
    return conductor_lent_join(CONDUCTOR_LENT_(first), CONDUCTOR_LENT_(second), CONDUCTOR_LENT_(joined));
}

/* Writes the plan's text in the form in which it was read, without its site text; detail is its length, bytes past it are as before. 41, 40,
 * 42 (buffer unchanged) */
static inline conductor_answer conductor_write(const conductor_tables *field, void *buffer, size_t buffer_n) {
    return conductor_lent_write((uint8_t *)buffer, buffer_n, CONDUCTOR_LENT_(field));
}

/* The drone becomes under way to its next stop. 41, 40, 20, 25, 21, 22, 23 (detail: the lowest dependency unmet) */
static inline conductor_answer conductor_grant(conductor_tables *field, size_t drone) { return conductor_lent_grant(CONDUCTOR_LENT_(field), drone); }

/* The drone has come to its next stop. 41, 40, 20, 25, 24 */
static inline conductor_answer conductor_arrive(conductor_tables *field, size_t drone) { return conductor_lent_arrive(CONDUCTOR_LENT_(field), drone); }

/* The drone is carried home: it holds nothing, costs nothing and nobody waits for it any more. Only its mark in drone_flags changes, and
 * nothing but a reading or a join into its tables takes it back. 41, 40, 20, 25 */
static inline conductor_answer conductor_withdraw(conductor_tables *field, size_t drone) { return conductor_lent_withdraw(CONDUCTOR_LENT_(field), drone); }

/* The order of a dependency's two drones is turned round. 41, 40, 30, 35, 31, 32, 34 */
static inline conductor_answer conductor_turn(conductor_tables *field, size_t dependency) { return conductor_lent_turn(CONDUCTOR_LENT_(field), dependency); }

/* A list of dependencies is turned all at once; the list strictly rises. 41, 40, 36 (empty or not rising), then 30, 35, 31, 32 as the list
 * is walked, then 34 */
static inline conductor_answer conductor_turn_all(conductor_tables *field, const uint16_t *list, size_t list_n) {
    return conductor_lent_turn_all(CONDUCTOR_LENT_(field), list, list_n);
}

/* What conductor_turn would answer, and by how much the cost would change. No table changes. 41, 40, 30, 35, 31, 32, 34 */
static inline conductor_change_answer conductor_preview(const conductor_tables *field, size_t dependency) {
    return conductor_lent_preview(CONDUCTOR_LENT_(field), dependency);
}

/* What conductor_turn_all would answer, likewise. 41, 40, 36, then 30, 35, 31, 32 as the list is walked, then 34 */
static inline conductor_change_answer conductor_preview_all(const conductor_tables *field, const uint16_t *list, size_t list_n) {
    return conductor_lent_preview_all(CONDUCTOR_LENT_(field), list, list_n);
}

/* Detail: the drones' remaining rounds, added up, at most CONDUCTOR_COST. A stop is reached as many rounds as its leg has after the last
 * stop that it awaits, its own drone's stop before it included; a drone under way counts its full leg. 41, 40 */
static inline conductor_answer conductor_cost(const conductor_tables *field) { return conductor_lent_cost(CONDUCTOR_LENT_(field)); }

/* Detail: the undelayed rounds until every drone stands at its last stop. 41, 40 */
static inline conductor_answer conductor_rounds(const conductor_tables *field) { return conductor_lent_rounds(CONDUCTOR_LENT_(field)); }

/* The cheapest directions. A choice covers every dependency that passes 30, 35, 31 and 32, in number order, each left as it is now in force
 * or turned, left before turned. The search goes depth first and enters a choice, part-made or finished, unless the graph with the undecided
 * ones left out has a cycle or its cost is not below the best finished choice so far. The answer is the least cost of all choices without a
 * cycle and how many choices were entered, the empty one included; `list` gets the earliest choice of that cost as the rising list of
 * dependencies to turn, `length` of them, and zeros after them up to CONDUCTOR_DEPENDENCIES. An empty list: nothing can be gained, and the
 * cost is that now. Another goes through conductor_turn_all, which accepts it. No table changes. 41 (a table, or the list below
 * CONDUCTOR_DEPENDENCIES), 40, 38 (the budget is not 1 to CONDUCTOR_BUDGET), 37 (the full walk would enter more choices than the budget; count
 * is the budget): the list is as before then. The list overlaps no table */
static inline conductor_order_answer conductor_best_order(const conductor_tables *field, uint16_t *list, size_t list_n, size_t budget) {
    return conductor_lent_best_order(CONDUCTOR_LENT_(field), list, list_n, budget);
}

/* One press of the handset: takes the arrival of a drone, if one was reported (reported is not 0), then grants every drone that may go.
 * Detail: the granted drones, bit 0 for drone 0 and so on to bit 63. 41, 40, then the arrival's own 20, 25 or 24: nothing is granted
 * then */
static inline conductor_answer conductor_press(conductor_tables *field, size_t reported, size_t drone) {
    return conductor_lent_press(CONDUCTOR_LENT_(field), reported, drone);
}

/* Writes a small plan for the bench by its number, 0 to 377; detail is its length, bytes past it are as before. 15, 42 (buffer
 * unchanged) */
static inline conductor_answer conductor_small_plan(size_t number, void *buffer, size_t buffer_n) {
    return conductor_lent_small_plan(number, (uint8_t *)buffer, buffer_n);
}

#undef CONDUCTOR_LENT_

/* What a number means, in the words of the pilots' page; an empty text for 0 and for a number that no call answers */
static inline const char *conductor_meaning(size_t number) {
    switch (number) {
    case 1: return "the text is longer than 65,536 bytes";
    case 2: return "a line is malformed, out of order, missing or surplus";
    case 3: return "a name is not 1 to 24 letters, digits and hyphens";
    case 4: return "a number is outside its range";
    case 5: return "a name is that of an earlier drone";
    case 6: return "the stops of all drones are more than 2,048";
    case 7: return "a drone's first stop is not at time 0";
    case 8: return "a stop's time is not after that of the stop before it";
    case 9: return "a stop has the location of the stop before it";
    case 10: return "two drones collide";
    case 11: return "the plan has more than 4,096 dependencies";
    case 12: return "the time rises by less than the leg";
    case 13: return "a line of the site text is malformed, out of order, missing or surplus";
    case 14: return "a number of the site text is outside its range, or a pair is not in order";
    case 15: return "there is no small plan of this number";
    case 16: return "a plan to be joined has started, has a turned dependency or a withdrawn drone, or the near pairs differ";
    case 20: return "there is no such drone";
    case 21: return "the drone stands at its last stop";
    case 22: return "the drone is already under way";
    case 23: return "the drone must wait";
    case 24: return "the drone is not under way";
    case 25: return "the drone is withdrawn";
    case 30: return "there is no such dependency";
    case 31: return "the dependency is fixed: it begins at a first stop or ends at a last one";
    case 32: return "the drone that goes first has already entered the crossing";
    case 34: return "drones would wait for each other in a ring";
    case 35: return "a drone of the dependency is withdrawn";
    case 36: return "the list is empty or does not rise";
    case 37: return "there are more choices than the budget";
    case 38: return "the budget is not 1 to 100,000";
    case 40: return "the tables hold no accepted plan";
    case 41: return "a table is below its full size";
    case 42: return "the buffer is shorter than the text";
    default: return "";
    }
}

#ifdef __cplusplus
}
#endif
#endif
