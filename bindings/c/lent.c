/* Every export with every table that is lent to it. Where two tables, two sets of them, two fields of an answer or two numbers of a call
 * changed places between this header and the library, some line here would differ: the plan's numbers are all different, each table is
 * read back entry by entry after each call, and each call is refused by 41 for each table that is one entry short.
 * bindings/test compiles it as C and as C++ and compares what it prints with lent.out. */
#include "conductor.h"
#include <stdio.h>
#include <string.h>

/* the tables of a conductor_tables, each with its full size */
#define CONDUCTOR_LEND(t)                                                                                                                  \
    (t).drone_count, 1, (t).dependency_count, 1, (t).form, 1, (t).names, CONDUCTOR_NAMES, (t).stop_counts, CONDUCTOR_DRONES,               \
        (t).locations, CONDUCTOR_STOPS, (t).times, CONDUCTOR_STOPS, (t).legs, CONDUCTOR_STOPS, (t).visited, CONDUCTOR_DRONES,              \
        (t).drone_flags, CONDUCTOR_DRONES, (t).dependencies, CONDUCTOR_DEPENDENCIES, (t).pairs, CONDUCTOR_PAIR_NUMBERS

static const char PLAN[] = "plan=2\nagents=3\nname=Alpha-1\nstops=6\ngo=1001@0@0\ngo=300@70000@11\ngo=302@140000@12\ngo=301@210000@13\ngo=1002@280000@14\n"
                           "go=1003@280060@15\nname=b\nstops=5\ngo=2001@0@0\ngo=302@500@21\ngo=2003@600@22\ngo=300@200000@23\ngo=2002@260000@24\n"
                           "name=gamma-22\nstops=3\ngo=3001@0@0\ngo=301@400000@31\ngo=1001@400099@32\nend=plan\n";
/* drone 0's 301 is near drone 1's 2003, and drone 2's too; nobody comes to 40000 */
static const char SITE[] = "site=1\npairs=3\nnear=301,2003\nnear=1003,40000\nnear=1003,65535\nend=site\n";
/* a second planner's, of form 1: its first drone comes to 300 after both that go there in PLAN, its second to 40000, which is near where
 * PLAN's drone 0 ends, and both cross at 4444 */
static const char WEST[] = "plan=1\nagents=2\nname=Delta\nstops=4\ngo=4001@0\ngo=300@300000\ngo=4444@300500\ngo=4002@300600\n"
                           "name=e-5\nstops=4\ngo=5001@0\ngo=40000@1000\ngo=4444@1500\ngo=5002@1600\nend=plan\n";
/* of form 1: its legs are of one */
static const char PLAIN[] = "plan=1\nagents=2\nname=a\nstops=3\ngo=11@0\ngo=12@7\ngo=13@9\nname=b\nstops=2\ngo=14@0\ngo=15@8\nend=plan\n";
/* drone 1 at its stop 3 and drone 2 at its stop 4 are at location 77 at one time */
static const char COLLISION[] = "plan=1\nagents=3\nname=a\nstops=1\ngo=1@0\nname=b\nstops=5\ngo=2@0\ngo=3@1\ngo=4@2\ngo=77@3\ngo=5@4\n"
                                "name=c\nstops=5\ngo=6@0\ngo=7@1\ngo=8@2\ngo=9@3\ngo=77@4\nend=plan\n";

static conductor_tables field, want, east, west, east_before, west_before;
static uint8_t buffer[CONDUCTOR_TEXT], before[CONDUCTOR_TEXT], too_long[CONDUCTOR_TEXT + 1];
static const uint16_t LIST[] = {2};
/* a lent list that is longer than its full size, and what is expected in it */
enum { LONGER = CONDUCTOR_DEPENDENCIES + 7 };
static uint16_t list[LONGER], want_list[LONGER];
static int differing;

/* ---- what is expected */

static void same(const char *what, size_t got, size_t wanted) {
    if (got != wanted) printf("%s: %zu and not %zu\n", what, got, wanted), differing++;
}

static void same_bytes(const char *what, const void *got, const void *wanted, size_t n) {
    if (memcmp(got, wanted, n)) printf("%s differs\n", what), differing++;
}

static void same_tables(void) {
    same("drone count", field.drone_count[0], want.drone_count[0]);
    same("dependency count", field.dependency_count[0], want.dependency_count[0]);
    same("form", field.form[0], want.form[0]);
    same_bytes("names", field.names, want.names, sizeof want.names);
    same_bytes("stop counts", field.stop_counts, want.stop_counts, sizeof want.stop_counts);
    same_bytes("locations", field.locations, want.locations, sizeof want.locations);
    same_bytes("times", field.times, want.times, sizeof want.times);
    same_bytes("legs", field.legs, want.legs, sizeof want.legs);
    same_bytes("visited", field.visited, want.visited, sizeof want.visited);
    same_bytes("drone flags", field.drone_flags, want.drone_flags, sizeof want.drone_flags);
    same_bytes("dependencies", field.dependencies, want.dependencies, sizeof want.dependencies);
    same_bytes("pairs", field.pairs, want.pairs, sizeof want.pairs);
}

static void as_expected(const char *what) {
    same_tables();
    printf("%s: %s\n", what, differing ? "DIFFERS" : "as expected");
    differing = 0;
}

static void dependency(int p, int first_drone, int first_stop, int second_drone, int second_stop, int flags) {
    want.dependencies[p].first_drone = (uint8_t)first_drone;
    want.dependencies[p].first_stop = (uint16_t)first_stop;
    want.dependencies[p].second_drone = (uint8_t)second_drone;
    want.dependencies[p].second_stop = (uint16_t)second_stop;
    want.dependencies[p].flags = (uint8_t)flags;
}

/* the tables after the reading, from PLAN by hand */
static void plan_by_hand(void) {
    static const uint16_t LOCATIONS[] = {1001, 300, 302, 301, 1002, 1003, 2001, 302, 2003, 300, 2002, 3001, 301, 1001};
    static const uint32_t TIMES[] = {0, 70000, 140000, 210000, 280000, 280060, 0, 500, 600, 200000, 260000, 0, 400000, 400099};
    static const uint8_t LEGS[] = {0, 11, 12, 13, 14, 15, 0, 21, 22, 23, 24, 0, 31, 32};
    memset(&want, 0, sizeof want);
    want.drone_count[0] = 3, want.dependency_count[0] = 4, want.form[0] = 2;
    want.stop_counts[0] = 6, want.stop_counts[1] = 5, want.stop_counts[2] = 3;
    memcpy(want.names, "alpha-1", 7), memcpy(want.names + CONDUCTOR_NAME, "b", 1), memcpy(want.names + 2 * CONDUCTOR_NAME, "gamma-22", 8);
    memcpy(want.locations, LOCATIONS, sizeof LOCATIONS), memcpy(want.times, TIMES, sizeof TIMES), memcpy(want.legs, LEGS, sizeof LEGS);
    dependency(0, 0, 0, 2, 2, 2);
    dependency(1, 0, 1, 1, 3, 0);
    dependency(2, 0, 3, 2, 1, 0);
    dependency(3, 1, 1, 0, 2, 0);
}

/* likewise from SITE and PLAN */
static void site_by_hand(void) {
    static const uint16_t PAIRS[] = {301, 2003, 1003, 40000, 1003, 65535};
    plan_by_hand();
    memcpy(want.pairs, PAIRS, sizeof PAIRS);
    want.dependency_count[0] = 6;
    dependency(4, 1, 2, 0, 3, 0);
    dependency(5, 1, 2, 2, 1, 0);
}

/* likewise from PLAIN */
static void plain_by_hand(void) {
    static const uint16_t LOCATIONS[] = {11, 12, 13, 14, 15};
    static const uint32_t TIMES[] = {0, 7, 9, 0, 8};
    static const uint8_t LEGS[] = {0, 1, 1, 0, 1};
    memset(&want, 0, sizeof want);
    want.drone_count[0] = 2, want.form[0] = 1;
    want.stop_counts[0] = 3, want.stop_counts[1] = 2;
    want.names[0] = 'a', want.names[CONDUCTOR_NAME] = 'b';
    memcpy(want.locations, LOCATIONS, sizeof LOCATIONS), memcpy(want.times, TIMES, sizeof TIMES), memcpy(want.legs, LEGS, sizeof LEGS);
}

/* likewise from SITE, PLAN and WEST, joined: WEST's drones are numbered after PLAN's three, its legs are of one, and the form is PLAN's */
static void joined_by_hand(void) {
    static const uint16_t LOCATIONS[] = {4001, 300, 4444, 4002, 5001, 40000, 4444, 5002};
    static const uint32_t TIMES[] = {0, 300000, 300500, 300600, 0, 1000, 1500, 1600};
    static const uint8_t LEGS[] = {0, 1, 1, 1, 0, 1, 1, 1};
    site_by_hand();
    want.drone_count[0] = 5, want.dependency_count[0] = 10;
    want.stop_counts[3] = want.stop_counts[4] = 4;
    memcpy(want.names + 3 * CONDUCTOR_NAME, "delta", 5), memcpy(want.names + 4 * CONDUCTOR_NAME, "e-5", 3);
    memcpy(want.locations + 14, LOCATIONS, sizeof LOCATIONS), memcpy(want.times + 14, TIMES, sizeof TIMES), memcpy(want.legs + 14, LEGS, sizeof LEGS);
    dependency(2, 0, 1, 3, 1, 0);
    dependency(3, 0, 3, 2, 1, 0);
    dependency(4, 1, 1, 0, 2, 0);
    dependency(5, 1, 2, 0, 3, 0);
    dependency(6, 1, 2, 2, 1, 0);
    dependency(7, 1, 3, 3, 1, 0);
    dependency(8, 4, 1, 0, 5, 2);
    dependency(9, 4, 2, 3, 2, 0);
}

/* ---- readings and calls, with every table after each */

static conductor_read_answer read_plan(const char *text) { return conductor_lent_read((const uint8_t *)text, strlen(text), CONDUCTOR_LEND(field)); }

static conductor_read_answer read_site(const char *site, const char *text) {
    return conductor_lent_read_site((const uint8_t *)site, strlen(site), (const uint8_t *)text, strlen(text), CONDUCTOR_LEND(field));
}

static void same_answer(conductor_answer a, size_t number, size_t detail) {
    same("number", a.number, number);
    same("detail", a.detail, detail);
}

static void same_change(conductor_change_answer a, size_t number, int64_t change) {
    same("number", a.number, number);
    if (a.change != change) printf("change: %lld and not %lld\n", (long long)a.change, (long long)change), differing++;
}

static void same_reading(conductor_read_answer a, size_t number, size_t offset, size_t drone, size_t stop, size_t other_drone, size_t other_stop) {
    same("number", a.number, number);
    same("offset", a.offset, offset);
    same("drone", a.drone, drone);
    same("stop", a.stop, stop);
    same("other drone", a.other_drone, other_drone);
    same("other stop", a.other_stop, other_stop);
}

static void readings(void) {
    memset(&field, 0xA5, sizeof field);
    memset(&want, 0, sizeof want);
    same_reading(read_plan(COLLISION), 10, 0, 1, 3, 2, 4);
    as_expected("two drones and their stops");
    same_reading(read_plan("plan=1\nagents=2\nname=a\nstops=1\ngo=1@0\nname=b\nstops=3\ngo=2@0\ngo=3@5\ngo=4@5\nend=plan\n"), 8, 0, 1, 2, 0, 0);
    as_expected("a drone and its stop");
    plain_by_hand();
    same_reading(read_plan(PLAIN), 0, 0, 0, 0, 0, 0);
    same_answer(conductor_lent_cost(CONDUCTOR_LEND(field)), 0, 3);
    as_expected("read in form 1");
    memset(&want, 0, sizeof want);
    same_reading(read_plan("plan=2\nagents=2\nname=a\nstops=1\ngo=1@0@0\nname=b\nstops=3\ngo=2@0@0\ngo=3@5@5\ngo=3@10@6\nend=plan\n"), 12, 0, 1, 2, 0, 0);
    as_expected("a leg that the time does not rise by");
    same_reading(read_plan("plan=1\nagents=2\nname=a\nstops=0\n"), 4, 23, 0, 0, 0, 0);
    as_expected("an offset");
    plan_by_hand();
    same_reading(read_plan(PLAN), 0, 0, 0, 0, 0, 0);
    as_expected("read");
}

static void readings_with_a_site(void) {
    memset(&field, 0xA5, sizeof field);
    site_by_hand();
    same_reading(read_site(SITE, PLAN), 0, 0, 0, 0, 0, 0);
    as_expected("read with a site");
    same_reading(conductor_lent_read_site((const uint8_t *)SITE, sizeof SITE - 1, too_long, sizeof too_long, CONDUCTOR_LEND(field)), 1, CONDUCTOR_TEXT, 0, 0, 0, 0);
    as_expected("a site, and a text too long");
    memset(&want, 0, sizeof want);
    same_reading(conductor_lent_read_site((const uint8_t *)SITE, sizeof SITE - 2, too_long, sizeof too_long, CONDUCTOR_LEND(field)), 13, 61, 0, 0, 0, 0);
    as_expected("a site without its last line feed, and a text too long");
    memset(&field, 0xA5, sizeof field);
    same_reading(read_site("", PLAN), 13, 0, 0, 0, 0, 0);
    as_expected("an empty site");
    same_reading(read_site("site=1\npairs=2\nnear=301,2003\nnear=301,302\nend=site\n", PLAN), 14, 29, 0, 0, 0, 0);
    as_expected("a pair that is not above the one before");
    same_reading(read_site("site=1\npairs=1\nnear=300,2003\nend=site\n", PLAN), 10, 0, 0, 1, 1, 2);
    as_expected("a collision at near locations");
    plan_by_hand();
    same_reading(read_site("site=1\npairs=0\nend=site\n", PLAN), 0, 0, 0, 0, 0, 0);
    as_expected("a site without pairs");
    site_by_hand();
    same_reading(read_site(SITE, PLAN), 0, 0, 0, 0, 0, 0);
    plan_by_hand();
    same_reading(read_plan(PLAN), 0, 0, 0, 0, 0, 0);
    as_expected("read without a site after one with a site");
    site_by_hand();
    same_reading(read_site(SITE, PLAN), 0, 0, 0, 0, 0, 0);
    as_expected("and with it again");
}

static void calls(void) {
    static const uint16_t TWO[] = {1, 2};
    same_answer(conductor_lent_cost(CONDUCTOR_LEND(field)), 0, 390);
    same_answer(conductor_lent_rounds(CONDUCTOR_LEND(field)), 0, 168);
    as_expected("cost and rounds");
    same_answer(conductor_lent_grant(CONDUCTOR_LEND(field), 2), 23, 2);
    same_answer(conductor_lent_grant(CONDUCTOR_LEND(field), 0), 0, 0);
    same_answer(conductor_lent_grant(CONDUCTOR_LEND(field), 1), 0, 0);
    want.drone_flags[0] = want.drone_flags[1] = 1;
    as_expected("grant");
    same_answer(conductor_lent_arrive(CONDUCTOR_LEND(field), 1), 0, 0);
    want.drone_flags[1] = 0, want.visited[1] = 1;
    as_expected("arrive");
    same_change(conductor_lent_preview(CONDUCTOR_LEND(field), 2), 0, 36);
    same_change(conductor_lent_preview_all(CONDUCTOR_LEND(field), TWO, 2), 32, 0);
    same_change(conductor_lent_preview_all(CONDUCTOR_LEND(field), LIST, 1), 0, 36);
    as_expected("preview and preview of a list");
    same_answer(conductor_lent_turn(CONDUCTOR_LEND(field), 2), 0, 0);
    want.dependencies[2].flags = 1;
    as_expected("turn");
    same_answer(conductor_lent_turn_all(CONDUCTOR_LEND(field), LIST, 1), 0, 0);
    want.dependencies[2].flags = 0;
    same_answer(conductor_lent_turn_all(CONDUCTOR_LEND(field), LIST, 0), 36, 0);
    as_expected("turn of a list");
    same_answer(conductor_lent_press(CONDUCTOR_LEND(field), 1, 0), 0, 1 << 1);
    want.visited[0] = 1, want.drone_flags[0] = 0, want.drone_flags[1] = 1;
    as_expected("press with an arrival of drone 0");
    same_answer(conductor_lent_press(CONDUCTOR_LEND(field), 0, 1), 0, 0);
    as_expected("press without an arrival");
    same_answer(conductor_lent_withdraw(CONDUCTOR_LEND(field), 2), 0, 0);
    want.drone_flags[2] = 2;
    same_answer(conductor_lent_withdraw(CONDUCTOR_LEND(field), 2), 25, 0);
    same_answer(conductor_lent_turn(CONDUCTOR_LEND(field), 2), 35, 0);
    as_expected("withdraw");
}

/* ---- the cheapest directions: the answer, and every entry of the list, those past its full size too */

static void scrawled_list(void) {
    memset(list, 0xA5, sizeof list), memset(want_list, 0xA5, sizeof want_list);
}

/* `want_list` has what is to be turned, and the rest of its full size is zero */
static void to_turn(const uint16_t *turns, size_t length) {
    memset(want_list, 0, CONDUCTOR_DEPENDENCIES * sizeof *want_list);
    memcpy(want_list, turns, length * sizeof *turns);
}

static void same_order(const char *what, conductor_order_answer a, size_t number, size_t cost, size_t length, size_t count) {
    same("number", a.number, number);
    same("cost", a.cost, cost);
    same("length", a.length, length);
    same("count", a.count, count);
    same_bytes("list", list, want_list, sizeof list);
    as_expected(what);
}

static conductor_order_answer best_of(size_t budget) { return conductor_lent_best_order(CONDUCTOR_LEND(field), list, LONGER, budget); }

static void best_orders(void) {
    static const uint16_t FIRST[] = {2, 3, 4, 5}, CARRIED[] = {2};
    site_by_hand();
    memcpy(&field, &want, sizeof want);
    scrawled_list();
    same_order("best order, a budget of 0", best_of(0), 38, 0, 0, 0);
    same_order("best order, a budget too large", best_of(CONDUCTOR_BUDGET + 1), 38, 0, 0, 0);
    same_order("best order, a budget one below the count", best_of(14), 37, 0, 0, 14);
    to_turn(FIRST, 4);
    same_order("best order, the budget its count", best_of(15), 0, 334, 4, 15);
    want.dependencies[3].flags = field.dependencies[3].flags = 3;
    scrawled_list();
    same_order("best order of tables that are not sound, a budget of 0", best_of(0), 40, 0, 0, 0);
    site_by_hand();
    want.drone_flags[1] = 2, want.drone_flags[0] = 1;
    memcpy(&field, &want, sizeof want);
    same_order("best order, a budget of 1", best_of(1), 37, 0, 0, 1);
    to_turn(CARRIED, 1);
    same_order("best order with a drone carried home", best_of(CONDUCTOR_BUDGET), 0, 168, 1, 3);
    site_by_hand();
    memcpy(&field, &want, sizeof want);
    same_answer(conductor_lent_turn_all(CONDUCTOR_LEND(field), FIRST, 4), 0, 0);
    same_answer(conductor_lent_cost(CONDUCTOR_LEND(field)), 0, 334);
    for (int i = 0; i < 4; i++) want.dependencies[FIRST[i]].flags = 1;
    scrawled_list(), to_turn(FIRST, 0);
    same_order("best order once the list is turned", best_of(CONDUCTOR_BUDGET), 0, 334, 0, 11);
}

static void writing(void) {
    static const char SMALL[] = "plan=1\nagents=2\nname=a\nstops=1\ngo=0@0\nname=b\nstops=1\ngo=1@0\nend=plan\n";
    size_t length = sizeof PLAN - 1, small_length = sizeof SMALL - 1;
    char small[sizeof PLAN];
    memcpy(small, PLAN, sizeof PLAN);
    *strchr(small, 'A') = 'a';
    memset(buffer, 0xA5, sizeof buffer), memset(before, 0xA5, sizeof before);
    same_answer(conductor_lent_write(buffer, length - 1, CONDUCTOR_LEND(field)), 42, 0);
    same_bytes("buffer", buffer, before, sizeof buffer);
    same_answer(conductor_lent_write(buffer, length, CONDUCTOR_LEND(field)), 0, length);
    same_bytes("text", buffer, small, length);
    same_bytes("buffer past the text", buffer + length, before + length, sizeof buffer - length);
    as_expected("write");
    memset(buffer, 0xA5, sizeof buffer);
    same_answer(conductor_lent_small_plan(CONDUCTOR_SMALL_PLANS, buffer, CONDUCTOR_SMALL_TEXT), 15, 0);
    same_answer(conductor_lent_small_plan(0, buffer, small_length - 1), 42, 0);
    same_bytes("buffer", buffer, before, sizeof buffer);
    same_answer(conductor_lent_small_plan(0, buffer, CONDUCTOR_SMALL_TEXT), 0, small_length);
    same_bytes("text", buffer, SMALL, small_length);
    same_bytes("buffer past the text", buffer + small_length, before + small_length, sizeof buffer - small_length);
    as_expected("small plan");
}

/* ---- two plans joined */

/* a plan by itself, with a site text or without one */
static void planned(conductor_tables *of, const char *site, const char *text) {
    const uint8_t *bytes = (const uint8_t *)text;
    size_t n = strlen(text);
    same("a plan to be joined", site ? conductor_lent_read_site((const uint8_t *)site, strlen(site), bytes, n, CONDUCTOR_LEND(*of)).number
                                     : conductor_lent_read(bytes, n, CONDUCTOR_LEND(*of)).number, 0);
}

/* one drone with every stop that there may be, in long lines: twice as much is too long a text */
static void long_plan(conductor_tables *of, const char *name) {
    char *at = (char *)buffer;
    at += sprintf(at, "plan=2\nagents=1\nname=%s\nstops=%d\n", name, (int)CONDUCTOR_STOPS);
    for (int k = 0; k < CONDUCTOR_STOPS; k++) at += sprintf(at, "go=%d@%d@%d\n", 60000 + k % 2, k ? 100000 + 60 * k : 0, k ? 60 : 0);
    sprintf(at, "end=plan\n");
    planned(of, 0, (char *)buffer);
}

/* a join of `east` and `west`, which are then as they were; `want` has what is then in the third tables */
static void same_join(const char *what, size_t number, size_t offset, size_t drone, size_t stop, size_t other_drone, size_t other_stop) {
    memcpy(&east_before, &east, sizeof east), memcpy(&west_before, &west, sizeof west);
    same_reading(conductor_lent_join(CONDUCTOR_LEND(east), CONDUCTOR_LEND(west), CONDUCTOR_LEND(field)), number, offset, drone, stop, other_drone, other_stop);
    same_bytes("the first plan's tables", &east, &east_before, sizeof east);
    same_bytes("the second plan's tables", &west, &west_before, sizeof west);
    as_expected(what);
}

static void scrawled(void) {
    memset(&field, 0xA5, sizeof field), memset(&want, 0xA5, sizeof want);
}

static void joins_refused(void) {
    scrawled();
    planned(&east, SITE, PLAN), planned(&west, 0, WEST);
    same_join("joined where the near pairs differ", 16, 0, 0, 0, 0, 0);
    planned(&west, SITE, WEST);
    same_answer(conductor_lent_grant(CONDUCTOR_LEND(west), 0), 0, 0);
    same_join("joined with a plan that has started", 16, 0, 0, 0, 0, 0);
    west.visited[1] = 9;
    same_join("joined with tables that are not sound", 40, 0, 0, 0, 0, 0);
    long_plan(&east, "east"), long_plan(&west, "west");
    same_join("joined, and the text too long", 1, CONDUCTOR_TEXT, 0, 0, 0, 0);
    memset(&want, 0, sizeof want);
    planned(&east, SITE, PLAN);
    planned(&west, SITE, "plan=1\nagents=2\nname=c\nstops=1\ngo=6001@0\nname=GAMMA-22\nstops=1\ngo=6002@0\nend=plan\n");
    same_join("joined, and a name shared", 5, 322, 0, 0, 0, 0);
    planned(&west, SITE, "plan=2\nagents=2\nname=c\nstops=1\ngo=6001@0@0\nname=d\nstops=3\ngo=6002@0@0\ngo=2003@190000@60\ngo=6003@210000@60\nend=plan\n");
    scrawled(), memset(&want, 0, sizeof want);
    same_join("joined, and a collision at near locations", 10, 0, 0, 3, 4, 1);
}

static void joins(void) {
    memset(&field, 0xA5, sizeof field);
    planned(&east, SITE, PLAN), planned(&west, SITE, WEST);
    joined_by_hand();
    same_join("joined", 0, 0, 0, 0, 0, 0);
    same_join("and joined again over it", 0, 0, 0, 0, 0, 0);
    same_answer(conductor_lent_cost(CONDUCTOR_LEND(field)), 0, 498);
    same_answer(conductor_lent_grant(CONDUCTOR_LEND(field), 3), 23, 2);
    as_expected("cost and grant of the joined plan");
    joins_refused();
}

/* ---- each export with each table one entry short */

enum { LENT = 12 };
static const char *const TABLES[LENT] = {"drone_count", "dependency_count", "form",    "names",       "stop_counts",  "locations",
                                         "times",       "legs",             "visited", "drone_flags", "dependencies", "pairs"};
static const size_t FULL[LENT] = {1,
                                  1,
                                  1,
                                  CONDUCTOR_NAMES,
                                  CONDUCTOR_DRONES,
                                  CONDUCTOR_STOPS,
                                  CONDUCTOR_STOPS,
                                  CONDUCTOR_STOPS,
                                  CONDUCTOR_DRONES,
                                  CONDUCTOR_DRONES,
                                  CONDUCTOR_DEPENDENCIES,
                                  CONDUCTOR_PAIR_NUMBERS};

#define LENT_OF(t, n)                                                                                                                      \
    t.drone_count, (n)[0], t.dependency_count, (n)[1], t.form, (n)[2], t.names, (n)[3], t.stop_counts, (n)[4], t.locations, (n)[5], t.times,      \
        (n)[6], t.legs, (n)[7], t.visited, (n)[8], t.drone_flags, (n)[9], t.dependencies, (n)[10], t.pairs, (n)[11]
#define LENT_BY(n) LENT_OF(field, n)

static size_t of_read(const size_t *n) { return conductor_lent_read((const uint8_t *)PLAN, sizeof PLAN - 1, LENT_BY(n)).number; }
static size_t of_read_site(const size_t *n) {
    return conductor_lent_read_site((const uint8_t *)SITE, sizeof SITE - 1, (const uint8_t *)PLAN, sizeof PLAN - 1, LENT_BY(n)).number;
}
static size_t of_write(const size_t *n) { return conductor_lent_write(buffer, sizeof buffer, LENT_BY(n)).number; }
static size_t of_grant(const size_t *n) { return conductor_lent_grant(LENT_BY(n), 0).number; }
static size_t of_arrive(const size_t *n) { return conductor_lent_arrive(LENT_BY(n), 1).number; }
static size_t of_withdraw(const size_t *n) { return conductor_lent_withdraw(LENT_BY(n), 2).number; }
static size_t of_turn(const size_t *n) { return conductor_lent_turn(LENT_BY(n), 2).number; }
static size_t of_turn_all(const size_t *n) { return conductor_lent_turn_all(LENT_BY(n), LIST, 1).number; }
static size_t of_preview(const size_t *n) { return conductor_lent_preview(LENT_BY(n), 2).number; }
static size_t of_preview_all(const size_t *n) { return conductor_lent_preview_all(LENT_BY(n), LIST, 1).number; }
static size_t of_cost(const size_t *n) { return conductor_lent_cost(LENT_BY(n)).number; }
static size_t of_rounds(const size_t *n) { return conductor_lent_rounds(LENT_BY(n)).number; }
static size_t of_press(const size_t *n) { return conductor_lent_press(LENT_BY(n), 1, 1).number; }
static size_t of_best_order(const size_t *n) { return conductor_lent_best_order(LENT_BY(n), list, CONDUCTOR_DEPENDENCIES, CONDUCTOR_BUDGET).number; }

static const struct {
    const char *name;
    size_t (*number)(const size_t *n);
} EXPORTS[] = {{"conductor_lent_read", of_read},         {"conductor_lent_write", of_write},       {"conductor_lent_grant", of_grant},
               {"conductor_lent_arrive", of_arrive},     {"conductor_lent_turn", of_turn},         {"conductor_lent_turn_all", of_turn_all},
               {"conductor_lent_preview", of_preview},   {"conductor_lent_preview_all", of_preview_all}, {"conductor_lent_cost", of_cost},
               {"conductor_lent_rounds", of_rounds},     {"conductor_lent_press", of_press},       {"conductor_lent_withdraw", of_withdraw},
               {"conductor_lent_read_site", of_read_site}, {"conductor_lent_best_order", of_best_order}};

/* drone 1 under way to its stop 1, so that an arrival of it and a grant of drone 0 are accepted at full sizes */
static void under_way(void) {
    site_by_hand();
    want.drone_flags[1] = 1;
    memcpy(&field, &want, sizeof want);
}

static void short_tables(void) {
    for (size_t e = 0; e < sizeof EXPORTS / sizeof *EXPORTS; e++) {
        under_way();
        memset(buffer, 0xA5, sizeof buffer), memset(before, 0xA5, sizeof before);
        scrawled_list();
        for (size_t t = 0; t < LENT; t++) {
            size_t n[LENT];
            memcpy(n, FULL, sizeof n);
            n[t]--;
            same(TABLES[t], EXPORTS[e].number(n), 41);
            n[t] = 0;
            same(TABLES[t], EXPORTS[e].number(n), 41);
            same_tables();
            same_bytes("buffer", buffer, before, sizeof buffer);
            same_bytes("list", list, want_list, sizeof list);
        }
        same("at full sizes", EXPORTS[e].number(FULL), 0);
        printf("%s, each table short in turn: %s\n", EXPORTS[e].name, differing ? "DIFFERS" : "41");
        differing = 0;
    }
}

/* the lent list: one entry short, of no entry, and short where the tables are not sound and the budget is out of range */
static void short_list(void) {
    under_way();
    scrawled_list();
    for (size_t n = CONDUCTOR_DEPENDENCIES - 1;; n = 0) {
        same_order(n ? "best order, the list one entry short" : "best order, a list of no entry", conductor_lent_best_order(CONDUCTOR_LEND(field), list, n, 1), 41, 0, 0, 0);
        if (n == 0) break;
    }
    want.form[0] = field.form[0] = 0;
    same_order("best order, the list short and the tables not sound", conductor_lent_best_order(CONDUCTOR_LEND(field), list, CONDUCTOR_DEPENDENCIES - 1, 0), 41, 0, 0, 0);
}

/* three sets: each table of each of them */
static void short_tables_joined(void) {
    enum { SETS = 3 };
    static const char *const SET[SETS] = {"first", "second", "third"};
    planned(&east, SITE, PLAN), planned(&west, SITE, WEST);
    memcpy(&east_before, &east, sizeof east), memcpy(&west_before, &west, sizeof west);
    for (size_t set = 0; set < SETS; set++) {
        scrawled();
        for (size_t t = 0; t < LENT; t++) {
            size_t n[SETS][LENT];
            for (size_t of = 0; of < SETS; of++) memcpy(n[of], FULL, sizeof FULL);
            for (n[set][t] = FULL[t] - 1;; n[set][t] = 0) {
                same_reading(conductor_lent_join(LENT_OF(east, n[0]), LENT_OF(west, n[1]), LENT_OF(field, n[2])), 41, 0, 0, 0, 0, 0);
                if (n[set][t] == 0) break;
            }
            same_tables();
            same_bytes("the first plan's tables", &east, &east_before, sizeof east);
            same_bytes("the second plan's tables", &west, &west_before, sizeof west);
        }
        printf("conductor_lent_join, each table of the %s set short in turn: %s\n", SET[set], differing ? "DIFFERS" : "41");
        differing = 0;
    }
}

/* ---- no entries and no pointer: 41 of each table of each export, and an empty text, list or buffer */

#define UNLESS(t, k, table) ((t) == (k) ? 0 : table)
#define LENT_BUT(t)                                                                                                                        \
    UNLESS(t, 0, field.drone_count), (t) == 0 ? 0 : 1, UNLESS(t, 1, field.dependency_count), (t) == 1 ? 0 : 1, UNLESS(t, 2, field.form),          \
        (t) == 2 ? 0 : 1, UNLESS(t, 3, field.names), (t) == 3 ? 0 : CONDUCTOR_NAMES, UNLESS(t, 4, field.stop_counts),                        \
        (t) == 4 ? 0 : CONDUCTOR_DRONES, UNLESS(t, 5, field.locations), (t) == 5 ? 0 : CONDUCTOR_STOPS, UNLESS(t, 6, field.times),           \
        (t) == 6 ? 0 : CONDUCTOR_STOPS, UNLESS(t, 7, field.legs), (t) == 7 ? 0 : CONDUCTOR_STOPS, UNLESS(t, 8, field.visited),               \
        (t) == 8 ? 0 : CONDUCTOR_DRONES, UNLESS(t, 9, field.drone_flags), (t) == 9 ? 0 : CONDUCTOR_DRONES, UNLESS(t, 10, field.dependencies), \
        (t) == 10 ? 0 : CONDUCTOR_DEPENDENCIES, UNLESS(t, 11, field.pairs), (t) == 11 ? 0 : CONDUCTOR_PAIR_NUMBERS

static void no_pointers(void) {
    under_way();
    for (size_t t = 0; t < LENT; t++) {
        same("read", conductor_lent_read((const uint8_t *)PLAN, sizeof PLAN - 1, LENT_BUT(t)).number, 41);
        same("read_site", conductor_lent_read_site((const uint8_t *)SITE, sizeof SITE - 1, (const uint8_t *)PLAN, sizeof PLAN - 1, LENT_BUT(t)).number, 41);
        same("join, first", conductor_lent_join(LENT_BUT(t), CONDUCTOR_LEND(west), CONDUCTOR_LEND(east)).number, 41);
        same("join, second", conductor_lent_join(CONDUCTOR_LEND(west), LENT_BUT(t), CONDUCTOR_LEND(east)).number, 41);
        same("join, third", conductor_lent_join(CONDUCTOR_LEND(west), CONDUCTOR_LEND(east), LENT_BUT(t)).number, 41);
        same("write", conductor_lent_write(buffer, sizeof buffer, LENT_BUT(t)).number, 41);
        same("grant", conductor_lent_grant(LENT_BUT(t), 0).number, 41);
        same("arrive", conductor_lent_arrive(LENT_BUT(t), 1).number, 41);
        same("withdraw", conductor_lent_withdraw(LENT_BUT(t), 2).number, 41);
        same("turn", conductor_lent_turn(LENT_BUT(t), 2).number, 41);
        same("turn_all", conductor_lent_turn_all(LENT_BUT(t), LIST, 1).number, 41);
        same("preview", conductor_lent_preview(LENT_BUT(t), 2).number, 41);
        same("preview_all", conductor_lent_preview_all(LENT_BUT(t), LIST, 1).number, 41);
        same("cost", conductor_lent_cost(LENT_BUT(t)).number, 41);
        same("rounds", conductor_lent_rounds(LENT_BUT(t)).number, 41);
        same("press", conductor_lent_press(LENT_BUT(t), 1, 1).number, 41);
        same("best_order", conductor_lent_best_order(LENT_BUT(t), list, LONGER, 1).number, 41);
    }
    as_expected("each table NULL with 0 entries in turn");
    same_answer(conductor_turn_all(&field, 0, 0), 36, 0);
    same_change(conductor_preview_all(&field, 0, 0), 36, 0);
    same("best_order", conductor_best_order(&field, 0, 0, 1).number, 41);
    same_answer(conductor_write(&field, 0, 0), 42, 0);
    same_answer(conductor_small_plan(0, 0, 0), 42, 0);
    as_expected("a list and a buffer NULL with 0 entries");
    memset(&want, 0, sizeof want);
    same_reading(conductor_read(&field, 0, 0), 2, 0, 0, 0, 0, 0);
    same_reading(conductor_read_site(&field, 0, 0, 0, 0), 13, 0, 0, 0, 0, 0);
    as_expected("a text NULL with 0 bytes");
}

int main(void) {
    readings();
    readings_with_a_site();
    calls();
    writing();
    best_orders();
    joins();
    short_tables();
    short_list();
    short_tables_joined();
    no_pointers();
    return 0;
}
