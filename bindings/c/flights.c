/* Flights through the C library: document 01's flight Q; Q with drone 0 withdrawn; Q with legs, a long one into drone 0's stop 2, which is
 * written with them, and the legs that are refused; Q at a site where 5 and 6 are near, which are turned as a list alone, and the sites that
 * are refused; Q's two drones planned apart and joined, and the joins that are refused; the cheapest directions of Q, of P and of a crossing
 * of three, with their lists applied and with budgets that are too small, none and too large; a name of 24 capitals, which is taken and written
 * small; and as many drones as there may be, all of which a press grants, with one more, which is refused.
 * bindings/test compiles it as C and as C++ and compares what it prints with flights.out. */
#include "conductor.h"
#include <stdio.h>
#include <string.h>

static conductor_tables field, east, west, joined;
static uint8_t buffer[CONDUCTOR_TEXT + 1];
static uint16_t list[CONDUCTOR_DEPENDENCIES];
static size_t list_length;

static const char Q[] = "plan=1\nagents=2\nname=survey-quad-east-1\nstops=4\ngo=1@0\ngo=6@1\ngo=5@2\ngo=2@3\n"
                        "name=survey-quad-east-2\nstops=3\ngo=3@0\ngo=5@4\ngo=4@5\nend=plan\n";
static const char LEGS[] = "plan=2\nagents=2\nname=survey-quad-east-1\nstops=4\ngo=1@0@0\ngo=6@1@1\ngo=5@4@3\ngo=2@5@1\n"
                           "name=survey-quad-east-2\nstops=3\ngo=3@0@0\ngo=5@6@1\ngo=4@7@1\nend=plan\n";
/* Q's drones, each in a plan of its own; the second with the name of the first; and one that is at 5 while Q's second is */
static const char EAST[] = "plan=1\nagents=1\nname=survey-quad-east-1\nstops=4\ngo=1@0\ngo=6@1\ngo=5@2\ngo=2@3\nend=plan\n";
static const char WEST[] = "plan=1\nagents=1\nname=survey-quad-east-2\nstops=3\ngo=3@0\ngo=5@4\ngo=4@5\nend=plan\n";
static const char NAMESAKE[] = "plan=1\nagents=1\nname=Survey-Quad-East-1\nstops=3\ngo=3@0\ngo=5@4\ngo=4@5\nend=plan\n";
static const char NORTH[] = "plan=2\nagents=2\nname=north-1\nstops=1\ngo=9@0@0\nname=north-2\nstops=3\ngo=8@0@0\ngo=5@5@5\ngo=7@66@60\nend=plan\n";
/* one behind the other through two crossings; and three drones at one crossing, where four orders are the cheapest */
static const char P[] = "plan=1\nagents=2\nname=a\nstops=4\ngo=10@0\ngo=20@1\ngo=30@2\ngo=40@3\nname=b\nstops=4\ngo=11@0\ngo=20@3\ngo=30@4\ngo=41@5\nend=plan\n";
static const char THREE[] = "plan=1\nagents=3\nname=a\nstops=4\ngo=1@0\ngo=2@1\ngo=9@2\ngo=3@3\nname=b\nstops=3\ngo=11@0\ngo=9@5\ngo=13@6\n"
                            "name=c\nstops=5\ngo=21@0\ngo=9@8\ngo=23@9\ngo=24@10\ngo=25@11\nend=plan\n";
static const char CAPITALS[] = "plan=1\nagents=1\nname=ABCDEFGHIJKLMNOPQRSTUVWX\nstops=1\ngo=0@0\nend=plan\n";

static void read_plan(const char *text) { printf("plan=%zu\n", conductor_read(&field, text, strlen(text)).number); }

static void say(const char *key, conductor_answer a) {
    if (a.number == 23) printf("%s=23:%zu\n", key, a.detail);
    else printf("%s=%zu\n", key, a.number ? a.number : a.detail);
}

/* LEGS with another line of drone 0's stop 2 */
static void refused_leg(const char *line) {
    const char *begin = strstr(LEGS, "go=5@4@3\n");
    sprintf((char *)buffer, "%.*s%s\n%s", (int)(begin - LEGS), LEGS, line, begin + strlen("go=5@4@3\n"));
    conductor_read_answer a = conductor_read(&field, buffer, strlen((char *)buffer));
    printf("%s: plan=%zu offset=%zu drone=%zu stop=%zu\n", line, a.number, a.offset, a.drone, a.stop);
}

/* Q at a site; its lines are printed with a stroke for each line feed */
static void read_at(const char *site) {
    conductor_read_answer a = conductor_read_site(&field, site, strlen(site), Q, sizeof Q - 1);
    for (const char *c = site; *c; c++) putchar(*c == '\n' ? '/' : *c);
    printf(": plan=%zu offset=%zu\n", a.number, a.offset);
}

/* the cheapest directions within a budget, the list with them, and how many of its entries past that are not zero */
static void best_order(size_t budget) {
    memset(list, 0xA5, sizeof list);
    conductor_order_answer a = conductor_best_order(&field, list, CONDUCTOR_DEPENDENCIES, budget);
    printf("best order within %zu: %zu cost=%zu count=%zu length=%zu", budget, a.number, a.cost, a.count, a.length);
    for (size_t i = 0; i < a.length; i++) printf(i ? ",%d" : ": %d", list[i]);
    size_t past = 0;
    for (size_t i = a.length; i < CONDUCTOR_DEPENDENCIES; i++) past += list[i] != 0;
    printf(" past it: %zu\n", past);
    list_length = a.length;
}

static void write_plan(void) {
    size_t length = conductor_write(&field, buffer, sizeof buffer).detail;
    fwrite(buffer, 1, length, stdout);
}

/* drones of two stops each, every one alone, numbered from some one on */
static const char *alone(int first, int drones) {
    char *at = (char *)buffer;
    at += sprintf(at, "plan=1\nagents=%d\n", drones);
    for (int d = first; d < first + drones; d++) at += sprintf(at, "name=survey-quad-%d\nstops=2\ngo=%d@0\ngo=%d@1\n", d, d, 1000 + d);
    sprintf(at, "end=plan\n");
    return (char *)buffer;
}

static void many(int drones) {
    const char *text = alone(0, drones);
    conductor_read_answer a = conductor_read(&field, text, strlen(text));
    printf("%d drones: plan=%zu offset=%zu\n", drones, a.number, a.offset);
}

/* drone 1 waits at 5 for both of drone 0's stops at 6 and 5: either turned alone is a ring */
static void near_crossings(void) {
    static const uint16_t BOTH[] = {0, 1};
    read_at("site=1\npairs=1\nnear=5,6\nend=site\n");
    say("cost", conductor_cost(&field));
    say("turn", conductor_turn(&field, 0));
    say("turn", conductor_turn(&field, 1));
    conductor_change_answer change = conductor_preview_all(&field, BOTH, 2);
    printf("preview=%zu change=%lld\n", change.number, (long long)change.change);
    say("turn", conductor_turn_all(&field, BOTH, 2));
    say("cost", conductor_cost(&field));
    write_plan();
    read_at("site=1\npairs=0\nend=site\n");
    read_at("site=1\npairs=1\nnear=0,65535\nend=site\n");
    read_at("site=1\npairs=1\nnear=1,3\nend=site\n");
    read_at("site=1\npairs=1\nnear=0,65536\nend=site\n");
    read_at("site=1\npairs=1\nnear=6,5\nend=site\n");
    read_at("site=1\npairs=2\nnear=5,6\nnear=5,6\nend=site\n");
    read_at("site=1\npairs=2\nnear=5,6\nend=site\n");
    read_at("site=1\npairs=0\nnear=5,6\nend=site\n");
    read_at("site=1\npairs=1\nnear=6,05\nend=site\n");
    read_at("site=1\npairs=257\nend=site\n");
    read_at("site=2\npairs=0\nend=site\n");
    read_at("");
    read_at("site=1\npairs=1\nnear=5,6\nend=site\n\n");
    read_at("site=1\npairs=1\nnear=5,6\n");
}

static void plan_apart(conductor_tables *of, const char *text) { conductor_read(of, text, strlen(text)); }

static void plan_near(conductor_tables *of, const char *site, const char *text) {
    conductor_read_site(of, site, strlen(site), text, strlen(text));
}

static void join(const char *what) {
    conductor_read_answer a = conductor_join(&east, &west, &joined);
    printf("%s: join=%zu offset=%zu drone=%zu stop=%zu other=%zu stop=%zu\n", what, a.number, a.offset, a.drone, a.stop, a.other_drone, a.other_stop);
}

static void join_plans(const char *what, const char *first, const char *second) {
    plan_apart(&east, first), plan_apart(&west, second);
    join(what);
}

/* either plan started, with a turned dependency, with a drone withdrawn; other near pairs; tables without a plan */
static void joins_too_late(void) {
    plan_apart(&east, Q), plan_apart(&west, alone(100, 2));
    conductor_grant(&west, 1), join("one under way");
    conductor_arrive(&west, 1), join("one at its stop 1");
    plan_apart(&west, alone(100, 2));
    conductor_turn(&east, 0), join("one turned");
    conductor_turn(&east, 0), join("turned twice");
    conductor_withdraw(&east, 0), join("one withdrawn");
    plan_near(&east, "site=1\npairs=1\nnear=5,6\nend=site\n", EAST), plan_apart(&west, WEST), join("near pairs and none");
    plan_near(&west, "site=1\npairs=1\nnear=5,7\nend=site\n", WEST), join("other near pairs");
    plan_near(&west, "site=1\npairs=1\nnear=5,6\nend=site\n", WEST), join("the same near pairs");
    printf("dependencies=%d pairs=%d,%d\n", joined.dependency_count[0], joined.pairs[0], joined.pairs[1]);
    plan_near(&east, "site=1\npairs=0\nend=site\n", EAST), plan_apart(&west, WEST), join("no near pairs and no site");
    plan_apart(&west, "plan=3\n"), join("one refused before");
}

static void two_planners(void) {
    read_plan(Q);
    join_plans("Q's two drones", EAST, WEST);
    printf("the tables of Q: %s\n", memcmp(&joined, &field, sizeof field) ? "no" : "yes");
    say("cost", conductor_cost(&joined));
    join_plans("a name shared", EAST, NAMESAKE);
    join_plans("a collision", WEST, NORTH);
    join_plans("the other way round", NORTH, WEST);
    join_plans("one of each form", EAST, NORTH);
    memcpy(&field, &joined, sizeof field), write_plan();
    plan_apart(&east, alone(0, 33)), plan_apart(&west, alone(33, 32)), join("33 and 32 drones");
    plan_apart(&east, alone(0, 32)), join("32 and 32 drones");
    joins_too_late();
}

/* the list goes through the turn of a list, and the cost is then the answer's; what is left to gain after it is nothing */
static void apply(void) {
    conductor_change_answer change = conductor_preview_all(&field, list, list_length);
    printf("preview=%zu change=%lld\n", change.number, (long long)change.change);
    say("turn", conductor_turn_all(&field, list, list_length));
    say("cost", conductor_cost(&field));
    best_order(CONDUCTOR_BUDGET);
}

static void best_orders(void) {
    read_plan(Q);
    best_order(0), best_order(CONDUCTOR_BUDGET + 1), best_order((size_t)-1), best_order(1), best_order(2), best_order(3), best_order(CONDUCTOR_BUDGET);
    apply();
    read_plan(P);
    best_order(2), best_order(3);
    say("turn", conductor_turn_all(&field, list, list_length));
    read_plan(THREE);
    say("cost", conductor_cost(&field));
    best_order(7), best_order(8);
    apply();
    read_plan(THREE);
    say("grant", conductor_grant(&field, 0)), say("arrive", conductor_arrive(&field, 0)), say("grant", conductor_grant(&field, 0));
    best_order(CONDUCTOR_BUDGET);
    say("withdraw", conductor_withdraw(&field, 1));
    best_order(1), best_order(CONDUCTOR_BUDGET);
    read_plan(LEGS);
    best_order(CONDUCTOR_BUDGET);
    read_at("site=1\npairs=1\nnear=5,6\nend=site\n");
    best_order(CONDUCTOR_BUDGET);
    read_plan("plan=3\n");
    best_order(0);
}

int main(void) {
    read_plan(Q);
    say("cost", conductor_cost(&field));
    say("grant", conductor_grant(&field, 1));
    conductor_change_answer change = conductor_preview(&field, 0);
    printf("preview=%zu change=%lld\n", change.number, (long long)change.change);
    say("turn", conductor_turn(&field, 0));
    say("cost", conductor_cost(&field));
    say("grant", conductor_grant(&field, 1));
    say("grant", conductor_grant(&field, 0));
    say("arrive", conductor_arrive(&field, 1));
    say("arrive", conductor_arrive(&field, 1));
    read_plan(Q);
    say("withdraw", conductor_withdraw(&field, 0));
    say("cost", conductor_cost(&field));
    say("grant", conductor_grant(&field, 0));
    say("turn", conductor_turn(&field, 0));
    say("grant", conductor_grant(&field, 1));
    read_plan(LEGS);
    say("cost", conductor_cost(&field));
    say("rounds", conductor_rounds(&field));
    say("grant", conductor_grant(&field, 0));
    say("cost", conductor_cost(&field));
    change = conductor_preview(&field, 0);
    printf("preview=%zu change=%lld\n", change.number, (long long)change.change);
    write_plan();
    refused_leg("go=5@4@4");
    refused_leg("go=6@3@3");
    refused_leg("go=6@1@3");
    refused_leg("go=6@4@3");
    refused_leg("go=5@4@61");
    refused_leg("go=5@4@0");
    refused_leg("go=5@4");
    refused_leg("go=5@4@3@1");
    refused_leg("go=5@4@3");
    near_crossings();
    two_planners();
    best_orders();
    read_plan(CAPITALS);
    write_plan();
    many(CONDUCTOR_DRONES);
    say("cost", conductor_cost(&field));
    printf("press=%llx\n", (unsigned long long)conductor_press(&field, 0, 0).detail);
    printf("press=%llx\n", (unsigned long long)conductor_press(&field, 1, CONDUCTOR_DRONES - 1).detail);
    many(CONDUCTOR_DRONES + 1);
    memset(buffer, ' ', sizeof buffer);
    conductor_read_answer a = conductor_read(&field, buffer, sizeof buffer);
    printf("a text too long: plan=%zu offset=%zu\n", a.number, a.offset);
    return 0;
}
