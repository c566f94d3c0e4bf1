// The search for the cheapest directions with 100,000 entered, through the C library, beside an unverified search of the same definition in C, on the same tables: number, cost, count and list must be
// equal. `best LABEL FILE ROUNDS ..`: each plan is read from its file and flown for so many rounds, in which every fifth drone stands still; then both are timed in turn, the best of TURNS each (once where
// that takes seconds), by the thread's own clock. Where the answer is 37, everybody flies on and both are asked every five rounds until there is another. `bench/run` makes the plans (bench/shapes.py) and runs it.
#include "conductor.h"
#include <stdio.h>
#include <stdlib.h>
#include <string.h>
#include <time.h>

enum { TURNS = 3, N = CONDUCTOR_STOPS, M = CONDUCTOR_DEPENDENCIES, LOG = 1 << 24 };

static conductor_tables field;
static uint8_t text[CONDUCTOR_TEXT + 1];
static uint16_t list[M];

// ---- the unverified search: a stop's round is raised along the edges after each wait more, first in, first out, and a log of what was raised leads back

static int starts[CONDUCTOR_DRONES], leg[N], is_last[N], is_visited[N], at[N];
static int edge_count, head[N], next[M], to[M];             // the waits from each stop, the latest first
static int *log_stop, *log_round, log_end;                  // what was raised, and from which round
static int queue[N], queued[N];
static int open_count, opens[M], from[M][2], into[M][2];    // the open ones: left, turned
static int is_turned[M], mark[M], cost_before[M], cost, aside[CONDUCTOR_DRONES];

static void raise_to(int v, int round) {
    if (log_end == LOG) puts("the log is full"), exit(1);
    log_stop[log_end] = v, log_round[log_end++] = at[v];
    if (is_last[v]) cost += round - at[v];
    at[v] = round;
}

// The wait a -> b is added; whether that makes a cycle.
static int add(int a, int b) {
    int first = 0, count = 0;
    to[edge_count] = b, next[edge_count] = head[a], head[a] = edge_count++;
    if (is_visited[b] || at[b] >= at[a] + leg[b]) return 0;
    raise_to(b, at[a] + leg[b]), queue[count++] = b, queued[b] = 1;
    while (count) {
        int v = queue[first];
        first = (first + 1) % N, count--, queued[v] = 0;
        if (v == a) {
            for (; count; count--, first = (first + 1) % N) queued[queue[first]] = 0;
            return 1;
        }
        for (int e = is_last[v] ? head[v] : -2; e != -1; e = e == -2 ? head[v] : next[e]) {
            int w = e == -2 ? v + 1 : to[e];
            if (is_visited[w] || at[w] >= at[v] + leg[w]) continue;
            raise_to(w, at[v] + leg[w]);
            if (!queued[w]) queued[w] = 1, queue[(first + count++) % N] = w;
        }
    }
    return 0;
}

static void take_back(int a) {
    edge_count--, head[a] = next[edge_count];
}

// The stops, then the waits that cannot be turned; those that can are kept apart.
static void gather(void) {
    int n = 0;
    edge_count = log_end = open_count = cost = 0;
    memset(is_last, 0, sizeof is_last);
    for (int d = 0; d < field.drone_count[0]; d++) {
        starts[d] = n, aside[d] = field.drone_flags[d] & 2;
        for (int s = 0; s < field.stop_counts[d]; s++, n++) {
            head[n] = -1, leg[n] = field.legs[n], is_visited[n] = s <= field.visited[d];
            at[n] = is_visited[n] ? 0 : at[n - 1] + leg[n];
        }
        is_last[n - 1] = 1;
        if (!aside[d]) cost += at[n - 1];
    }
    for (int p = 0; p < field.dependency_count[0]; p++) {
        conductor_dependency w = field.dependencies[p];
        int turned = w.flags & 1, d = turned ? w.second_drone : w.first_drone, s = turned ? w.second_stop : w.first_stop;
        int a = starts[w.first_drone] + w.first_stop, b = starts[w.second_drone] + w.second_stop, x = turned ? b : a, y = turned ? a : b;
        if (aside[w.first_drone] || aside[w.second_drone]) continue;
        if ((w.flags & 2) || s <= field.visited[d] || ((field.drone_flags[d] & 1) && s == field.visited[d] + 1)) {
            add(x + 1, y);
            continue;
        }
        from[open_count][0] = x + 1, into[open_count][0] = y, from[open_count][1] = y + 1, into[open_count][1] = x, opens[open_count++] = p;
    }
    log_end = 0;
}

static conductor_order_answer search(size_t budget, uint16_t *found) {
    conductor_order_answer best = {0, 0, 0, 0};
    int depth = 0, has = 0, cycle = 0;
    gather();
    for (;;) {
        if (!cycle && (!has || (size_t)cost < best.cost)) {
            if (best.count == budget) return (conductor_order_answer){37, 0, 0, budget};
            best.count++;
            if (depth < open_count) {
                mark[depth] = log_end, cost_before[depth] = cost, is_turned[depth] = 0;
                cycle = add(from[depth][0], into[depth][0]), depth++;
                continue;
            }
            has = 1, best.cost = cost, best.length = 0;
            for (int i = 0; i < open_count; i++)
                if (is_turned[i]) found[best.length++] = opens[i];
        }
        for (;;) { // back to the last that is left, which is turned
            if (!depth) return best;
            depth--, take_back(from[depth][is_turned[depth]]), cycle = 0;
            while (log_end > mark[depth]) log_end--, at[log_stop[log_end]] = log_round[log_end];
            cost = cost_before[depth];
            if (is_turned[depth]) continue;
            is_turned[depth] = 1, cycle = add(from[depth][1], into[depth][1]), depth++;
            break;
        }
    }
}

// ---- plans

static void read_file(const char *name) {
    FILE *file = fopen(name, "rb");
    size_t length = file ? fread(text, 1, sizeof text, file) : 0, number = conductor_read(&field, text, length).number;
    if (file) fclose(file);
    if (number) printf("%s is refused by %zu\n", name, number), exit(1);
}

// Rounds in which each drone whose number is a multiple of `still` stands still; 0: none does.
static void fly(int rounds, size_t still) {
    for (int r = 0; r < rounds; r++) {
        for (size_t d = 0; d < field.drone_count[0]; d++)
            if (!still || d % still) conductor_grant(&field, d);
        for (size_t d = 0; d < field.drone_count[0]; d++)
            if (field.drone_flags[d] & 1) conductor_arrive(&field, d);
    }
}

static double seconds(void) {
    struct timespec t;
    clock_gettime(CLOCK_THREAD_CPUTIME_ID, &t);
    return t.tv_sec + t.tv_nsec / 1e9;
}

static double ours_best, theirs_best;

// Both searches once: what they give must be equal, and the best time of each is kept.
static conductor_order_answer compare(const char *label) {
    static uint16_t theirs[M];
    memset(list, 0, sizeof list), memset(theirs, 0, sizeof theirs);
    double start = seconds();
    conductor_order_answer ours = conductor_best_order(&field, list, M, CONDUCTOR_BUDGET);
    double between = seconds();
    conductor_order_answer other = search(CONDUCTOR_BUDGET, theirs);
    double end = seconds();
    if (between - start < ours_best) ours_best = between - start;
    if (end - between < theirs_best) theirs_best = end - between;
    memset(theirs + other.length, 0, (M - other.length) * sizeof *theirs); // an earlier choice may have been longer
    if (memcmp(&ours, &other, sizeof ours) || memcmp(list, theirs, sizeof list)) {
        printf("%s DIFFERS: %zu cost %zu length %zu count %zu, and %zu cost %zu length %zu count %zu\n", label, ours.number, ours.cost, ours.length, ours.count, other.number, other.cost, other.length, other.count);
        exit(1);
    }
    return ours;
}

static void measure(const char *label) {
    conductor_order_answer a;
    int stops = 0, rounds = 0;
    ours_best = theirs_best = 1e9;
    for (int turn = 0; turn == 0 || (turn < TURNS && theirs_best < 1); turn++) a = compare(label);
    for (int d = 0; d < field.drone_count[0]; d++) stops += field.stop_counts[d];
    printf("%-34s %2d drones %4d stops %4d dependencies %4d open | %.3f s, C %.3f s, ratio %.2f | ", label, field.drone_count[0], stops, field.dependency_count[0], open_count, ours_best, theirs_best, ours_best / theirs_best);
    for (; a.number == 37; rounds += 5) fly(5, 0), a = compare(label);
    if (rounds) printf("37; after %d rounds more, ", rounds);
    printf("%zu entered, cost %zu of %zu, %zu turned\n", a.count, a.cost, conductor_cost(&field).detail, a.length);
    fflush(stdout);
}

int main(int argc, char **argv) {
    log_stop = malloc(LOG * sizeof *log_stop), log_round = malloc(LOG * sizeof *log_round);
    for (int i = 1; i + 2 < argc; i += 3) read_file(argv[i + 1]), fly(atoi(argv[i + 2]), 5), measure(argv[i]);
    return 0;
}
