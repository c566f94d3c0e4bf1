// Nanoseconds for one sound test at full tables: 64 drones, 2,048 stops, about 3,800 dependencies; beside it two of its clauses (no collision, exact
// dependencies) by all pairs in C. From the repository's root:
// (cd crates/bench && rt lib) && cc -O3 bench/sound.c crates/bench/out/libbench.a -o /tmp/sound && /tmp/sound
#include <stdint.h>
#include <stdio.h>
#include <stdlib.h>
#include <string.h>
#include <time.h>

extern uint8_t bench_sound(const uint16_t *, size_t, const uint16_t *, size_t, const uint8_t *, size_t, const uint8_t *, size_t,
                           const uint16_t *, size_t, const uint16_t *, size_t, const uint32_t *, size_t, const uint8_t *, size_t,
                           const uint16_t *, size_t, const uint8_t *, size_t, const uint8_t *, size_t, const uint16_t *, size_t,
                           const uint8_t *, size_t, const uint16_t *, size_t, const uint8_t *, size_t, const uint16_t *, size_t);

enum { DRONES = 64, STOPS = 2048, EACH = STOPS / DRONES, DEPENDENCIES = 4096, NAME = 24, PAIRS = 256 };

static uint16_t drone_count[1], dependency_count[1], stop_counts[DRONES], locations[STOPS], visited[DRONES];
static uint16_t first_stops[DEPENDENCIES], second_stops[DEPENDENCIES], pairs[2 * PAIRS];
static uint32_t times[STOPS];
static uint8_t form[1], names[DRONES * NAME], legs[STOPS], drone_flags[DRONES], first_drones[DEPENDENCIES], second_drones[DEPENDENCIES], flags[DEPENDENCIES];

static uint64_t state = 12345;

static uint32_t any(void) {
    state = state * 6364136223846793005ull + 1442695040888963407ull;
    return state >> 33;
}

static double now(void) {
    struct timespec t;
    clock_gettime(CLOCK_MONOTONIC, &t);
    return t.tv_sec * 1e9 + t.tv_nsec;
}

// Whether two locations meet: whether they are equal or near.
static int meet(int a, int b) {
    for (int i = 0; i < PAIRS && pairs[2 * i + 1]; i++)
        if ((pairs[2 * i] == a && pairs[2 * i + 1] == b) || (pairs[2 * i] == b && pairs[2 * i + 1] == a)) return 1;
    return a == b;
}

// The dependencies of the plan, by all pairs.
static void depend(void) {
    int m = 0;
    for (int v = 0; v < STOPS; v++)
        for (int w = 0; w < STOPS; w++)
            if (v / EACH != w / EACH && meet(locations[v], locations[w]) && times[v] < times[w]) {
                if (m == DEPENDENCIES) abort();
                first_drones[m] = v / EACH, first_stops[m] = v % EACH, second_drones[m] = w / EACH, second_stops[m] = w % EACH;
                flags[m] = v % EACH == 0 || w % EACH == EACH - 1 ? 2 : 0;
                m++;
            }
    dependency_count[0] = m;
}

// Legs of so many rounds into all stops but a drone's first, in the form that has them.
static void fly(int each, int rounds) {
    form[0] = rounds == 1 ? 1 : 2;
    for (int v = 0; v < STOPS; v++) legs[v] = v % each ? rounds : 0;
}

// Every drone has a location of its own at each stop, but for some that five drones pass one after the other.
static void plan(void) {
    drone_count[0] = DRONES;
    for (int d = 0; d < DRONES; d++) {
        stop_counts[d] = EACH;
        snprintf((char *)names + d * NAME, NAME, "survey-quad-%d", d);
        for (int s = 0; s < EACH; s++) {
            locations[d * EACH + s] = 40000 + d * EACH + s;
            times[d * EACH + s] = s ? s * 1000 + any() % 900 : 0;
        }
    }
    for (int a = 0; a < 6; a++)
        for (int j = 0; j < DRONES; j++)
            for (int i = 0; i < 5; i++)
                locations[(j * 5 + 7 * i + a * 3) % DRONES * EACH + a + 6 * i] = ((a * DRONES + j) * 337 + 11) % 39000;
    fly(EACH, 1);
    depend();
}

// Each half of the drones passes four locations one after the other, every second one turned with the one after it.
static void crossings(void) {
    for (int d = 0; d < DRONES; d++)
        for (int s = 0; s < EACH; s++) {
            locations[d * EACH + s] = s % 7 == 5 ? d / 32 * 32 + s : 40000 + d * EACH + s;
            times[d * EACH + s] = s ? d * 12000 + s * 6000 + any() % 900 : 0;
        }
    depend();
    for (int k = 0; k < dependency_count[0]; k++)
        if (first_drones[k] % 2 == 0 && second_drones[k] == first_drones[k] + 1) flags[k] ^= 1;
}

// One drone visits the 32 locations of one tree (plan/src/sharing.rt), and then the two that stand deepest in it again and again.
static void alike(void) {
    memset(first_drones, 0, sizeof first_drones), memset(first_stops, 0, sizeof first_stops), memset(second_drones, 0, sizeof second_drones);
    memset(second_stops, 0, sizeof second_stops), memset(flags, 0, sizeof flags), memset(stop_counts, 0, sizeof stop_counts);
    memset(names + NAME, 0, sizeof names - NAME);
    drone_count[0] = 1, stop_counts[0] = STOPS, dependency_count[0] = 0;
    fly(STOPS, 1);
    for (int s = 0; s < STOPS; s++) {
        int high = s < 65536 / STOPS ? s : 65536 / STOPS - 2 + s % 2;
        locations[s] = STOPS * high + (STOPS * 17 - 17 * high) % STOPS;
        times[s] = s * 10;
    }
}

// 256 near pairs in a row, or a star of them. Fourteen stops of each drone are at their locations, four drones at the same ones, each drone after the one before.
static void site(int star) {
    memset(first_drones, 0, sizeof first_drones), memset(first_stops, 0, sizeof first_stops), memset(second_drones, 0, sizeof second_drones);
    memset(second_stops, 0, sizeof second_stops), memset(flags, 0, sizeof flags);
    for (int i = 0; i < PAIRS; i++) pairs[2 * i] = star ? 1 : 1 + i, pairs[2 * i + 1] = 2 + i;
    for (int d = 0; d < DRONES; d++)
        for (int s = 0; s < EACH; s++) {
            locations[d * EACH + s] = s % 2 && s < 28 ? (star && d == 0 && s == 1 ? 1 : 3 + d / 4 * 14 + s / 2) : 40000 + d * EACH + s;
            times[d * EACH + s] = s ? 1 + d * 15000 + s * 300 : 0;
        }
    fly(EACH, 1);
    depend();
}

static int sound(void) {
    return bench_sound(drone_count, 1, dependency_count, 1, form, 1, names, sizeof names, stop_counts, DRONES, locations, STOPS, times, STOPS, legs, STOPS,
                       visited, DRONES, drone_flags, DRONES, first_drones, DEPENDENCIES, first_stops, DEPENDENCIES, second_drones, DEPENDENCIES, second_stops, DEPENDENCIES,
                       flags, DEPENDENCIES, pairs, 2 * PAIRS);
}

static int over(int v, uint32_t t) { return v % EACH != EACH - 1 && times[v + 1] < t; }

// No collision, and the dependencies exactly those of the plan, as the definitions say it.
static int all_pairs(void) {
    int k = 0, m = dependency_count[0];
    for (int v = 0; v < STOPS; v++)
        for (int w = 0; w < STOPS; w++)
            if (v / EACH < w / EACH && meet(locations[v], locations[w]) && !over(v, times[w]) && !over(w, times[v])) return 0;
    for (int v = 0; v < STOPS; v++)
        for (int w = 0; w < STOPS; w++)
            if (v / EACH != w / EACH && meet(locations[v], locations[w]) && times[v] < times[w]) {
                if (k == m || first_drones[k] != v / EACH || first_stops[k] != v % EACH || second_drones[k] != w / EACH || second_stops[k] != w % EACH) return 0;
                k++;
            }
    return k == m;
}

static void measure_by(const char *what, int reps, int (*test)(void)) {
    double best = 1e18;
    int answer = 0;
    for (int t = 0; t < 9; t++) {
        double start = now();
        for (int i = 0; i < reps; i++) {
            __asm__ volatile("" ::: "memory");
            answer = test();
        }
        double each = (now() - start) / reps;
        if (each < best) best = each;
    }
    printf("%-40s %8.0f ns   answer %d\n", what, best, answer);
}

static void measure(const char *what) { measure_by(what, 2000, sound); }

int main(void) {
    plan();
    printf("dependencies %d\n", dependency_count[0]);
    measure("sound tables");
    fly(EACH, 60);
    measure("sound tables, legs of 60");
    fly(EACH, 1);
    measure_by("all pairs in C, two clauses", 50, all_pairs);
    flags[dependency_count[0] - 1] ^= 2;
    measure("last flag byte wrong");
    flags[dependency_count[0] - 1] ^= 2;
    visited[DRONES - 1] = EACH;
    measure("last drone past its last stop");
    visited[DRONES - 1] = 0;
    crossings();
    printf("dependencies %d, 128 turned\n", dependency_count[0]);
    measure("sound tables, some turned");
    fly(EACH, 60);
    measure("sound tables, some turned, legs of 60");
    site(0);
    printf("dependencies %d, 256 near pairs in a row\n", dependency_count[0]);
    measure("sound tables, near pairs in a row");
    site(1);
    printf("dependencies %d, 256 near pairs in a star\n", dependency_count[0]);
    measure("sound tables, near pairs in a star");
    memset(pairs, 0, sizeof pairs);
    alike();
    measure("32 locations of one tree");
    // Content that no plan has: counts past the full sizes must be refused before anything is read by them.
    memset(drone_count, 255, sizeof drone_count);
    measure("drone count 65,535");
    return 0;
}
