#include <conductor.h>
#include <stdio.h>
static const char Q[] = "plan=1\nagents=2\nname=east\nstops=4\ngo=1@0\ngo=6@1\ngo=5@2\ngo=2@3\nname=west\nstops=3\ngo=3@0\ngo=5@4\ngo=4@5\nend=plan\n";
static conductor_tables field;
int main(void) {
    printf("plan=%zu\n", conductor_read(&field, Q, sizeof Q - 1).number);
    printf("cost=%zu\n", conductor_cost(&field).detail);
    printf("turn=%zu\n", conductor_turn(&field, 0).number);
    printf("cost=%zu\n", conductor_cost(&field).detail);
}
