/* Flight Q is saved in the middle of it and goes on from the file: saved FILE. Then the file is damaged, and 40 guards; then it has another
 * layout, and is not taken. bindings/test runs it and compares what it prints with saved.out; Rust and Python read and write the same file.
 * The file is the layout's number, the length of the tables, both in 32 bits, and the tables. */
#include <conductor.h>
#include <stdio.h>
#include <string.h>

typedef struct {
    uint32_t layout, length;
    conductor_tables tables;
} saved;

static const char Q[] = "plan=1\nagents=2\nname=east\nstops=4\ngo=1@0\ngo=6@1\ngo=5@2\ngo=2@3\nname=west\nstops=3\ngo=3@0\ngo=5@4\ngo=4@5\nend=plan\n";
static conductor_tables field;
static saved file; /* static: 55 KiB, which a small stack has no room for */

static int save(const char *path) {
    FILE *out = fopen(path, "wb");
    file.layout = CONDUCTOR_LAYOUT, file.length = sizeof field;
    memcpy(&file.tables, &field, sizeof field);
    return out && fwrite(&file, sizeof file, 1, out) == 1 && fclose(out) == 0;
}

/* The tables are put in place only where the file has this layout and the calls take what it holds. */
static size_t restore(const char *path) {
    FILE *in = fopen(path, "rb");
    if (!in) return 40;
    size_t whole = fread(&file, sizeof file, 1, in);
    fclose(in);
    if (whole != 1 || file.layout != CONDUCTOR_LAYOUT || file.length != sizeof field) return 40;
    size_t number = conductor_cost(&file.tables).number;
    if (number == 0) memcpy(&field, &file.tables, sizeof field);
    return number;
}

static int change_byte(const char *path, long at, int to) {
    FILE *both = fopen(path, "r+b");
    return both && fseek(both, at, SEEK_SET) == 0 && fputc(to, both) != EOF && fclose(both) == 0;
}

int main(int words, char **word) {
    const char *path = words > 1 ? word[1] : "flight.saved";
    conductor_read(&field, Q, sizeof Q - 1);
    conductor_grant(&field, 0);
    printf("cost=%zu saved=%d\n", conductor_cost(&field).detail, save(path));
    memset(&field, 0, sizeof field); /* the power is gone */
    printf("grant=%zu: %s\n", conductor_grant(&field, 1).number, conductor_meaning(40));
    printf("restored=%zu", restore(path));
    printf(" cost=%zu\n", conductor_cost(&field).detail);
    printf("arrive=%zu\n", conductor_arrive(&field, 0).number);
    printf("grant=%zu: %s\n", conductor_grant(&field, 1).number, conductor_meaning(23));
    /* drone 1 at its last stop, and drone 0 has not yet passed the crossing that it waits for: no calls lead there */
    change_byte(path, (long)(offsetof(saved, tables) + offsetof(conductor_tables, visited) + 2), 2);
    printf("damaged: restored=%zu\n", restore(path));
    save(path);
    change_byte(path, 0, CONDUCTOR_LAYOUT + 1);
    printf("another layout: restored=%zu\n", restore(path));
    printf("saved again=%d", save(path));
    printf(" restored=%zu\n", restore(path));
    return 0;
}
