/* Names that collide in the table of `name_numbers`, and values that would in std's hash set, for `bench/longest`.

       cc -O2 -o collisions bench/collisions.c
       collisions tag|run first|anew COUNT BITS [NAME ..]
       collisions values COUNT BITS

   The first prints COUNT names of eight letters, a line each. They have one home among 2^BITS groups, but for the 16
   homes that its lowest bits tell apart; with `tag` they also have one tag, so a look-up compares them all, and with
   `run` it passes their groups. They are chosen for the state that the hashers of a table start from: `first` stays
   with the first state, `anew` follows the table, whose state is another one each time that its names are hashed anew.
   The NAMEs are in the table before. How many names, settlings and tries there were is said on standard error.
   The second prints values from 1 on that have one home and one tag under the first state.

   The hash is FoldHasher's of the kit's core, the table that of its indexmap, and when names are hashed anew is what
   `crates/name_numbers/src/numbers.rt` says. */

#include <stdint.h>
#include <stdio.h>
#include <stdlib.h>
#include <string.h>

enum { LONGEST = 19, MOST = 200000, LANES = 12, LOAD = 9, CROWD = 8, LETTERS = 63 };

static const uint64_t MULTIPLIER = 0x9e3779b97f4a7c15u, FIRST_STATE = 0x243f6a8885a308d3u;
static const char letters[] = "0123456789abcdefghijklmnopqrstuvwxyzABCDEFGHIJKLMNOPQRSTUVWXYZ_";

/* ---- hashes */

static uint64_t folded(uint64_t a, uint64_t b) {
    unsigned __int128 product = (unsigned __int128)a * b;
    return (uint64_t)product ^ (uint64_t)(product >> 64);
}

static uint64_t read_bytes(const char *at, size_t count) {
    uint64_t number = 0;
    memcpy(&number, at, count);
    return number;
}

/* the state after a write of a name */
static uint64_t written(uint64_t state, const char *name) {
    size_t length = strlen(name), at = 0;
    if (length <= 8) {
        uint64_t number = 0;
        if (length >= 4)
            number = read_bytes(name, 4) | read_bytes(name + length - 4, 4) << 32;
        else if (length)
            number = read_bytes(name, 1) | read_bytes(name + length / 2, 1) << 8
                   | read_bytes(name + length - 1, 1) << 16;
        return folded(state ^ number, MULTIPLIER ^ 2 * length);
    }
    state += length;
    for (; length - at > 16; at += 16)
        state = folded(read_bytes(name + at, 8) ^ state, read_bytes(name + at + 8, 8) ^ MULTIPLIER);
    at = length < 16 ? 0 : length - 16;
    return folded(read_bytes(name + at, 8) ^ state, read_bytes(name + length - 8, 8) ^ MULTIPLIER);
}

/* what the table takes of a state */
static uint32_t hash_of(uint64_t state) { return (uint32_t)(state ^ state >> 32); }

static unsigned tag_of(uint32_t hash) { return hash >> 24 ? hash >> 24 : 1; }

/* ---- the table: groups of lanes, and in each group which tags went on to the next one */

struct group {
    unsigned char tags[LANES];
    uint32_t passed_by;
};

static struct {
    char names[MOST][LONGEST + 1];
    uint32_t hashes[MOST];
    size_t length, settled, group_count, room;
    struct group *groups;
    uint64_t state;
} table;

static void put(uint32_t hash) {
    for (size_t at = hash;; at++) {
        struct group *group = &table.groups[at & (table.group_count - 1)];
        for (int lane = 0; lane < LANES; lane++)
            if (!group->tags[lane]) {
                group->tags[lane] = tag_of(hash);
                return;
            }
        group->passed_by |= 1u << (tag_of(hash) & 31);
    }
}

static void make_room(size_t count) {
    table.group_count = 1;
    while (LOAD * table.group_count < count)
        table.group_count *= 2;
    free(table.groups);
    table.groups = calloc(table.group_count, sizeof *table.groups);
    if (!table.groups)
        exit(1);
    for (size_t i = 0; i < table.length; i++)
        put(table.hashes[i]);
    table.room = LOAD * table.group_count - table.length;
}

/* with how many names a new one is compared */
static size_t compared(uint32_t hash) {
    size_t count = 0;
    for (size_t step = 0; step < table.group_count; step++) {
        struct group *group = &table.groups[(hash + step) & (table.group_count - 1)];
        for (int lane = 0; lane < LANES; lane++)
            count += group->tags[lane] == tag_of(hash);
        if (!(group->passed_by >> (tag_of(hash) & 31) & 1))
            break;
    }
    return count;
}

static void settle(void) {
    for (size_t i = 0; i < table.length; i++)
        table.state = written(table.state, table.names[i]);
    for (size_t i = 0; i < table.length; i++)
        table.hashes[i] = hash_of(written(table.state, table.names[i]));
    make_room(table.length);
    table.settled = table.length;
}

/* adds a name; whether the table was made anew before */
static int add(const char *name) {
    int crowded = compared(hash_of(written(table.state, name))) > CROWD;
    int settles = crowded && table.length - table.settled > table.length / 64;
    if (table.length == MOST)
        exit(1);
    if (settles)
        settle();
    if (!table.room)
        make_room(table.length + 1);
    strcpy(table.names[table.length], name);
    table.hashes[table.length] = hash_of(written(table.state, name));
    put(table.hashes[table.length++]);
    table.room--;
    return settles;
}

/* ---- what is printed */

/* the next word of seven letters behind an n */
static void advance(char *name, unsigned char *digits) {
    for (int i = 7; i > 0; i--) {
        digits[i] = (digits[i] + 1) % LETTERS;
        name[i] = letters[digits[i]];
        if (digits[i])
            return;
    }
    exit(1);
}

static void print_names(size_t count, uint32_t mask, uint32_t aim, int anew) {
    char name[] = "n0000000";
    unsigned char digits[8] = {0};
    unsigned long settlings = 0, tries = 0;
    for (size_t made = 0; made < count; tries++) {
        advance(name, digits);
        if ((hash_of(folded(table.state ^ read_bytes(name, 8), MULTIPLIER ^ 16)) & mask) != aim)
            continue;
        if (anew)
            settlings += add(name);
        puts(name);
        made++;
    }
    fprintf(stderr, "%zu names, %lu settlings, %lu tries\n", count, settlings, tries);
}

static void print_values(size_t count, uint32_t mask, uint32_t aim) {
    uint64_t value = 1;
    for (size_t made = 0; made < count && value < 0x7fffffff; value++)
        if ((hash_of(folded(FIRST_STATE ^ (value | value << 32), MULTIPLIER ^ 8)) & mask) == aim) {
            printf("%llu\n", (unsigned long long)value);
            made++;
        }
}

int main(int count, char **words) {
    int values = count == 4 && !strcmp(words[1], "values"), first = values ? 2 : 3;
    if (!values && count < 5)
        return 64;
    uint32_t homes = ((1u << atoi(words[first + 1])) - 1) & ~15u;
    int run = !strcmp(words[1], "run");
    uint32_t mask = (run ? 0 : 0xff000000u) | homes, aim = 0x5b234560u & mask;
    if (values) {
        print_values(atol(words[2]), mask, aim);
        return 0;
    }
    table.state = FIRST_STATE;
    make_room(0);
    int anew = !strcmp(words[2], "anew");
    for (int i = 5; i < count; i++)
        add(words[i]);
    print_names(atol(words[3]), mask, aim, anew);
    return 0;
}
