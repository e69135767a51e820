/* The same work in plain C, to compare with: reads a game in byte form, lays its expressions out as rows of four words, and by a tree walk
   works out for every board of noughts and crosses whether it has a row of three, and lists the moves in every position that play leads to. */
#include <stdint.h>
#include <stdio.h>
#include <stdlib.h>
#include <string.h>
#include <time.h>

#define BOARDS 19683
static uint32_t rows[8192];
static uint64_t parts;

static uint32_t load(const uint8_t **p, uint32_t *next) {
    static const int arity[13] = {0, 1, 0, 0, 0, 2, 2, 2, 2, 2, 2, 2, 3};
    uint8_t kind = *(*p)++;
    uint32_t at[3] = {0, 0, 0};
    if (kind == 0) {
        at[0] = (*p)[0] + 256u * (*p)[1];
        *p += 2;
    }
    for (int j = 0; j < arity[kind]; j++) at[j] = load(p, next);
    uint32_t root = *next;
    rows[root] = kind;
    for (int j = 0; j < 3; j++) rows[root + 1 + j] = at[j];
    *next += 4;
    return root;
}

struct rule {
    uint32_t first_bound, second_bound, guard, effects, at; /* `at` is where the places of the effects' expressions begin */
};
static struct rule game_rules[64];
static uint32_t places[2 * 64 * 255];
static uint32_t players, rule_count, over;

static void load_game(const uint8_t *p) {
    uint32_t next = 0, place = 0, cells = p[1] + 256u * p[2];
    players = p[0];
    p += 3 + 2 * cells;
    rule_count = *p++;
    for (uint32_t r = 0; r < rule_count; r++) {
        struct rule *u = &game_rules[r];
        u->first_bound = p[0] + 256u * p[1];
        u->second_bound = p[2] + 256u * p[3];
        p += 4;
        u->guard = load(&p, &next);
        u->effects = *p++;
        u->at = place;
        for (uint32_t n = 0; n < 2 * u->effects; n++) places[place++] = load(&p, &next);
    }
    over = load(&p, &next);
}

static uint32_t cap(uint64_t n) { return n < 65536 ? (uint32_t)n : 65535; }

#define WALK(name, COUNT)                                                                                          \
    static uint32_t name(const uint32_t *rules, uint32_t at, const uint32_t *cells, uint32_t n, uint32_t first,    \
                         uint32_t second, uint32_t me) {                                                           \
        const uint32_t *r = rules + at;                                                                            \
        uint32_t x, y;                                                                                             \
        COUNT;                                                                                                     \
        switch (r[0]) {                                                                                            \
        case 0: return r[1] < 65535 ? r[1] : 65535;                                                                \
        case 1: x = name(rules, r[1], cells, n, first, second, me); return x < n ? cells[x] : 0;                   \
        case 2: return first;                                                                                      \
        case 3: return second;                                                                                     \
        case 4: return me;                                                                                         \
        case 12:                                                                                                   \
            x = name(rules, r[1], cells, n, first, second, me);                                                    \
            return name(rules, x ? r[2] : r[3], cells, n, first, second, me);                                      \
        case 7:                                                                                                    \
            x = name(rules, r[1], cells, n, first, second, me);                                                    \
            if (x == 0) return 0;                                                                                  \
            return cap((uint64_t)x * name(rules, r[2], cells, n, first, second, me));                              \
        }                                                                                                          \
        x = name(rules, r[1], cells, n, first, second, me);                                                        \
        y = name(rules, r[2], cells, n, first, second, me);                                                        \
        switch (r[0]) {                                                                                            \
        case 5: return cap((uint64_t)x + y);                                                                       \
        case 6: return x > y ? x - y : 0;                                                                          \
        case 8: return y ? x / y : 0;                                                                              \
        case 9: return y ? x % y : 0;                                                                              \
        case 10: return x < y;                                                                                     \
        default: return x == y;                                                                                    \
        }                                                                                                          \
    }

WALK(walk, (void)0)
WALK(walk_counting, parts++)

static void next_board(uint32_t *cells) {
    for (int i = 1; i < 10; i++) {
        if (cells[i] < 2) {
            cells[i]++;
            return;
        }
        cells[i] = 0;
    }
}

static uint32_t rows_of_three(uint32_t root, int counting) {
    uint32_t cells[10] = {0}, count = 0;
    for (int b = 0; b < BOARDS; b++) {
        uint32_t v = counting ? walk_counting(rows, root, cells, 10, 0, 0, 0) : walk(rows, root, cells, 10, 0, 0, 0);
        count += v != 0;
        next_board(cells);
    }
    return count;
}

#define CELLS 10
static uint32_t positions[BOARDS][CELLS];
static uint8_t seen[BOARDS];

static uint32_t turn(const uint32_t *cells, uint32_t n) { return players && n ? cells[0] % players : 0; }

static int is_over(const uint32_t *cells, uint32_t n) {
    uint32_t me = turn(cells, n);
    if (walk(rows, over, cells, n, 0, 0, me)) return 1;
    for (uint32_t r = 0; r < rule_count; r++) {
        struct rule u = game_rules[r];
        for (uint32_t x = 0; x < u.first_bound; x++)
            for (uint32_t y = 0; y < u.second_bound; y++)
                if (walk(rows, u.guard, cells, n, x, y, me)) return 0;
    }
    return 1;
}

/* The list of moves as an answer's bytes; how many bytes, or 0 where they have no room. */
static size_t list_moves(const uint32_t *cells, uint32_t n, uint8_t *answer, size_t size) {
    uint32_t me = turn(cells, n), count = 0;
    if (size < 5) return 0;
    for (uint32_t r = 0; r < rule_count; r++) {
        struct rule u = game_rules[r];
        for (uint32_t x = 0; x < u.first_bound; x++)
            for (uint32_t y = 0; y < u.second_bound; y++)
                if (walk(rows, u.guard, cells, n, x, y, me)) {
                    uint32_t played[3] = {r, x, y};
                    size_t at = 5 + 12 * (size_t)count;
                    if (size - at < 12) return 0;
                    memcpy(answer + at, played, 12);
                    count++;
                }
    }
    answer[0] = 3;
    memcpy(answer + 1, &count, 4);
    return 5 + 12 * (size_t)count;
}

static void apply(uint32_t *cells, uint32_t n, const struct rule *u, uint32_t x, uint32_t y) {
    uint32_t me = turn(cells, n);
    for (uint32_t i = 0; i < u->effects; i++) {
        uint32_t cell = walk(rows, places[u->at + 2 * i], cells, n, x, y, me);
        uint32_t value = walk(rows, places[u->at + 2 * i + 1], cells, n, x, y, me);
        if (cell < n) cells[cell] = value;
    }
}

/* All positions that play can lead to from the empty board, each once; how many. */
static uint32_t find_positions(void) {
    uint32_t count = 1;
    for (uint32_t k = 0; k < count; k++) {
        if (is_over(positions[k], CELLS)) continue;
        for (uint32_t x = 0; x < game_rules[0].first_bound; x++) {
            uint32_t next[CELLS], number = 0;
            memcpy(next, positions[k], sizeof next);
            if (!walk(rows, game_rules[0].guard, next, CELLS, x, 0, turn(next, CELLS))) continue;
            apply(next, CELLS, &game_rules[0], x, 0);
            for (int i = 1; i < CELLS; i++) number = 3 * number + next[i];
            if (seen[number]) continue;
            seen[number] = 1;
            memcpy(positions[count++], next, sizeof next);
        }
    }
    return count;
}

static uint64_t list_all(uint32_t count, uint8_t *answer, size_t size) {
    uint64_t total = 0;
    for (uint32_t k = 0; k < count; k++)
        if (!is_over(positions[k], CELLS)) {
            size_t bytes = list_moves(positions[k], CELLS, answer, size);
            if (bytes) total += (bytes - 5) / 12;
        }
    return total;
}

static uint64_t now(void) {
    struct timespec t;
    clock_gettime(CLOCK_MONOTONIC, &t);
    return (uint64_t)t.tv_sec * 1000000000u + t.tv_nsec;
}

int main(int argc, char **argv) {
    static uint8_t bytes[4096], answer[4216];
    FILE *f = fopen("noughts.bytes", "rb");
    if (!f || fread(bytes, 1, sizeof bytes, f) == 0) return 1;
    load_game(bytes);
    uint32_t count = rows_of_three(over, 1), reached = find_positions();
    uint64_t listed = list_all(reached, answer, sizeof answer);
    int turns = argc > 1 ? atoi(argv[1]) : 9;
    uint64_t boards = UINT64_MAX, listings = UINT64_MAX;
    for (int i = 0; i < turns; i++) {
        uint64_t start = now();
        uint32_t again = rows_of_three(over, 0);
        uint64_t ns = now() - start;
        if (again == count && ns < boards) boards = ns;
    }
    for (int i = 0; i < turns; i++) {
        uint64_t start = now();
        uint64_t again = list_all(reached, answer, sizeof answer);
        uint64_t ns = now() - start;
        if (again == listed && ns < listings) listings = ns;
    }
    printf("%u of %d boards have a row of three\n", count, BOARDS);
    printf("%llu moves are listed in %u positions\n", (unsigned long long)listed, reached);
    printf("boards: best %llu ns\nlistings: best %llu ns\nparts %llu\n", (unsigned long long)boards, (unsigned long long)listings,
           (unsigned long long)parts);
    return 0;
}
