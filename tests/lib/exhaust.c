/* Compares the answers of kalah for every position of 1 to 6 houses a side with up to SEEDS seeds in houses, under both rules, with the
   values of these positions as computed here from docs/RULES.md. There is no search: the value of each position is computed once, from
   those of the positions that its moves lead to, and kept at the position's rank.

       exhaust PROGRAM SEEDS WORKERS

   `solve` and `values` of the program answer files of up to a million lines in the current folder. Stores change with the rank. */
#include <stdio.h>
#include <stdlib.h>
#include <string.h>

enum { MOST_HOUSES = 6, MOST_SEEDS = 15, MOST_LINES = 1000000, LINE = 200, UNKNOWN = -128 };

static const char *const RULES[] = {"the classic rule", "the empty-capture rule"};
static const char *const COMMANDS[] = {"solve", "values"};

static int m, takes_empty, most_seeds;
/* By h and s, the number of ways to put at most s seeds into h houses. */
static long ways[2 * MOST_HOUSES + 1][MOST_SEEDS + 1];
/* The margin of best play of each position with empty stores, by its rank. */
static signed char *margins;

static void fail(const char *why) {
    fprintf(stderr, "exhaust: %s\n", why);
    exit(2);
}

static int sum(const signed char *houses, int count) {
    int seeds = 0;
    while (count--) seeds += *houses++;
    return seeds;
}

/* Houses are those of the player to move, then those of the other player. Their rank is how many come before them in lexical order. */
static long rank_of(const signed char *houses) {
    long rank = 0;
    int left = most_seeds;
    for (int house = 0; house < 2 * m; house++)
        for (int seeds = 0; seeds < houses[house]; seeds++) rank += ways[2 * m - 1 - house][left--];
    return rank;
}

/* Puts the next houses in lexical order in the place of these; returns 0 if there are none. */
static int advance(signed char *houses) {
    for (int house = 2 * m - 1; house >= 0; house--) {
        if (sum(houses, 2 * m) < most_seeds) return ++houses[house];
        houses[house] = 0;
    }
    return 0;
}

static int is_over(const signed char *houses) { return !sum(houses, m) || !sum(houses + m, m); }

static int margin(const signed char *houses);

/* The value of a move, from empty stores on. */
static int value(const signed char *houses, int house) {
    signed char cells[2 * MOST_HOUSES + 1], swapped[2 * MOST_HOUSES];
    int lap = 2 * m + 1, at = house, seeds = houses[house];
    /* The cells of a lap: the own houses, the own store, the other houses. */
    memcpy(cells, houses, m);
    cells[m] = 0;
    memcpy(cells + m + 1, houses + m, m);
    for (cells[house] = 0; seeds; seeds--) cells[at = (at + 1) % lap]++;
    if (at < m && cells[at] == 1 && (cells[2 * m - at] || takes_empty)) {
        cells[m] += cells[at] + cells[2 * m - at];
        cells[at] = cells[2 * m - at] = 0;
    }
    int gain = cells[m];
    memmove(cells + m, cells + m + 1, m);
    if (is_over(cells) || at == m) return gain + margin(cells);
    memcpy(swapped, cells + m, m);
    memcpy(swapped + m, cells, m);
    return gain - margin(swapped);
}

/* The margin of a game that is over, or of best play, from empty stores on. */
static int margin(const signed char *houses) {
    if (is_over(houses)) return sum(houses, m) - sum(houses + m, m);
    signed char *known = &margins[rank_of(houses)];
    if (*known == UNKNOWN) {
        int best = UNKNOWN;
        for (int house = 0; house < m; house++) {
            int found = houses[house] ? value(houses, house) : UNKNOWN;
            if (found > best) best = found;
        }
        *known = best;
    }
    return *known;
}

static int own_store(long rank) { return rank % 100; }
static int other_store(long rank) { return rank / 3 % 100; }

/* Writes the line of a position, and returns its end. */
static char *write_line(char *to, const signed char *houses, long rank) {
    for (int house = 0; house < 2 * m; house++) {
        to += sprintf(to, "%s%d", house % m ? "," : house ? " " : "", houses[house]);
        if (house % m == m - 1) to += sprintf(to, "/%d", house < m ? own_store(rank) : other_store(rank));
    }
    return to + sprintf(to, "%s", takes_empty ? " e" : "");
}

/* Writes the right answer of `solve`, or of `values`. */
static void write_answer(char *to, const signed char *houses, long rank, int shows_values) {
    int ahead = own_store(rank) - other_store(rank), best = margin(houses);
    if (is_over(houses)) {
        sprintf(to, "%d over", ahead + best);
    } else if (shows_values) {
        const char *before = "";
        for (int house = 0; house < m; house++)
            if (houses[house]) to += sprintf(to, "%s%d:%d", before, house + 1, ahead + value(houses, house)), before = " ";
    } else {
        int house = 0;
        while (!houses[house] || value(houses, house) != best) house++;
        sprintf(to, "%d house %d", ahead + best, house + 1);
    }
}

/* Compares the positions that were worked by hand with what is right here. */
static void compare_worked(void) {
    static const struct {
        int m, takes_empty;
        signed char houses[4];
        const char *answer;
    } WORKED[] = {
        {1, 0, {1, 1}, "0 house 1"}, {1, 0, {2, 2}, "-2 house 1"}, {1, 0, {3, 3}, "6 house 1"}, {1, 0, {4, 4}, "-2 house 1"},
        {1, 0, {5, 5}, "2 house 1"}, {1, 0, {6, 6}, "0 house 1"}, {1, 0, {8, 7}, "-9 house 1"}, {2, 0, {1, 1, 1, 1}, "2 house 2"},
        {2, 0, {5, 0, 1, 0}, "2 house 1"}, {2, 0, {1, 1, 0, 1}, "1 house 1"}, {2, 0, {1, 0, 0, 2}, "1 house 1"},
        {2, 0, {0, 0, 1, 2}, "-3 over"}, {1, 1, {3, 3}, "6 house 1"}, {2, 1, {1, 0, 0, 2}, "-1 house 1"}, {2, 1, {1, 1, 0, 1}, "1 house 1"},
    };
    for (size_t row = 0; row < sizeof WORKED / sizeof *WORKED; row++) {
        char answer[LINE];
        if (WORKED[row].m != m || WORKED[row].takes_empty != takes_empty || sum(WORKED[row].houses, 2 * m) > most_seeds) continue;
        write_answer(answer, WORKED[row].houses, 0, 0);
        if (strcmp(answer, WORKED[row].answer)) fail("a position that was worked by hand has another answer");
    }
}

/* Writes the file of up to a million lines, from these houses on, and returns how many there are. */
static long write_file(signed char *houses, long rank) {
    FILE *file = fopen("positions", "w");
    long lines = 0;
    if (!file) fail("cannot write a file of positions");
    do {
        char line[LINE];
        write_line(line, houses, rank + lines++);
        fprintf(file, "%s\n", line);
    } while (lines < MOST_LINES && advance(houses));
    if (fclose(file)) fail("cannot write a file of positions");
    return lines;
}

/* Compares all that the program prints for the file, which begins with these houses. */
static void compare(signed char *houses, long rank, long lines, int shows_values) {
    char command[LINE], got[LINE], want[LINE], position[LINE];
    sprintf(command, "exec \"$PROGRAM\" %s --workers \"$WORKERS\" positions", COMMANDS[shows_values]);
    FILE *answers = popen(command, "r");
    if (!answers) fail("cannot start the program");
    for (long line = 1; line <= lines; line++, rank++, advance(houses)) {
        int prefix = sprintf(want, "positions:%ld ", line);
        write_answer(want + prefix, houses, rank, shows_values);
        if (!fgets(got, LINE, answers)) strcpy(got, "nothing");
        got[strcspn(got, "\n")] = 0;
        if (strcmp(got, want)) {
            write_line(position, houses, rank);
            printf("exhaust: `%s` differs at '%s'\n  %s is right\n  %s is printed\n", COMMANDS[shows_values], position, want, got);
            exit(1);
        }
    }
    if (fgets(got, LINE, answers)) fail("the program prints more than it must");
    if (pclose(answers)) fail("the program fails");
}

/* Compares all positions of a number of houses and a rule, and returns how many there are. */
static long compare_all(void) {
    signed char houses[2 * MOST_HOUSES] = {0}, first[2 * MOST_HOUSES];
    long count = ways[2 * m][most_seeds], rank = 0;
    margins = malloc(count);
    if (!margins) fail("out of memory");
    memset(margins, UNKNOWN, count);
    compare_worked();
    while (rank < count) {
        if (rank_of(houses) != rank) fail("ranks are wrong");
        memcpy(first, houses, sizeof first);
        long lines = write_file(houses, rank);
        for (int shows_values = 0; shows_values < 2; shows_values++) {
            memcpy(houses, first, sizeof first);
            compare(houses, rank, lines, shows_values);
        }
        rank += lines;
    }
    free(margins);
    return count;
}

int main(int count, char **words) {
    if (count != 4 || setenv("PROGRAM", words[1], 1) || setenv("WORKERS", words[3], 1)) fail("usage: exhaust PROGRAM SEEDS WORKERS");
    most_seeds = atoi(words[2]);
    if (most_seeds < 0 || most_seeds > MOST_SEEDS) fail("there are at most 15 seeds");
    for (int seeds = 0; seeds <= MOST_SEEDS; seeds++) ways[0][seeds] = 1;
    for (int houses = 1; houses <= 2 * MOST_HOUSES; houses++)
        for (int seeds = 0; seeds <= MOST_SEEDS; seeds++)
            ways[houses][seeds] = ways[houses - 1][seeds] + (seeds ? ways[houses][seeds - 1] : 0);
    long all = 0;
    for (m = 1; m <= MOST_HOUSES; m++)
        for (takes_empty = 0; takes_empty < 2; takes_empty++) {
            long found = compare_all();
            printf("%d house%s a side, %s: %ld positions agree\n", m, m > 1 ? "s" : "", RULES[takes_empty], found);
            fflush(stdout);
            all += found;
        }
    printf("all %ld positions with up to %d seeds agree, by `solve` and by `values`\n", all, most_seeds);
    return 0;
}
