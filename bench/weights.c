// Finds the weights of the move order (crates/kalah_solve/src/search/move_order/weights.rt) anew, by hill climbing from plain ones: it
// changes one weight at a time, and keeps the change if random positions take fewer nodes by the mean of their logarithms.
//
//   cc -O2 -o weights bench/weights.c -lm && ./weights [MINUTES] [SEED]
//
// It prints each mean that is better, and at the end the weights and the mean for as many other positions. Its search is that of
// docs/SEARCH.md, with plain rows of numbers.
#include <math.h>
#include <stdint.h>
#include <stdio.h>
#include <stdlib.h>
#include <string.h>
#include <time.h>

enum { SAMPLE = 120, FEWEST = 3000, MOST = 40000, GAIN = 64, KNOWN = 8, PLACES = 1 << 16, ENDINGS = 1 << 22, NONE = -1000000 };

// The own row, then the other player's.
typedef struct { uint8_t at[12]; int m, rule; } Houses;
typedef struct { uint64_t key; int least, most; } Place;
typedef struct { uint64_t key; int won; } Ending;

// By the distance from the store: what the house of a turn counts, and what a house counts that it leaves, of the mover and of the other
// player.
static int place[6], house[2][6][16];
static Place places[PLACES];
static Ending endings[ENDINGS];
static long nodes, limit;

// Different houses have different keys: the factor is odd.
static uint64_t key_of(const Houses *a) {
    uint64_t key = a->m + 8 * a->rule + 1;
    for (int i = 0; i < 2 * a->m; i++) key = key << 5 | a->at[i];
    return key * 0x9E3779B97F4A7C15u;
}

static int sum(const Houses *a, int from) {
    int s = 0;
    for (int i = 0; i < a->m; i++) s += a->at[from + i];
    return s;
}

// Plays house h, and turns the rows if the turn passes. Returns what the store gains, or all that the mover takes if the game is over.
static int play(Houses *a, int h, int *again, int *over) {
    int m = a->m, at = h, gain = 0, n = a->at[h];
    a->at[h] = 0;
    for (; n > 0; n--) {
        at = (at + 1) % (2 * m + 1);
        if (at == m) gain++; else a->at[at < m ? at : at - 1]++;
    }
    int across = 2 * m - 1 - at;
    if (at < m && a->at[at] == 1 && (a->rule || a->at[across])) {
        gain += 1 + a->at[across];
        a->at[at] = a->at[across] = 0;
    }
    int own = sum(a, 0), other = sum(a, m);
    *again = at == m;
    *over = !own || !other;
    if (!other) return gain + own;
    for (int i = 0; i < m && !*again; i++) {
        uint8_t t = a->at[i];
        a->at[i] = a->at[m + i];
        a->at[m + i] = t;
    }
    return gain;
}

// What the mover takes of few seeds.
static int ending(const Houses *a, int s) {
    uint64_t key = key_of(a);
    Ending *known = &endings[key >> 42];
    if (known->key == key) return known->won;
    int best = 0;
    for (int h = a->m; h-- > 0 && best < s;) {
        if (!a->at[h]) continue;
        Houses b = *a;
        int again, over, g = play(&b, h, &again, &over);
        int won = over ? g : again ? g + ending(&b, s - g) : s - ending(&b, s - g);
        if (won > best) best = won;
    }
    *known = (Ending){ key, best };
    return best;
}

// What a turn of house h counts. The rows that it leaves are turned already.
static int priority(const Houses *b, int h, int gain) {
    int m = b->m, v = GAIN * gain + place[m - 1 - h];
    for (int i = 0; i < 2 * m; i++) v += house[i < m][m - 1 - i % m][b->at[i] & 15];
    return v;
}

// A bound of what the mover takes of s seeds, on the right side of t.
static int bound(const Houses *a, int s, int t) {
    if (t <= 0) return 0;
    if (t > s) return s;
    if (s <= KNOWN) return ending(a, s);
    uint64_t key = key_of(a);
    Place *p = &places[key >> 48];
    int least = p->key == key ? p->least : 0, most = p->key == key ? p->most : s;
    if (least >= t) return least;
    if (most < t) return most;
    if (++nodes > limit) return t;
    Houses next[6];
    int waits[6], gained[6], best = 0;
    for (int h = 0; h < a->m; h++) waits[h] = NONE;
    // First what ends in the store without a lap, then the others; turns wait.
    for (int pass = 0; pass < 2; pass++) {
        for (int h = a->m; h-- > 0 && best < t;) {
            if (!a->at[h] || (a->at[h] + h == a->m) == pass) continue;
            Houses b = *a;
            int again, over, g = play(&b, h, &again, &over), v = g;
            if (!over && again) v = g + bound(&b, s - g, t - g);
            else if (!over && s - g <= KNOWN) v = s - ending(&b, s - g);
            else if (!over && g < t) { next[h] = b; gained[h] = g; waits[h] = priority(&b, h, g); }
            if (v > best) best = v;
        }
    }
    while (best < t) {
        int h = 0;
        for (int i = 1; i < a->m; i++) if (waits[i] >= waits[h]) h = i;
        if (waits[h] == NONE) break;
        waits[h] = NONE;
        int v = s - bound(&next[h], s - gained[h], s - t + 1);
        if (v > best) best = v;
    }
    *p = best >= t ? (Place){ key, best, most } : (Place){ key, least, best };
    return best;
}

// The nodes of a search from empty places on, or more than `most`.
static long nodes_of(const Houses *a, long most) {
    int s = sum(a, 0) + sum(a, a->m), low = 0, high = s, t = s / 2 + 1;
    memset(places, 0, sizeof places);
    nodes = 0;
    limit = most;
    while (low < high && nodes <= limit) {
        int v = bound(a, s, t = t <= low ? low + 1 : t > high ? high : t);
        if (v >= t) t = (low = v) + 1; else t = high = v;
    }
    return nodes;
}

static void draw(Houses *sample) {
    for (int i = 0; i < SAMPLE;) {
        Houses a = { .m = 4 + rand() % 3, .rule = rand() % 2 };
        for (int s = 18 + rand() % 14; s > 0; s--) a.at[rand() % (2 * a.m)]++;
        if (!sum(&a, 0) || !sum(&a, a.m)) continue;
        long n = nodes_of(&a, MOST);
        if (n >= FEWEST && n <= MOST) sample[i++] = a;
    }
}

// The mean logarithm of their nodes, or more than `most`.
static double mean(const Houses *sample, double most) {
    double total = 0;
    for (int i = 0; i < SAMPLE && total <= most * SAMPLE; i++) total += log(nodes_of(&sample[i], 100 * MOST) + 1);
    return total / SAMPLE;
}

int main(int count, char **words) {
    double minutes = count > 1 ? atof(words[1]) : 30;
    srand(count > 2 ? atoi(words[2]) : 1);
    for (int d = 0; d < 6; d++) {
        place[d] = -8 * d;
        for (int n = 0; n < 16; n++) { house[0][d][n] = 8 * n; house[1][d][n] = n ? -24 - 8 * !d : 0; }
    }
    static Houses sample[SAMPLE], others[SAMPLE];
    draw(sample);
    draw(others);
    double best = mean(sample, 1e9), others_before = mean(others, 1e9);
    printf("%.4f at first\n", best);
    for (time_t end = time(0) + (time_t)(60 * minutes); time(0) < end;) {
        int step = (rand() % 2 ? 1 : -1) * (1 + rand() % 24), d = rand() % 6, n = rand() % 14, which = rand() % 12;
        int *row = house[rand() % 2][d], row_before[16], place_before = place[d];
        memcpy(row_before, row, sizeof row_before);
        // One place, or one number of seeds, or this one and all greater ones.
        int last = which < 4 || n == 13 ? 15 : n;
        if (which == 0) place[d] += step; else for (int i = n; i <= last; i++) row[i] += step;
        double now = mean(sample, best);
        if (now < best) {
            best = now;
            printf("%.4f\n", best);
            fflush(stdout);
        } else {
            memcpy(row, row_before, sizeof row_before);
            place[d] = place_before;
        }
    }
    printf("other positions: %.4f, at first %.4f\nplaces:", mean(others, 1e9), others_before);
    for (int d = 0; d < 6; d++) printf(" %d", place[d]);
    for (int i = 0; i < 12; i++) {
        printf("\n%s, %d from the store:", i < 6 ? "other player" : "mover", 5 - i % 6);
        for (int n = 0; n < 16; n++) printf(" %d", house[i < 6][5 - i % 6][n]);
    }
    putchar('\n');
}
