/* Answers lines of six houses a side by the classic rule with the moves, or the engine, of mancala 1.0.3 by Sverre H. Huseby. Its files
   are included as they are.

       peer steps | solve | best PLIES SEED      a line of standard input each, as `kalah ask --steps`, as `kalah ask`, and a house */
#include "mancala.c"

/* Player 0 is the one to move. Its hole 0 is house 6. */
static int read_board(const char *line) {
    Board *b = &boardStack[0];
    for (int player = 0; player < 2; player++) {
        int seeds[MAX_HOLES + 1], used = 0;
        if (sscanf(line, "%d,%d,%d,%d,%d,%d/%d%n", seeds, seeds + 1, seeds + 2, seeds + 3, seeds + 4, seeds + 5, seeds + 6, &used) != 7)
            return 0;
        for (int house = 0; house < MAX_HOLES; house++) b->hole[player][MAX_HOLES - 1 - house] = seeds[house];
        b->mancala[player] = seeds[MAX_HOLES];
        line += used + 1;
    }
    return 1;
}

static void print_side(int player) {
    for (int hole = MAX_HOLES - 1; hole >= 0; hole--) printf("%d%c", boardStack[0].hole[player][hole], hole ? ',' : '/');
    printf("%d ", boardStack[0].mancala[player]);
}

/* The margin of best play of a player who is to move, by all moves, and the house; 0 if the game is over. */
static int solve(Player player, int *best) {
    Board before = boardStack[0];
    Player winner;
    int most = INT_MIN, over = checkAndFixWin(&winner);
    *best = 0;
    if (over) most = boardStack[0].mancala[player] - boardStack[0].mancala[player ^ 1];
    for (int house = 1; !over && house <= MAX_HOLES; house++) {
        Move move = {MAX_HOLES - house};
        int unused;
        if (!legalMove(player, &move)) continue;
        Player next = doMove(player, &move);
        int margin = solve(next, &unused) * (next == player ? 1 : -1);
        if (margin > most) most = margin, *best = house;
        boardStack[0] = before;
    }
    boardStack[0] = before;
    return most;
}

static void print_steps(void) {
    Board before = boardStack[0];
    const char *between = "";
    for (int house = 1; house <= MAX_HOLES; house++) {
        Move move = {MAX_HOLES - house};
        Player winner;
        if (!legalMove(0, &move)) continue;
        Player next = doMove(0, &move);
        int over = checkAndFixWin(&winner), first = over ? 0 : next;
        printf("%s%d ", between, house);
        print_side(first);
        print_side(first ^ 1);
        printf("%s", over ? "over" : next ? "turn" : "again");
        between = "; ";
        boardStack[0] = before;
    }
    puts("");
}

int main(int count, char **words) {
    char line[256];
    const char *question = count > 1 ? words[1] : "";
    int plies = count == 4 ? atoi(words[2]) : 0, house;
    initGame(0);
    if (count == 4) srand(atoi(words[3]));
    for (; fgets(line, sizeof line, stdin); fflush(stdout)) {
        Player winner;
        if (!read_board(line)) return 1;
        if (plies) {
            printf("%d\n", MAX_HOLES - getBestMove(0, plies)->hole);
            continue;
        }
        Board before = boardStack[0];
        int over = checkAndFixWin(&winner);
        boardStack[0] = before;
        if (!strcmp(question, "steps") && !over) {
            print_steps();
        } else {
            int margin = solve(0, &house);
            printf(over ? "%d over\n" : "%d house %d\n", margin, house);
        }
    }
    return 0;
}
