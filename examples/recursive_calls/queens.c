/* Eight queens: sets one queen in each row so that none attacks another, and stops at the first solution.

   place calls itself once for each row, so the calls that haven't returned are the rows that are set. Rows that were tried and
   given up leave nothing behind. */

enum { SIZE = 8 };

static int column[SIZE]; /* where the queen of each row stands */

/* Whether a queen there would be attacked from one of the rows before. */
__attribute__((noinline)) int attacked(int row, int at)
{
    for (int before = 0; before < row; before++) {
        int distance = column[before] - at;
        if (distance == 0 || distance == row - before || distance == before - row)
            return 1;
    }
    return 0;
}

/* The end: a program has no system to return to, so it stays here and can be sampled at leisure. */
__attribute__((noinline)) void solved(void)
{
    for (;;) {
    }
}

__attribute__((noinline)) void place(int row)
{
    if (row == SIZE)
        solved();
    for (int at = 0; at < SIZE; at++) {
        if (!attacked(row, at)) {
            column[row] = at;
            place(row + 1);
        }
    }
}

int main(void)
{
    place(0);
    return 0;
}
