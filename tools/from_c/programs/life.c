/* Conway's game of life on a torus of eight by eight: a glider after four generations. */
#include "microsys.h"

#define SIZE 8

static uint8_t cells[SIZE][SIZE] = {{0, 1, 0}, {0, 0, 1}, {1, 1, 1}};
static uint8_t next[SIZE][SIZE];

static int neighbours(int row, int column) {
    int count = 0;
    for (int i = 0; i <= 2; i++)
        for (int j = 0; j <= 2; j++)
            if (i != 1 || j != 1)
                count += cells[(row + i - 1) & (SIZE - 1)][(column + j - 1) & (SIZE - 1)];
    return count;
}

static void generation(void) {
    for (int row = 0; row < SIZE; row++)
        for (int column = 0; column < SIZE; column++) {
            int count = neighbours(row, column);
            next[row][column] = count == 3 || (count == 2 && cells[row][column]);
        }
    for (int row = 0; row < SIZE; row++)
        for (int column = 0; column < SIZE; column++)
            cells[row][column] = next[row][column];
}

THREAD main(void) {
    for (;;) {
        sys_wait(CAP_BELL);
        generation();
        for (int row = 0; row < SIZE; row++) {
            uint8_t bits = 0;
            for (int column = 0; column < SIZE; column++)
                bits = bits << 1 | cells[row][column];
            sys_put_char(bits);
        }
        handler_ack(CAP_LINE);
    }
}
