/* The product of two matrices of three rows, and the determinant of the result. */
#include "microsys.h"

#define N 3

static const int32_t a[N][N] = {{1, 2, 3}, {4, 5, 6}, {7, 8, 10}};
static const int32_t b[N][N] = {{2, 0, 1}, {-1, 3, 2}, {5, -2, 4}};
static int32_t c[N][N];

static void multiply(void) {
    for (int i = 0; i < N; i++)
        for (int j = 0; j < N; j++) {
            int32_t sum = 0;
            for (int k = 0; k < N; k++)
                sum += a[i][k] * b[k][j];
            c[i][j] = sum;
        }
}

static int32_t determinant(void) {
    return c[0][0] * (c[1][1] * c[2][2] - c[1][2] * c[2][1]) - c[0][1] * (c[1][0] * c[2][2] - c[1][2] * c[2][0]) +
           c[0][2] * (c[1][0] * c[2][1] - c[1][1] * c[2][0]);
}

THREAD main(void) {
    for (;;) {
        sys_wait(CAP_BELL);
        multiply();
        for (int i = 0; i < N; i++)
            for (int j = 0; j < N; j++)
                sys_put_char(c[i][j]);
        int32_t d = determinant();
        sys_put_char(d >> 8);
        sys_put_char(d);
        handler_ack(CAP_LINE);
    }
}
