/* The product of two matrices. The binomials and the same with alternating signs are inverse to each other, so the
 * product has ones on its diagonal alone, and their sum is the matrices' size. */
#include "wcet.h"

#define SIZE 4

static const int binomials[SIZE][SIZE] = {{1, 0, 0, 0}, {1, 1, 0, 0}, {1, 2, 1, 0}, {1, 3, 3, 1}};
static const int inverse[SIZE][SIZE] = {{1, 0, 0, 0}, {-1, 1, 0, 0}, {1, -2, 1, 0}, {-1, 3, -3, 1}};
static int product[SIZE][SIZE];

static void multiply(const int left[SIZE][SIZE], const int right[SIZE][SIZE])
{
    for (int row = 0; row < SIZE; row++) {
        WCET_LOOP(SIZE);
        for (int column = 0; column < SIZE; column++) {
            WCET_LOOP(SIZE);
            int sum = 0;
            for (int i = 0; i < SIZE; i++) {
                WCET_LOOP(SIZE);
                sum += left[row][i] * right[i][column];
            }
            WCET_STORE(product[row][column], product, sum);
        }
    }
}

int task(void)
{
    int diagonal = 0;
    multiply(binomials, inverse);
    for (int i = 0; i < SIZE; i++) {
        WCET_LOOP(SIZE);
        diagonal += product[i][i];
    }
    return diagonal;
}
