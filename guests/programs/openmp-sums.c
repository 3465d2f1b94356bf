/* Loops, tasks and critical sections of OpenMP. */
#include <stdio.h>

static long fibonacci(int n) {
    long a, b;
    if (n < 2) return n;
#pragma omp task shared(a) if (n > 8)
    a = fibonacci(n - 1);
    b = fibonacci(n - 2);
#pragma omp taskwait
    return a + b;
}

int main(void) {
    long sum = 0, most = 0, last = 0;
#pragma omp parallel for reduction(+ : sum) schedule(dynamic, 10) num_threads(3)
    for (int i = 0; i < 1000; i++) sum += i % 7 * i;
#pragma omp parallel for num_threads(3)
    for (int i = 0; i < 100; i++) {
        long value = i * 37 % 101;
#pragma omp critical
        if (value > most) most = value;
    }
#pragma omp parallel num_threads(3)
#pragma omp single
    last = fibonacci(14);
    printf("%ld %ld %ld\n", sum, most, last);
    return 0;
}
