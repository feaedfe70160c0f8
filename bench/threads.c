// Computes in threads that are started as the jobs' are: the first one begins the others one after another, and then each takes
// the next of some equal parts that none has taken. It touches no memory but its stacks, so its time is what the machine gives
// to work of that length. Each step waits for the one before, so it leaves half of a core to a processor that shares it; with
// the word sorts 64 numbers are sorted again and again, and it doesn't.
//
//   threads STEPS THREADS PARTS [sorts]
//
// It prints the milliseconds from the first thread's start to the last one's end.
#include <pthread.h>
#include <stdatomic.h>
#include <stdio.h>
#include <stdlib.h>
#include <string.h>
#include <time.h>

#define MOST_THREADS 4096
#define SORTED 64

static unsigned long steps_of_a_part;
static int parts;
static atomic_int next;

static double milliseconds(void) {
    struct timespec time;
    clock_gettime(CLOCK_MONOTONIC, &time);
    return time.tv_sec * 1e3 + time.tv_nsec / 1e6;
}

static unsigned long next_number(unsigned long x) {
    x = x * 6364136223846793005UL + 1442695040888963407UL;
    return x ^ x >> 17;
}

static unsigned long chain(unsigned long steps) {
    unsigned long x = steps;
    for (unsigned long i = 0; i < steps; i++) x = next_number(x);
    return x;
}

static unsigned long sorts(unsigned long steps) {
    unsigned long numbers[SORTED], x = steps, sum = 0;
    for (unsigned long i = 0; i < steps / SORTED; i++) {
        for (int j = 0; j < SORTED; j++) numbers[j] = x = next_number(x);
        for (int last = SORTED - 1; last > 0; last--) {
            for (int j = 0; j < last; j++) {
                unsigned long a = numbers[j], b = numbers[j + 1];
                numbers[j] = a < b ? a : b;
                numbers[j + 1] = a < b ? b : a;
            }
        }
        sum += numbers[x % SORTED];
    }
    return sum;
}

static unsigned long (*compute)(unsigned long) = chain;

static unsigned long compute_parts(void) {
    unsigned long result = 0;
    while (atomic_fetch_add(&next, 1) < parts) result += compute(steps_of_a_part);
    return result;
}

static void *run(void *result) {
    *(unsigned long *)result = compute_parts();
    return NULL;
}

int main(int count, char **words) {
    if (count == 5 && !strcmp(words[4], "sorts")) compute = sorts;
    else if (count != 4) return 2;
    int others = atoi(words[2]) - 1;
    parts = atoi(words[3]);
    if (others < 0 || others >= MOST_THREADS || parts < 1) return 2;
    steps_of_a_part = strtoul(words[1], NULL, 10) / parts;
    static pthread_t threads[MOST_THREADS];
    static unsigned long results[MOST_THREADS];
    double began = milliseconds();
    for (int i = 0; i < others; i++) {
        if (pthread_create(&threads[i], NULL, run, &results[i])) return 1;
    }
    unsigned long result = compute_parts();
    for (int i = 0; i < others; i++) {
        pthread_join(threads[i], NULL);
        result += results[i];
    }
    printf("%.3f ms, %lx\n", milliseconds() - began, result);
    return 0;
}
