/* What a test of a library counts, and its calls in several threads at once. */
#ifndef MATBENCH_TRIED_H
#define MATBENCH_TRIED_H

#include <pthread.h>
#include <stdio.h>
#include <string.h>

enum { THREADS = 8, CALLS_OF_A_THREAD = 50, MOST_SAMPLE = 256 };

static int tried, wrong;

/* The file of the test, which has this and the next function of its own. */
static const char *const test;

/* Draws the sample of this number, a text of fewer than MOST_SAMPLE bytes, and answers whether that is done. */
static int sample(int number, char *text);

static void hold(const char *what, int holds) {
    tried++;
    if (holds) return;
    wrong++;
    printf("%s: %s\n", test, what);
}

/* Says how much was tried, and answers what the test ends with. */
static int end(void) {
    printf("%s: %d tried, %d wrong\n", test, tried, wrong);
    return wrong != 0;
}

typedef struct {
    int number, holds;
    char wanted[MOST_SAMPLE];
} worker;

static void *work(void *given) {
    worker *it = given;
    char text[MOST_SAMPLE];
    for (int i = 0; i < CALLS_OF_A_THREAD; i++) it->holds &= sample(it->number, text) && !strcmp(text, it->wanted);
    return NULL;
}

static void try_threads(void) {
    pthread_t threads[THREADS];
    worker workers[THREADS];
    for (int i = 0; i < THREADS; i++) {
        workers[i] = (worker){.number = i, .holds = 1};
        sample(i, workers[i].wanted);
    }
    for (int i = 0; i < THREADS; i++) pthread_create(&threads[i], NULL, work, &workers[i]);
    for (int i = 0; i < THREADS; i++) pthread_join(threads[i], NULL);
    for (int i = 0; i < THREADS; i++) hold("calls at once in several threads", workers[i].holds);
}

#endif
