/* Two threads with a matcher each: both get the answers of one. two_threads [TAGS], which each is told of. */
#include "zugrenja.h"
#include <pthread.h>
#include <stdio.h>
#include <stdlib.h>

static size_t tags = 200000;

/* Tells a matcher of its own of many tags: a sum over what is reported, or 0 if a call is refused. */
static void *tell(void *sum_out) {
    zugrenja_matcher m = {0};
    zugrenja_refusal refusal;
    size_t matched, closed, sum = 0;
    if (zugrenja_new(&m, SIZE_MAX, 64, 0) || zugrenja_add(&m, 3, (const uint8_t *)"div > p, p p", 12, &refusal) || zugrenja_build(&m)) {
        return NULL;
    }
    for (size_t tag = 1; tag <= tags; tag++) {
        const char *name = tag % 3 ? "p" : "div";
        if (zugrenja_start(&m, (const uint8_t *)name, tag % 3 ? 1 : 3, ZUGRENJA_HTML, &matched)) {
            return NULL;
        }
        sum += matched * tag;
        if (tag % 7 == 0 && zugrenja_end(&m, (const uint8_t *)"div", 3, NULL, 0, &closed)) {
            return NULL;
        }
    }
    zugrenja_free(&m);
    *(size_t *)sum_out = sum;
    return NULL;
}

int main(int argc, char **argv) {
    pthread_t threads[2];
    size_t alone = 0, sums[2] = {0, 0};
    tags = argc > 1 ? strtoul(argv[1], NULL, 10) : tags;
    tell(&alone);
    for (int thread = 0; thread < 2; thread++) {
        if (pthread_create(&threads[thread], NULL, tell, &sums[thread])) {
            return 1;
        }
    }
    for (int thread = 0; thread < 2; thread++) {
        pthread_join(threads[thread], NULL);
    }
    printf("two threads: %zu and %zu, alone %zu\n", sums[0], sums[1], alone);
    return alone == 0 || sums[0] != alone || sums[1] != alone;
}
