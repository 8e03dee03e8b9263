/* Long trees read strictly through the static library: blob `a`, many entries, folder `a`; and chains of names, each the start of the next. */
#include "sarpukten.h"
#include <stdio.h>
#include <stdlib.h>
#include <string.h>
#include <time.h>

static uint8_t *object;
static size_t size;
static int fine = 1;

static void put(const char *mode, const char *name, size_t len) {
    size += (size_t)sprintf((char *)object + size, "%s ", mode);
    memcpy(object + size, name, len);
    size += len;
    object[size++] = 0;
    memset(object + size, 0x11, 20);
    size += 20;
}

static double now(void) {
    struct timespec t;
    clock_gettime(CLOCK_MONOTONIC, &t);
    return t.tv_sec + t.tv_nsec / 1e9;
}

/* Reads what was put into too few records, and holds number and place against what has to come; gives the seconds. */
static double read_it(size_t number, size_t place) {
    size_t answer[8] = {0}, none[1];
    double began = now();
    size_t returned = sarpukten_read_tree_strict(object, size, 20, SARPUKTEN_RULES_PRESENT, none, 0, answer);
    double took = now() - began;
    if (returned != number || answer[0] != number || answer[1] != place) {
        printf("long_trees: %zu at %zu, and it had to be %zu at %zu\n", answer[0], answer[1], number, place);
        fine = 0;
    }
    return took;
}

/* File `a`, so many files behind it in the order, and folder `a`, which has its name. */
static double between(size_t many) {
    char name[32];
    size = 0;
    put("100644", "a", 1);
    for (size_t i = 0; i < many; i++)
        put("100644", name, (size_t)sprintf(name, "a.%08zu", i));
    size_t last = size;
    put("40000", "a", 1);
    return read_it(SARPUKTEN_REFUSED_SAME_NAME, last);
}

/* `a`, `a-`, `a--`, ..: so many names, each the start of the next; then folder `a`, or nothing. */
static double chain(size_t many, int folder) {
    char *name = malloc(many + 1);
    memset(name, '-', many + 1);
    name[0] = 'a';
    size = 0;
    for (size_t i = 1; i <= many; i++)
        put("100644", name, i);
    free(name);
    size_t last = size;
    if (folder)
        put("40000", "a", 1);
    return read_it(folder ? SARPUKTEN_REFUSED_SAME_NAME : SARPUKTEN_REFUSED_FEW_RECORDS, folder ? last : many);
}

int main(int argc, char **argv) {
    size_t most = argc > 1 ? strtoul(argv[1], 0, 10) : 40000;
    object = malloc(most * (most + 1) / 2 + most * 32 + 8000000);
    if (!object)
        return puts("long_trees: too little memory"), 1;
    for (size_t many = 0; many <= 100000; many = many ? many * 10 : 1) {
        double took = between(many);
        printf("blob a, %6zu entries, tree a: 17 at the last; %9zu bytes, %.4f s\n", many, size, took);
    }
    for (int folder = 0; folder < 2; folder++)
        for (size_t many = most / 4; many <= most; many *= 2) {
            double took = chain(many, folder);
            printf("chain of %6zu names%s; %9zu bytes, %.4f s, %.3f ns a byte\n", many, folder ? ", tree a" : "        ", size, took, took / size * 1e9);
        }
    puts(fine ? "long_trees: every answer as it had to be" : "long_trees: NOT as it had to be");
    return !fine;
}
