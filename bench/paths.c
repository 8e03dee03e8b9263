/* Paths followed in a bundle, and by libgit2 in the packed repository that it was made of: bench/paths runs it.
 * paths BUNDLE REPOSITORY ROOT <PATHS: every path is asked of both first, mode and id compared; then the best time of forty paths is printed. */
#define _GNU_SOURCE
#include <git2.h>
#include <stdio.h>
#include <stdlib.h>
#include <string.h>
#include <time.h>
#include "sarpukten.h"

static void stop(const char *words)
{
    fprintf(stderr, "paths: %s\n", words);
    exit(1);
}

static double now(void)
{
    struct timespec t;
    clock_gettime(CLOCK_MONOTONIC, &t);
    return (double)t.tv_sec * 1e9 + (double)t.tv_nsec;
}

static uint8_t *bundle;
static size_t bundle_len;
static git_oid root;
static git_tree *tree;

/* The mode, and the id in `id`; 0 where there is none. */
static size_t ours(const char *path, uint8_t id[32])
{
    size_t answer[SARPUKTEN_LENGTH_PATH];
    if (sarpukten_follow_path(bundle, bundle_len, root.id, 20, (const uint8_t *)path, strlen(path), answer, id) != SARPUKTEN_DONE)
        return 0;
    return answer[SARPUKTEN_ANSWER_PATH_MODE];
}

static size_t theirs(const char *path, uint8_t id[32])
{
    git_tree_entry *entry;
    if (git_tree_entry_bypath(&entry, tree, path) != 0)
        return 0;
    size_t mode = git_tree_entry_filemode_raw(entry);
    memcpy(id, git_tree_entry_id(entry)->id, 20);
    git_tree_entry_free(entry);
    return mode;
}

static double best(size_t (*find)(const char *, uint8_t *), char **paths, size_t n)
{
    double least = 1e18;
    uint8_t id[32];
    for (int round = 0; round < 20; round++) {
        double start = now();
        for (size_t i = 0; i < n; i++)
            if (find(paths[i], id) == 0)
                stop("a path that was there is gone");
        double took = now() - start;
        if (took < least)
            least = took;
    }
    return least / (double)n;
}

int main(int count, char **words)
{
    if (count != 4)
        stop("usage: paths BUNDLE REPOSITORY ROOT <PATHS");
    FILE *file = fopen(words[1], "rb");
    if (!file || fseek(file, 0, SEEK_END) != 0)
        stop("the bundle cannot be read");
    bundle_len = (size_t)ftell(file);
    rewind(file);
    bundle = malloc(bundle_len);
    if (!bundle || fread(bundle, 1, bundle_len, file) != bundle_len)
        stop("the bundle cannot be read");
    git_repository *repository;
    git_libgit2_init();
    if (git_repository_open(&repository, words[2]) != 0 || git_oid_fromstr(&root, words[3]) != 0 || git_tree_lookup(&tree, repository, &root) != 0)
        stop("libgit2 cannot open the repository or its tree");

    size_t checked[SARPUKTEN_LENGTH_BUNDLE];
    if (sarpukten_check_bundle(bundle, bundle_len, checked) != SARPUKTEN_DONE)
        stop("the bundle is refused");
    char *paths[40], line[4096];
    size_t n = 0, asked = 0;
    while (fgets(line, sizeof line, stdin)) {
        line[strcspn(line, "\n")] = 0;
        uint8_t a[32], b[32];
        size_t mode = ours(line, a);
        if (mode == 0 || mode != theirs(line, b) || memcmp(a, b, 20) != 0)
            stop("the two do not agree");
        asked++;
        if (n < 40)
            paths[n++] = strdup(line);
    }
    double start = now();
    for (int i = 0; i < 20; i++)
        if (sarpukten_check_bundle(bundle, bundle_len, checked) != SARPUKTEN_DONE)
            stop("the bundle is refused");
    double check = (now() - start) / 20;
    printf("%zu %zu %.0f %.0f %.0f\n", checked[SARPUKTEN_ANSWER_OBJECTS], asked, check / 1e3, best(ours, paths, n) / 1e3, best(theirs, paths, n));
    return 0;
}
