/* Two trees of a bundle compared by this library and by libgit2's tree diff: bench/differ runs it.
 * differ time|count BUNDLE LEFT RIGHT: the bundle's objects are put into libgit2's memory too, and what differs is compared, path by path, but for
 * folders, which libgit2 does not list. Then a line: objects, changed folders, changes; with `time` the best nanoseconds of framing and ids alone, of
 * the left tree compared with itself, of the call, of libgit2's diff with nothing read yet and of the same with what it keeps of the time before.
 * With `count` each of the five stands once between two calls of getppid instead, where the plugin bench/count.c prints its count, and the line ends
 * with the seconds of processor time that the call took. */
#define _GNU_SOURCE
#include <git2.h>
#include <git2/sys/mempack.h>
#include <git2/sys/odb_backend.h>
#include <git2/sys/repository.h>
#include <stdio.h>
#include <stdlib.h>
#include <string.h>
#include <sys/syscall.h>
#include <time.h>
#include <unistd.h>
#include "sarpukten.h"

static void stop(const char *words)
{
    fprintf(stderr, "differ: %s\n", words);
    exit(1);
}

static double now(void)
{
    struct timespec t;
    clock_gettime(CLOCK_PROCESS_CPUTIME_ID, &t);
    return (double)t.tv_sec * 1e9 + (double)t.tv_nsec;
}

static void mark(void) { syscall(SYS_getppid); }

static uint8_t *bundle, *paths;
static size_t bundle_len, objects, many, paths_len;
static struct sarpukten_item *items;
static git_oid left, right;
static git_odb *odb;
static git_repository *repository;
static git_diff *diff;

static void load(const char *name)
{
    FILE *file = fopen(name, "rb");
    if (!file || fseek(file, 0, SEEK_END) != 0)
        stop("the bundle cannot be read");
    bundle_len = (size_t)ftell(file);
    rewind(file);
    bundle = malloc(bundle_len);
    if (!bundle || fread(bundle, 1, bundle_len, file) != bundle_len)
        stop("the bundle cannot be read");
    fclose(file);
}

static void check(void)
{
    size_t answer[SARPUKTEN_LENGTH_BUNDLE];
    if (sarpukten_check_bundle(bundle, bundle_len, answer) != SARPUKTEN_DONE || answer[SARPUKTEN_ANSWER_H] != 20)
        stop("the bundle is refused");
    objects = answer[SARPUKTEN_ANSWER_OBJECTS];
}

static size_t compare(size_t answer[SARPUKTEN_LENGTH_COUNT])
{
    return sarpukten_compare_trees_items(bundle, bundle_len, left.id, 20, right.id, 20, items, many, paths, paths_len, answer);
}

static void ours(void)
{
    size_t answer[SARPUKTEN_LENGTH_COUNT];
    if (compare(answer) != SARPUKTEN_DONE || answer[SARPUKTEN_ANSWER_COUNT] != many)
        stop("a comparison is refused");
}

/* Framing, ids, the index and the entries of one root. */
static void same(void)
{
    size_t answer[SARPUKTEN_LENGTH_COUNT];
    if (sarpukten_compare_trees(bundle, bundle_len, left.id, 20, left.id, 20, (size_t *)(void *)items, 0, paths, 0, answer) != SARPUKTEN_DONE)
        stop("a tree differs from itself");
}

/* Asks how much has to be lent, and lends it. */
static void lend(void)
{
    size_t answer[SARPUKTEN_LENGTH_COUNT];
    items = calloc(1, sizeof *items);
    paths = calloc(1, 1);
    if (compare(answer) != SARPUKTEN_REFUSED_FEW_RECORDS)
        stop("there is nothing to compare");
    many = answer[SARPUKTEN_ANSWER_PLACE];
    items = calloc(many, sizeof *items);
    if (compare(answer) != SARPUKTEN_REFUSED_SHORT_OUTPUT)
        stop("paths have no bytes");
    paths_len = answer[SARPUKTEN_ANSWER_PLACE];
    paths = calloc(paths_len, 1);
    if (!items || !paths)
        stop("no memory");
}

/* Every object of the bundle, whose id has to be the hash of its bytes. */
static void keep(void)
{
    static const git_object_t kinds[5] = {0, GIT_OBJECT_COMMIT, GIT_OBJECT_TREE, GIT_OBJECT_BLOB, GIT_OBJECT_TAG};
    git_odb_backend *memory;
    if (git_odb_new(&odb) != 0 || git_mempack_new(&memory) != 0 || git_odb_add_backend(odb, memory, 1) != 0)
        stop("libgit2 has no memory for objects");
    size_t at = 10;
    for (size_t i = 0; i < objects; i++) {
        const uint8_t *o = bundle + at;
        size_t len = o[21] | (size_t)o[22] << 8 | (size_t)o[23] << 16 | (size_t)o[24] << 24;
        git_oid id;
        if (git_odb_write(&id, odb, o + 25, len, kinds[o[20]]) != 0 || memcmp(id.id, o, 20) != 0)
            stop("libgit2 does not keep an object under its id");
        at += 25 + len;
    }
}

/* A repository over the objects that has read nothing yet. */
static void afresh(void)
{
    git_diff_free(diff);
    git_repository_free(repository);
    diff = NULL;
    if (git_repository_wrap_odb(&repository, odb) != 0)
        stop("libgit2 has no repository");
}

static void theirs(void)
{
    git_tree *a, *b;
    git_diff_free(diff);
    if (git_tree_lookup(&a, repository, &left) != 0 || git_tree_lookup(&b, repository, &right) != 0)
        stop("libgit2 has no such tree");
    if (git_diff_tree_to_tree(&diff, repository, a, b, NULL) != 0)
        stop("libgit2 cannot compare");
    git_tree_free(a);
    git_tree_free(b);
}

static bool is_side(const git_diff_file *file, size_t mode, size_t id)
{
    return file->mode == mode && (mode == 0 || memcmp(file->id.id, bundle + id, 20) == 0);
}

/* How many folders changed; every other change is libgit2's, in the same order. */
static size_t agree(void)
{
    size_t folders = 0, at = 0, there = git_diff_num_deltas(diff);
    for (size_t i = 0; i < many; i++) {
        const struct sarpukten_item *item = &items[i];
        if (item->left_mode == 040000 || item->right_mode == 040000) {
            folders++;
            continue;
        }
        const git_diff_delta *delta = at < there ? git_diff_get_delta(diff, at++) : NULL;
        size_t len = item->path_end - item->path_start;
        if (!delta || strlen(delta->new_file.path) != len || memcmp(delta->new_file.path, paths + item->path_start, len) != 0 ||
            !is_side(&delta->old_file, item->left_mode, item->left_id) || !is_side(&delta->new_file, item->right_mode, item->right_id))
            stop("the two do not agree");
    }
    if (at != there)
        stop("libgit2 has more changes");
    return folders;
}

static double best(void (*measured)(void), void (*before)(void))
{
    double least = 1e18;
    for (int round = 0; round < 10; round++) {
        if (before)
            before();
        double start = now();
        measured();
        double took = now() - start;
        if (took < least)
            least = took;
    }
    return least;
}

int main(int count, char **words)
{
    if (count != 5)
        stop("usage: differ time|count BUNDLE LEFT RIGHT");
    load(words[2]);
    git_libgit2_init();
    git_libgit2_opts(GIT_OPT_ENABLE_STRICT_HASH_VERIFICATION, 0);
    if (git_oid_fromstr(&left, words[3]) != 0 || git_oid_fromstr(&right, words[4]) != 0)
        stop("these are no ids");
    check();
    lend();
    keep();
    afresh();
    ours();
    theirs();
    printf("%zu %zu %zu ", objects, agree(), many);
    if (strcmp(words[1], "time") == 0) {
        printf("%.0f %.0f %.0f ", best(check, NULL), best(same, NULL), best(ours, NULL));
        printf("%.0f ", best(theirs, afresh));
        printf("%.0f\n", best(theirs, NULL));
        return 0;
    }
    mark();
    check();
    mark();
    same();
    mark();
    double start = now();
    ours();
    double took = now() - start;
    mark();
    afresh();
    mark();
    theirs();
    mark();
    theirs();
    mark();
    printf("%.3f\n", took / 1e9);
    return 0;
}
