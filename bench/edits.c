/* One edit of a tree object by this library and by libgit2's tree builder: bench/edits runs it.
 * edits time|count N..: for trees of N entries an entry is replaced, added and removed by both, and the objects compared. Then a line for each edit:
 * its name and N, and with `time` the best nanoseconds here and there. With `count` each way stands once between two calls of getppid instead, where
 * the plugin bench/count.c prints its count. */
#define _GNU_SOURCE
#include <git2.h>
#include <git2/sys/mempack.h>
#include <git2/sys/odb_backend.h>
#include <git2/sys/repository.h>
#include <stdio.h>
#include <stdlib.h>
#include <string.h>
#include <sys/syscall.h>
#include <time.h>
#include <unistd.h>
#include "sarpukten.h"

static void stop(const char *words)
{
    fprintf(stderr, "edits: %s\n", words);
    exit(1);
}

static double now(void)
{
    struct timespec t;
    clock_gettime(CLOCK_MONOTONIC, &t);
    return (double)t.tv_sec * 1e9 + (double)t.tv_nsec;
}

static uint8_t *object, *out;
static size_t object_len, room, out_len;
static git_repository *repository;
static git_odb *odb;
static git_tree *tree;
static git_oid written;

/* Files `n0000000`, `n0000002`, ..: odd numbers are free. */
static void make(size_t n)
{
    object = malloc(n * 40 + 1);
    room = n * 40 + 1000;
    out = malloc(room);
    if (!object || !out)
        stop("no memory");
    object_len = 0;
    for (size_t i = 0; i < n; i++) {
        object_len += (size_t)sprintf((char *)object + object_len, "100644 n%07zu", i * 2) + 1;
        memset(object + object_len, (int)(i % 251 + 1), 20);
        object_len += 20;
    }
}

/* What an edit is: a name, and its id or none. */
struct edit {
    const char *words;
    char name[32];
    bool removes;
    git_oid id;
};

static void ours(const struct edit *e)
{
    size_t answer[SARPUKTEN_LENGTH_COUNT], len = strlen(e->name), number;
    const uint8_t *name = (const uint8_t *)e->name;
    if (e->removes)
        number = sarpukten_remove_from_tree(object, object_len, SARPUKTEN_SHA1, SARPUKTEN_RULES_PRESENT, name, len, out, room, answer);
    else
        number = sarpukten_put_in_tree(object, object_len, SARPUKTEN_SHA1, SARPUKTEN_RULES_PRESENT, 0100644, name, len, e->id.id, 20, out, room, answer);
    if (number != SARPUKTEN_DONE)
        stop("an edit is refused");
    out_len = answer[SARPUKTEN_ANSWER_COUNT];
}

/* A builder filled from the tree, the edit, and the new object, which is hashed and kept in memory. */
static void theirs(const struct edit *e)
{
    git_treebuilder *builder;
    if (git_treebuilder_new(&builder, repository, tree) != 0)
        stop("libgit2 has no builder");
    if (e->removes ? git_treebuilder_remove(builder, e->name) : git_treebuilder_insert(NULL, builder, e->name, &e->id, GIT_FILEMODE_BLOB))
        stop("libgit2 refuses an edit");
    if (git_treebuilder_write(&written, builder) != 0)
        stop("libgit2 cannot write");
    git_treebuilder_free(builder);
}

static double best(void (*edit)(const struct edit *), const struct edit *e)
{
    double least = 1e18;
    for (int round = 0; round < 20; round++) {
        double start = now();
        edit(e);
        double took = now() - start;
        if (took < least)
            least = took;
    }
    return least;
}

static void mark(void) { syscall(SYS_getppid); }

static void measure(const struct edit *e, size_t n, bool counts)
{
    git_odb_object *got;
    ours(e);
    theirs(e);
    if (git_odb_read(&got, odb, &written) != 0 || git_odb_object_size(got) != out_len || memcmp(git_odb_object_data(got), out, out_len) != 0)
        stop("the two do not agree");
    git_odb_object_free(got);
    if (!counts) {
        printf("%s %zu %.0f %.0f\n", e->words, n, best(ours, e), best(theirs, e));
        return;
    }
    mark();
    ours(e);
    mark();
    theirs(e);
    mark();
    printf("%s %zu\n", e->words, n);
}

int main(int count, char **words)
{
    git_odb_backend *memory;
    if (count < 3)
        stop("usage: edits time|count N..");
    git_libgit2_init();
    git_libgit2_opts(GIT_OPT_ENABLE_STRICT_OBJECT_CREATION, 0);
    if (git_odb_new(&odb) != 0 || git_mempack_new(&memory) != 0 || git_odb_add_backend(odb, memory, 1) != 0 || git_repository_wrap_odb(&repository, odb) != 0)
        stop("libgit2 has no memory for objects");
    for (int i = 2; i < count; i++) {
        size_t n = strtoul(words[i], NULL, 10);
        git_oid id;
        make(n);
        if (git_odb_write(&id, odb, object, object_len, GIT_OBJECT_TREE) != 0 || git_tree_lookup(&tree, repository, &id) != 0)
            stop("libgit2 cannot read the tree");
        struct edit edits[3] = {{.words = "replaced"}, {.words = "added"}, {.words = "removed", .removes = true}};
        for (int k = 0; k < 3; k++) {
            sprintf(edits[k].name, "n%07zu", n / 2 * 2 + (k == 1 ? 1 : 0));
            memset(edits[k].id.id, 0xee, 20);
            measure(&edits[k], n, strcmp(words[1], "count") == 0);
        }
        git_tree_free(tree);
        free(object);
        free(out);
    }
    return 0;
}
