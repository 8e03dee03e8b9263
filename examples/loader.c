/* The loader's job: reads a tree object strictly from a file, finds the guest's folder by its name and prints the folder's id in hex; of
 * several folders a line each, in the order of their names.
 *
 *     loader FILE FOLDER.. [sha256]
 *     loader BUNDLE ROOT PATH..
 *
 * FILE has the object's bytes, as `git cat-file tree` writes them. A file that begins with `GOB` is a bundle (./bundle writes one): each path
 * is followed from the root tree, whose id is given in hex, and the id that it leads to is printed with the kind and the length of the object,
 * both 0 where the bundle does not hold it.
 *
 * Exit status 0: the ids are printed. 1: one line `refused N at P`, where N is 15 if there is no such folder or path (docs/FORMAT.md,
 * "Numbers"); of several, this line stands for each that is not there. 2: the file cannot be read, or wrong arguments.
 */
#include <stdio.h>
#include <stdlib.h>
#include <string.h>

#include "sarpukten.h"

/* The file's bytes, or NULL where it cannot be read. It stops past the longest object that the library takes. */
static uint8_t *read_file(const char *path, size_t *len)
{
    FILE *f = fopen(path, "rb");
    uint8_t *bytes = NULL, *more;
    size_t room = 0, used = 0, got;

    if (f == NULL)
        return NULL;
    do {
        if (used == room) {
            room = room == 0 ? 4096 : 2 * room;
            more = realloc(bytes, room);
            if (more == NULL) {
                free(bytes);
                fclose(f);
                return NULL;
            }
            bytes = more;
        }
        got = fread(bytes + used, 1, room - used, f);
        used += got;
    } while (got != 0 && used <= SARPUKTEN_MOST_BYTES);
    if (ferror(f)) {
        free(bytes);
        bytes = NULL;
    }
    fclose(f);
    *len = used;
    return bytes;
}

/* Prints an id as hex digits. */
static void print_digits(const uint8_t *id, size_t h)
{
    uint8_t digits[SARPUKTEN_ROOM_HEX] = {0};
    size_t answer[SARPUKTEN_LENGTH_COUNT] = {0};

    if (sarpukten_hex_of_id(id, h, digits, sizeof digits, answer) == SARPUKTEN_DONE)
        printf("%.*s", (int)answer[SARPUKTEN_ANSWER_COUNT], (const char *)digits);
}

static void print_id(const uint8_t *id, size_t h)
{
    print_digits(id, h);
    printf("\n");
}

static void print_refusal(size_t number, size_t place)
{
    printf("refused %zu at %zu\n", number, place);
}

/* One folder: prints its id or the refusal, and gives the exit status. */
static int one(const uint8_t *object, size_t len, size_t h, const struct sarpukten_entry *entries, size_t many, const char *name)
{
    size_t answer[SARPUKTEN_LENGTH_LOOKUP] = {0};

    if (sarpukten_bisect_in_entries(object, len, h, entries, many, (const uint8_t *)name, strlen(name), true, answer) != SARPUKTEN_DONE) {
        print_refusal(answer[SARPUKTEN_ANSWER_NUMBER], answer[SARPUKTEN_ANSWER_PLACE]);
        return 1;
    }
    print_id(object + entries[answer[SARPUKTEN_ANSWER_INDEX]].id_start, h);
    return 0;
}

/* Several folders by one call: the names are lent one after the other. */
static int several(
    const uint8_t *object, size_t len, size_t h, const struct sarpukten_entry *entries, size_t many, char **folders, size_t n)
{
    struct sarpukten_sought *sought = calloc(n, sizeof *sought);
    struct sarpukten_found *found = calloc(n, sizeof *found);
    size_t answer[SARPUKTEN_LENGTH_COUNT] = {0}, names_len = 0, i;
    uint8_t *names;
    int status = 0;

    for (i = 0; i < n; i++)
        names_len += strlen(folders[i]);
    names = malloc(names_len + 1); /* one more, so that it is not NULL where all names are empty */
    if (sought == NULL || found == NULL || names == NULL) {
        fprintf(stderr, "loader: no memory\n");
        status = 2;
    } else {
        names_len = 0;
        for (i = 0; i < n; i++) {
            sought[i].start = names_len;
            memcpy(names + names_len, folders[i], strlen(folders[i]));
            names_len += strlen(folders[i]);
            sought[i].end = names_len;
            sought[i].is_folder = 1;
        }
        if (sarpukten_bisect_all_in_entries(object, len, h, entries, many, names, names_len, sought, n, found, n, answer) != SARPUKTEN_DONE) {
            print_refusal(answer[SARPUKTEN_ANSWER_NUMBER], answer[SARPUKTEN_ANSWER_PLACE]);
            status = 1;
        } else {
            for (i = 0; i < n; i++) {
                if (found[i].number == SARPUKTEN_DONE) {
                    print_id(object + entries[found[i].index].id_start, h);
                } else {
                    print_refusal(found[i].number, 0);
                    status = 1;
                }
            }
        }
    }
    free(names);
    free(found);
    free(sought);
    return status;
}

/* Paths through the trees of a bundle: a line each. */
static int paths(const uint8_t *bundle, size_t len, const char *hex, char **ways, size_t n)
{
    uint8_t root[SARPUKTEN_ROOM_ID] = {0}, id[SARPUKTEN_ROOM_ID] = {0};
    size_t read[SARPUKTEN_LENGTH_COUNT] = {0}, answer[SARPUKTEN_LENGTH_PATH] = {0}, object[SARPUKTEN_LENGTH_OBJECT] = {0}, i;
    int status = 0;

    if (sarpukten_id_of_hex((const uint8_t *)hex, strlen(hex), root, sizeof root, read) != SARPUKTEN_DONE) {
        fprintf(stderr, "loader: the root is no id\n");
        return 2;
    }
    for (i = 0; i < n; i++) {
        const uint8_t *way = (const uint8_t *)ways[i];
        if (sarpukten_follow_path(bundle, len, root, read[SARPUKTEN_ANSWER_COUNT], way, strlen(ways[i]), answer, id) != SARPUKTEN_DONE) {
            print_refusal(answer[SARPUKTEN_ANSWER_NUMBER], answer[SARPUKTEN_ANSWER_PLACE]);
            status = 1;
            continue;
        }
        print_digits(id, answer[SARPUKTEN_ANSWER_ID_LENGTH]);
        if (sarpukten_bundle_object(bundle, len, id, answer[SARPUKTEN_ANSWER_ID_LENGTH], object) == SARPUKTEN_DONE)
            printf(" %zu %zu\n", object[SARPUKTEN_ANSWER_KIND], object[SARPUKTEN_ANSWER_END] - object[SARPUKTEN_ANSWER_START]);
        else
            printf(" 0 0\n");
    }
    return status;
}

int main(int argc, char **argv)
{
    size_t h = SARPUKTEN_SHA1, len, lent, answer[SARPUKTEN_LENGTH_COUNT] = {0};
    struct sarpukten_entry *entries;
    uint8_t *object;
    int i, status;

    if (argc > 3 && strcmp(argv[argc - 1], "sha256") == 0) {
        h = SARPUKTEN_SHA256;
        argc--;
    }
    if (argc < 3) {
        fprintf(stderr, "usage: loader FILE FOLDER.. [sha256], or loader BUNDLE ROOT PATH..\n");
        return 2;
    }
    object = read_file(argv[1], &len);
    if (object == NULL) {
        fprintf(stderr, "loader: cannot read %s\n", argv[1]);
        return 2;
    }
    if (len >= 3 && memcmp(object, "GOB", 3) == 0) {
        status = paths(object, len, argv[2], argv + 3, (size_t)argc - 3);
        free(object);
        return status;
    }
    /* A lookup answers `guest/file` as it answers `guest`. */
    for (i = 2; i < argc; i++) {
        if (strchr(argv[i], '/') != NULL) {
            fprintf(stderr, "loader: a folder's name has no slash\n");
            free(object);
            return 2;
        }
    }

    /* Enough records for any object of this length that is read strictly. */
    lent = len / (h + 8);
    if (lent > SARPUKTEN_MOST_RECORDS)
        lent = SARPUKTEN_MOST_RECORDS;
    entries = calloc(lent + 1, sizeof *entries); /* one more, so that it is not NULL for an empty file */
    if (entries == NULL) {
        fprintf(stderr, "loader: no memory\n");
        free(object);
        return 2;
    }

    if (sarpukten_read_tree_strict_entries(object, len, h, SARPUKTEN_RULES_PRESENT, entries, lent, answer) != SARPUKTEN_DONE) {
        print_refusal(answer[SARPUKTEN_ANSWER_NUMBER], answer[SARPUKTEN_ANSWER_PLACE]);
        status = 1;
    } else if (argc == 3) {
        status = one(object, len, h, entries, answer[SARPUKTEN_ANSWER_COUNT], argv[2]);
    } else {
        status = several(object, len, h, entries, answer[SARPUKTEN_ANSWER_COUNT], argv + 2, (size_t)argc - 2);
    }
    free(entries);
    free(object);
    return status;
}
