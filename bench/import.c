/* Imports a text of records and exports the tree again: import FILE OBJECT TEXT -> "SECONDS SECONDS NUMBER PLACE"; the object goes to OBJECT, its text
 * to TEXT. Each call stands between two calls of getppid, where the plugin bench/count.c prints how many instructions ran so far. */
#define _GNU_SOURCE
#include <stdio.h>
#include <stdlib.h>
#include <sys/syscall.h>
#include <time.h>
#include <unistd.h>

#include "sarpukten.h"

static double now(void)
{
    struct timespec t;

    clock_gettime(CLOCK_MONOTONIC, &t);
    return t.tv_sec + t.tv_nsec / 1e9;
}

static int store(const char *path, const uint8_t *bytes, size_t length)
{
    FILE *file = fopen(path, "wb");

    return !file || fwrite(bytes, 1, length, file) != length || fclose(file);
}

int main(int argc, char **argv)
{
    size_t answer[SARPUKTEN_LENGTH_COUNT], back[SARPUKTEN_LENGTH_COUNT], room = (size_t)1 << 28, length, number;
    uint8_t *text = malloc(room), *out = malloc(room), *again = malloc(room);
    FILE *file = argc == 4 ? fopen(argv[1], "rb") : NULL;
    double began, ended, exported;

    if (!text || !out || !again || !file)
        return 2;
    length = fread(text, 1, room, file);
    fclose(file);
    began = now();
    syscall(SYS_getppid);
    number = sarpukten_import_tree(text, length, SARPUKTEN_SHA1, 2, out, room, answer);
    syscall(SYS_getppid);
    ended = now();
    syscall(SYS_getppid);
    if (number == 0)
        number = sarpukten_export_tree(out, answer[3], SARPUKTEN_SHA1, 2, again, room, back);
    syscall(SYS_getppid);
    exported = now();
    printf("%.6f %.6f %zu %zu\n", ended - began, exported - ended, number, answer[1]);
    return number == 0 && (store(argv[2], out, answer[3]) || store(argv[3], again, back[3])) ? 2 : 0;
}
