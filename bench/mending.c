/* The measured calls of bench/mending: trees of so many entries, in reverse order and in Git's, mended. Each call stands between two calls of getppid,
 * where the emulator's plugin prints its count; a line on standard output says the entries and the order. */
#include "sarpukten.h"

#include <stdio.h>
#include <stdlib.h>
#include <string.h>
#include <sys/syscall.h>
#include <unistd.h>

static void mark(void) { syscall(SYS_getppid); }

int main(int count, char **words)
{
    for (int i = 1; i < count; i++) {
        size_t n = strtoul(words[i], NULL, 10), len = n * 36, answer[SARPUKTEN_LENGTH_MEND];
        uint8_t *object = malloc(len + 1), *out = malloc(len + 1);
        size_t *fates = malloc(n * sizeof *fates + 1);
        if (!object || !out || !fates)
            return 1;
        for (int reversed = 1; reversed >= 0; reversed--) {
            for (size_t k = 0; k < n; k++) {
                sprintf((char *)object + k * 36, "100644 %08zu", reversed ? n - k : k);
                memset(object + k * 36 + 16, (int)(k % 251 + 1), 20);
            }
            mark();
            if (sarpukten_mend_tree(object, len, SARPUKTEN_SHA1, fates, n, out, len, answer) != SARPUKTEN_DONE || answer[SARPUKTEN_ANSWER_COUNT] != len)
                return 1;
            mark();
            printf("%zu %s\n", n, reversed ? "reversed" : "ascending");
        }
        free(object);
        free(out);
        free(fates);
    }
    return 0;
}
