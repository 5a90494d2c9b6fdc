/* Runs one program on a case: the stored integers of its two inputs are the words. Prints the line of `fic run`.
   A, B and OUT are the types of the elements of its arrays. */
#include "program.h"
#include <inttypes.h>
#include <stdio.h>
#include <stdlib.h>

#define IS_SIGNED(T) ((T)-1 < (T)1)
#define READ(T, word) (IS_SIGNED(T) ? (T)strtoll(word, NULL, 10) : (T)strtoull(word, NULL, 10))

int main(int count, char **words) {
    if (count != 3) {
        return 2;
    }
    const A a[1] = {READ(A, words[1])};
    const B b[1] = {READ(B, words[2])};
    OUT y[1] = {0};
    int32_t status = fic_f(a, b, y);
    if (status != 0) {
        printf("{\"case\":0,\"fault\":%" PRId32 "}\n", status);
    } else if (IS_SIGNED(OUT)) {
        printf("{\"case\":0,\"ends\":{\"y\":[%" PRId64 "]}}\n", (int64_t)y[0]);
    } else {
        printf("{\"case\":0,\"ends\":{\"y\":[%" PRIu64 "]}}\n", (uint64_t)y[0]);
    }
    return 0;
}
