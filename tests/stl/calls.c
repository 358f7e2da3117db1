/* The engine's two calls over STLs, for tests/stl/compare: questions on standard input, answers on standard output.
 *
 * A question is three u64: 0 to read or 1 to write, how many bytes are given, how many are lent; then the bytes that are
 * given, an STL or triangles. An answer is what the call returned, a u64, then all that is lent, which was filled
 * with 0xa5. */
#include "gauge.h"

#include <stdio.h>
#include <stdlib.h>
#include <string.h>

int main(void)
{
    uint64_t question[3];
    while (fread(question, sizeof question, 1, stdin) == 1) {
        size_t given = (size_t)question[1], lent = (size_t)question[2];
        uint8_t *from = malloc(given + 1), *to = malloc(lent + 1);
        if (from == NULL || to == NULL || fread(from, 1, given, stdin) != given)
            return 1;
        memset(to, 0xa5, lent);
        uint64_t returned = question[0] == 1 ? gauge_write_stl((const float *)from, given / 4, to, lent)
                                             : gauge_read_stl(from, given, (float *)to, lent / 4);
        if (fwrite(&returned, 8, 1, stdout) != 1 || fwrite(to, 1, lent, stdout) != lent || fflush(stdout) != 0)
            return 1;
        free(from);
        free(to);
    }
    return 0;
}
