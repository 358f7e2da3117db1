/* Binary STLs that other people's programs wrote (tests/stl): read, each holds the corners that are written down for it, bit for
 * bit and in the same order. Written again, it is the same but for header, normals and attributes, and those are zeros.
 *
 *     stl CORNERS FILE...
 *
 * CORNERS is text, nine numbers a line; a line that begins with # is passed over. */
#include "gauge.h"

#include <stdio.h>
#include <stdlib.h>
#include <string.h>

enum { MOST = 100 };

static float wanted[9 * MOST], triangles[9 * MOST];
static uint8_t stl[GAUGE_STL_BYTES(MOST)], again[GAUGE_STL_BYTES(MOST)];
static size_t count;

static void fail(const char *path, const char *what)
{
    printf("stl: %s: %s\n", path, what);
    exit(1);
}

static void read_corners(const char *path)
{
    char line[256];
    FILE *file = fopen(path, "r");
    if (file == NULL)
        fail(path, "cannot be read");
    while (fgets(line, sizeof line, file) != NULL) {
        float *t = wanted + 9 * count;
        if (line[0] == '#')
            continue;
        if (count == MOST || sscanf(line, "%f %f %f %f %f %f %f %f %f", t, t + 1, t + 2, t + 3, t + 4, t + 5, t + 6, t + 7, t + 8) != 9)
            fail(path, "no nine numbers, or too many lines");
        count++;
    }
    fclose(file);
}

static void compare(const char *path)
{
    FILE *file = fopen(path, "rb");
    if (file == NULL)
        fail(path, "cannot be read");
    size_t length = fread(stl, 1, sizeof stl, file);
    fclose(file);
    if (gauge_read_stl(stl, length, triangles, 9 * MOST) != count || memcmp(triangles, wanted, 36 * count) != 0)
        fail(path, "other triangles");
    memset(again, 0xff, sizeof again);
    if (gauge_write_stl(triangles, 9 * count, again, sizeof again) != length)
        fail(path, "written with another length");
    memset(stl, 0, 80);
    for (size_t i = 0; i < count; i++) {
        memset(stl + 84 + 50 * i, 0, 12);
        memset(stl + 84 + 50 * i + 48, 0, 2);
    }
    if (memcmp(again, stl, length) != 0)
        fail(path, "written otherwise");
}

int main(int argc, char **argv)
{
    if (argc < 3)
        fail("usage", "stl CORNERS FILE...");
    read_corners(argv[1]);
    for (int i = 2; i < argc; i++)
        compare(argv[i]);
    return 0;
}
