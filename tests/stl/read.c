/* read FILE PLACES: what the C face reads of a file, in lists of so many places: the answer and the number of vertices,
 * the bits of each vertex; then whether the same triangles, written again, are the file that was read. Places past the
 * vertices must be zero, and of a file that is turned away all; exits 1 where one is not. */
#include "akfelzun.h"

#include <stdio.h>
#include <stdlib.h>
#include <string.h>

static void *lent(size_t bytes) {
    void *list = malloc(bytes + 1);
    if (!list) exit(2);
    memset(list, 0x41, bytes + 1);
    return list;
}

static uint8_t *whole(const char *path, size_t *bytes) {
    FILE *opened = fopen(path, "rb");
    if (!opened || fseek(opened, 0, SEEK_END)) {
        fprintf(stderr, "read: %s can't be read\n", path);
        exit(2);
    }
    *bytes = (size_t)ftell(opened);
    uint8_t *file = lent(*bytes);
    rewind(opened);
    if (fread(file, 1, *bytes, opened) != *bytes) exit(2);
    fclose(opened);
    return file;
}

static unsigned bits(float x) {
    uint32_t word;
    memcpy(&word, &x, sizeof word);
    return word;
}

/* the vertices in threes, as triangles, written */
static int again(const uint8_t *file, size_t bytes, float *const place[3], size_t places, size_t vertices) {
    size_t triangles = vertices / 3, written;
    uint32_t *number[3];
    for (int corner = 0; corner < 3; corner++) {
        number[corner] = lent(triangles * sizeof *number[corner]);
        for (size_t i = 0; i < triangles; i++) number[corner][i] = (uint32_t)(3 * i) + corner;
    }
    uint8_t *other = lent(bytes);
    uint32_t answer = akf_export_mesh_stl(place[0], places, place[1], places, place[2], places, vertices, number[0], triangles, number[1], triangles,
                                          number[2], triangles, triangles, other, bytes, &written);
    return answer == AKF_DONE && written == bytes && !memcmp(file, other, bytes);
}

int main(int words, char **word) {
    if (words != 3) {
        fprintf(stderr, "usage: read FILE PLACES\n");
        return 2;
    }
    size_t bytes, vertices = 77, places = strtoul(word[2], NULL, 10);
    uint8_t *file = whole(word[1], &bytes);
    float *place[3];
    for (int axis = 0; axis < 3; axis++) place[axis] = lent(places * sizeof *place[axis]);
    uint32_t answer = akf_import_mesh_stl(file, bytes, place[0], places, place[1], places, place[2], places, &vertices);
    printf("places %zu\nanswer %u vertices %zu\n", places, answer, vertices);
    for (size_t v = 0; v < places; v++)
        if (v < vertices) {
            printf("%08x %08x %08x\n", bits(place[0][v]), bits(place[1][v]), bits(place[2][v]));
        } else if (bits(place[0][v]) | bits(place[1][v]) | bits(place[2][v])) {
            printf("place %zu is not zero\n", v);
            return 1;
        }
    if (answer == AKF_DONE) printf("again %s\n", again(file, bytes, place, places, vertices) ? "same" : "other");
    return 0;
}
