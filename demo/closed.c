/* closed FILE.stl: a small last that closes. Its body is given by a formula (heel, waist, ball and toe from above, sole
 * and instep from the side); the cells near its surface are read in one pass and fused. The mesh that closes, each
 * triangle turned outwards, is written to the file as binary STL, and to standard output as text: `cells N`, then for
 * each vertex `v` with its place and `b` with the bits of its place, and `t` with a triangle's three vertex numbers,
 * from 0; demo/picture draws that. The body's lengths are millimetres, and so are the mesh's. Exits 1 where a call is
 * refused or the file can't be written. */
#include "akfelzun.h"

#include <stdio.h>
#include <string.h>

/* millimetres a cell; the table reaches 2.2 cells from the surface, since the corners of a tetrahedron lie at most 2
 * cells apart */
#define CELL 9.0f
#define TRUNCATION (2.2f * CELL)
/* truncation, maximum weight, voxel size, maximum distance: in millimetres too */
#define SETTINGS TRUNCATION, 100.0f, CELL, 100.0f

/* at most 7 edges and 12 triangles a row */
enum { ROWS = 4096, EDGES = 7 * ROWS, TRIANGLES = 12 * ROWS };

static uint64_t keys[ROWS], read_keys[ROWS], first[EDGES], second[EDGES];
static float distances[ROWS], weights[ROWS], readings[ROWS], confidences[ROWS];
static float px[EDGES], py[EDGES], pz[EDGES], nx[EDGES], ny[EDGES], nz[EDGES];
static uint32_t t0[TRIANGLES], t1[TRIANGLES], t2[TRIANGLES];
static uint8_t file[84 + 50 * TRIANGLES];

/* the least and the largest of two, blended where they differ by less than `over` */
static float blended_least(float a, float b, float over) {
    float apart = a < b ? b - a : a - b, left = apart < over ? over - apart : 0.0f;
    return (a < b ? a : b) - left * left / (4.0f * over);
}
static float blended_most(float a, float b, float over) { return -blended_least(-a, -b, over); }

static float within(float x, float low, float high) { return x < low ? low : x > high ? high : x; }

/* a disc in the plan of the last, and how far a place lies outside two discs and all between them */
struct disc {
    float x, y, radius;
};
static float outside_pair(float x, float y, struct disc a, struct disc b) {
    float dx = b.x - a.x, dy = b.y - a.y, root;
    float along = within(((x - a.x) * dx + (y - a.y) * dy) / (dx * dx + dy * dy), 0.0f, 1.0f);
    float ex = x - a.x - along * dx, ey = y - a.y - along * dy;
    akf_root(ex * ex + ey * ey, &root);
    return root - (a.radius + along * (b.radius - a.radius));
}

/* from above: heel, waist, ball and toe, which turns inwards */
static float outside_plan(float x, float y) {
    static const struct disc heel = {34.0f, 0.0f, 31.0f}, waist = {98.0f, 3.0f, 27.0f};
    static const struct disc ball = {178.0f, -1.0f, 42.0f}, toe = {232.0f, 9.0f, 25.0f};
    float back = blended_least(outside_pair(x, y, heel, waist), outside_pair(x, y, waist, ball), 12.0f);
    return blended_least(back, outside_pair(x, y, ball, toe), 20.0f);
}

/* a height by its values at every 20 mm from the heel on, straight between them */
static float height(const float *at, float x) {
    float place = within(x / 20.0f, 0.0f, 12.99f);
    int i = (int)place;
    return at[i] + (place - (float)i) * (at[i + 1] - at[i]);
}

/* from the side: the heel's seat, the arched waist, the ball on the floor, the toe's spring; the cone over the heel,
 * the instep, the toe */
static float sole(float x) {
    static const float at[14] = {19, 19, 19, 19, 18, 16, 12, 7, 3, 1, 1, 3, 7, 12};
    return height(at, x);
}
static float instep(float x) {
    static const float at[14] = {103, 106, 107, 105, 99, 89, 78, 68, 60, 54, 49, 45, 41, 36};
    return height(at, x);
}

/* how far a place lies outside the last, in millimetres: its walls lean inwards with the height, and the back of the
 * heel is round. Lengths across walls and instep, which are not upright, are cut a little, so that none is longer than
 * it is */
static float outside_last(float x, float y, float z) {
    float low = sole(x), high = instep(x), lean = within(z - low, 0.0f, 100.0f);
    float bulge = 0.0022f * (z - 48.0f) * (z - 48.0f) * within(1.0f - x / 90.0f, 0.0f, 1.0f);
    float wall = 0.9f * (outside_plan(x - bulge, y) + 0.0017f * lean * lean);
    float over = 0.88f * (z - high), under = low - z;
    return blended_most(blended_most(wall, over, 20.0f), under, 8.0f);
}

/* every cell of the lattice near the surface, with what is read there */
static size_t scan(void) {
    size_t n = 0;
    for (int x = 0; x < 48; x++)
        for (int y = 0; y < 32; y++)
            for (int z = 0; z < 32; z++) {
                float distance = outside_last((float)(x - 6) * CELL, (float)(y - 14) * CELL, (float)(z - 6) * CELL);
                if (distance <= TRUNCATION && distance >= -TRUNCATION && n < ROWS &&
                    akf_index64_new(0, (uint16_t)x, (uint16_t)y, (uint16_t)z, &read_keys[n]) == AKF_DONE) {
                    readings[n] = distance;
                    confidences[n++] = 1.0f;
                }
            }
    return n;
}

static unsigned bits(float x) {
    uint32_t word;
    memcpy(&word, &x, sizeof word);
    return word;
}

static int put_away(const char *path, size_t bytes) {
    FILE *opened = fopen(path, "wb");
    int whole = opened && fwrite(file, 1, bytes, opened) == bytes;
    return opened && fclose(opened) == 0 && whole;
}

int main(int words, char **word) {
    size_t rows = 0, added, changed, far, at, vertices, triangles, bytes, n = scan();
    if (words != 2) {
        fprintf(stderr, "usage: closed FILE.stl\n");
        return 2;
    }
    uint32_t answer = akf_batch_update(SETTINGS, keys, ROWS, distances, ROWS, weights, ROWS, &rows, read_keys, n,
                                       readings, n, confidences, n, &added, &changed, &far, &at);
    if (answer == AKF_DONE)
        answer = akf_extract_turned_mesh(SETTINGS, keys, ROWS, distances, ROWS, weights, ROWS, rows, first, EDGES,
                                         second, EDGES, px, EDGES, py, EDGES, pz, EDGES, nx, EDGES, ny, EDGES, nz,
                                         EDGES, t0, TRIANGLES, t1, TRIANGLES, t2, TRIANGLES, &vertices, &triangles);
    if (answer == AKF_DONE)
        answer = akf_export_mesh_stl(px, EDGES, py, EDGES, pz, EDGES, vertices, t0, TRIANGLES, t1, TRIANGLES, t2,
                                     TRIANGLES, triangles, file, sizeof file, &bytes);
    if (answer != AKF_DONE) {
        fprintf(stderr, "closed: refused with %u\n", answer);
        return 1;
    }
    if (!put_away(word[1], bytes)) {
        fprintf(stderr, "closed: %s can't be written\n", word[1]);
        return 1;
    }
    printf("cells %zu\n", rows);
    for (size_t i = 0; i < vertices; i++) {
        printf("v %.3f %.3f %.3f\n", px[i], py[i], pz[i]);
        printf("b %08x %08x %08x\n", bits(px[i]), bits(py[i]), bits(pz[i]));
    }
    for (size_t i = 0; i < triangles; i++) printf("t %u %u %u\n", t0[i], t1[i], t2[i]);
    return 0;
}
