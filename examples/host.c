/* host.c: what a plug-in does. Two passes over a small last are fused, with the counter that an operator watches, the
 * surface is meshed, and counts, area and box are printed; then the mesh that closes, its triangles turned outwards:
 * counts, area, sides and volume, the same as an STL file and read back; and two refusals. All lists are the host's
 * own. Lengths are millimetres, which lathes and slicers read. */
#include "akfelzun.h"

#include <stdio.h>
#include <string.h>

enum { TABLE = 4096, EDGES = 16384, GROUPS = 32768, TRIANGLES = 262144, FACETS = 2048, CORNERS = 3 * FACETS };

/* millimetres a cell; the truncation is 2 cells, so that the surface closes (docs/LINKING.md) */
#define CELL 1.25f
/* truncation, maximum weight, voxel size, maximum distance */
#define SETTINGS 2.0f * CELL, 100.0f, CELL, 12.5f

static uint64_t keys[TABLE], batch_keys[TABLE], first[EDGES], second[EDGES];
static float distances[TABLE], weights[TABLE], batch_distances[TABLE], batch_confidences[TABLE];
static float px[EDGES], py[EDGES], pz[EDGES], nx[EDGES], ny[EDGES], nz[EDGES];
static uint32_t groups[GROUPS], t0[TRIANGLES], t1[TRIANGLES], t2[TRIANGLES];
static uint8_t file[84 + 50 * FACETS];
static float cx[CORNERS], cy[CORNERS], cz[CORNERS];

#define TABLE_IN keys, TABLE, distances, TABLE, weights, TABLE

struct ball {
    float x, y, z, radius;
};

/* how far a cell lies outside a ball */
static float outside_ball(int x, int y, int z, struct ball ball) {
    float dx = (float)x * CELL - ball.x, dy = (float)y * CELL - ball.y, dz = (float)z * CELL - ball.z, root;
    akf_root(dx * dx + dy * dy + dz * dz, &root);
    return root - ball.radius;
}

/* a last in little: a heel and a toe */
static float outside_last(int x, int y, int z) {
    static const struct ball heel_ball = {20.0f, 20.0f, 20.0f, 5.625f}, toe_ball = {27.5f, 20.0f, 18.75f, 4.375f};
    float heel = outside_ball(x, y, z, heel_ball), toe = outside_ball(x, y, z, toe_ball);
    return heel < toe ? heel : toe;
}

/* one pass of the scanner, whose readings are all off by the same length */
static size_t scan(float off) {
    size_t n = 0;
    for (int x = 8; x < 30; x++)
        for (int y = 8; y < 26; y++)
            for (int z = 8; z < 26; z++)
                if (n < TABLE && akf_index64_new(0, x, y, z, &batch_keys[n]) == AKF_DONE) {
                    batch_distances[n] = outside_last(x, y, z) + off;
                    batch_confidences[n++] = 0.5f;
                }
    return n;
}

/* triangle v / 3 runs along its side v % 3 from one vertex to the next: both numbers in one word */
static uint64_t run(size_t v) {
    const uint32_t *numbers[3] = {t0, t1, t2};
    return (uint64_t)numbers[v % 3][v / 3] << 32 | numbers[(v + 1) % 3][v / 3];
}

/* how many sides are run through once each way */
static size_t sides_each_way(size_t triangles) {
    size_t sides = 0;
    for (size_t v = 0; v < 3 * triangles; v++) {
        uint64_t there = run(v), back = there << 32 | there >> 32;
        size_t theres = 0, backs = 0;
        for (size_t w = 0; w < 3 * triangles; w++) {
            theres += run(w) == there;
            backs += run(w) == back;
        }
        sides += there < back && theres == 1 && backs == 1;
    }
    return sides;
}

/* what the triangles hold, above zero where they look outwards: the sum of the tetrahedra from the origin to each */
static double volume(size_t triangles) {
    double sum = 0.0;
    for (size_t i = 0; i < triangles; i++) {
        uint32_t a = t0[i], b = t1[i], c = t2[i];
        double x = (double)py[b] * pz[c] - (double)pz[b] * py[c], y = (double)pz[b] * px[c] - (double)px[b] * pz[c];
        double z = (double)px[b] * py[c] - (double)py[b] * px[c];
        sum += px[a] * x + py[a] * y + pz[a] * z;
    }
    return sum / 6.0;
}

/* how many of the corners that were read are those of the mesh, bit for bit */
static size_t same_corners(size_t triangles) {
    const uint32_t *numbers[3] = {t0, t1, t2};
    size_t same = 0;
    for (size_t v = 0; v < 3 * triangles; v++) {
        uint32_t number = numbers[v % 3][v / 3];
        same += !memcmp(&cx[v], &px[number], 4) && !memcmp(&cy[v], &py[number], 4) && !memcmp(&cz[v], &pz[number], 4);
    }
    return same;
}

int main(void) {
    size_t rows = 0, added, changed, far, at, edges, triangles, written, corners;
    for (int pass = 0; pass < 2; pass++) {
        size_t n = scan(pass == 0 ? 0.15625f : -0.15625f);
        uint32_t answer = akf_batch_update(SETTINGS, TABLE_IN, &rows, batch_keys, n, batch_distances, n,
                                           batch_confidences, n, &added, &changed, &far, &at);
        printf("pass %d: %zu readings, answer %u, new %zu, changed %zu, far %zu, rows %zu\n", pass + 1, n, answer, added,
               changed, far, rows);
    }

    uint32_t answer = akf_extract_mesh_from_tsdf(
        SETTINGS, TABLE_IN, rows, first, EDGES, second, EDGES, px, EDGES, py, EDGES, pz, EDGES, nx, EDGES, ny, EDGES,
        nz, EDGES, groups, GROUPS, t0, TRIANGLES, t1, TRIANGLES, t2, TRIANGLES, &edges, &triangles);
    printf("mesh: answer %u, vertices %zu, triangles %zu\n", answer, edges, triangles);

    float area, low[3], high[3];
    answer = akf_surface_area(px, EDGES, py, EDGES, pz, EDGES, edges, t0, TRIANGLES, t1, TRIANGLES, t2, TRIANGLES,
                              triangles, &area);
    printf("area: answer %u, %.3f\n", answer, area);
    answer = akf_bounding_box(px, EDGES, py, EDGES, pz, EDGES, edges, &low[0], &low[1], &low[2], &high[0], &high[1],
                              &high[2]);
    printf("box: answer %u, (%.3f, %.3f, %.3f) to (%.3f, %.3f, %.3f)\n", answer, low[0], low[1], low[2], high[0],
           high[1], high[2]);

    /* the mesh that closes, turned outwards, in the same lists; it has no groups */
    answer = akf_extract_turned_mesh(SETTINGS, TABLE_IN, rows, first, EDGES, second, EDGES, px, EDGES, py, EDGES, pz,
                                     EDGES, nx, EDGES, ny, EDGES, nz, EDGES, t0, TRIANGLES, t1, TRIANGLES, t2,
                                     TRIANGLES, &edges, &triangles);
    printf("turned mesh: answer %u, vertices %zu, triangles %zu\n", answer, edges, triangles);
    answer = akf_surface_area(px, EDGES, py, EDGES, pz, EDGES, edges, t0, TRIANGLES, t1, TRIANGLES, t2, TRIANGLES,
                              triangles, &area);
    printf("its area: answer %u, %.3f\n", answer, area);
    size_t each_way = sides_each_way(triangles);
    printf("its sides: run through once each way %zu, other runs %zu\n", each_way, 3 * triangles - 2 * each_way);
    printf("its volume: %.3f\n", volume(triangles));

    /* as a file: 84 bytes and 50 for each triangle; read back, it has three vertices for each */
    answer = akf_export_mesh_stl(px, EDGES, py, EDGES, pz, EDGES, edges, t0, TRIANGLES, t1, TRIANGLES, t2, TRIANGLES,
                                 triangles, file, sizeof file, &written);
    printf("as STL: answer %u, %zu bytes\n", answer, written);
    answer = akf_import_mesh_stl(file, written, cx, CORNERS, cy, CORNERS, cz, CORNERS, &corners);
    printf("read back: answer %u, vertices %zu, the mesh's own %zu\n", answer, corners, same_corners(triangles));
    answer = akf_import_mesh_stl(file, written - 1, cx, CORNERS, cy, CORNERS, cz, CORNERS, &corners);
    printf("cut short by a byte: refused with %u, vertices %zu\n", answer, corners);

    /* coordinates of mixed parity make no key: refusal 4, and the key handed back is 0 */
    uint64_t key = 1;
    answer = akf_index64_new(0, 16, 16, 17, &key);
    printf("key of (16, 16, 17): refused with %u, key %llu\n", answer, (unsigned long long)key);
    return 0;
}
