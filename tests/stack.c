/* What a call takes of the stack: a batch of 5,000 readings, an edge list, a closed mesh, that mesh turned and a march
   of them, the mesh written as STL and read back, each in a thread of its own whose stack is painted beforehand. Exits
   1 where one takes more than 192 KB. docs/LINKING.md says so to a host that lends a small stack. */
#define _XOPEN_SOURCE 700
#include "akfelzun.h"
#include <pthread.h>
#include <stdio.h>
#include <stdlib.h>
#include <string.h>

enum { ROWS = 65536, READINGS = 5000, EDGES = 7 * READINGS, TRIANGLES = 12 * READINGS, CORNERS = 3 * TRIANGLES };
enum { WAITING = 100000, MARCHED = 200000, STACK = 1 << 20, MOST = 192 * 1024 };
#define SETTINGS 1.0f, 100.0f, 0.02f, 0.1f
static uint64_t keys[ROWS], batch[READINGS], first[WAITING], second[WAITING], marched[MARCHED], cells[WAITING];
static float distances[ROWS], weights[ROWS], read_distances[READINGS], confidences[READINGS], far_distances[MARCHED], estimates[WAITING];
static float px[EDGES], py[EDGES], pz[EDGES], nx[EDGES], ny[EDGES], nz[EDGES];
static uint32_t t0[TRIANGLES], t1[TRIANGLES], t2[TRIANGLES];
static float cx[CORNERS], cy[CORNERS], cz[CORNERS];
static uint8_t file[84 + 50 * TRIANGLES];
static size_t count, edges, triangles, written, corners;
static uint32_t answer;

static void *fuse(void *unused) {
    size_t added, changed, far, at;
    answer = akf_batch_update(SETTINGS, keys, ROWS, distances, ROWS, weights, ROWS, &count, batch, READINGS, read_distances, READINGS, confidences,
                              READINGS, &added, &changed, &far, &at);
    return unused;
}

static void *list(void *unused) {
    size_t listed;
    answer = akf_get_zero_crossing_edges(SETTINGS, keys, ROWS, distances, ROWS, weights, ROWS, count, first, WAITING, second, WAITING, &listed);
    return unused;
}

#define CLOSED_LISTS \
    first, EDGES, second, EDGES, px, EDGES, py, EDGES, pz, EDGES, nx, EDGES, ny, EDGES, nz, EDGES, t0, TRIANGLES, t1, \
        TRIANGLES, t2, TRIANGLES, &edges, &triangles

static void *close_up(void *unused) {
    answer = akf_extract_closed_mesh(SETTINGS, keys, ROWS, distances, ROWS, weights, ROWS, count, CLOSED_LISTS);
    return unused;
}

static void *turn(void *unused) {
    answer = akf_extract_turned_mesh(SETTINGS, keys, ROWS, distances, ROWS, weights, ROWS, count, CLOSED_LISTS);
    return unused;
}

static void *write_stl(void *unused) {
    answer = akf_export_mesh_stl(px, EDGES, py, EDGES, pz, EDGES, edges, t0, TRIANGLES, t1, TRIANGLES, t2, TRIANGLES, triangles, file, sizeof file,
                                 &written);
    return unused;
}

static void *read_stl(void *unused) {
    answer = akf_import_mesh_stl(file, written, cx, CORNERS, cy, CORNERS, cz, CORNERS, &corners);
    return unused;
}

static void *march(void *unused) {
    size_t rows, takings;
    answer = akf_compute_from_tsdf(SETTINGS, keys, ROWS, distances, ROWS, weights, ROWS, count, 1.0f, marched, MARCHED, far_distances, MARCHED,
                                   estimates, WAITING, cells, WAITING, &rows, &takings);
    return unused;
}

static int took_too_much(const char *name, void *(*call)(void *)) {
    unsigned char *stack = aligned_alloc(65536, STACK);
    pthread_attr_t attributes;
    pthread_t thread;
    size_t untouched = 0;
    memset(stack, 0xA5, STACK);
    pthread_attr_init(&attributes);
    if (pthread_attr_setstack(&attributes, stack, STACK) || pthread_create(&thread, &attributes, call, NULL)) {
        return 1;
    }
    pthread_join(thread, NULL);
    while (untouched < STACK && stack[untouched] == 0xA5) {
        untouched++;
    }
    free(stack);
    printf("stack: %s answered %u and took %zu bytes, the thread's own among them\n", name, answer, STACK - untouched);
    return answer != 0 || STACK - untouched > MOST;
}

int main(void) {
    for (uint32_t i = 0; i < READINGS; i++) {
        /* even and odd cells, side by side */
        uint32_t x = i * 40503u % READINGS, cell = x / 2, odd = x % 2;
        akf_index64_new(0x8000, 2 * (cell % 17) + odd, 2 * (cell / 17 % 17) + odd, 2 * (cell / 289) + odd, &batch[i]);
        read_distances[i] = x % 2 ? 0.01f : -0.01f;
        confidences[i] = 1.0f;
    }
    int wrong = took_too_much("a batch", fuse);
    wrong += took_too_much("an edge list", list);
    wrong += took_too_much("a closed mesh", close_up) + (triangles == 0);
    size_t closed = triangles;
    wrong += took_too_much("that mesh turned", turn) + (triangles != closed);
    wrong += took_too_much("writing it as STL", write_stl) + (written != 84 + 50 * triangles);
    wrong += took_too_much("reading that file", read_stl) + (corners != 3 * triangles);
    wrong += took_too_much("a march", march);
    return wrong != 0;
}
