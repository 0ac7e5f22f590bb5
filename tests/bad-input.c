/* bad-input.c: what a host can get wrong, each with a clear answer, by every call that it concerns: null pointers with
 * length 0, lengths that differ, counts past lengths, lists longer than the limits, NaNs and infinities everywhere,
 * files of every length and with any count.
 *
 * All that calls are lent stands in one place. Each case makes it good, where every call answers AKF_DONE, a fuse AKF_CHANGED, spoils one
 * thing, and asks the calls that take it: the answer's number is as said, numbers handed back are 0, and lists that are written are zero
 * throughout. */
#include "akfelzun.h"

#include <math.h>
#include <stdio.h>
#include <stdlib.h>
#include <string.h>

/* a file of one triangle has 134 bytes */
enum { TABLE_LIMIT = 65536, LIST_LIMIT = 1048576, ROOM = 128, ROWS = 3, BARE = 84, ONE = 134 };

static int asked, wrong;

static void expect(int holds, const char *what, const char *call, const char *spoilt) {
    asked++;
    if (!holds) {
        wrong++;
        printf("bad-input: %s: %s: %s\n", call, spoilt, what);
    }
}

/* ---- what is lent */

enum {
    KEYS, DISTANCES, WEIGHTS,
    BATCH_KEYS, BATCH_DISTANCES, BATCH_CONFIDENCES,
    MARCHED_KEYS, MARCHED_DISTANCES,
    OUT,
    FIRST, SECOND,
    OUT_KEYS, OUT_DISTANCES,
    ROW_KEYS, ROW_DISTANCES,
    WAITING_ESTIMATES, WAITING_KEYS,
    PX, PY, PZ, NX, NY, NZ,
    GROUPS,
    T0, T1, T2,
    FILE_OUT, FILE_IN,
    LISTS
};

/* lists that are lent together, and have one length */
enum {
    TABLE, BATCH, MARCHED, SINGLE, EDGES, WITHIN, MARCH, WAITING, VERTICES, NORMALS, GROUP, TRIANGLES, WRITTEN, READ,
    SETS
};
static const struct {
    const char *name;
    int from, to;
    size_t limit;
} set[SETS] = {
    {"the table", KEYS, WEIGHTS, TABLE_LIMIT},
    {"the batch", BATCH_KEYS, BATCH_CONFIDENCES, TABLE_LIMIT},
    {"the marched table", MARCHED_KEYS, MARCHED_DISTANCES, LIST_LIMIT},
    {"the list", OUT, OUT, LIST_LIMIT},
    {"the edges", FIRST, SECOND, LIST_LIMIT},
    {"the cells within", OUT_KEYS, OUT_DISTANCES, LIST_LIMIT},
    {"the march's rows", ROW_KEYS, ROW_DISTANCES, LIST_LIMIT},
    {"the waiting cells", WAITING_ESTIMATES, WAITING_KEYS, LIST_LIMIT},
    {"the vertices", PX, PZ, LIST_LIMIT},
    {"the normals", NX, NZ, LIST_LIMIT},
    {"the groups", GROUPS, GROUPS, LIST_LIMIT},
    {"the triangles", T0, T2, LIST_LIMIT},
    {"the file that is written", FILE_OUT, FILE_OUT, AKF_FILE_MAX},
    {"the file that is read", FILE_IN, FILE_IN, AKF_FILE_MAX},
};
#define IN(s) (1u << (s))

/* how many bytes an element of a list has */
static size_t unit(int l) {
    int wide = l == KEYS || l == BATCH_KEYS || l == MARCHED_KEYS || l == OUT || l == FIRST || l == SECOND || l == OUT_KEYS ||
               l == ROW_KEYS || l == WAITING_KEYS;
    return wide ? 8 : l == FILE_OUT || l == FILE_IN ? 1 : 4;
}

static void *list[LISTS];
static size_t len[LISTS], count, marched, edges, vertices, triangles;
static float settings[4], reading, confidence, depth, sensor[3], threshold, position[3], size;
static uint64_t cell[ROWS];

/* what is handed back */
static size_t n[4];
static float f[6];
static uint32_t yes;
static int32_t snapped[3];

static float *floats(int l) { return list[l]; }

static void lend(int l, size_t places) {
    free(list[l]);
    list[l] = malloc(places * unit(l) + 1);
    if (!list[l]) abort();
    memset(list[l], 0x41, places * unit(l));
    len[l] = places;
}

static void fill_floats(int l, float a, float b, float c) {
    float *x = list[l];
    x[0] = a, x[1] = b, x[2] = c;
}

static void fill_keys(int l) { memcpy(list[l], cell, sizeof cell); }

static uint32_t bits(float x) {
    uint32_t word;
    memcpy(&word, &x, 4);
    return word;
}

/* a little-endian word of a file */
static void put(uint8_t *file, size_t at, uint32_t word) {
    for (int k = 0; k < 4; k++) file[at + k] = (uint8_t)(word >> 8 * k);
}
static uint32_t get(const uint8_t *file, size_t at) {
    return file[at] | (uint32_t)file[at + 1] << 8 | (uint32_t)file[at + 2] << 16 | (uint32_t)file[at + 3] << 24;
}

/* the file that is read, of so many bytes, the first triangle whole or in part; header, normal, attribute not zero */
static const float part[9] = {1.0f, 1.0f, 1.0f, 2.0f, 2.0f, 2.0f, 4.0f, 3.0f, 3.0f};
static void fill_file(size_t bytes, uint32_t count_in_it) {
    uint8_t all[ONE];
    memset(all, 0xc1, ONE);
    put(all, 80, count_in_it);
    for (int i = 0; i < 9; i++) put(all, 96 + 4 * i, bits(part[i]));
    lend(FILE_IN, bytes);
    memcpy(list[FILE_IN], all, bytes < ONE ? bytes : ONE);
}

static void good(void) {
    static const float usual[4] = {1.0f, 100.0f, 1.0f, 2.0f};
    memcpy(settings, usual, sizeof usual);
    for (int i = 0; i < ROWS; i++) akf_index64_new(0, 10 + i, 10 + i, 10 + i, &cell[i]);
    for (int l = 0; l < LISTS; l++) lend(l, l == FILE_OUT ? ONE : ROOM);
    fill_file(ONE, 1);
    fill_keys(KEYS), fill_keys(BATCH_KEYS), fill_keys(MARCHED_KEYS);
    fill_floats(DISTANCES, 0.5f, -0.5f, 0.5f), fill_floats(WEIGHTS, 1.0f, 1.0f, 1.0f);
    for (int i = 0; i < ROOM; i++) { /* a batch is as long as its lists */
        ((uint64_t *)list[BATCH_KEYS])[i] = cell[i % ROWS];
        floats(BATCH_DISTANCES)[i] = 0.25f, floats(BATCH_CONFIDENCES)[i] = 0.5f;
    }
    fill_floats(MARCHED_DISTANCES, 0.5f, 1.0f, 1.5f);
    memcpy(list[FIRST], cell, 16), memcpy(list[SECOND], cell + 1, 16);
    static const uint32_t groups[4] = {0, 0, 1, 1}, corner[3] = {0, 1, 2};
    memcpy(list[GROUPS], groups, sizeof groups);
    for (int i = 0; i < 3; i++) {
        memcpy(list[T0 + i], &corner[i], 4);
        fill_floats(PX + i, 1.0f, 2.0f, i == 0 ? 4.0f : 3.0f), fill_floats(NX + i, 0.0f, 0.0f, 1.0f);
    }
    count = marched = vertices = ROWS, edges = 2, triangles = 1;
    reading = 0.25f, confidence = 0.5f, depth = 1.0f, threshold = 1.0f, size = 1.0f;
    for (int i = 0; i < 3; i++) sensor[i] = 11.0f, position[i] = 3.0f;
}

/* ---- the calls */

static int zeros(const void *at, size_t bytes) {
    const unsigned char *b = at;
    for (size_t i = 0; i < bytes; i++)
        if (b[i]) return 0;
    return 1;
}

/* an answer; 99 in its place where it is no AKF_DONE and one of the numbers handed back (so many counts, lengths, yes or no) is not 0 */
static uint32_t back(uint32_t answer, int counts, int lengths, int yesno) {
    if (answer == AKF_DONE) return answer;
    return zeros(n, counts * sizeof *n) && zeros(f, lengths * sizeof *f) && (!yesno || !yes) ? answer : 99;
}

#define U64(l) (uint64_t *)list[l], len[l]
#define F32(l) (float *)list[l], len[l]
#define U32(l) (uint32_t *)list[l], len[l]
#define U8(l) (uint8_t *)list[l], len[l]
#define THE_SETTINGS settings[0], settings[1], settings[2], settings[3]
#define THE_TABLE U64(KEYS), F32(DISTANCES), F32(WEIGHTS)
#define THE_MARCHED U64(MARCHED_KEYS), F32(MARCHED_DISTANCES), marched

static uint32_t neighbors(void) { return back(akf_neighbors_index64(cell[1], U64(OUT), n), 1, 0, 0); }
static uint32_t fuse(void) { return akf_update_from_depth(THE_SETTINGS, THE_TABLE, &count, cell[1], reading, confidence); }
static uint32_t fuse_ray(void) {
    return akf_update_from_depth_ray(THE_SETTINGS, THE_TABLE, &count, cell[1], sensor[0], sensor[1], sensor[2], depth, confidence);
}
/* an answer; 99 in its place where what was added, changed and far is not all that was taken: every reading, those before the refused one, none
   where 1, 2 or 3 refuses */
static uint32_t batch(void) {
    uint32_t answer = akf_batch_update(THE_SETTINGS, THE_TABLE, &count, U64(BATCH_KEYS), F32(BATCH_DISTANCES), F32(BATCH_CONFIDENCES), n,
                                       n + 1, n + 2, n + 3);
    size_t taken = answer == AKF_DONE ? len[BATCH_KEYS] : n[3];
    return n[0] + n[1] + n[2] == taken && (answer > 3 || n[3] == 0) ? answer : 99;
}
static uint32_t tsdf_distance(void) { return back(akf_tsdf_get_distance(THE_SETTINGS, THE_TABLE, count, cell[1], f), 0, 1, 0); }
static uint32_t tsdf_weight(void) { return back(akf_tsdf_get_weight(THE_SETTINGS, THE_TABLE, count, cell[1], f), 0, 1, 0); }
static uint32_t surface(void) { return back(akf_is_surface_voxel(THE_SETTINGS, THE_TABLE, count, cell[1], threshold, &yes), 0, 0, 1); }
static uint32_t tsdf_stats(void) { return back(akf_tsdf_stats(THE_SETTINGS, THE_TABLE, count, n, n + 1, f, f + 1, f + 2), 2, 3, 0); }
static uint32_t surface_list(void) { return back(akf_get_surface_voxels(THE_SETTINGS, THE_TABLE, count, threshold, U64(OUT), n), 1, 0, 0); }
static uint32_t edge_list(void) { return back(akf_get_zero_crossing_edges(THE_SETTINGS, THE_TABLE, count, U64(FIRST), U64(SECOND), n), 1, 0, 0); }
static uint32_t march(void) {
    return back(akf_compute_from_tsdf(THE_SETTINGS, THE_TABLE, count, threshold, U64(ROW_KEYS), F32(ROW_DISTANCES),
                                      F32(WAITING_ESTIMATES), U64(WAITING_KEYS), n, n + 1), 2, 0, 0);
}
static uint32_t esdf_distance(void) { return back(akf_esdf_get_distance(THE_MARCHED, cell[1], f), 0, 1, 0); }
static uint32_t is_free(void) { return back(akf_is_free_space(THE_MARCHED, cell[1], threshold, &yes), 0, 0, 1); }
static uint32_t gradient(void) { return back(akf_get_gradient(THE_MARCHED, cell[1], f, f + 1, f + 2), 0, 3, 0); }
static uint32_t within(void) {
    return back(akf_get_voxels_within_distance(THE_MARCHED, threshold, U64(OUT_KEYS), F32(OUT_DISTANCES), n), 1, 0, 0);
}
static uint32_t esdf_stats(void) { return back(akf_esdf_stats(THE_MARCHED, n, n + 1, n + 2, f, f + 1), 3, 2, 0); }
static uint32_t mesh(void) {
    return back(akf_extract_mesh_from_tsdf(THE_SETTINGS, THE_TABLE, count, U64(FIRST), U64(SECOND), F32(PX), F32(PY), F32(PZ), F32(NX),
                                           F32(NY), F32(NZ), U32(GROUPS), U32(T0), U32(T1), U32(T2), n, n + 1), 2, 0, 0);
}
#define THE_CLOSED_LISTS \
    U64(FIRST), U64(SECOND), F32(PX), F32(PY), F32(PZ), F32(NX), F32(NY), F32(NZ), U32(T0), U32(T1), U32(T2), n, n + 1
static uint32_t closed_mesh(void) {
    return back(akf_extract_closed_mesh(THE_SETTINGS, THE_TABLE, count, THE_CLOSED_LISTS), 2, 0, 0);
}
static uint32_t turned_mesh(void) {
    return back(akf_extract_turned_mesh(THE_SETTINGS, THE_TABLE, count, THE_CLOSED_LISTS), 2, 0, 0);
}
/* has no answer: 0 where it hands back a part of the groups, 2 where it hands back none */
static uint32_t cell_edges(void) {
    akf_cell_edges(U32(GROUPS), U64(FIRST), U64(SECOND), edges, cell[1], n, n + 1);
    return n[0] == 1 && n[1] == 2 ? AKF_DONE : n[0] == 0 && n[1] == 0 ? 2 : 99;
}
static uint32_t area(void) {
    return back(akf_surface_area(F32(PX), F32(PY), F32(PZ), vertices, U32(T0), U32(T1), U32(T2), triangles, f), 0, 1, 0);
}
static uint32_t box(void) { return back(akf_bounding_box(F32(PX), F32(PY), F32(PZ), vertices, f, f + 1, f + 2, f + 3, f + 4, f + 5), 0, 6, 0); }
static uint32_t mesh_stats(void) { return back(akf_mesh_stats(F32(NX), F32(NY), F32(NZ), vertices, &yes), 0, 0, 1); }
static uint32_t stl_write(void) {
    return back(akf_export_mesh_stl(F32(PX), F32(PY), F32(PZ), vertices, U32(T0), U32(T1), U32(T2), triangles, U8(FILE_OUT), n), 1, 0, 0);
}
static uint32_t stl_read(void) { return back(akf_import_mesh_stl(U8(FILE_IN), F32(PX), F32(PY), F32(PZ), n), 1, 0, 0); }
static uint32_t snap(void) {
    uint32_t answer = akf_physical_to_bcc_voxel(position[0], position[1], position[2], size, snapped, snapped + 1, snapped + 2);
    return answer == AKF_DONE || zeros(snapped, sizeof snapped) ? answer : 99;
}

#define FUSED IN(TABLE) | SETTINGS
#define CLOSED_LISTS IN(EDGES) | IN(VERTICES) | IN(NORMALS) | IN(TRIANGLES)
enum { SETTINGS = 1 << SETS, THRESHOLD = 2 << SETS };
static const struct {
    const char *name;
    uint32_t (*run)(void);
    unsigned takes, writes;
} call[] = {
    {"neighbors_index64", neighbors, IN(SINGLE), IN(SINGLE)},
    {"update_from_depth", fuse, FUSED, 0},
    {"update_from_depth_ray", fuse_ray, FUSED, 0},
    {"batch_update", batch, FUSED | IN(BATCH), 0},
    {"tsdf_get_distance", tsdf_distance, FUSED, 0},
    {"tsdf_get_weight", tsdf_weight, FUSED, 0},
    {"is_surface_voxel", surface, FUSED | THRESHOLD, 0},
    {"tsdf_stats", tsdf_stats, FUSED, 0},
    {"get_surface_voxels", surface_list, FUSED | THRESHOLD | IN(SINGLE), IN(SINGLE)},
    {"get_zero_crossing_edges", edge_list, FUSED | IN(EDGES), IN(EDGES)},
    {"compute_from_tsdf", march, FUSED | THRESHOLD | IN(MARCH) | IN(WAITING), IN(MARCH) | IN(WAITING)},
    {"esdf_get_distance", esdf_distance, IN(MARCHED), 0},
    {"is_free_space", is_free, IN(MARCHED) | THRESHOLD, 0},
    {"get_gradient", gradient, IN(MARCHED), 0},
    {"get_voxels_within_distance", within, IN(MARCHED) | THRESHOLD | IN(WITHIN), IN(WITHIN)},
    {"esdf_stats", esdf_stats, IN(MARCHED), 0},
    {"extract_mesh_from_tsdf", mesh, FUSED | IN(EDGES) | IN(VERTICES) | IN(NORMALS) | IN(GROUP) | IN(TRIANGLES),
     IN(EDGES) | IN(VERTICES) | IN(NORMALS) | IN(GROUP) | IN(TRIANGLES)},
    {"extract_closed_mesh", closed_mesh, FUSED | CLOSED_LISTS, CLOSED_LISTS},
    {"extract_turned_mesh", turned_mesh, FUSED | CLOSED_LISTS, CLOSED_LISTS},
    {"cell_edges", cell_edges, IN(EDGES) | IN(GROUP), 0},
    {"surface_area", area, IN(VERTICES) | IN(TRIANGLES), 0},
    {"bounding_box", box, IN(VERTICES), 0},
    {"mesh_stats", mesh_stats, IN(NORMALS), 0},
    {"export_mesh_stl", stl_write, IN(VERTICES) | IN(TRIANGLES) | IN(WRITTEN), IN(WRITTEN)},
    {"import_mesh_stl", stl_read, IN(READ) | IN(VERTICES), IN(VERTICES)},
};
enum { CALLS = sizeof call / sizeof *call, EXPORT = CALLS - 2, IMPORT = CALLS - 1 };

/* a copy of the table, since no refusal may touch it */
static void *table_then[3];
static size_t count_then;
static void remember(void) {
    for (int l = KEYS; l <= WEIGHTS; l++) {
        free(table_then[l]);
        table_then[l] = malloc(len[l] * unit(l) + 1);
        if (!table_then[l]) abort();
        memcpy(table_then[l], list[l], len[l] * unit(l));
    }
    count_then = count;
}
static int table_as_then(void) {
    for (int l = KEYS; l <= WEIGHTS; l++)
        if (memcmp(table_then[l], list[l], len[l] * unit(l))) return 0;
    return count == count_then;
}

/* numbers that are to be handed back */
static void spoil_numbers(void) {
    for (int k = 0; k < 4; k++) n[k] = 77;
    for (int k = 0; k < 6; k++) f[k] = 77.0f;
    yes = 77;
}

/* a call's answer where nothing is spoilt */
static uint32_t unspoilt(int i) { return call[i].run == fuse || call[i].run == fuse_ray ? AKF_CHANGED : AKF_DONE; }

/* the call's answer to what is lent now; numbers handed back are spoilt before */
static void ask(int i, uint32_t answer, const char *spoilt) {
    spoil_numbers();
    remember();
    expect(call[i].run() == answer, "the answer is another, or a number handed back is not 0", call[i].name, spoilt);
    if (answer == unspoilt(i)) return;
    expect(table_as_then(), "the table is touched", call[i].name, spoilt);
    for (int s = 0; s < SETS; s++)
        if (call[i].writes & IN(s))
            for (int l = set[s].from; l <= set[s].to; l++)
                expect(zeros(list[l], len[l] * unit(l)), "a list is not zero throughout", call[i].name, spoilt);
}

static void all_good(void) {
    for (int i = 0; i < CALLS; i++) good(), ask(i, unspoilt(i), "nothing is spoilt");
}

/* what a reading did: a cell that is not stored is new, then changed, and a reading beyond the truncation is far */
static void readings(void) {
    uint32_t (*const run[2])(void) = {fuse, fuse_ray};
    for (int r = 0; r < 2; r++) {
        good(), count = 1;
        expect(run[r]() == AKF_NEW && count == 2, "not new, or no row more", "update_from_depth", "a cell that is not stored");
        expect(run[r]() == AKF_CHANGED && count == 2, "not changed, or a row more", "update_from_depth", "a stored cell");
        reading = 2.0f, depth = 9.0f, remember();
        expect(run[r]() == AKF_FAR && table_as_then(), "not far, or the table is touched", "update_from_depth", "a far reading");
    }
}

/* a batch's readings of three cells that are not stored, the last far; then no place for the third cell */
static void counters(void) {
    good(), count = 0, floats(BATCH_DISTANCES)[ROOM - 1] = 2.0f, spoil_numbers();
    expect(batch() == AKF_DONE && n[0] == ROWS && n[1] == ROOM - ROWS - 1 && n[2] == 1 && count == ROWS, "counted otherwise", "batch_update",
           "three new cells");
    good(), count = 0, floats(BATCH_DISTANCES)[2] = 2.0f, spoil_numbers();
    for (int l = KEYS; l <= WEIGHTS; l++) len[l] = 2;
    expect(batch() == 6 && n[0] == 2 && n[1] == 2 && n[2] == 1 && n[3] == 5 && count == 2, "counted otherwise", "batch_update",
           "no place for a third cell");
}

/* each list in turn one place shorter than those that it is lent with: 2 */
static void lengths(void) {
    for (int i = 0; i < CALLS; i++)
        for (int s = 0; s < SETS; s++)
            if (call[i].takes & IN(s) && set[s].from < set[s].to)
                for (int l = set[s].from; l <= set[s].to; l++) good(), len[l]--, ask(i, 2, set[s].name);
}

/* each count in turn one more than there are places: 2 */
static void counts(void) {
    static const struct {
        size_t *count;
        int set;
    } counted[] = {{&count, TABLE}, {&marched, MARCHED}, {&vertices, VERTICES}, {&vertices, NORMALS}, {&triangles, TRIANGLES}, {&edges, EDGES}};
    for (int i = 0; i < CALLS; i++)
        for (int c = 0; c < 6; c++)
            if (call[i].takes & IN(counted[c].set) && !(call[i].writes & IN(counted[c].set))) {
                good(), *counted[c].count = ROOM + 1, ask(i, 2, set[counted[c].set].name);
                good(), *counted[c].count = SIZE_MAX, ask(i, 2, set[counted[c].set].name);
            }
}

static void lengthen(int s, size_t places) {
    /* a mesh's vertices and normals have one length */
    int from = s == NORMALS ? PX : set[s].from, to = s == VERTICES ? NZ : set[s].to;
    for (int l = from; l <= to; l++) {
        list[l] = realloc(list[l], places * unit(l));
        if (!list[l]) abort();
        len[l] = places;
    }
}

/* lists one place longer than the limit: 2. As long as the limit they are taken (of a batch every place is a reading,
 * and of a file that is read every byte is its own, so that these are not tried here) */
static void limits(void) {
    for (int i = 0; i < CALLS; i++)
        for (int s = 0; s < SETS; s++)
            if (call[i].takes & IN(s)) {
                good(), lengthen(s, set[s].limit + 1), ask(i, 2, set[s].name);
                if (s != BATCH && s != READ) good(), lengthen(s, set[s].limit), ask(i, unspoilt(i), set[s].name);
            }
    good();
}

/* each float in turn no number, or not finite */
static void nans(void) {
    const float bad[3] = {NAN, INFINITY, -INFINITY};
    for (int b = 0; b < 3; b++) {
        float x = bad[b];
        for (int i = 0; i < CALLS; i++) {
            for (int s = 0; s < 4; s++)
                if (call[i].takes & SETTINGS) good(), settings[s] = x, ask(i, 1, "a setting");
            if (call[i].takes & IN(TABLE)) good(), floats(DISTANCES)[1] = x, ask(i, 3, "a distance"), good(), floats(WEIGHTS)[2] = x, ask(i, 3, "a weight");
            if (call[i].takes & IN(MARCHED)) good(), floats(MARCHED_DISTANCES)[2] = x, ask(i, 3, "a marched distance");
            if (call[i].takes & THRESHOLD) good(), threshold = x, ask(i, 5, "the threshold");
            for (int l = PX; l <= PZ; l++)
                if (call[i].run == area || call[i].run == box || i == EXPORT) good(), floats(l)[1] = x, ask(i, 10, "a position");
            for (int l = NX; l <= NZ; l++)
                if (call[i].run == mesh_stats) good(), floats(l)[1] = x, ask(i, AKF_DONE, "a normal"), expect(yes == 1, "no normal is seen", "mesh_stats", "a normal");
            if (call[i].run == fuse) good(), reading = x, ask(i, 5, "the reading");
            if (call[i].run == fuse_ray) {
                good(), depth = x, ask(i, 5, "the depth");
                for (int s = 0; s < 3; s++) good(), sensor[s] = x, ask(i, 5, "the sensor's place");
            }
            if (call[i].run == fuse || call[i].run == fuse_ray) good(), confidence = x, ask(i, 5, "the confidence");
        }
        /* a refused batch names the reading; the one before it stands */
        for (int l = BATCH_DISTANCES; l <= BATCH_CONFIDENCES; l++) {
            good(), floats(l)[1] = x, spoil_numbers();
            expect(batch() == 5 && n[3] == 1 && n[1] == 1 && count == ROWS && floats(DISTANCES)[0] < 0.5f && floats(DISTANCES)[1] == -0.5f,
                   "not refused at reading 1", "batch_update", "a reading");
        }
        for (int p = 0; p < 3; p++) {
            good(), position[p] = x, snapped[0] = snapped[1] = snapped[2] = 77;
            expect(snap() == 5, "the answer is another", "physical_to_bcc_voxel", "a position");
        }
        good(), size = x;
        expect(snap() == 1, "the answer is another", "physical_to_bcc_voxel", "the voxel size");
    }
    f[0] = 77.0f;
    expect(akf_root(NAN, f) == 5 && f[0] == 0.0f, "not refused", "root", "a NaN");
    f[0] = 77.0f;
    expect(akf_root(-INFINITY, f) == 5 && f[0] == 0.0f, "not refused", "root", "-inf");
    expect(akf_root(INFINITY, f) == AKF_DONE && f[0] == INFINITY, "refused", "root", "+inf is taken");
}

/* one tetrahedron, two corners inside, in the table */
static void one_tetrahedron(void) {
    static const uint16_t corner[4][3] = {{11, 11, 9}, {10, 10, 10}, {11, 11, 11}, {12, 10, 10}}; /* ascending by key */
    good(), count = 4;
    for (int i = 0; i < 4; i++) {
        akf_index64_new(0, corner[i][0], corner[i][1], corner[i][2], (uint64_t *)list[KEYS] + i);
        floats(DISTANCES)[i] = i < 2 ? -0.5f : 0.5f, floats(WEIGHTS)[i] = 1.0f;
    }
}

/* it has 4 edges and vertices and 2 triangles, turned or not: fewer places for one of the three refuse with 6 */
static void closed_rooms(int c) {
    static const int sets[3][2] = {{FIRST, SECOND}, {PX, NZ}, {T0, T2}}, needed[3] = {4, 4, 2};
    for (int s = 0; s < 3; s++)
        for (int places = 0; places <= needed[s]; places++) {
            int full = places == needed[s];
            one_tetrahedron();
            for (int l = sets[s][0]; l <= sets[s][1]; l++) lend(l, (size_t)places);
            ask(c, full ? AKF_DONE : 6, "room");
            expect(n[0] == (full ? 4 : 0) && n[1] == (full ? 2 : 0), "a count is another", call[c].name, "room");
        }
}

/* its triangles, by each of the two calls: turned, the last two vertices of both are exchanged */
static void closed_triangles(int c) {
    static const uint32_t closed[2][3] = {{1, 0, 3}, {1, 3, 2}}, turned[2][3] = {{1, 3, 0}, {1, 2, 3}};
    const uint32_t (*meant)[3] = call[c].run == turned_mesh ? turned : closed;
    one_tetrahedron(), ask(c, AKF_DONE, "one tetrahedron");
    for (int i = 0; i < 2; i++)
        for (int l = T0; l <= T2; l++) {
            const uint32_t *said = list[l];
            expect(said[i] == meant[i][l - T0], "a triangle is another", call[c].name, "one tetrahedron");
        }
}

static void closed_meshes(void) {
    for (int i = 0; i < CALLS; i++)
        if (call[i].run == closed_mesh || call[i].run == turned_mesh) closed_rooms(i), closed_triangles(i);
    good();
}

/* ---- files of document 02's No. 1 */

/* floats outside the range of vertices, and odd ones within it */
static const float outside[] = {NAN, -NAN, INFINITY, -INFINITY, 100000008.0f, -100000008.0f, 3.0e38f};
static const float inside[] = {100000000.0f, -100000000.0f, 0.0f, -0.0f, 1.0e-45f, -1.0e-45f, 1.0e-39f};
enum { OUTSIDE = sizeof outside / sizeof *outside, INSIDE = sizeof inside / sizeof *inside };

/* what is read of the file of one triangle, in lists of this many places: three vertices, then zeros */
static void ask_done(const char *spoilt) {
    ask(IMPORT, AKF_DONE, spoilt);
    expect(n[0] == 3, "not three vertices", "import_mesh_stl", spoilt);
    for (int i = 0; i < 9; i++) {
        expect(bits(floats(PX + i % 3)[i / 3]) == get(list[FILE_IN], 96 + 4 * i), "another vertex", "import_mesh_stl", spoilt);
    }
    for (int l = PX; l <= PZ; l++) expect(zeros(floats(l) + 3, (len[l] - 3) * 4), "not zero past the vertices", "import_mesh_stl", spoilt);
}

static void places(size_t room) {
    for (int l = PX; l <= PZ; l++) lend(l, room);
}

/* every length from nothing to two triangles, and counts that do not fit: 11, whatever the vertices are, but after 2 */
static void file_lengths(void) {
    for (size_t bytes = 0; bytes <= ONE + 50; bytes++)
        for (uint32_t c = 0; c < 3; c++) {
            int fits = bytes == BARE + 50 * c;
            good(), fill_file(bytes, c);
            if (fits && c == 2) memset((uint8_t *)list[FILE_IN] + ONE, 0, 50);
            ask(IMPORT, fits ? AKF_DONE : 11, "a length"), expect(!fits || n[0] == 3 * c, "other vertices", "import_mesh_stl", "a length");
        }
    /* 2^31 and 2^31 + 1 give the lengths 84 and 134 where sums wrap at 32 bits */
    static const uint32_t odd[] = {3, 0x01000000, 0x80000000, 0x80000001, 0x7fffffff, 0xffffffff};
    for (int i = 0; i < 6; i++)
        for (size_t bytes = BARE; bytes <= ONE; bytes += 50) good(), fill_file(bytes, odd[i]), ask(IMPORT, 11, "a count");
    good(), fill_file(ONE + 1, 1), put(list[FILE_IN], 96, bits(NAN)), ask(IMPORT, 11, "a length, and a vertex that is NaN");
    for (size_t bytes = BARE - 1; bytes <= ONE + 1; bytes += 52) good(), fill_file(bytes, 1), len[PY]--, ask(IMPORT, 2, "a length, and lists that differ");
    good(), fill_file(ONE + 1, 1), places(0), ask(IMPORT, 11, "a length, and no room");
    /* as long as a list of bytes may be, with the count that fits; a vertex out of range at the end; another count */
    good(), fill_file(AKF_FILE_MAX, LIST_LIMIT), memset((uint8_t *)list[FILE_IN] + ONE, 0, AKF_FILE_MAX - ONE), ask(IMPORT, 6, "the longest file");
    put(list[FILE_IN], AKF_FILE_MAX - 6, bits(INFINITY)), ask(IMPORT, 10, "the longest file, its last vertex infinite");
    put(list[FILE_IN], 80, LIST_LIMIT - 1), ask(IMPORT, 11, "the longest file, another count");
}

/* each part of a triangle in turn: a position outside the range is a 10, before 6; normal, header and attribute may be
 * anything */
static void file_parts(void) {
    for (int i = 0; i < 12; i++) {
        for (int x = 0; x < OUTSIDE; x++) {
            good(), put(list[FILE_IN], 84 + 4 * i, bits(outside[x]));
            if (i < 3) ask_done("a normal");
            else ask(IMPORT, 10, "a position"), places(2), ask(IMPORT, 10, "a position, and no room");
        }
        for (int x = 0; x < INSIDE; x++) good(), put(list[FILE_IN], 84 + 4 * i, bits(inside[x])), ask_done("a position within the range");
    }
    good(), memset(list[FILE_IN], 0xff, 80), memset((uint8_t *)list[FILE_IN] + ONE - 2, 0xff, 2), ask_done("header and attribute");
    good(), memcpy(list[FILE_IN], "solid text", 10), ask_done("a header that reads as text");
    for (size_t room = 0; room < 5; room++) {
        good(), places(room);
        if (room < 3) ask(IMPORT, 6, "room");
        else ask_done("room");
    }
}

/* the file of the one triangle that is lent, then zeros */
static void ask_written(const char *spoilt) {
    uint8_t all[ONE] = {0};
    put(all, 80, 1);
    for (int i = 0; i < 9; i++) put(all, 96 + 4 * i, bits(floats(PX + i % 3)[((uint32_t *)list[T0 + i / 3])[0]]));
    ask(EXPORT, AKF_DONE, spoilt);
    expect(n[0] == ONE, "another length", "export_mesh_stl", spoilt);
    expect(!memcmp(list[FILE_OUT], all, ONE), "another file", "export_mesh_stl", spoilt);
    expect(zeros((uint8_t *)list[FILE_OUT] + ONE, len[FILE_OUT] - ONE), "not zero past the file", "export_mesh_stl", spoilt);
}

static void name(int list_of_numbers, uint32_t number) { ((uint32_t *)list[list_of_numbers])[0] = number; }

/* rooms, numbers and vertices of a file that is written: 10 before 6, and 2 before both */
static void file_written(void) {
    for (size_t room = 0; room <= ONE + 6; room++) {
        good(), lend(FILE_OUT, room);
        if (room < ONE) ask(EXPORT, 6, "room");
        else ask_written("room");
    }
    good(), vertices = triangles = 0, ask(EXPORT, AKF_DONE, "no triangles");
    expect(n[0] == BARE && zeros(list[FILE_OUT], ONE), "not 84 zeros", "export_mesh_stl", "no triangles");
    good(), vertices = 0, ask(EXPORT, 10, "no vertices");
    for (int l = T0; l <= T2; l++) {
        good(), name(l, ROWS), ask(EXPORT, 10, "a number past the vertices");
        good(), name(l, UINT32_MAX), lend(FILE_OUT, 0), ask(EXPORT, 10, "a number past the vertices, and no room");
    }
    good(), name(T0, 1), name(T2, 1), ask_written("three equal corners");
    for (int l = PX; l <= PZ; l++) {
        for (int x = 0; x < OUTSIDE; x++) {
            good(), floats(l)[2] = outside[x], ask(EXPORT, 10, "a vertex"), lend(FILE_OUT, ONE - 1), ask(EXPORT, 10, "a vertex, and no room");
            good(), vertices++, floats(l)[ROWS] = outside[x], ask(EXPORT, 10, "a vertex that no triangle names");
            good(), floats(l)[ROWS] = outside[x], ask_written("a place past the vertices");
            good(), floats(l)[0] = outside[x], len[l]--, ask(EXPORT, 2, "a vertex, and lists that differ");
        }
        for (int x = 0; x < INSIDE; x++) good(), floats(l)[1] = inside[x], ask_written("a vertex within the range");
    }
}

/* null pointers with length 0, and counts of 0: each call's own answer to nothing */
static void nulls(void) {
    static const struct {
        uint32_t (*run)(void);
        uint32_t answer;
    } other[] = {{neighbors, 6}, {fuse, 6}, {fuse_ray, 6}, {tsdf_distance, AKF_ABSENT}, {tsdf_weight, AKF_ABSENT},
                 {esdf_distance, AKF_ABSENT}, {gradient, AKF_ABSENT}, {box, AKF_ABSENT}, {cell_edges, 2},
                 {stl_write, 6}, {stl_read, 11}};
    for (int i = 0; i < CALLS; i++) {
        good();
        void *lent[LISTS];
        memcpy(lent, list, sizeof lent);
        memset(list, 0, sizeof list), memset(len, 0, sizeof len);
        count = marched = edges = vertices = triangles = 0;
        uint32_t answer = AKF_DONE;
        for (size_t o = 0; o < sizeof other / sizeof *other; o++)
            if (call[i].run == other[o].run) answer = other[o].answer;
        spoil_numbers();
        expect(call[i].run() == answer, "the answer is another, or a number handed back is not 0", call[i].name, "null pointers");
        if (answer == AKF_DONE)
            expect((n[0] == 0 || n[0] == 77) && (n[1] == 0 || n[1] == 77) && (yes == 0 || yes == 77) && count == 0, "something is counted", call[i].name, "null pointers");
        memcpy(list, lent, sizeof lent);
    }
}

int main(void) {
    all_good();
    readings();
    counters();
    nulls();
    lengths();
    counts();
    limits();
    nans();
    closed_meshes();
    file_lengths();
    file_parts();
    file_written();
    printf("bad-input: %d answers, %d not as said\n", asked, wrong);
    return wrong != 0;
}
