/* Flat filters by a chord table, in plain C: the measure that the proved filters are held to. Several chords are folded in
 * one pass, and the margins are filled by their own loops. Tables are as long as the proved filters': rows x lengths x
 * (width + 30). */
#include <stdint.h>
#include <string.h>

typedef struct {
    int row, start, length, index;
} Chord;

typedef struct {
    Chord chords[496];
    int count, lengths[31], sizes, north, south;
} Plan;

/* The chords of a mask, by row and then by start, and its length list. Row r of the mask has bit c where it has the point
 * (c - 15, r - 15). */
static void make_plan(const uint32_t *rows, Plan *plan) {
    char listed[32] = {0};
    memset(plan, 0, sizeof *plan);
    for (int row = -15; row <= 15; row++) {
        int n = 0;
        for (int c = 0; c <= 31; c++) {
            if (c < 31 && (rows[row + 15] >> c & 1)) {
                n++;
            } else if (n > 0) {
                plan->chords[plan->count++] = (Chord){row, c - n - 15, n, 0};
                listed[n] = 1;
                if (row < plan->north) plan->north = row;
                if (row > plan->south) plan->south = row;
                n = 0;
            }
        }
    }
    listed[1] = 1;
    for (int a = 31; a >= 2; a--) {
        int reached = 0;
        for (int b = 1; b < a; b++) reached |= listed[b] && 2 * b >= a;
        if (listed[a] && !reached) listed[(a + 1) / 2] = 1;
    }
    for (int a = 1; a < 32; a++)
        if (listed[a]) plan->lengths[plan->sizes++] = a;
    for (int k = 0; k < plan->count; k++)
        for (int i = 0; i < plan->sizes; i++)
            if (plan->lengths[i] == plan->chords[k].length) plan->chords[k].index = i;
}

/* The mask turned about its origin. */
static void turn(const uint32_t *rows, uint32_t *turned) {
    for (int r = 0; r < 31; r++) {
        turned[r] = 0;
        for (int c = 0; c < 31; c++) turned[r] |= (rows[30 - r] >> (30 - c) & 1) << c;
    }
}

/* A return is counted once, when it is taken into the table, and lies there as a number that is not the negative zero. */
static inline float counted(uint32_t bits) {
    uint32_t size = bits & 0x7fffffff;
    if (size > 0x7f800000) size = 0x7f800000;
    uint32_t number = size == 0 ? 0 : size | (bits & 0x80000000);
    float f;
    memcpy(&f, &number, sizeof f);
    return f;
}

static inline uint32_t bits_of(float f) {
    uint32_t bits;
    memcpy(&bits, &f, sizeof bits);
    return bits;
}

#define SAME(x) (x)
#define LESS(a, b) ((a) < (b) ? (a) : (b))
#define MORE(a, b) ((a) > (b) ? (a) : (b))

#define NAME(x) gray_low_##x
#define CELL uint8_t
#define ENTRY uint8_t
#define TAKE SAME
#define GIVE SAME
#define PAD UINT8_MAX
#define PICK LESS
#include "sweep.h"

#define NAME(x) gray_high_##x
#define CELL uint8_t
#define ENTRY uint8_t
#define TAKE SAME
#define GIVE SAME
#define PAD 0
#define PICK MORE
#include "sweep.h"

#define NAME(x) height_##x
#define CELL int32_t
#define ENTRY int32_t
#define TAKE SAME
#define GIVE SAME
#define PAD INT32_MAX
#define PICK LESS
#include "sweep.h"

#define NAME(x) return_##x
#define CELL uint32_t
#define ENTRY float
#define TAKE counted
#define GIVE bits_of
#define PAD __builtin_inff()
#define PICK LESS
#include "sweep.h"

void chords_erode_gray(const uint32_t *rows, uint8_t *sheet, int w, int h, uint8_t *table) {
    Plan plan;
    make_plan(rows, &plan);
    gray_low_sweep(sheet, w, h, &plan, table);
}

void chords_open_gray(const uint32_t *rows, uint8_t *sheet, int w, int h, uint8_t *table) {
    uint32_t turned[31];
    Plan plan;
    chords_erode_gray(rows, sheet, w, h, table);
    turn(rows, turned);
    make_plan(turned, &plan);
    gray_high_sweep(sheet, w, h, &plan, table);
}

void chords_erode_height(const uint32_t *rows, int32_t *sheet, int w, int h, int32_t *table) {
    Plan plan;
    make_plan(rows, &plan);
    height_sweep(sheet, w, h, &plan, table);
}

void chords_erode_return(const uint32_t *rows, uint32_t *sheet, int w, int h, float *table) {
    Plan plan;
    make_plan(rows, &plan);
    return_sweep(sheet, w, h, &plan, table);
}
