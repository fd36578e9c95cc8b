/* The sweep of one filter of one kind of cell. NAME gives its functions their names, CELL is a cell in the sheet and ENTRY one
 * in the table; TAKE and GIVE go from the one to the other, PAD stands where the sheet has no cell, and PICK picks. The loops
 * that fold are functions of their own that are not inlined, since gcc vectorises them only so. */

static inline ENTRY NAME(pick)(ENTRY a, ENTRY b) { return PICK(a, b); }

static inline ENTRY NAME(pick4)(ENTRY a, ENTRY b, ENTRY c, ENTRY d) {
    return NAME(pick)(NAME(pick)(a, b), NAME(pick)(c, d));
}

/* The longer runs of a line: each from two that start d apart. */
__attribute__((noinline)) static void NAME(lengthen)(int n, int d, ENTRY *restrict out, const ENTRY *restrict in) {
    for (int x = 0; x < n; x++) out[x] = NAME(pick)(in[x], in[x + d]);
}

__attribute__((noinline)) static void NAME(fold1)(int w, ENTRY *restrict row, const ENTRY *restrict a) {
    for (int x = 0; x < w; x++) row[x] = NAME(pick)(row[x], a[x]);
}

__attribute__((noinline)) static void NAME(fold4)(int w, ENTRY *restrict row, const ENTRY *restrict a, const ENTRY *restrict b,
                                                  const ENTRY *restrict c, const ENTRY *restrict d) {
    for (int x = 0; x < w; x++) row[x] = NAME(pick)(row[x], NAME(pick4)(a[x], b[x], c[x], d[x]));
}

__attribute__((noinline)) static void NAME(fold8)(int w, ENTRY *restrict row, const ENTRY *restrict a, const ENTRY *restrict b,
                                                  const ENTRY *restrict c, const ENTRY *restrict d, const ENTRY *restrict e,
                                                  const ENTRY *restrict f, const ENTRY *restrict g, const ENTRY *restrict h) {
    for (int x = 0; x < w; x++)
        row[x] = NAME(pick)(row[x], NAME(pick)(NAME(pick4)(a[x], b[x], c[x], d[x]), NAME(pick4)(e[x], f[x], g[x], h[x])));
}

/* Takes row y of the sheet into a slot: the runs of each length from each start. */
static void NAME(take_line)(const CELL *sheet, int w, int h, const Plan *plan, int y, ENTRY *slot) {
    int stride = w + 30;
    if (y < 0 || y >= h) {
        for (int x = 0; x < stride; x++) slot[x] = PAD;
    } else {
        const CELL *restrict row = sheet + (size_t)y * w;
        ENTRY *restrict in = slot + 15;
        for (int x = 0; x < 15; x++) slot[x] = PAD;
        for (int x = 0; x < w; x++) in[x] = TAKE(row[x]);
        for (int x = 0; x < 15; x++) slot[15 + w + x] = PAD;
    }
    for (int i = 1; i < plan->sizes; i++)
        NAME(lengthen)(w + 31 - plan->lengths[i], plan->lengths[i] - plan->lengths[i - 1], slot + (size_t)i * stride,
                       slot + (size_t)(i - 1) * stride);
}

static void NAME(sweep)(CELL *sheet, int w, int h, const Plan *plan, ENTRY *table) {
    int rows = plan->south - plan->north + 1, stride = w + 30;
    size_t slot_size = (size_t)plan->sizes * stride;
    ENTRY row[2048];
    for (int line = 0; line < h + rows - 1; line++) {
        NAME(take_line)(sheet, w, h, plan, line + plan->north, table + (size_t)(line % rows) * slot_size);
        int y = line + 1 - rows;
        if (y < 0) continue;
        const ENTRY *from[496];
        for (int k = 0; k < plan->count; k++) {
            const Chord *c = &plan->chords[k];
            int slot = (y + c->row - plan->north) % rows;
            from[k] = table + slot * slot_size + (size_t)c->index * stride + c->start + 15;
        }
        memcpy(row, from[0], (size_t)w * sizeof *row);
        int k = 1;
        for (; k + 7 < plan->count; k += 8)
            NAME(fold8)(w, row, from[k], from[k + 1], from[k + 2], from[k + 3], from[k + 4], from[k + 5], from[k + 6], from[k + 7]);
        for (; k + 3 < plan->count; k += 4) NAME(fold4)(w, row, from[k], from[k + 1], from[k + 2], from[k + 3]);
        for (; k < plan->count; k++) NAME(fold1)(w, row, from[k]);
        CELL *restrict out = sheet + (size_t)y * w;
        for (int x = 0; x < w; x++) out[x] = GIVE(row[x]);
    }
}

#undef NAME
#undef CELL
#undef ENTRY
#undef TAKE
#undef GIVE
#undef PAD
#undef PICK
