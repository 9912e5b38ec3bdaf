/* SPDX-FileCopyrightText: 2026 The PPVM Authors
 * SPDX-License-Identifier: Apache-2.0
 *
 * A Matrix Market file as C programs write it, by a loop of fprintf over the entries: what the library's text is timed
 * against.
 */
#include <math.h>
#include <stdint.h>
#include <stdio.h>

/* Returns how many bytes were written, or 0. */
size_t write_entries(const char *path, size_t len, size_t entries, const uint32_t *rows, const uint32_t *columns,
                     const double *values) {
    FILE *out = fopen(path, "wb");
    if (!out) return 0;
    size_t bytes = (size_t)fprintf(out, "%%%%MatrixMarket matrix coordinate integer general\n%zu %zu %zu\n", len, len,
                                   entries);
    for (size_t i = 0; i < entries; i++)
        bytes += (size_t)fprintf(out, "%u %u %lld\n", rows[i] + 1, columns[i] + 1, llround(values[i] * 0x1p32));
    return fclose(out) ? 0 : bytes;
}
