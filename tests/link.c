/* Links the archive from C by the header: the example (docs/SCOPE.md, S10.6), refusals, thresholds, a box of negative samples without a spike, its PLY file written and read, the volume of docs/SCOPE.md, S12.5, the topology test and the sort.
   Prints "ok". */
#include "spoonthicket.h"

#include <stdio.h>
#include <string.h>

enum { SITES = 27, CELLS = 8, MOST = 21 };

static double samples[SITES];
static uint16_t masks[SITES];
static uint32_t table[7 * SITES];
static double vertices[3 * MOST];
static uint32_t book[4 * MOST];
static uint32_t triangles[36 * CELLS];
static uint32_t edges[108 * CELLS];

static int failed(const char *what)
{
    printf("failed: %s\n", what);
    return 1;
}

/* Fills the six lists with one byte. */
static void stain(void)
{
    memset(masks, 0x5A, sizeof masks);
    memset(table, 0x5A, sizeof table);
    memset(vertices, 0x5A, sizeof vertices);
    memset(book, 0x5A, sizeof book);
    memset(triangles, 0x5A, sizeof triangles);
    memset(edges, 0x5A, sizeof edges);
}

static int other(const void *list, size_t size)
{
    const unsigned char *bytes = list;
    size_t i;

    for (i = 0; i < size; i++)
        if (bytes[i] != 0x5A)
            return 1;
    return 0;
}

/* Whether a byte of the six lists is not the one that stain put there. */
static int stored(void)
{
    return other(masks, sizeof masks) || other(table, sizeof table) || other(vertices, sizeof vertices) || other(book, sizeof book)
           || other(triangles, sizeof triangles) || other(edges, sizeof edges);
}

/* The double with these bits. */
static double of_bits(uint64_t bits)
{
    double x;

    memcpy(&x, &bits, sizeof x);
    return x;
}

/* The box of 27 samples with this threshold; the masks are said to be so many. */
static size_t built(double inside, const double *frame, size_t masks_len, size_t *counts)
{
    return spoonthicket_build(3, 3, 3, 1, 4, inside, frame, samples, SITES, masks, masks_len, table, 7 * SITES, vertices, 3 * MOST,
                              book, 4 * MOST, triangles, 36 * CELLS, edges, 108 * CELLS, counts);
}

/* Whether it is refused with this number, with zeros for all counts and nothing stored. */
static int refused(size_t number, double inside, const double *frame, size_t masks_len)
{
    size_t counts[SPOONTHICKET_COUNTS];
    size_t i;

    stain();
    memset(counts, 0xFF, sizeof counts);
    if (built(inside, frame, masks_len, counts) != number)
        return 0;
    for (i = 0; i < SPOONTHICKET_COUNTS; i++)
        if (counts[i] != 0)
            return 0;
    return !stored();
}

int main(void)
{
    const double frame[6] = {0.0, 0.0, 0.0, 1.0, 1.0, 1.0};
    const size_t wanted[SPOONTHICKET_COUNTS] = {14, 8, 12, 0, 0, 0, 0, 8, 0, 0};
    const size_t none[SPOONTHICKET_COUNTS] = {0};
    size_t counts[SPOONTHICKET_COUNTS];
    size_t i;

    for (i = 0; i < SITES; i++)
        samples[i] = i == 13 ? -1.0 : 1.0;
    memset(counts, 0xFF, sizeof counts);
    if (spoonthicket_build(3, 3, 3, 1, 4, SPOONTHICKET_INSIDE, frame, samples, SITES, masks, SITES, table, 7 * SITES, vertices, 3 * MOST, book, 4 * MOST,
                           triangles, 36 * CELLS, edges, 108 * CELLS, counts) != SPOONTHICKET_DONE)
        return failed("the example is refused");
    if (memcmp(counts, wanted, sizeof counts) != 0)
        return failed("the example's counts");
    for (i = 0; i < 3 * counts[SPOONTHICKET_TRIANGLES]; i++)
        if (triangles[i] >= counts[SPOONTHICKET_MADE])
            return failed("a triangle without a vertex");

    {
        static uint8_t file[188 + 24 * MOST + 13 * 12 * CELLS];
        static uint64_t words[3 * MOST];
        static uint32_t corners[36 * CELLS];
        const size_t made = counts[SPOONTHICKET_MADE];
        const size_t faces = counts[SPOONTHICKET_TRIANGLES];
        size_t length[1], read[SPOONTHICKET_PLY_COUNTS];

        if (spoonthicket_ply_mesh(vertices, 3 * made, triangles, 3 * faces, file, sizeof file, length) != 0)
            return failed("the PLY file is refused");
        if (length[0] != spoonthicket_ply_length(made, faces) || length[0] != 173 + 24 * made + 13 * faces)
            return failed("the length of the PLY file");
        if (memcmp(file, "ply\nformat binary_little_endian 1.0\nelement vertex 8\n", 53) != 0)
            return failed("the header of the PLY file");
        if (spoonthicket_ply_sizes(file, length[0], read) != 0 || read[SPOONTHICKET_PLY_VERTICES] != made || read[SPOONTHICKET_PLY_FACES] != faces)
            return failed("the sizes of the PLY file");
        if (spoonthicket_ply_read(file, length[0], words, 3 * made, corners, 3 * faces, read) != 0)
            return failed("the PLY file is not read");
        if (memcmp(words, vertices, 24 * made) != 0 || memcmp(corners, triangles, 12 * faces) != 0)
            return failed("what is read is not what was written");
        if (spoonthicket_ply_write(words, 3 * made, corners, 3 * faces, file, length[0] - 1, length) != SPOONTHICKET_PLY_ROOM || length[0] != 0)
            return failed("short room for a PLY file is not refused");
        if (spoonthicket_ply_read(file, 52, words, 3 * made, corners, 3 * faces, read) != SPOONTHICKET_PLY_HEADER || read[0] != 0 || read[1] != 0)
            return failed("a cut header is not refused");
    }

    {
        /* All samples negative, the one in the middle inside: fourteen vertices, each at a site around it, which are whole and at most 3 off. */
        for (i = 0; i < SITES; i++)
            samples[i] = i == 13 ? -2.0e-9 : -1.0e-9;
        if (spoonthicket_build(3, 3, 3, 1, 4, SPOONTHICKET_INSIDE, frame, samples, SITES, masks, SITES, table, 7 * SITES, vertices, 3 * MOST, book, 4 * MOST,
                               triangles, 36 * CELLS, edges, 108 * CELLS, counts) != SPOONTHICKET_DONE || counts[SPOONTHICKET_MADE] != 14)
            return failed("the box of negative samples");
        for (i = 0; i < 3 * counts[SPOONTHICKET_MADE]; i++)
            if (!(vertices[i] >= -3.0 && vertices[i] <= 3.0 && (double)(int)vertices[i] == vertices[i]))
                return failed("a vertex that is at no site");
        for (i = 0; i < SITES; i++)
            samples[i] = i == 13 ? -1.0 : 1.0;
    }

    {
        /* Thresholds that are refused: NaNs, the doubles next to the limits, infinities. 4 comes before 14, and 14 before 5. */
        const uint64_t bad[10] = {UINT64_C(0x7FF8000000000000), UINT64_C(0xFFF8000000000000), UINT64_C(0x7FF0000000000001), UINT64_C(0xFFFFFFFFFFFFFFFF),
                                  UINT64_C(0x8000000000000001), UINT64_C(0xBE112E0BE826D695), UINT64_C(0x3FF0000000000001), UINT64_C(0x4000000000000000),
                                  UINT64_C(0x7FF0000000000000), UINT64_C(0xFFF0000000000000)};
        const double taken[7] = {0.0, -0.0, SPOONTHICKET_INSIDE, 1.0e-12, 1.0e-300, 0.25, 0.5};
        const double flat[6] = {0.0, 0.0, 0.0, 1.0, 0.0, 1.0};

        for (i = 0; i < 10; i++) {
            const double inside = of_bits(bad[i]);

            if (!refused(SPOONTHICKET_THRESHOLD, inside, frame, SITES))
                return failed("a threshold is not refused");
            if (!refused(SPOONTHICKET_FRAME, inside, flat, SITES - 1))
                return failed("a frame is not refused before a threshold");
            if (!refused(SPOONTHICKET_THRESHOLD, inside, frame, SITES - 1))
                return failed("a threshold is not refused before short masks");
        }
        if (!refused(SPOONTHICKET_SITES, 1.0, frame, SITES - 1))
            return failed("short masks are not refused");
        for (i = 0; i < 7; i++)
            if (built(taken[i], frame, SITES, counts) != SPOONTHICKET_DONE || memcmp(counts, wanted, sizeof counts) != 0)
                return failed("a threshold is refused, or changes the example");
        if (built(of_bits(1), frame, SITES, counts) != SPOONTHICKET_DONE || memcmp(counts, wanted, sizeof counts) != 0)
            return failed("the least threshold above 0");
        if (built(1.0, frame, SITES, counts) != SPOONTHICKET_DONE || memcmp(counts, none, sizeof counts) != 0)
            return failed("-1 is inside to the threshold 1");

        /* 0.25: -0.25 is outside, the next double below it inside; -0.2 is outside, and the vertices stand at its sites. */
        samples[13] = -0.25;
        if (built(0.25, frame, SITES, counts) != SPOONTHICKET_DONE || memcmp(counts, none, sizeof counts) != 0)
            return failed("-0.25 is inside to the threshold 0.25");
        samples[13] = of_bits(UINT64_C(0xBFD0000000000001));
        if (built(0.25, frame, SITES, counts) != SPOONTHICKET_DONE || counts[SPOONTHICKET_CROSSED] != 14)
            return failed("the next below -0.25 is outside to the threshold 0.25");
        for (i = 0; i < SITES; i++)
            samples[i] = i == 13 ? -0.3 : -0.2;
        if (built(SPOONTHICKET_INSIDE, frame, SITES, counts) != SPOONTHICKET_DONE || memcmp(counts, none, sizeof counts) != 0)
            return failed("all are inside, and an edge is crossed");
        if (built(0.25, frame, SITES, counts) != SPOONTHICKET_DONE || counts[SPOONTHICKET_CROSSED] != 14 || counts[SPOONTHICKET_MADE] != 14
            || counts[SPOONTHICKET_TRIANGLES] != 24)
            return failed("the box of the threshold 0.25");
        for (i = 0; i < 3 * counts[SPOONTHICKET_MADE]; i++)
            if (!(vertices[i] >= -3.0 && vertices[i] <= 3.0 && (double)(int)vertices[i] == vertices[i]))
                return failed("a vertex of the threshold 0.25 that is at no site");
        for (i = 0; i < counts[SPOONTHICKET_MADE]; i++)
            if (book[4 * i] == 13)
                return failed("a vertex of the threshold 0.25 that is at the middle");

        /* A sample of -0.0 is outside, to the threshold 0 too; the least below 0 is inside to that one alone. */
        for (i = 0; i < SITES; i++)
            samples[i] = i == 13 ? -0.0 : 1.0;
        for (i = 0; i < 7; i++)
            if (built(taken[i], frame, SITES, counts) != SPOONTHICKET_DONE || memcmp(counts, none, sizeof counts) != 0)
                return failed("-0.0 is inside");
        samples[13] = of_bits(UINT64_C(0x8000000000000001));
        for (i = 0; i < 7; i++)
            if (built(taken[i], frame, SITES, counts) != SPOONTHICKET_DONE || counts[SPOONTHICKET_CROSSED] != (i < 2 ? 14u : 0u))
                return failed("the least below 0");
        samples[13] = -1.0;
    }

    {
        /* The check of docs/SCOPE.md, S12.5: -3 in the middle, 1 around it, four units apart. 216 cubic units, so 1296. */
        const double apart[6] = {0.0, 0.0, 0.0, 4.0, 4.0, 4.0};
        const int64_t here[3] = {0, 0, 0}, there[3] = {5, -7, 11}, far[3] = {INT64_MAX, INT64_MIN, 0};
        int64_t six[1];
        size_t made, corners, method;

        samples[13] = -3.0;
        for (method = 0; method < 2; method++) {
            if (spoonthicket_build(3, 3, 3, method, 4, SPOONTHICKET_INSIDE, apart, samples, SITES, masks, SITES, table, 7 * SITES, vertices, 3 * MOST, book, 4 * MOST,
                                   triangles, 36 * CELLS, edges, 108 * CELLS, counts) != SPOONTHICKET_DONE)
                return failed("the box of the check is refused");
            made = 3 * counts[SPOONTHICKET_MADE];
            corners = 3 * counts[SPOONTHICKET_TRIANGLES];
            six[0] = -1;
            if (spoonthicket_volume(vertices, made, triangles, corners, 1.0, here, six) != 0 || six[0] != 1296)
                return failed("the volume");
            if (spoonthicket_volume(vertices, made, triangles, corners, 1.0, there, six) != 0 || six[0] != 1296)
                return failed("the volume from another origin");
            six[0] = -1;
            if (spoonthicket_volume(vertices, made - 1, triangles, corners, 0.0, far, six) != SPOONTHICKET_VOLUME_LISTS || six[0] != 0)
                return failed("a list not in whole threes is not refused");
            six[0] = -1;
            if (spoonthicket_volume(vertices, made, triangles, corners - 1, 1.0, here, six) != SPOONTHICKET_VOLUME_LISTS || six[0] != 0)
                return failed("triangles not in whole threes are not refused");
            six[0] = -1;
            if (spoonthicket_volume(vertices, made - 3, triangles, corners, 1.0, here, six) != SPOONTHICKET_VOLUME_LISTS || six[0] != 0)
                return failed("an index past the vertices is not refused");
            six[0] = -1;
            if (spoonthicket_volume(vertices, made, triangles, corners, -0.0, far, six) != SPOONTHICKET_VOLUME_SCALE || six[0] != 0)
                return failed("a scale of 0 is not refused");
            six[0] = -1;
            if (spoonthicket_volume(vertices, made, triangles, corners, 1.0, far, six) != SPOONTHICKET_VOLUME_CORNER || six[0] != 0)
                return failed("a corner too far off is not refused");
            six[0] = -1;
            if (spoonthicket_volume(vertices, made, triangles, 0, 1.0, far, six) != 0 || six[0] != 0)
                return failed("no triangles enclose something");
        }
        samples[13] = -1.0;
    }

    stain();
    if (spoonthicket_build(3, 3, 3, 1, 4, SPOONTHICKET_INSIDE, frame, samples, SITES, masks, SITES, table, 7 * SITES, vertices, 3 * MOST, book, 4 * MOST - 1,
                           triangles, 36 * CELLS, edges, 108 * CELLS, counts) != SPOONTHICKET_VERTICES)
        return failed("a short book is not refused");
    if (memcmp(counts, none, sizeof counts) != 0)
        return failed("a refusal's counts");
    if (stored())
        return failed("a refusal stored something");

    {
        double ends[14] = {1.0, 1.0, 0.0, 0.0, -3.0, 0.0, 0.0, 0.0, 0.0, 0.0, 0.0, 0.0, 0.0, -3.0};
        uint16_t clusters[14];
        size_t visits[1] = {99};
        if (spoonthicket_topology(0x2014, 1, SPOONTHICKET_INSIDE, ends, clusters, visits) != 2)
            return failed("the flat hole");
        if (visits[0] != 14)
            return failed("the flat hole's visits");
        if (spoonthicket_topology(0x2014, 0, SPOONTHICKET_INSIDE, ends, clusters, visits) != 5 || visits[0] != 0)
            return failed("visits where nothing is clustered");
        if (spoonthicket_visits(0x2014) != 3 || spoonthicket_visits(0xFFFF) != 14 || spoonthicket_visits(0xC000) != 0)
            return failed("the visits of a walk");
        if (clusters[0] != 4 || clusters[1] != 0x10 || clusters[2] != 0x2000 || clusters[3] != 0)
            return failed("the flat hole's clusters");
        if (spoonthicket_topology(0x2014, 1, 3.0, ends, clusters, visits) != 4 || spoonthicket_topology(0x2014, 1, 2.5, ends, clusters, visits) != 2)
            return failed("the flat hole by the threshold");
    }
    {
        uint32_t words[7] = {2, 1, 1, 1, 9, 9, 5};
        const uint32_t sorted[7] = {1, 9, 9, 2, 1, 1, 5};
        spoonthicket_sort(words, 7);
        if (memcmp(words, sorted, sizeof words) != 0)
            return failed("the sort");
    }
    printf("ok\n");
    return 0;
}
