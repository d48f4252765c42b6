/* spoonthicket.h: the linkable functions of Spoonthicket, for C and C++ on x86-64 Linux (archive libspoonthicket.a, made by tools/library).
 *
 * Of every call: a pointer is not null and is aligned for its type, also where its length is 0; the list behind it has the length that
 * is given, in entries and not bytes, or the fixed length in brackets; a list that is written overlaps no other. Nothing checks that.
 * Every number, every length and every bit pattern of a float is taken. The functions keep no state, take no memory, call nothing but
 * memcpy and memset, and may run on several threads at once. The processor's rounding is to nearest, subnormals are not flushed, and
 * floating-point exceptions are masked, as every C program starts.
 */
#ifndef SPOONTHICKET_H
#define SPOONTHICKET_H

#include <stddef.h>
#include <stdint.h>

#ifdef __cplusplus
extern "C" {
#endif

/* What spoonthicket_build answers. The tests are made in the order 1, 2, 3, 4, 14, 5, 6, 7, as they stand here, and the first that fails
 * gives the number.
 */
enum {
    SPOONTHICKET_DONE = 0,
    SPOONTHICKET_SETTINGS = 1,   /* method not 0 or 1, or rounds over 4 */
    SPOONTHICKET_SIDES = 2,      /* a side not 1 to 32 */
    SPOONTHICKET_SAMPLES = 3,    /* samples not nu * nv * nw long */
    SPOONTHICKET_FRAME = 4,      /* an origin not within -1e9 to 1e9, a step not within 0.001 to 1e6, or a NaN */
    SPOONTHICKET_THRESHOLD = 14, /* inside below 0, above 1, or a NaN */
    SPOONTHICKET_SITES = 5,      /* masks shorter than the sites, or table shorter than 7 a site */
    SPOONTHICKET_VERTICES = 6,   /* vertices shorter than 3 X, or book shorter than 4 X */
    SPOONTHICKET_CELLS = 7       /* triangles shorter than 36 a cell, or edges shorter than 108 a cell */
};

/* The places of the ten counts. */
enum {
    SPOONTHICKET_CROSSED,      /* E: owned edges with both ends in the box, on different sides */
    SPOONTHICKET_MADE,         /* vertices ever made, at most X = 3 E / 2 rounded down */
    SPOONTHICKET_TRIANGLES,    /* at most twelve a cell */
    SPOONTHICKET_CLOSED,       /* the five cases, over sites with a mask that is not 0; all 0 for method 0 */
    SPOONTHICKET_MULTIHOLE,
    SPOONTHICKET_FLATHOLE,
    SPOONTHICKET_MULTISURFACE,
    SPOONTHICKET_SIMPLE,
    SPOONTHICKET_SPLIT,        /* clusters split */
    SPOONTHICKET_ROUNDS,       /* rollback rounds done */
    SPOONTHICKET_COUNTS        /* how many counts there are */
};

/* An entry of the edge table without a vertex. */
#define SPOONTHICKET_NONE UINT32_C(0xFFFFFFFF)

/* The threshold that was fixed before it could be given, and that a count file without a line `inside=` means. */
#define SPOONTHICKET_INSIDE 1.0e-9

/* The build of one box of nu * nv * nw samples (isovalue taken off, site u + nu * (v + nv * w)).
 *
 * method: 0 a vertex for each crossed edge whose two samples are finite, 1 averages by cluster. rounds: 0 to 4.
 * inside: the threshold, 0 to 1, both taken, and -0.0 as 0. A sample is inside where it is below -inside, and outside otherwise, a NaN too;
 *   so -inside is outside, and 0.0 and -0.0 are for every threshold that is taken. All that asks for a side asks by it: marks, flat holes,
 *   tetrahedra and counts. It moves the side and not the point: a point stands where the values would cross 0, held to its edge.
 * frame: origin on three axes, then step on three axes.
 *
 * Done (0), the front of each list holds:
 *   masks      a mask of marked edges for each site
 *   table      at 7 * site + label the vertex of that owned edge, or SPOONTHICKET_NONE
 *   vertices   three coordinates for each vertex ever made, all finite: the point on its edge, or the mean of several such points. A point
 *              stands between the two sites of its edge, at one of them where the samples there are on the same side of zero
 *   book       four words for each: site, edges held now (0 once retired), edges held when made, round made
 *   triangles  three vertex numbers for each triangle
 *   edges      zeros (108 a cell: room to work in)
 * and what lies behind stays as it was. Refused (1 to 7 and 14), no entry of these six lists changes.
 * counts always gets its ten numbers: zeros on a refusal.
 */
size_t spoonthicket_build(
    size_t nu, size_t nv, size_t nw, size_t method, size_t rounds,
    double inside, const double frame[6],
    const double *samples, size_t samples_len,
    uint16_t *masks, size_t masks_len,
    uint32_t *table, size_t table_len,
    double *vertices, size_t vertices_len,
    uint32_t *book, size_t book_len,
    uint32_t *triangles, size_t triangles_len,
    uint32_t *edges, size_t edges_len,
    size_t counts[SPOONTHICKET_COUNTS]);

/* The topology test of one mask of near intersections (bits 14 and 15 are passed over), with the threshold and the values at the fourteen
 * ends of the site's edges; a value that is not finite counts as missing. Every threshold is taken, also one that a build refuses: a value
 * is inside where it is below -inside, so none is for a NaN. Answers the case: 0 closed, 1 multihole, 2 flathole, 3 multisurface,
 * 4 simple, 5 not clustered: a method other than 1, and a mask with one of the fourteen bits; without any it is 4 for every method.
 * clusters gets a mask for each cluster, in order, and zeros behind them. visits gets how many edges the walks of the test took from
 * their frontiers, together: never more than 14; 0 where no walk was made (none of the fourteen bits, all of them, or a method other
 * than 1), the number of ones among the fourteen bits for case 3, and 14 for the others.
 */
size_t spoonthicket_topology(
    uint16_t mask, size_t method, double inside, const double ends[14],
    uint16_t clusters[14], size_t visits[1]);

/* How many edges the component walks over a mask take: the ones among its fourteen low bits. */
size_t spoonthicket_visits(uint16_t mask);

/* Sorts records of three words, ascending by all three. Words past the last whole record stay. */
void spoonthicket_sort(uint32_t *words, size_t words_len);

/* PLY files: PLY 1.0, binary little endian, three doubles x, y, z a vertex, a list of three ints with a uchar count a face, counts of at
 * most nine digits, no comments. Coordinates are 64-bit words, the bits of the doubles, so that a NaN keeps its payload on the way.
 *
 * What these functions answer. The lowest number that applies is given; a refusal stores nothing but the numbers, which are zeros.
 */
enum {
    SPOONTHICKET_PLY_HEADER = 9, /* readers: the file does not begin with a header of this kind */
    SPOONTHICKET_PLY_BODY = 10,  /* readers: a body too short or too long, a face of other than three, an index that is no vertex;
                                    writers: a list not in whole threes, a count over 999,999,999, an index that is no vertex */
    SPOONTHICKET_PLY_ROOM = 11   /* readers: words shorter than 3 a vertex, or triangles than 3 a face; writers: out shorter than the file */
};

/* How long the file of so many vertices and faces is: at most 188 + 24 a vertex + 13 a face. 0 where one count is over 999,999,999. */
size_t spoonthicket_ply_length(size_t vertices, size_t faces);

/* Writes the file of the words (three a vertex) and the triangles (three vertex numbers each) to the front of out; what lies behind it
 * stays as it was. written gets its length.
 */
size_t spoonthicket_ply_write(
    const uint64_t *words, size_t words_len,
    const uint32_t *triangles, size_t triangles_len,
    uint8_t *out, size_t out_len,
    size_t written[1]);

/* The same of doubles, as spoonthicket_build leaves them: lend the first 3 * counts[SPOONTHICKET_MADE] of its vertices and the first
 * 3 * counts[SPOONTHICKET_TRIANGLES] of its triangles. A mesh of the build is never answered 10. Every NaN is written as one.
 */
size_t spoonthicket_ply_mesh(
    const double *vertices, size_t vertices_len,
    const uint32_t *triangles, size_t triangles_len,
    uint8_t *out, size_t out_len,
    size_t written[1]);

/* The places of a reader's counts. */
enum {
    SPOONTHICKET_PLY_VERTICES,
    SPOONTHICKET_PLY_FACES,
    SPOONTHICKET_PLY_COUNTS
};

/* How many vertices and faces a file has, so that room can be lent to read it. Never answers 11. */
size_t spoonthicket_ply_sizes(const uint8_t *file, size_t file_len, size_t counts[SPOONTHICKET_PLY_COUNTS]);

/* Reads a file: its words to the front of words, its vertex numbers to the front of triangles; what lies behind them stays as it was. */
size_t spoonthicket_ply_read(
    const uint8_t *file, size_t file_len,
    uint64_t *words, size_t words_len,
    uint32_t *triangles, size_t triangles_len,
    size_t counts[SPOONTHICKET_PLY_COUNTS]);

/* What spoonthicket_volume answers. The lowest number that applies is given; the sum is then 0. */
enum {
    SPOONTHICKET_VOLUME_LISTS = 10, /* a list not in whole threes, over 357,492 triangles, or an index that is no vertex */
    SPOONTHICKET_VOLUME_SCALE = 12, /* a scale that is not above 0 and finite */
    SPOONTHICKET_VOLUME_CORNER = 13 /* a triangle's corner that is not within -10,000 to 10,000 on each axis, or has no whole number there */
};

/* Six times the volume that the triangles enclose, in whole units, signed and exact. Any mesh will do, another maker's too.
 *
 * A coordinate is the position times the scale, one product of doubles, rounded to the nearest whole number, a tie to the even one, less
 * the origin's number. six gets the sum of a . (b x c) over the triangles with the corners a, b and c, 0 on a refusal; nothing else is
 * stored. The sum is below 0 where the triangles run the other way. It does not depend on the order of the triangles, and of a closed
 * surface not on the origin, as long as both origins are accepted. An open one encloses nothing, and its sum alone means nothing.
 *
 * The origin takes every int64_t. A vertex that no triangle names is not looked at, so retired ones may lie anywhere.
 * Of a build lend the first 3 * counts[SPOONTHICKET_MADE] of its vertices and the first 3 * counts[SPOONTHICKET_TRIANGLES] of its
 * triangles; these are never answered 10.
 */
size_t spoonthicket_volume(
    const double *vertices, size_t vertices_len,
    const uint32_t *triangles, size_t triangles_len,
    double scale, const int64_t origin[3],
    int64_t six[1]);

#ifdef __cplusplus
}
#endif

#endif
