/* The calls of Hoistgarlic's static library (`rt lib` in crates/hoistgarlic); what each promises stands in
 * crates/hoistgarlic/src/lib.rt. Each returns 0 for an accepted answer, or the number of the refusal, 1 to 13; after a
 * refusal everything that was lent to be written is 0, and so is what lies behind an answer.
 *
 * Pointers are aligned and not null, and what is lent to be written holds some value and overlaps nothing else; beyond
 * that the calls take any argument. A basis is three rows of three, its vectors the columns; a position is three
 * fractions, a text 64 bytes of coordinates, padded with spaces. */
#ifndef HOISTGARLIC_H
#define HOISTGARLIC_H

#include <stddef.h>
#include <stdint.h>

/* With as much room no answer is refused with 10: listed sites, and primitive sites. */
#define HOISTGARLIC_MOST_LISTED 1024
#define HOISTGARLIC_MOST_SITES 256

/* The place of a match that misses. */
#define HOISTGARLIC_MISSES 125

#ifdef __cplusplus
extern "C" {
#endif

/* The whole call on a job's bytes; `sites` and `orbits` are the header's counts. */
size_t hoistgarlic_standardize(
    const uint8_t *bytes, size_t bytes_len,
    double (*positions)[3], size_t positions_len,
    int64_t (*points)[3], size_t points_len,
    uint16_t *mapping, size_t mapping_len,
    int32_t *elements, size_t elements_len,
    uint16_t *labels, size_t labels_len,
    uint16_t *multiplicities, size_t multiplicities_len,
    uint8_t *letters, size_t letters_len,
    double (*primitive)[3], size_t primitive_len,
    double primitive_basis[3][3], double listed_basis[3][3], int16_t factors[3],
    size_t *sites, size_t *orbits);

/* The labels of listed sites: `count` permutations of `sites` primitive sites, image by image, and `mapping`, the
 * primitive site of each listed site. */
size_t hoistgarlic_label(
    size_t sites, size_t count,
    const uint8_t *images, size_t images_len,
    const uint16_t *mapping, size_t mapping_len,
    uint16_t *labels, size_t labels_len,
    uint16_t *multiplicities, size_t multiplicities_len);

/* Their letters: `candidates` has the multiplicities, `candidate_letters` the letters, `texts` the coordinates. */
size_t hoistgarlic_letter(
    size_t sites, size_t count,
    const uint8_t *images, size_t images_len,
    const uint16_t *mapping, size_t mapping_len,
    const double (*positions)[3], size_t positions_len,
    const double basis[3][3],
    const uint16_t *candidates, size_t candidates_len,
    const uint8_t *candidate_letters, size_t candidate_letters_len,
    const uint8_t (*texts)[64], size_t texts_len,
    double symprec,
    uint16_t *labels, size_t labels_len,
    uint16_t *multiplicities, size_t multiplicities_len,
    uint8_t *letters, size_t letters_len);

/* The match of one position with one candidate: the offset's place, or HOISTGARLIC_MISSES, and the distance. */
size_t hoistgarlic_match(
    const double basis[3][3], const double position[3], const uint8_t text[64], double symprec,
    size_t *place, double *distance);

#ifdef __cplusplus
}
#endif

#endif
