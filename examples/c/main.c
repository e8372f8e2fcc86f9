/* Reads a job on standard input and prints its report, as the report program does. */
#include <stdio.h>

#include "hoistgarlic.h"

enum { LISTED = HOISTGARLIC_MOST_LISTED, SITES = HOISTGARLIC_MOST_SITES };

/* one byte more than a job has at the most */
static uint8_t job[65537], letters[LISTED];
static double positions[LISTED][3], primitive[SITES][3], primitive_basis[3][3], listed_basis[3][3];
static int64_t points[LISTED][3];
static uint16_t mapping[LISTED], labels[LISTED], multiplicities[LISTED];
static int32_t elements[LISTED];
static int16_t factors[3];

int main(void) {
    size_t sites = 0, orbits = 0, n = fread(job, 1, sizeof job, stdin);
    size_t refusal = hoistgarlic_standardize(
        job, n, positions, LISTED, points, LISTED, mapping, LISTED, elements, LISTED, labels, LISTED, multiplicities,
        LISTED, letters, LISTED, primitive, SITES, primitive_basis, listed_basis, factors, &sites, &orbits);
    if (refusal != 0) return printf("refused %zu\n", refusal) < 0;
    printf("sites %zu orbits %zu\n", sites, orbits);
    for (size_t j = 0; j < sites; j++)
        printf("%zu %u %u %u %c\n", j, mapping[j], labels[j], multiplicities[j], letters[j]);
    return 0;
}
