/* Random programs and random fitting marks. */
#ifndef INDEPENDENT_GENERATE_H
#define INDEPENDENT_GENERATE_H

#include "internal.h"

struct chance {
    uint64_t state;
};

uint32_t draw(struct chance *c, uint32_t below);

/* Writes a random program that the check accepts; returns its records. */
size_t draw_program(struct chance *c, uint8_t *table, size_t most_records);

/* Writes random marks that fit. */
void draw_marks(struct chance *c, const struct program *p, uint8_t *marks);

#endif
