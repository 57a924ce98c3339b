/* Chance: each scenario has its own row of numbers, from the seed and the
 * scenario's number, so that it can be drawn again alone. */
#include "comparison.h"

static uint64_t chance;

static uint64_t mixed(uint64_t x)
{
    x = (x ^ x >> 30) * 0xbf58476d1ce4e5b9u;
    x = (x ^ x >> 27) * 0x94d049bb133111ebu;
    return x ^ x >> 31;
}

void draw_from(uint64_t seed, uint64_t number)
{
    chance = mixed(mixed(seed + 0x9e3779b97f4a7c15u) ^ number);
}

/* From 0 up to below. */
uint32_t draw(uint32_t below)
{
    chance += 0x9e3779b97f4a7c15u;
    return (uint32_t)((mixed(chance) >> 32) * below >> 32);
}

bool one_in(uint32_t times)
{
    return draw(times) == 0;
}

/* A value or number; the ends of the range come often. */
int32_t draw_number(void)
{
    static const int32_t numbers[] = {
        0, 1, -1, 2, -2, 7, -7, 40, INT32_MAX, INT32_MIN, INT32_MIN + 1};
    uint32_t count = COUNT(numbers), i = draw(count + 2);
    uint32_t any = draw(0xffffffffu);
    if (i < count)
        return numbers[i];
    return any > INT32_MAX ? -(int32_t)(any - INT32_MAX) : (int32_t)any;
}
