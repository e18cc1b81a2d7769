/* Chance that is the same on every machine: the splitmix64 sequence and a
 * few ways to draw from it. Two draws stand in one expression or argument
 * list only where the language orders them: compilers differ otherwise. */
#ifndef CHANCE_H
#define CHANCE_H

#include <stdbool.h>
#include <stdint.h>

struct chance {
    uint64_t state;
};

static inline uint64_t draw(struct chance *chance)
{
    uint64_t mixed = chance->state += UINT64_C(0x9e3779b97f4a7c15);
    mixed = (mixed ^ (mixed >> 30)) * UINT64_C(0xbf58476d1ce4e5b9);
    mixed = (mixed ^ (mixed >> 27)) * UINT64_C(0x94d049bb133111eb);
    return mixed ^ (mixed >> 31);
}

/* A number below the limit, which is at least 1. The high bits are used;
 * the slight unevenness does not matter here. */
static inline uint32_t draw_below(struct chance *chance, uint32_t limit)
{
    return (uint32_t)((draw(chance) >> 32) * limit >> 32);
}

static inline uint32_t draw_between(struct chance *chance, uint32_t least, uint32_t greatest)
{
    return least + draw_below(chance, greatest - least + 1);
}

static inline bool draw_percent(struct chance *chance, uint32_t percent)
{
    return draw_below(chance, 100) < percent;
}

#endif
