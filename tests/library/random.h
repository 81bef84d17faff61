/* Chance, which depends on a state that each program begins with its seed. */
#ifndef RANDOM_H
#define RANDOM_H

static unsigned long long state;

static unsigned chance(unsigned below)
{
    state ^= state << 13;
    state ^= state >> 7;
    state ^= state << 17;
    return (unsigned)(state >> 20) % below;
}

#endif
