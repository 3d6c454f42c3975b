// What a connection knows of the semaphores that it has changed, see semaphore_values.h.
#include "semaphore_values.h"

// Where a semaphore is, or past those that are known.
static unsigned place_of(const struct known_values *known, uint32_t semid, uint16_t number)
{
    unsigned i = 0, past = known->count < KNOWN_VALUES ? known->count : KNOWN_VALUES;
    while (i < past && (known->of[i].semid != semid || known->of[i].number != number))
        i++;
    return i;
}

void note_value(struct known_values *known, uint32_t semid, uint16_t number, uint16_t least)
{
    unsigned place = place_of(known, semid, number);
    if (place >= known->count)
        known->count = place + 1;
    if (place < KNOWN_VALUES)
        known->of[place] = (struct known_value){semid, number, least};
}

uint32_t least_value(const struct known_values *known, uint32_t semid, uint16_t number)
{
    unsigned place = place_of(known, semid, number);
    if (place < known->count && place < KNOWN_VALUES)
        return known->of[place].least;
    return known->count > KNOWN_VALUES ? 0 : UINT32_MAX;
}
