/* The registers that a frame is about. */
#include "frame.h"

enum { VALUE_OF_WRITE = 4, VALUES_OF_WRITE_SEVERAL = 7 };

struct run run_of(const uint8_t *frame)
{
    struct run run = { word_at(frame, START_WORD), frame[FUNCTION_BYTE] == WRITE ? 1 : word_at(frame, COUNT_WORD) };
    return run;
}

struct meter with_all_stored(const struct meter *before, const uint8_t *frame)
{
    struct meter sent = *before;
    struct run run = run_of(frame);
    const uint8_t *values = frame + (frame[FUNCTION_BYTE] == WRITE ? VALUE_OF_WRITE : VALUES_OF_WRITE_SEVERAL);
    for (unsigned k = 0; k < run.count; k++)
        store_word(sent.bank, place_of(before, run.start + k), word_at(values, k));
    return sent;
}
