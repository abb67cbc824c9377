/* The enumerator's coders in a row (document 02, 11/13): what the first coder puts out is what the second
   one runs on. The joined coder's table is made of runs of one letter, from every state of the first
   with every state of the second. */
#include "enumerator.h"

size_t joined_state(const coder *second, size_t s, size_t t)
{
    return s * second->states + t;
}

size_t follow_row(const coder *first, const coder *second, size_t s, size_t t, const uint8_t *input,
                  size_t n, uint8_t *output)
{
    uint8_t between[1024];
    size_t done, count;

    for (done = 0; done < n; done += count) {
        count = n - done < sizeof between ? n - done : sizeof between;
        s = follow_run(first, s, input + done, count, between);
        t = follow_run(second, t, between, count, output + done);
    }
    return joined_state(second, s, t);
}

size_t put_joined(const coder *first, const coder *second, uint8_t *file)
{
    const size_t counts[3] = {first->states * second->states, first->inputs, second->outputs};
    uint8_t entries[2 * MOST_STATES * MOST_INPUTS], letter, output;
    size_t s, t, x;

    for (s = 0; s < first->states; s++)
        for (t = 0; t < second->states; t++)
            for (x = 0; x < first->inputs; x++) {
                uint8_t *entry = entries + 2 * (joined_state(second, s, t) * first->inputs + x);

                letter = (uint8_t)x;
                entry[0] = (uint8_t)follow_row(first, second, s, t, &letter, 1, &output);
                entry[1] = output;
            }
    return put_file(counts, entries, 2 * counts[0] * counts[1], file);
}
