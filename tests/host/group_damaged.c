/* Damaged arguments: random ones with faults in the files, the numbers, the letters or the lengths
   of the buffers. Most are refused; each number in reach of a call has to be met. */
#include "calls.h"
#include "groups.h"

#include <string.h>

/* The file of the call, the first of a join; and a join's second file. */
static uint8_t file_room[600], second_file[600];

/* A number that is not below the limit, though its lowest byte or word may be. */
static size_t number_from(size_t limit)
{
    switch (random_below(8)) {
    case 0:
        return limit + 1;
    case 1:
        return limit + random_below(256);
    case 2:
        return 256 + random_below(limit);
    case 3:
        return ((size_t)1 << 32) + random_below(limit);
    case 4:
        return SIZE_MAX - random_below(300);
    case 5:
        return ((size_t)1 << 63) + random_below(limit);
    default:
        return limit;
    }
}

static uint8_t byte_from(size_t limit)
{
    return (uint8_t)(limit + random_below(256 - limit));
}

static void set_count(uint8_t *file, size_t count)
{
    file[1] = (uint8_t)(count / 256);
    file[2] = (uint8_t)(count % 256);
}

static void damage_counts(uint8_t *file)
{
    static const uint8_t most[3] = {MOST_STATES, MOST_INPUTS, MOST_OUTPUTS};
    size_t k = random_below(3);

    switch (random_below(4)) {
    case 0:
        file[3 + k] = 0;
        break;
    case 1:
        file[3 + k] = (uint8_t)(most[k] + 1);
        break;
    case 2:
        file[3 + k] = byte_from((size_t)most[k] + 1);
        break;
    default:
        file[3 + k] = (uint8_t)(1 + random_below(most[k]));
    }
}

/* Cuts or lengthens the file a little. */
static void damage_length(size_t *len)
{
    size_t k = 1 + random_below(8);

    if (random_below(2) && *len > k)
        *len -= k;
    else
        *len += k;
}

static size_t random_entry(size_t len)
{
    return len > 7 ? random_below((len - 6) / 2) : 0;
}

static void damage_entry(uint8_t *file, size_t len, size_t byte, size_t limit)
{
    file[6 + 2 * random_entry(len) + byte] = byte_from(limit);
}

/* A letter more than there are; or an output letter that becomes another one, and may have been the
   only one of its kind. */
static void damage_alphabet(uint8_t *file, size_t len)
{
    size_t outputs = file[5] ? file[5] : 1;

    if (random_below(2))
        file[5]++;
    else
        file[7 + 2 * random_entry(len)] = (uint8_t)random_below(outputs);
}

static void damage_file(uint8_t *file, size_t *len)
{
    switch (random_below(9)) {
    case 0:
        *len = random_below(7);
        break;
    case 1:
        file[0] = (uint8_t)random_below(256);
        break;
    case 2:
        file[1 + random_below(2)] ^= (uint8_t)(1 << random_below(8));
        break;
    case 3:
        damage_length(len);
        break;
    case 4:
        damage_counts(file);
        break;
    case 5:
        damage_length(len);
        set_count(file, *len >= 3 ? *len - 3 : 0);
        break;
    case 6:
        damage_entry(file, *len, 0, file[3]);
        break;
    case 7:
        damage_alphabet(file, *len);
        break;
    default:
        damage_entry(file, *len, 1, file[5]);
    }
}

/* A count that the writer is given: 0, above its limit, or one more than it was. */
static void damage_given_count(arguments *a, size_t k)
{
    static const size_t most[3] = {MOST_STATES, MOST_INPUTS, MOST_OUTPUTS};

    switch (random_below(4)) {
    case 0:
        a->counts[k] = 0;
        break;
    case 1:
        a->counts[k]++;
        break;
    default:
        a->counts[k] = number_from(most[k] + 1);
    }
}

/* A kind too high, or a list that has not a kind for each letter. */
static void damage_kinds(arguments *a)
{
    size_t k = 1 + random_below(3);

    if (random_below(2) && a->kinds_len > 0)
        kinds_room[random_below(a->kinds_len)] = byte_from(file_room[4]);
    else if (random_below(2) && a->kinds_len >= k)
        a->kinds_len -= k;
    else
        a->kinds_len += k;
}

/* Another second file: its inputs need not be the first one's outputs, and its states may be too
   many. */
static void damage_row(arguments *a)
{
    size_t inputs = file_room[5];
    coder_file f;

    if (inputs < 1 || inputs > MOST_INPUTS || random_below(2))
        inputs = 1 + random_below(MOST_INPUTS);
    make_random(&f, 1 + random_below(MOST_STATES), inputs, 1 + random_below(8));
    memcpy(second_file, f.bytes, f.len);
    a->second_len = f.len;
}

/* A number of the call: a start state, a side, a settle count, a length, a count; or its kinds; or
   the counts of a second file. */
static void damage_number(arguments *a)
{
    size_t *const lengths[4] = {&a->pair.back_loop, &a->pair.lead_in, &a->pair.lead_out,
                                &a->pair.forward_loop};
    size_t *const sides[2] = {&a->before, &a->after};
    size_t states = file_room[3] ? file_room[3] : 1, k = random_below(4);

    if (a->call == CALL_RUN) {
        a->start = number_from(states);
    } else if (a->call == CALL_WRITE) {
        damage_given_count(a, k % 3);
    } else if (a->call == CALL_JOIN) {
        damage_row(a);
    } else if (a->call == CALL_CHECK) {
        if (random_below(2))
            *(k % 2 ? &a->pair.s : &a->pair.t) = number_from(states);
        else
            *lengths[k] = random_below(2) ? number_from(256)
                                          : *lengths[k] + 1 - 2 * random_below(2);
    } else if (a->call == CALL_SEARCH_KINDS
               || (a->call == CALL_WINDOW_KINDS && random_below(2))) {
        damage_kinds(a);
    } else if (a->call == CALL_SEARCH || random_below(3) == 0) {
        a->settle = number_from(MOST_SETTLE + 1);
    } else {
        *sides[k % 2] = k < 2 ? number_from(MOST_SIDE + 1) : random_below(MOST_SIDE + 1);
    }
}

static void damage_letters(const arguments *a)
{
    size_t limit = a->call == CALL_RUN || a->call == CALL_CHECK ? file_room[4] : file_room[5];
    size_t k = a->bytes_len > 0 ? random_below(a->bytes_len) : 0;

    if (a->call == CALL_WRITE && k % 2 == 0)
        limit = file_room[3];
    if (a->bytes_len > 0)
        letters_room[k] = byte_from(limit);
}

static void damage_letter_count(arguments *a)
{
    size_t k = 1 + random_below(3);

    if (random_below(2) && a->bytes_len >= k) {
        a->bytes_len -= k;
    } else {
        memset(letters_room + a->bytes_len, 0, k);
        a->bytes_len += k;
    }
}

static void damage_buffer(arguments *a)
{
    if (random_below(2) && a->lent_len > 0)
        a->lent_len -= 1 + random_below(a->lent_len < 9 ? a->lent_len : 9);
    else
        a->result_len = random_below(2) ? RESULT_BYTES - 1 : random_below(RESULT_BYTES);
}

static void damage(arguments *a)
{
    switch (random_below(6)) {
    case 0:
        damage_number(a);
        break;
    case 1:
        damage_letters(a);
        break;
    case 2:
        damage_letter_count(a);
        break;
    case 3:
        damage_buffer(a);
        break;
    default:
        if (a->call == CALL_JOIN && random_below(2))
            damage_file(second_file, &a->second_len);
        else
            damage_file(file_room, &a->file_len);
    }
}

/* Every number in reach of a call was wanted, and no other; digit k stands for number k. */
static void check_reach(void)
{
    static const char *const reach[CALLS] = {
        [CALL_RUN]    = "111111110001100100", [CALL_SEARCH] = "111111100001001100",
        [CALL_DECODE] = "111111101001011100", [CALL_CHECK]  = "111111110101100100",
        [CALL_WINDOW] = "111111101101011100", [CALL_TABLE]  = "111111101011001100",
        [CALL_WRITE]  = "100011100001000100", [CALL_JOIN]   = "111111100001000101",
        [CALL_SEARCH_KINDS] = "111111100001000110", [CALL_WINDOW_KINDS] = "111111101101010110"
    };
    int call, k;

    show_call(NULL);
    for (call = 0; call < CALLS; call++)
        for (k = 0; k < NUMBERS; k++)
            if ((now.wanted[call][k] > 0) != (reach[call][k] == '1'))
                differ("%s: number %d met %lu times", call_name((enum call)call), k,
                       now.wanted[call][k]);
}

/* Copies of the files, to be damaged; the letters or entries are copies already. */
static void own_files(arguments *a)
{
    memset(file_room, 0, sizeof file_room);
    memcpy(file_room, a->file, a->file_len);
    a->file = file_room;
    memset(second_file, 0, sizeof second_file);
    if (a->second_len == 0)
        return;
    memcpy(second_file, a->second, a->second_len);
    a->second = second_file;
}

void group_damaged(const char *name, size_t faults, size_t count)
{
    coder_file f;
    arguments a;
    size_t k, d;

    begin_group(name);
    try_verdicts(0, 0, 0, 0);
    for (k = 0; k < count; k++) {
        if (k % (2 * CALLS) == 0) {
            int large = k % (4 * CALLS) != 0;

            make_random(&f, 1 + random_below(large ? 16 : 4), 1 + random_below(large ? 16 : 3),
                        1 + random_below(large ? 64 : 3));
            search(&f, random_settle());
        }
        a = random_arguments((enum call)(k % CALLS), &f);
        own_files(&a);
        for (d = 0; d < faults; d++)
            damage(&a);
        compare(&a);
    }
    check_reach();
    end_group();
}
