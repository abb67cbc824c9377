/* Arguments of the calls: plain ones to be filled in, and random ones. */
#include "calls.h"

#include <string.h>

uint8_t letters_room[LENT_ROOM];
uint8_t kinds_room[KINDS_ROOM];
coder_file second_room;

size_t smaller_of(size_t one, size_t other)
{
    return one < other ? one : other;
}

static arguments plain_but_second(enum call call, const coder_file *f)
{
    arguments a;
    size_t k;

    memset(&a, 0, sizeof a);
    a.call = call;
    for (k = 0; k < 3; k++)
        a.counts[k] = f->bytes[3 + k];
    a.file = f->bytes;
    a.file_len = f->len;
    a.kinds = kinds_room;
    a.kinds_len = f->bytes[4];
    memset(kinds_room, 0, sizeof kinds_room);
    a.bytes = letters_room;
    a.result_len = RESULT_BYTES;
    return a;
}

arguments plain(enum call call, const coder_file *f)
{
    arguments a = plain_but_second(call, f);

    if (call == CALL_JOIN) {
        make_repeater(&second_room, f->bytes[5] ? smaller_of(f->bytes[5], MOST_INPUTS) : 1);
        a.second = second_room.bytes;
        a.second_len = second_room.len;
    }
    return a;
}

arguments join_of(const coder_file *first, const coder_file *second)
{
    arguments a = plain_but_second(CALL_JOIN, first);

    a.second = second->bytes;
    a.second_len = second->len;
    a.lent_len = 6 + 2u * first->bytes[3] * second->bytes[3] * first->bytes[4];
    return a;
}

size_t power(size_t base, size_t n)
{
    size_t value = 1;

    for (; n > 0; n--)
        value *= base;
    return value;
}

void put_digits(uint8_t *bytes, size_t n, size_t base, size_t number)
{
    size_t k;

    for (k = 0; k < n; k++, number /= base)
        bytes[k] = (uint8_t)(number % base);
}

void random_letters(size_t n, size_t limit)
{
    size_t k;

    for (k = 0; k < n; k++)
        letters_room[k] = (uint8_t)random_below(limit);
}

void random_kinds(size_t n)
{
    size_t many = 1 + random_below(n), of[MOST_INPUTS], k;

    for (k = 0; k < many; k++)
        of[k] = random_below(n);
    for (k = 0; k < n; k++)
        kinds_room[k] = (uint8_t)of[random_below(many)];
}

size_t random_settle(void)
{
    switch (random_below(8)) {
    case 0:
        return 0;
    case 1:
        return 15;
    case 2:
        return MOST_SETTLE;
    case 3:
        return random_below(MOST_SETTLE + 1);
    default:
        return 1 + random_below(4);
    }
}

/* Received letters: those of a run, those of a run with one changed, or any. */
static void random_received(const coder *c, size_t n)
{
    static uint8_t input[LENT_ROOM];
    size_t kind = random_below(4);

    random_letters(n, kind == 0 ? c->outputs : c->inputs);
    if (kind == 0)
        return;
    memcpy(input, letters_room, n);
    follow_run(c, random_below(c->states), input, n, letters_room);
    if (kind == 1 && n > 0)
        letters_room[random_below(n)] = (uint8_t)random_below(c->outputs);
}

/* Mostly short windows, at times up to the largest side. */
static void random_sides(arguments *a)
{
    size_t most = 4;

    if (random_below(32) == 0)
        most = random_below(8) == 0 ? MOST_SIDE + 1 : 12;
    a->before = random_below(most);
    a->after = random_below(most);
    if (most > 12 && random_below(4) == 0)
        a->before = MOST_SIDE;
    if (most > 12 && random_below(4) == 0)
        a->after = MOST_SIDE;
}

/* Sides for which the table has at most so many bytes, and those bytes. */
static size_t random_table_sides(arguments *a, size_t outputs, size_t most)
{
    size_t letters = 1;

    while (power(outputs, letters + 1) <= most && letters < 20 && random_below(4) > 0)
        letters++;
    a->before = random_below(letters);
    a->after = letters - 1 - a->before;
    return power(outputs, letters);
}

/* The pair found with each loop written one to three times; some of the turns count as lead-in and
   lead-out. */
static void unroll_pair(arguments *a, size_t *n)
{
    const pair *p = &found->pair;
    size_t back = 1 + random_below(3), forward = 1 + random_below(3), k;
    size_t tail = 2 * (p->back_loop + p->lead_in + 1 + p->lead_out);
    size_t middle = tail - 2 * p->back_loop;
    uint8_t *to = letters_room;

    for (k = 0; k < back; k++, to += 2 * p->back_loop)
        memcpy(to, found->bytes, 2 * p->back_loop);
    memcpy(to, found->bytes + 2 * p->back_loop, middle);
    to += middle;
    for (k = 0; k < forward; k++, to += 2 * p->forward_loop)
        memcpy(to, found->bytes + tail, 2 * p->forward_loop);
    *n = (size_t)(to - letters_room);
    a->pair = *p;
    k = random_below(back);
    a->pair.back_loop = (back - k) * p->back_loop;
    a->pair.lead_in += k * p->back_loop;
    k = random_below(forward);
    a->pair.forward_loop = (forward - k) * p->forward_loop;
    a->pair.lead_out += k * p->forward_loop;
}

static void swap_numbers(size_t *one, size_t *other)
{
    size_t kept = *one;

    *one = *other;
    *other = kept;
}

/* Small changes that most often make a pair invalid, its letters still as many. */
static void bend_pair(arguments *a, size_t n, const coder *c)
{
    pair *p = &a->pair;

    switch (random_below(7)) {
    case 0:
        letters_room[random_below(n)] = (uint8_t)random_below(c->inputs);
        break;
    case 1:
        p->lead_in++;
        p->back_loop--;
        break;
    case 2:
        p->lead_out++;
        p->forward_loop--;
        break;
    case 3:
        swap_numbers(&p->lead_in, &p->lead_out);
        break;
    case 4:
        swap_numbers(&p->s, &p->t);
        break;
    case 5:
        p->s = random_below(c->states);
        break;
    default:
        p->lead_in += p->back_loop;
        p->back_loop = 0;
    }
}

static void random_pair(arguments *a, const coder *c)
{
    size_t n;

    if (found->known && found->is_pair && random_below(4) > 0) {
        unroll_pair(a, &n);
        if (random_below(2) == 0)
            bend_pair(a, n, c);
    } else {
        a->pair.s = random_below(c->states);
        a->pair.t = random_below(2) ? a->pair.s : random_below(c->states);
        a->pair.back_loop = random_below(4);
        a->pair.lead_in = random_below(3);
        a->pair.lead_out = random_below(3);
        a->pair.forward_loop = random_below(4);
        n = 2 * pair_letters(&a->pair);
        random_letters(n, c->inputs);
    }
    a->bytes_len = n;
}

/* Few letters or many, at least one. */
static size_t random_alphabet(size_t most)
{
    return 1 + random_below(random_below(2) ? smaller_of(most, 4) : most);
}

void random_first(coder_file *f, const coder_file *second)
{
    size_t letters = second->bytes[4], states = 1 + random_below(MOST_STATES / second->bytes[3]);
    size_t inputs = random_alphabet(MOST_INPUTS);

    while (states * inputs < letters)
        inputs++;
    make_random_with_all(f, states, inputs, letters);
}

void random_second(coder_file *f, const coder_file *first)
{
    size_t states = 1 + random_below(MOST_STATES / first->bytes[3]), inputs = first->bytes[5];

    make_random_with_all(f, states, inputs,
                         random_alphabet(smaller_of(states * inputs, MOST_OUTPUTS)));
}

/* The coder after a random one, or ahead of one; at times the coder with itself, or ahead of one that
   may not fit. */
static arguments random_join(const coder_file *f)
{
    static coder_file first;
    arguments a;

    if (random_below(16) == 0)
        return join_of(f, f);
    if (f->bytes[5] > MOST_INPUTS || random_below(2) == 0) {
        random_first(&first, f);
        second_room = *f;
        a = join_of(&first, &second_room);
    } else {
        random_second(&second_room, f);
        a = join_of(f, &second_room);
    }
    if (random_below(8) == 0) {
        make_random(&second_room, 1 + random_below(5), 1 + random_below(4), 1 + random_below(6));
        a.second_len = second_room.len;
    }
    return a;
}

arguments random_arguments(enum call call, const coder_file *f)
{
    arguments a = call == CALL_JOIN ? random_join(f) : plain(call, f);
    coder c = coder_of_file(f->bytes);
    size_t slack = random_below(6);

    a.result_len += random_below(3) == 0 ? random_below(40) : 0;
    a.settle = random_settle();
    random_kinds(c.inputs);
    switch (call) {
    case CALL_RUN:
        a.start = random_below(c.states);
        a.bytes_len = random_below(random_below(8) == 0 ? 600 : 24);
        random_letters(a.bytes_len, c.inputs);
        a.lent_len = a.bytes_len + slack;
        break;
    case CALL_SEARCH:
        a.lent_len = SEARCH_BYTES + slack;
        break;
    case CALL_DECODE:
        random_sides(&a);
        a.bytes_len = random_below(a.before + a.after + 16);
        random_received(&c, a.bytes_len);
        a.lent_len = slack;
        if (a.bytes_len > a.before + a.after)
            a.lent_len += a.bytes_len - a.before - a.after;
        break;
    case CALL_CHECK:
        random_pair(&a, &c);
        break;
    case CALL_SEARCH_KINDS:
        break;
    case CALL_WINDOW:
    case CALL_WINDOW_KINDS:
        random_sides(&a);
        a.bytes_len = a.before + 1 + a.after;
        random_received(&c, a.bytes_len);
        break;
    case CALL_WRITE:
        a.bytes_len = f->len - 6;
        memcpy(letters_room, f->bytes + 6, a.bytes_len);
        a.lent_len = f->len + slack;
        break;
    case CALL_JOIN:
        a.lent_len += slack;
        break;
    default:
        a.lent_len = slack + random_table_sides(&a, c.outputs, random_below(16) ? 300 : 5000);
    }
    return a;
}
