/* Strings whose bytes are known before and after their damage, with the reason and with no help of the
   enumerator. */
#include "damaged_strings.h"

#include "calls.h"
#include "case_texts.h"

#include <string.h>

/* The string that was sent and the one that is received, letter below letter: a - above stands for a
   letter added, a - below for one lost. The bytes of both, ! for none and ? for several. Below the bytes
   of the received string, which byte of the sent one each has to be, where its window was kept. Of the
   others, whether it is the byte that its letter had in the sent string, = or x; - where the letter had
   none. How many of the kept ones the sentence for such damage names. All runs start in state 0. */
typedef struct row {
    size_t settle;
    const char *input, *sent, *received, *sent_bytes, *bytes, *signs;
    size_t by_sentence;
} row;

/* ---- one row ---- */

static uint8_t byte_of(char sign)
{
    if (sign == '!')
        return BYTE_NONE;
    return sign == '?' ? BYTE_SEVERAL : (uint8_t)(sign - '0');
}

static size_t put_text(uint8_t *bytes, const char *text)
{
    size_t k;

    for (k = 0; text[k]; k++)
        bytes[k] = byte_of(text[k]);
    return k;
}

static void list_changes(damage *d, const row *r)
{
    size_t k;

    d->count = 0;
    known_value("the number of letters below letters", strlen(r->received), strlen(r->sent));
    for (k = 0; r->sent[k]; k++) {
        uint8_t sent = byte_of(r->sent[k]), received = byte_of(r->received[k]);

        if (r->sent[k] == '-')
            add(d, received);
        else if (r->received[k] == '-')
            lose(d, sent);
        else if (sent == received)
            keep(d, sent);
        else
            alter(d, sent, received);
    }
}

/* The run has written the letters that were sent. */
static void known_run(const coded *s)
{
    arguments a = plain(CALL_RUN, s->file);
    reply got;

    a.bytes = s->input;
    a.bytes_len = a.lent_len = s->n;
    got = compare(&a);
    known_value("the letters of the run", (size_t)memcmp(got.lent, s->letters, s->n), 0);
}

static void known_string(const coded *s, const uint8_t *letters, size_t n, const uint8_t *bytes,
                         size_t count)
{
    arguments a = string_call(s, letters, n);

    compare_known(&a, bytes, count);
    text_string(&a, bytes, count);
}

/* What the sign of a place says, by the bytes of the row. */
static char sign_of(const coded *s, const origins *o, const size_t *from, size_t k, uint8_t byte)
{
    size_t sent = byte_of_letter(o, &s->window, s->count, k);

    if (from[k] != NO_BYTE)
        return (char)('0' + from[k]);
    if (sent == NO_BYTE)
        return '-';
    return byte == s->bytes[sent] ? '=' : 'x';
}

static void known_places(const coded *s, const damage *d, const row *r, const uint8_t *bytes)
{
    static size_t from[MOST_STRING];
    static origins o;
    size_t k, by_sentence = shifts(d, 0, d->count) > 0 ? places_after_last(d, &s->window, from)
                                                       : places_unaltered(d, &s->window, from);

    known_value("the places by the sentence", by_sentence, r->by_sentence);
    list_origins(d, &o);
    places_kept(&o, &s->window, from);
    for (k = 0; r->signs[k]; k++)
        known_value("the sign of a place", (size_t)sign_of(s, &o, from, k, bytes[k]),
                    (size_t)r->signs[k]);
    known_value("the bytes of the received string", k, decoded_bytes(&s->window, o.n));
}

static void known_row(const coder_file *f, const window *w, int works, const row *r)
{
    static uint8_t received[MOST_STRING], bytes[MOST_STRING];
    static damage d;
    static coded s;
    size_t n, count;

    list_changes(&d, r);
    s.file = f;
    s.window = *w;
    s.window.settle = r->settle;
    s.works = works;
    put_text(s.input, r->input);
    s.n = sent_letters(&d, s.letters);
    s.count = put_text(s.bytes, r->sent_bytes);
    n = received_letters(&d, received);
    count = put_text(bytes, r->bytes);
    known_run(&s);
    known_places(&s, &d, r, bytes);
    known_string(&s, s.letters, s.n, s.bytes, s.count);
    known_string(&s, received, n, bytes, count);
    hold_places(&s, &d, bytes, count);
}

static void known_rows(size_t coder, size_t before, size_t after, int works, const row *rows,
                       size_t count)
{
    const window w = {before, after, 0};
    example e;
    size_t k;

    make_example(coder, &e);
    text_file(e.file.bytes, e.file.len);
    for (k = 0; k < count; k++)
        known_row(&e.file, &w, works, &rows[k]);
}

enum { A = 0, D = 3, G = 6 };

/* ---- coder A ---- */

/* The output is the sum of all letters so far, modulo 2; so a letter is the sum of the output at its
   place and the one before. Any two letters are given by some run, so there is no none. */
static void rows_of_a(void)
{
    static const row rows[] = {
        /* Both windows that hold the altered letter have another sum. */
        {0, "10110010", "11011100",
                        "11001100", "0110010", "0101010",
                                               "01xx456", 5},
        /* The window of two altered letters has the same sum, the windows with one of them not. */
        {0, "10110010", "11011100",
                        "11101100", "0110010", "0011010",
                                               "0x=x456", 4},
        /* The first letter, and the last. */
        {0, "10110010", "11011100",
                        "01011100", "0110010", "1110010",
                                               "x123456", 6},
        {0, "10110010", "11011100",
                        "11011101", "0110010", "0110011",
                                               "012345x", 6},
        {0, "10110010", "11011100",
                        "00100011", "0110010", "0110010",
                                               "=======", 0},
        /* A letter 1 lost: its sum is missing where the ends meet. Ahead of that place nothing is
           shifted, and no sentence speaks of it. */
        {0, "10110010", "11011100",
                        "110-1100", "0110010", "011010",
                                               "01x456", 3},
        {2, "10110010", "11011100",
                        "110-1100", "0110010", "011010",
                                               "01x456", 1},
        {3, "10110010", "11011100",
                        "110-1100", "0110010", "011010",
                                               "01x456", 0},
        /* A letter added: both windows that hold it. */
        {0, "10110010", "1101-1100",
                        "110101100", "0110010", "01111010",
                                                "012-x456", 3},
        /* At the front, at the end. */
        {0, "10110010", "11011100",
                        "---11100", "0110010", "0010",
                                               "3456", 4},
        {0, "10110010", "11011100",
                        "110111--", "0110010", "01100",
                                               "01234", 0},
        {0, "10110010", "--11011100",
                        "0111011100", "0110010", "100110010",
                                                 "--0123456", 7},
        {0, "10110010", "11011100---",
                        "11011100101", "0110010", "0110010111",
                                                  "0123456---", 0},
        /* Two lost, and one altered after them. */
        {0, "10110010", "11011100",
                        "1--11000", "0110010", "00100",
                                               "x3xx6", 2},
        /* One lost, three added, one altered. */
        {0, "10110010", "1101---1100",
                        "1-010101110", "0110010", "111111001",
                                                  "=2---x4xx", 1},
        /* One left, which is no window; two, which are one; none; others in their place. */
        {0, "10110010", "11011100",
                        "-------0", "0110010", "", "", 0},
        {0, "10110010", "11011100",
                        "---1---0", "0110010", "1",
                                               "x", 0},
        {0, "10110010", "11011100",
                        "------00", "0110010", "0",
                                               "6", 1},
        {0, "10110010", "11011100",
                        "--------", "0110010", "", "", 0},
        {0, "10110010", "11011100---",
                        "--------010", "0110010", "11",
                                                  "--", 0},
        /* A string that is no window and becomes one, or stays none; an empty one. */
        {0, "1", "1-",
                 "10", "", "1",
                           "-", 0},
        {0, "1", "-1--",
                 "0-00", "", "00",
                             "--", 0},
        {0, "1", "1",
                 "0", "", "", "", 0},
        {0, "", "---",
                "011", "", "10",
                           "--", 0},
        {0, "", "-",
                "0", "", "", "", 0}
    };

    known_rows(A, 1, 0, 1, rows, sizeof rows / sizeof *rows);
}

/* Four letters, of which the second and the third tell the present one, the third. */
static void rows_of_a_with_4_letters(void)
{
    static const row rows[] = {
        {0, "10110010", "11011100",
                        "11001100", "11001", "10101",
                                             "=xx=4", 1},
        /* Three windows straddle the place where the ends meet, and the one in the middle differs from
           that of its letter; the first after them is the same again. */
        {0, "10110010", "11011100",
                        "110-1100", "11001", "1101",
                                             "=x=4", 1},
        {1, "10110010", "11011100",
                        "110-1100", "11001", "1101",
                                             "=x=4", 0},
        {1, "10110010", "11011100",
                        "11-11100", "11001", "0001",
                                             "x=34", 1},
        /* One letter less than a window, and exactly one. */
        {0, "10110010", "11011100",
                        "-----100", "11001", "", "", 0},
        {0, "10110010", "11011100",
                        "--0111--", "11001", "0",
                                             "2", 0}
    };

    known_rows(A, 2, 1, 1, rows, sizeof rows / sizeof *rows);
}

/* ---- coder D ---- */

/* The output is the letter before, so a letter is the next output, and the output at its place may be
   any. */
static void rows_of_d(void)
{
    static const row rows[] = {
        /* The window that the altered letter ends is another letter's; the one that it begins is the
           same. */
        {0, "1001101", "0100110",
                       "0110110", "100110", "110110",
                                            "0x=345", 4},
        {0, "1001101", "0100110",
                       "1100110", "100110", "100110",
                                            "=12345", 5},
        {0, "1001101", "0100110",
                       "0100111", "100110", "100111",
                                            "01234x", 5},
        /* A letter lost, with settle counts for which the letters after it suffice and do not. */
        {0, "1001101", "0100110",
                       "010-110", "100110", "10110",
                                            "01x45", 2},
        {1, "1001101", "0100110",
                       "010-110", "100110", "10110",
                                            "01x45", 1},
        {2, "1001101", "0100110",
                       "010-110", "100110", "10110",
                                            "01x45", 0},
        /* Two added, and one more that is the letter which was there. */
        {0, "1001101", "0--100110",
                       "011100110", "100110", "11100110",
                                              "=--12345", 5},
        {0, "1001101", "01-00110",
                       "01000110", "100110", "1000110",
                                             "0=-2345", 4},
        /* The last letter alone, and a string of one letter with one added on either side. */
        {0, "1001101", "0100110",
                       "------0", "100110", "", "", 0},
        {0, "1", "-0",
                 "10", "", "0",
                           "-", 0},
        {0, "1", "0-",
                 "01", "", "1",
                           "-", 0}
    };

    known_rows(D, 0, 1, 1, rows, sizeof rows / sizeof *rows);
}

/* ---- coder G ---- */

/* State 0 puts out 4 or 5 and leads to 1. State 1 puts out 0 and leads to 2 or to 3 by its letter.
   State 2 stays and puts out 0 or 1, state 3 stays and puts out 2 or 3. With p = 0 a window starts in
   any of them and has three letters, of which the last is the present one. */
static void rows_of_g(void)
{
    static const row rows[] = {
        /* No run has 2 3 0 or 3 0 2. */
        {0, "010110", "402332",
                      "402302", "0110", "01!!",
                                        "01xx", 2},
        /* Runs have 0 2 2, 2 2 3 and 2 3 2: a wrong letter without none, and two right ones. */
        {0, "010110", "402332",
                      "402232", "0110", "0010",
                                        "0x==", 1},
        /* 5 0 2 as 4 0 2; but no run has 1 0 2. */
        {0, "010110", "402332",
                      "502332", "0110", "0110",
                                        "=123", 3},
        {0, "010110", "402332",
                      "102332", "0110", "!110",
                                        "x123", 3},
        /* Runs have 4 0 0, and 0 3 3 by state 1; none has 0 0 3. */
        {0, "010110", "402332",
                      "400332", "0110", "0!10",
                                        "=x=3", 1},
        {0, "010110", "402332",
                      "412332", "0110", "!!10",
                                        "xx23", 2},
        /* Another string spliced on in front: the two windows that have letters of both are none. */
        {0, "010110", "402-----332",
                      "---40011332", "0110", "011!!0",
                                             "---xx3", 1},
        {0, "010110", "402332",
                      "4-2332", "0110", "!10",
                                        "x23", 2},
        {0, "010110", "402332",
                      "4023--", "0110", "01",
                                        "01", 0},
        {0, "010110", "402332",
                      "40----", "0110", "", "", 0},
        /* A letter added, which three windows hold. */
        {0, "1001101", "5001-101",
                       "50013101", "01101", "01!!!1",
                                            "01-xx4", 1},
        {0, "1001101", "5001101",
                       "--01101", "01101", "101",
                                           "234", 3},
        /* A letter lost in state 2, whose letters are told by their own outputs: the two windows give
           what went in. */
        {0, "1001101", "5001101",
                       "500-101", "01101", "0101",
                                           "0==4", 1}
    };

    known_rows(G, 2, 0, 1, rows, sizeof rows / sizeof *rows);
}

/* With p = 1 a window starts in the states 1 to 3 and has two letters, of which the last is the present
   one. So the 4 at the front gives none. */
static void rows_of_g_settled_once(void)
{
    static const row rows[] = {
        /* No run has 3 0; one has 0 2, by state 1. */
        {1, "010110", "402332",
                      "402302", "!0110", "!01!0",
                                         "012x=", 3},
        {1, "010110", "402332",
                      "402232", "!0110", "!0010",
                                         "01x=4", 3},
        {1, "010110", "402332",
                      "-02332", "!0110", "0110",
                                         "1234", 3},
        /* One window has letters of both strings; the first after it is the same again, though with
           no letter ahead of it that lies after the splice. */
        {1, "010110", "402-----332",
                      "---40011332", "!0110", "!011!10",
                                              "----x34", 1},
        {1, "010110", "402-332",
                      "4025332", "!0110", "!0!!10",
                                          "01-x34", 1}
    };

    known_rows(G, 1, 0, 1, rows, sizeof rows / sizeof *rows);
}

/* With p = 2 a window starts in the states 2 and 3 and is one letter, so that no window straddles a
   place where letters were lost. The 4 gives none, and the 0 after it the letter 0, though 1 went in:
   fewer than two letters stand ahead of it. */
static void rows_of_g_settled(void)
{
    static const row rows[] = {
        {2, "010110", "402332",
                      "402302", "!00110", "!00100",
                                          "0123x5", 5},
        {2, "010110", "402332",
                      "402352", "!00110", "!001!0",
                                          "0123x5", 5},
        {2, "010110", "402332",
                      "402312", "!00110", "!00110",
                                          "0123=5", 5},
        {2, "010110", "402332",
                      "--2332", "!00110", "0110",
                                          "2345", 2},
        {2, "010110", "---402332",
                      "444402332", "!00110", "!!!!00110",
                                             "---012345", 4},
        {2, "010110", "402332",
                      "4--332", "!00110", "!110",
                                          "0345", 1},
        {2, "010110", "402332",
                      "------", "!00110", "", "", 0}
    };

    known_rows(G, 0, 0, 1, rows, sizeof rows / sizeof *rows);
}

/* With p = 0 that window does not work: a 0 may be put out by state 2 under letter 0, and by state 1
   under both. Of 4 and 2 only letter 0 fits, of 5, 1 and 3 only letter 1. */
static void rows_of_g_with_several(void)
{
    static const row rows[] = {
        {0, "010110", "402332",
                      "412332", "0?0110", "010110",
                                          "0x2345", 5},
        {0, "010110", "402332",
                      "400302", "0?0110", "0??1?0",
                                          "01x3x5", 4},
        {0, "010110", "402332",
                      "4-2332", "0?0110", "00110",
                                          "02345", 4},
        {0, "010110", "402-332",
                      "4020332", "0?0110", "0?0?110",
                                           "012-345", 3}
    };

    known_rows(G, 0, 0, 0, rows, sizeof rows / sizeof *rows);
}

void known_damaged_strings(void)
{
    rows_of_a();
    rows_of_a_with_4_letters();
    rows_of_d();
    rows_of_g();
    rows_of_g_settled_once();
    rows_of_g_settled();
    rows_of_g_with_several();
}
