/* Damage of a coded string (document 02, 10/13): a list of changes from its first letter to its last,
   the strings before and after them, and the places that have to decode alike in both. All of it goes
   by the list alone. */
#ifndef DAMAGE_H
#define DAMAGE_H

#include <stddef.h>
#include <stdint.h>

enum { MOST_STRING = 1024, NO_BYTE = 65535 };

/* A letter kept, altered to another one, lost, or added where none was sent. */
enum change_kind { KEPT, ALTERED, LOST, ADDED, CHANGE_KINDS };

typedef struct change {
    enum change_kind kind;
    uint8_t sent, received; /* an added letter was not sent, a lost one is not received */
} change;

typedef struct damage {
    size_t count;
    change list[MOST_STRING];
} damage;

/* One change more. */
void keep(damage *d, uint8_t letter);
void alter(damage *d, uint8_t letter, uint8_t to);
void lose(damage *d, uint8_t letter);
void add(damage *d, uint8_t letter);

/* How many of the changes are of this kind. */
size_t changes_of(const damage *d, enum change_kind kind);

/* The letters that were sent, and those that are received; return how many. */
size_t sent_letters(const damage *d, uint8_t *letters);
size_t received_letters(const damage *d, uint8_t *letters);

/* The letters of a window before and after the present one, and its settle count. Byte k of a decoded
   string has the window of the letters k to k + before + after. */
typedef struct window {
    size_t before, after, settle;
} window;

size_t window_letters(const window *w);

/* The bytes that a string of n letters is decoded to. */
size_t decoded_bytes(const window *w, size_t n);

/* Byte k of the received string has to be byte from[k] of the sent one, or nothing is said of it:
   NO_BYTE. Each returns of how many something is said. */

/* Where letters were altered, and none lost or added: of the windows that hold no altered letter. */
size_t places_unaltered(const damage *d, const window *w, size_t from[MOST_STRING]);

/* Where letters were lost or added: of the windows that lie, with as many letters ahead of them as the
   settle count says, unaltered after the last loss or addition. */
size_t places_after_last(const damage *d, const window *w, size_t from[MOST_STRING]);

/* Where the received letters come from: for each its change, the place at which it was sent, NO_BYTE for
   an added one, and whether it was kept. */
typedef struct origins {
    size_t n;
    struct {
        size_t change, place;
        int kept;
    } of[MOST_STRING];
} origins;

void list_origins(const damage *d, origins *o);

/* Whether so many received letters from this place on are all kept, and were sent one right after the
   other. */
int kept_together(const origins *o, size_t place, size_t letters);

/* With any damage: of the windows that were kept so. */
size_t places_kept(const origins *o, const window *w, size_t from[MOST_STRING]);

/* How many of the changes from one up to another are a loss or an addition. */
size_t shifts(const damage *d, size_t from, size_t to);

/* The byte of the sent string, one of so many, that belongs to the letter to which this byte of the
   received string belongs, the letter being kept or altered; NO_BYTE where there is none. */
size_t byte_of_letter(const origins *o, const window *w, size_t sent, size_t byte);

#endif
