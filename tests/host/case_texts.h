/* Texts of cases for the program cases: calls that a host in C does not have, searches in a named
   order and the reader, and the library's own writer, single window, string, join and calls for kinds,
   with what each is to give. crates/cases/stdin says how a case is written. */
#ifndef CASE_TEXTS_H
#define CASE_TEXTS_H

#include "orders.h"

/* The texts go into this folder as 001, 002 and so on, and `list` has for each its name and how
   many cases it has. */
void open_texts(const char *folder);

/* The coder file of the cases after it; it stands in one text with them. */
void text_file(const uint8_t *file, size_t len);

/* The search in this order and with this settle count, lent so many bytes, and what it gives: a
   refusal; or the first window that works; or, where it is known that none works, the first looped
   pair. */
void text_refusal(enum order order, size_t settle, size_t lent, size_t number);
void text_answer(enum order order, size_t settle, size_t lent, const least *window,
                 const first_pair *first);

/* The reader's two calls on the file, which is accepted: these counts and entries. */
void text_reader(const size_t counts[3], const uint8_t *entries, size_t len);

/* The same on a file that is refused: this number, and no entries. */
void text_reader_refused(size_t number);

/* The writer on these counts and entries, lent so many bytes: the file. */
void text_writer(const size_t counts[3], const uint8_t *entries, size_t len, size_t lent,
                 const uint8_t *file, size_t file_len);

/* The same, refused with this number. */
void text_writer_refused(const size_t counts[3], const uint8_t *entries, size_t len, size_t lent,
                         size_t number);

/* The single window, the search or the window of kinds with these arguments, all but the result: what
   the enumerator says. */
void text_call(const arguments *a);

/* The string with these arguments, all but the result, lent its buffer: these bytes; or refused with
   this number. */
void text_string(const arguments *a, const uint8_t *bytes, size_t count);
void text_string_refused(const arguments *a, size_t number);

/* The join of the file with the second one of these arguments, lent its buffer: this file; or refused
   with this number. */
void text_join(const arguments *a, const uint8_t *file, size_t len);
void text_join_refused(const arguments *a, size_t number);

/* Ends the last text and writes the list; nothing is written after it. */
void close_texts(void);

#endif
