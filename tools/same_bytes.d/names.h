/* Names and bytes for the calls. */
#ifndef NAMES_H
#define NAMES_H

#include "both.h"

/* A name, or what could be taken for one. Its bytes are the first part and then the second. */
typedef struct {
    uint64_t kind;
    uint8_t *bytes;
    size_t first_len, second_len;
} name;

part first_of(name n);
part second_of(name n);

/* Room for the names of one list; what was taken before is given up. */
void clear_names(void);
uint8_t *room(size_t len);

/* A name whose parts are these strings. */
name named(uint64_t kind, const char *first, const char *second);

/* Text of exactly so many bytes: plain, of characters of 1 to 4 bytes, or of marks that are escaped in long tags. */
void fill_text(uint8_t *to, size_t len);

/* Text of ASCII letters alone, with a '/' here and there. */
void fill_plain(uint8_t *to, size_t len);

/* Makes text wrong in one place, mostly. */
void break_text(uint8_t *bytes, size_t len);

/* A new name of any kind and length; some are refused. */
name new_name(void);

/* A name near to this one: its kind, the border of its parts or a byte is another. */
name near_name(name n);

#endif
