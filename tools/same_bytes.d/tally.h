/* What was seen: answers and refusals of each entry, and the cases that a comparison must not miss. */
#ifndef TALLY_H
#define TALLY_H

#include <stdint.h>

enum entry { OPEN, ADD, FIND, READ, COUNT, IS_TEXT, SPLIT_IRI, WRITE_FID, READ_FID, PACK, UNPACK, ENTRIES };

extern const char *const entry_names[ENTRIES];

/* Cases that only the maker of a list knows of. */
enum noted {
    IRI_HEADS_64, TYPED_HEADS_64, IRI_HEADS_16384, TYPED_HEADS_16384, NAME_4000, NAME_4001, TAG_127, TAG_128, FORM_8002, FORM_8003,
    EMPTY_FIRST, EMPTY_SECOND, ESCAPED_TAG, FULL_PAGE, EMPTY_AFTER_FULL, LONGER_SLICES, LONGER_BUFFER, EXACT_BUFFER, EMPTY_BUFFER,
    CHARACTERS_1, CHARACTERS_2, CHARACTERS_3, CHARACTERS_4, NOTED
};

void note(enum noted what);

/* An answer of an entry: its refusal, or which of its answers it was (the order is that of tally.c's table). */
void tally_refusal(int foreign, enum entry entry, uint64_t refusal);
void tally_answer(int foreign, enum entry entry, unsigned which);

/* Prints all of it. Answers how many of the cases were not seen. */
unsigned print_tally(void);

#endif
