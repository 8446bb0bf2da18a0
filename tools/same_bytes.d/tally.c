#include "tally.h"

#include <inttypes.h>
#include <stdio.h>

enum { REFUSALS = 14, ANSWERS = 8 };

const char *const entry_names[ENTRIES] = {
    "open", "add", "find", "read", "count", "is_text", "split_iri", "write_fid", "read_fid", "pack", "unpack",
};

/* The answers of each entry. */
static const char *const answer_names[ENTRIES][ANSWERS] = {
    [OPEN] = {"done"},
    [ADD] = {"fresh IRI", "fresh string", "fresh tagged", "fresh typed", "known IRI", "known string", "known tagged", "known typed"},
    [FIND] = {"known IRI", "known string", "known tagged", "known typed", "none IRI", "none string", "none tagged", "none typed"},
    [READ] = {"IRI", "string", "tagged", "typed", "none"},
    [COUNT] = {"IRI", "string", "tagged", "typed"},
    [IS_TEXT] = {"no", "yes"},
    [SPLIT_IRI] = {"no head", "head"},
    [WRITE_FID] = {"1 byte", "2 bytes", "3 bytes", "4 bytes"},
    [READ_FID] = {"1 byte", "2 bytes", "3 bytes", "4 bytes"},
    [PACK] = {"short tag", "long tag"},
    [UNPACK] = {"short tag", "long tag"},
};

/* The refusals of each entry, document 01's orders: bit n for number n. */
static const unsigned refusals[ENTRIES] = {
    [OPEN] = 1 << 1 | 1 << 2,
    [ADD] = 0x7F8,
    [FIND] = 0xF8,
    [READ] = 1 << 3 | 1 << 11,
    [COUNT] = 1 << 3 | 1 << 4,
    [WRITE_FID] = 1 << 11 | 1 << 12,
    [READ_FID] = 1 << 13,
    [PACK] = 1 << 5 | 1 << 6 | 1 << 7 | 1 << 11,
    [UNPACK] = 1 << 5 | 1 << 11 | 1 << 13,
};

static const char *const noted_names[NOTED] = {
    [IRI_HEADS_64] = "IRI heads from 64 up", [TYPED_HEADS_64] = "typed heads from 64 up",
    [IRI_HEADS_16384] = "IRI heads from 16,384 up", [TYPED_HEADS_16384] = "typed heads from 16,384 up",
    [NAME_4000] = "fresh names of 4,000 bytes", [NAME_4001] = "names of 4,001 bytes refused",
    [TAG_127] = "fresh names with a tag of 127 bytes", [TAG_128] = "fresh names with a tag of 128 bytes",
    [FORM_8002] = "fresh names and forms of 8,002 packed bytes", [FORM_8003] = "forms of 8,003 bytes refused",
    [EMPTY_FIRST] = "fresh names with an empty first part", [EMPTY_SECOND] = "fresh typed values with an empty rest",
    [ESCAPED_TAG] = "fresh names with '>' or '\\' in a long tag",
    [FULL_PAGE] = "pages filled exactly", [EMPTY_AFTER_FULL] = "empty entries after a page filled exactly",
    [LONGER_SLICES] = "calls with slices longer than the sizes need",
    [LONGER_BUFFER] = "answers in a buffer longer than needed", [EXACT_BUFFER] = "answers in a buffer just long enough",
    [EMPTY_BUFFER] = "calls with a buffer of no bytes",
    [CHARACTERS_1] = "characters of 1 byte in fresh names", [CHARACTERS_2] = "characters of 2 bytes",
    [CHARACTERS_3] = "characters of 3 bytes", [CHARACTERS_4] = "characters of 4 bytes",
};

/* On dictionaries, and on memory that is no dictionary's. */
static struct {
    uint64_t refused[ENTRIES][REFUSALS], answered[ENTRIES][ANSWERS];
} tallies[2];

static uint64_t noted[NOTED];
static unsigned unseen;

void note(enum noted what)
{
    noted[what]++;
}

void tally_refusal(int foreign, enum entry entry, uint64_t refusal)
{
    tallies[foreign].refused[entry][refusal < REFUSALS ? refusal : 0]++;
}

void tally_answer(int foreign, enum entry entry, unsigned which)
{
    tallies[foreign].answered[entry][which % ANSWERS]++;
}

static void print_count(const char *name, uint64_t count, int needed)
{
    if (count == 0 && !needed)
        return;
    printf(" %s %" PRIu64 "%s;", name, count, count == 0 ? " NOT SEEN" : "");
    unseen += count == 0;
}

/* On memory that is no dictionary's every answer and refusal 3 are needed, no other. */
static void print_entry(int foreign, int entry)
{
    printf("  %s:", entry_names[entry]);
    for (int i = 0; i < ANSWERS; i++)
        if (answer_names[entry][i] != NULL)
            print_count(answer_names[entry][i], tallies[foreign].answered[entry][i], 1);
    for (unsigned i = 0; i < REFUSALS; i++) {
        char number[20];
        snprintf(number, sizeof number, "refusal %u", i);
        print_count(number, tallies[foreign].refused[entry][i], foreign ? i == 3 : (int)(refusals[entry] >> i & 1));
    }
    printf("\n");
}

unsigned print_tally(void)
{
    printf("On dictionaries, and of the leaf rules:\n");
    for (int entry = OPEN; entry < ENTRIES; entry++)
        print_entry(0, entry);
    printf("On memory that is no dictionary's:\n");
    for (int entry = ADD; entry <= COUNT; entry++)
        print_entry(1, entry);
    printf("Besides:\n");
    for (int i = 0; i < NOTED; i++) {
        printf("  %s: %" PRIu64 "%s\n", noted_names[i], noted[i], noted[i] == 0 ? " NOT SEEN" : "");
        unseen += noted[i] == 0;
    }
    return unseen;
}
