/* Firmware of a switch: its port rules hold the numbers of asset names.
 * The dictionary lies in static arrays; printf stands for the switch's console. */
#include <inttypes.h>
#include <stdio.h>
#include <string.h>

#include "namedict.h"

/* 8 pages of 8 KiB, 200 entries in each list, 16 blocks of 16 numbers. */
enum { PAGE_WIDTH = 13, PAGES = 8, LIST_LENGTH = 200, BLOCK_WIDTH = 4, BLOCKS = 16 };

static uint8_t pages[NAMEDICT_PAGE_BYTES(PAGE_WIDTH, PAGES)];
static uint8_t lists[NAMEDICT_LIST_BYTES(PAGES, LIST_LENGTH, BLOCKS)];

/* One rule of a port: numbers, no text. */
typedef struct {
    uint64_t asset; /* an IRI */
    uint64_t label; /* a tagged string */
    uint64_t limit; /* a typed value */
} port_rule;

static port_rule rules[2];

/* Puts a name's number into a rule; second is NULL where the kind has no second part.
 * Answers the refusal, 0 for none. */
static uint64_t put(uint64_t *place, uint64_t kind, const char *first, const char *second)
{
    const uint8_t *second_bytes = second == NULL ? NAMEDICT_EMPTY : (const uint8_t *)second;
    namedict_numbered a = namedict_add(pages, sizeof pages, lists, sizeof lists, kind,
                                       (const uint8_t *)first, strlen(first),
                                       second_bytes, second == NULL ? 0 : strlen(second));
    if (a.refusal == 0)
        *place = a.number;
    return a.refusal;
}

static uint64_t set_rule(port_rule *rule, const char *asset, const char *label, const char *limit)
{
    port_rule made;
    uint64_t refusal = put(&made.asset, NAMEDICT_IRI, asset, NULL);
    if (refusal == 0)
        refusal = put(&made.label, NAMEDICT_TAGGED, label, "de");
    if (refusal == 0)
        refusal = put(&made.limit, NAMEDICT_TYPED, "urn:unit:mbit", limit);
    if (refusal == 0)
        *rule = made;
    return refusal;
}

/* Prints the name that has a number. Answers the refusal, 0 for none. */
static uint64_t print_name(uint64_t number)
{
    static uint8_t buffer[4000]; /* room for the longest name */
    namedict_name n = namedict_read(pages, sizeof pages, lists, sizeof lists, number,
                                    buffer, sizeof buffer);
    if (n.refusal == 0 && n.word == NAMEDICT_NAME)
        printf("  %" PRIu64 ": kind %" PRIu64 ", '%.*s' '%.*s'\n", number, n.kind,
               (int)n.first_len, (const char *)buffer,
               (int)n.second_len, (const char *)buffer + n.first_len);
    else if (n.refusal == 0)
        printf("  %" PRIu64 ": none\n", number);
    return n.refusal;
}

static uint64_t print_rule(size_t port)
{
    printf("port %u\n", (unsigned)port);
    uint64_t refusal = print_name(rules[port].asset);
    if (refusal == 0)
        refusal = print_name(rules[port].label);
    if (refusal == 0)
        refusal = print_name(rules[port].limit);
    return refusal;
}

int main(void)
{
    uint64_t refusal = namedict_open(pages, sizeof pages, lists, sizeof lists,
                                     PAGE_WIDTH, PAGES, LIST_LENGTH, BLOCK_WIDTH, BLOCKS);
    if (refusal == 0)
        refusal = set_rule(&rules[0], "http://plant/press#drive7", "Antrieb", "100");
    if (refusal == 0)
        refusal = set_rule(&rules[1], "http://plant/press#drive8", "Antrieb", "100");
    if (refusal == 0)
        refusal = print_rule(0);
    if (refusal == 0)
        refusal = print_rule(1);
    if (refusal != 0)
        printf("refused: %" PRIu64 "\n", refusal);
    return refusal != 0;
}
