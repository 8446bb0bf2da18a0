/* The exported entries of libnamedict.a, made by `tools/archive`.
 *
 * A byte slice passes as a pointer and then a length. Sizes, kinds and numbers
 * are uint64_t.
 *
 * The caller's duties, which nothing checks:
 * - a pointer and its length describe memory that exists. With a length of 0 a
 *   pointer may be any address but null: NAMEDICT_EMPTY is one;
 * - the slices given to one call never overlap;
 * - while a call runs, nothing else writes its slices, and nothing else reads
 *   those that it may write;
 * - between two calls nobody else writes the dictionary's bytes.
 *
 * A field `refusal` is 0 if the call was accepted, else one of the numbers
 * below. With a refusal every other field is 0, and all lent memory is as it
 * was. A field that an answer does not have is 0.
 */
#ifndef NAMEDICT_H
#define NAMEDICT_H

#include <stddef.h>
#include <stdint.h>

#ifdef __cplusplus
extern "C" {
#endif

/* The four kinds. A name is a first and a second part, both together 4,000 bytes at the most. */
#define NAMEDICT_IRI    0 /* the IRI, no second part */
#define NAMEDICT_PLAIN  1 /* the string, no second part */
#define NAMEDICT_TAGGED 2 /* the text, its tag */
#define NAMEDICT_TYPED  3 /* a head and a rest, as the caller gives them */

/* The pointer of a slice with no bytes, where C callers would write NULL: an
 * empty part of a name, or no bytes for a leaf rule. For a buffer of no bytes it
 * is (uint8_t *)NAMEDICT_EMPTY, since nothing is written there. */
#define NAMEDICT_EMPTY ((const uint8_t *)"")

/* Refusals. */
#define NAMEDICT_BAD_SIZE      1 /* a size is outside its range */
#define NAMEDICT_SHORT_MEMORY  2 /* a slice lent to open is too short */
#define NAMEDICT_UNOPENED      3 /* the memory is no dictionary's, or a slice is too short for its sizes */
#define NAMEDICT_BAD_KIND      4 /* kind above 3; kind 0 or 1 with a second part */
#define NAMEDICT_TOO_LONG      5 /* a name over 4,000 bytes, a form over 8,002 */
#define NAMEDICT_NOT_TEXT      6 /* a part is not UTF-8 by RFC 3629 */
#define NAMEDICT_NO_TAG        7 /* kind 2 with an empty tag */
#define NAMEDICT_LIST_FULL     8 /* a list that would gain an entry is full */
#define NAMEDICT_NO_PAGE       9 /* more pages are needed than are left */
#define NAMEDICT_NO_BLOCK     10 /* the block rule picks a block of block_count or above; lower ones may be free */
#define NAMEDICT_SHORT_BUFFER 11 /* the buffer is shorter than the answer */
#define NAMEDICT_HIGH_NUMBER  12 /* a frequent id for 2^30 or more */
#define NAMEDICT_CUT_FORM     13 /* a form that cannot be read */

/* A field `word` says which answer. */
#define NAMEDICT_NONE  0
#define NAMEDICT_FRESH 1
#define NAMEDICT_KNOWN 2
#define NAMEDICT_NAME  4

typedef struct { uint64_t refusal, word, number; }                      namedict_numbered;
typedef struct { uint64_t refusal, word, kind, first_len, second_len; } namedict_name;
typedef struct { uint64_t refusal, count; }                             namedict_counted;
typedef struct { uint64_t refusal, length; }                            namedict_written;
typedef struct { uint64_t refusal, value, length; }                     namedict_value;
typedef struct { uint64_t refusal, text_len, tag_len; }                 namedict_unpacked;

/* ---- the dictionary, in two slices that the caller lends */

/* How many bytes pages and lists need. */
#define NAMEDICT_PAGE_BYTES(page_width, page_count) \
    ((size_t)(page_count) << (page_width))
#define NAMEDICT_LIST_BYTES(page_count, list_length, block_count) \
    ((size_t)8 * (64 + (size_t)(page_count) + 18 * (size_t)(list_length) + 5 * (size_t)(block_count)))

/* Makes the memory a dictionary with no names. Returns 0, or refusal 1 or 2.
 * Page width 13 to 20, pages 1 to 1,024, list length 1 to 1,048,576,
 * block width 4 to 24, blocks 1 to 4,096. */
uint64_t namedict_open(uint8_t *pages, size_t pages_len, uint8_t *lists, size_t lists_len,
                       uint64_t page_width, uint64_t page_count, uint64_t list_length,
                       uint64_t block_width, uint64_t block_count);

/* Gives a name its number: fresh, or known already. For an empty part give
 * NAMEDICT_EMPTY, 0 and never NULL, 0. Refusals 3 to 10. */
namedict_numbered namedict_add(uint8_t *pages, size_t pages_len, uint8_t *lists, size_t lists_len,
                               uint64_t kind, const uint8_t *first, size_t first_len,
                               const uint8_t *second, size_t second_len);

/* The number that a name has: known, or none. For an empty part give
 * NAMEDICT_EMPTY, 0 and never NULL, 0. Refusals 3 to 7. */
namedict_numbered namedict_find(const uint8_t *pages, size_t pages_len,
                                const uint8_t *lists, size_t lists_len,
                                uint64_t kind, const uint8_t *first, size_t first_len,
                                const uint8_t *second, size_t second_len);

/* The name that has a number: its kind, both lengths, and its parts one after
 * the other at the buffer's start. The rest of the buffer stays as it was. With
 * the answer none all of it does.
 * Refusals 3, 11. */
namedict_name namedict_read(const uint8_t *pages, size_t pages_len,
                            const uint8_t *lists, size_t lists_len,
                            uint64_t number, uint8_t *buffer, size_t buffer_len);

/* How many names of a kind there are. Refusals 3, 4. */
namedict_counted namedict_count(const uint8_t *pages, size_t pages_len,
                                const uint8_t *lists, size_t lists_len, uint64_t kind);

/* ---- the leaf rules. For no bytes give NAMEDICT_EMPTY, 0 and never NULL, 0. */

/* 1 if the bytes are UTF-8 by RFC 3629, else 0. */
uint64_t namedict_is_text(const uint8_t *bytes, size_t bytes_len);

/* The length of an IRI's head: up to and including its last '/' or '#'; 0 if it has neither. */
uint64_t namedict_split_iri(const uint8_t *iri, size_t iri_len);

/* A head's number in 1 to 4 bytes, at the buffer's start. Refusals 12, 11. */
namedict_written namedict_write_fid(uint64_t value, uint8_t *buffer, size_t buffer_len);

/* The number in front of the bytes, and how many bytes it has. Refusal 13. */
namedict_value namedict_read_fid(const uint8_t *bytes, size_t bytes_len);

/* A text and its tag in one form, at the buffer's start. Refusals 5, 6, 7, 11. */
namedict_written namedict_pack(const uint8_t *text, size_t text_len,
                               const uint8_t *tag, size_t tag_len,
                               uint8_t *buffer, size_t buffer_len);

/* A form's text at the buffer's start and its tag behind it. Refusals 5, 13, 11. */
namedict_unpacked namedict_unpack(const uint8_t *packed, size_t packed_len,
                                  uint8_t *buffer, size_t buffer_len);

#ifdef __cplusplus
}
#endif

#endif
