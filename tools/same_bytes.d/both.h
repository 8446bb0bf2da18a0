/* A call on both archives: each works on memory of its own, which has the same bytes before. Answers and bytes are compared afterwards. */
#ifndef BOTH_H
#define BOTH_H

#include "namedict.h"

typedef struct {
    const uint8_t *bytes;
    size_t len;
} part;

/* Document 01's letters: page width, pages, list length, block width, blocks. */
typedef struct {
    uint64_t p, n, e, w, b;
} sizes;

enum { PAGES_MOST = 4 << 20, LISTS_MOST = 8 << 20, OUT_MOST = 8100 };

/* Begins a list of calls: noise in memory of these lengths, at addresses that follow from the random numbers. */
void begin_list(const char *label, size_t pages_len, size_t lists_len);

/* Ends it: all bytes are compared. */
void end_list(void);

/* How long the slices are that the next calls get; at most those of begin_list. */
void lend(size_t pages_len, size_t lists_len);

/* The next calls are on memory that is no dictionary's, or are not: they are counted apart. */
void foreign(int is);

/* Changes the memory of both archives. A word has eight bytes and lies at 8 times its index. */
void set_list_byte(size_t at, uint8_t value);
void set_page_byte(size_t at, uint8_t value);
uint64_t list_word(size_t index);
void set_list_word(size_t index, uint64_t value);

/* Keeps a copy of the memory as it is; puts it back on both sides. */
void keep_memory(void);
void restore_memory(void);

/* The old archive's output buffer after a call. */
const uint8_t *output(void);

/* The calls. Each gives the old archive's answer, which is the new one's too. */
uint64_t call_open(sizes s);
namedict_numbered call_add(uint64_t kind, part first, part second);
namedict_numbered call_find(uint64_t kind, part first, part second);
namedict_name call_read(uint64_t number, size_t buffer_len);
namedict_counted call_count(uint64_t kind);
uint64_t call_is_text(part bytes);
uint64_t call_split_iri(part iri);
namedict_written call_write_fid(uint64_t value, size_t buffer_len);
namedict_value call_read_fid(part bytes);
namedict_written call_pack(part text, part tag, size_t buffer_len);
namedict_unpacked call_unpack(part packed, size_t buffer_len);

/* Compares the bytes after every call from this call on, however large the memory. */
void look_closely_from(uint64_t call);

/* How many calls and lists there were. */
uint64_t calls_made(void);
uint64_t lists_made(void);

#endif
