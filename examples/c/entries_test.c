/* Calls every exported entry: all kinds, every refusal, document 01's bench cards,
 * memory that is copied and memory that is no dictionary's. Prints what is not so. */
#include <stdio.h>
#include <string.h>

#include "namedict.h"

static int failed;

#define CHECK(fact)                                           \
    do {                                                      \
        if (!(fact)) {                                        \
            printf("line %d: not so: %s\n", __LINE__, #fact); \
            failed = 1;                                       \
        }                                                     \
    } while (0)

/* The memory of a dictionary. */
typedef struct {
    uint8_t pages[NAMEDICT_PAGE_BYTES(13, 6)];
    uint8_t lists[NAMEDICT_LIST_BYTES(6, 100, 8)];
} memory;

static memory here, there, before;
static uint8_t buffer[8002];

/* Opens `here` anew, with at most 6 pages, lists of 100 and 8 blocks of 16. */
static void open_here(uint64_t page_count, uint64_t list_length, uint64_t block_count)
{
    CHECK(namedict_open(here.pages, sizeof here.pages, here.lists, sizeof here.lists,
                        13, page_count, list_length, 4, block_count) == 0);
}

static namedict_numbered add_bytes(memory *m, uint64_t kind, const void *first, size_t first_len,
                                   const void *second, size_t second_len)
{
    return namedict_add(m->pages, sizeof m->pages, m->lists, sizeof m->lists, kind,
                        (const uint8_t *)first, first_len, (const uint8_t *)second, second_len);
}

static namedict_numbered add(memory *m, uint64_t kind, const char *first, const char *second)
{
    return add_bytes(m, kind, first, strlen(first), second, strlen(second));
}

static namedict_numbered find(const memory *m, uint64_t kind, const char *first, const char *second)
{
    return namedict_find(m->pages, sizeof m->pages, m->lists, sizeof m->lists, kind,
                         (const uint8_t *)first, strlen(first), (const uint8_t *)second, strlen(second));
}

static namedict_name read_name(const memory *m, uint64_t number, size_t buffer_len)
{
    return namedict_read(m->pages, sizeof m->pages, m->lists, sizeof m->lists, number, buffer, buffer_len);
}

static namedict_counted count(const memory *m, uint64_t kind)
{
    return namedict_count(m->pages, sizeof m->pages, m->lists, sizeof m->lists, kind);
}

static int is(namedict_numbered a, uint64_t refusal, uint64_t word, uint64_t number)
{
    return a.refusal == refusal && a.word == word && a.number == number;
}

/* Whether an add to `here` gives this refusal and leaves the memory as it was. Find gives 3 to 7 too. */
static int refuses(uint64_t refusal, uint64_t kind, const char *first, const char *second)
{
    before = here;
    return is(add(&here, kind, first, second), refusal, 0, 0) && memcmp(&here, &before, sizeof here) == 0
        && is(find(&here, kind, first, second), refusal <= NAMEDICT_NO_TAG ? refusal : 0, NAMEDICT_NONE, 0);
}

/* Whether a name of this kind is fresh with this number, then known, found, and read back. */
static int goes_round(uint64_t number, uint64_t kind, const char *first, const char *second)
{
    if (!is(find(&here, kind, first, second), 0, NAMEDICT_NONE, 0)
        || !is(add(&here, kind, first, second), 0, NAMEDICT_FRESH, number)
        || !is(add(&here, kind, first, second), 0, NAMEDICT_KNOWN, number)
        || !is(find(&here, kind, first, second), 0, NAMEDICT_KNOWN, number))
        return 0;
    memset(buffer, 7, sizeof buffer);
    namedict_name n = read_name(&here, number, sizeof buffer);
    return n.refusal == 0 && n.word == NAMEDICT_NAME && n.kind == kind
        && n.first_len == strlen(first) && n.second_len == strlen(second)
        && memcmp(buffer, first, strlen(first)) == 0
        && memcmp(buffer + n.first_len, second, strlen(second)) == 0
        && buffer[n.first_len + n.second_len] == 7 && buffer[sizeof buffer - 1] == 7;
}

static void test_kinds(void)
{
    open_here(6, 100, 8);
    CHECK(goes_round(0, NAMEDICT_IRI, "http://p/a#b", ""));
    CHECK(goes_round(16, NAMEDICT_PLAIN, "http://p/a#b", ""));
    CHECK(goes_round(32, NAMEDICT_TAGGED, "Ein", "de"));
    CHECK(goes_round(48, NAMEDICT_TYPED, "Ein", "de"));
    CHECK(goes_round(1, NAMEDICT_IRI, "", ""));
    CHECK(goes_round(49, NAMEDICT_TYPED, "", ""));
    CHECK(count(&here, NAMEDICT_IRI).count == 2 && count(&here, NAMEDICT_PLAIN).count == 1);
    CHECK(count(&here, NAMEDICT_TAGGED).count == 1 && count(&here, NAMEDICT_TYPED).count == 2);

    namedict_name n = read_name(&here, 2, sizeof buffer);
    CHECK(n.refusal == 0 && n.word == NAMEDICT_NONE);
    n = read_name(&here, 32, 4);
    CHECK(n.refusal == NAMEDICT_SHORT_BUFFER && n.word == 0 && n.kind == 0);
    n = read_name(&here, 32, 5);
    CHECK(n.refusal == 0 && n.first_len == 3 && n.second_len == 2);
}

/* One of 100 names. */
static const char *nth(uint64_t n)
{
    static char name[] = "http://p/00";
    name[9] = (char)('0' + n / 10);
    name[10] = (char)('0' + n % 10);
    return name;
}

/* Bench cards M9 to M11. */
static void test_blocks(void)
{
    static const uint64_t iris[5] = {0, 16, 32, 64, 112}, strings[3] = {48, 80, 96};
    open_here(6, 100, 8);
    for (uint64_t n = 0; n < 65; n++)
        CHECK(is(add(&here, NAMEDICT_IRI, nth(n), ""), 0, NAMEDICT_FRESH, iris[n / 16] + n % 16));
    for (uint64_t n = 0; n < 48; n++)
        CHECK(is(add(&here, NAMEDICT_PLAIN, nth(n), ""), 0, NAMEDICT_FRESH, strings[n / 16] + n % 16));
    open_here(6, 100, 7);
    for (uint64_t n = 0; n < 64; n++)
        CHECK(add(&here, NAMEDICT_IRI, nth(n), "").refusal == 0);
    CHECK(refuses(NAMEDICT_NO_BLOCK, NAMEDICT_IRI, nth(64), ""));
}

static uint64_t open_sizes(uint64_t p, uint64_t n, uint64_t e, uint64_t w, uint64_t b)
{
    return namedict_open(here.pages, sizeof here.pages, here.lists, sizeof here.lists, p, n, e, w, b);
}

static void test_open(void)
{
    open_here(6, 100, 8);
    before = here;
    CHECK(open_sizes(12, 6, 100, 4, 8) == NAMEDICT_BAD_SIZE && open_sizes(21, 6, 100, 4, 8) == NAMEDICT_BAD_SIZE);
    CHECK(open_sizes(13, 0, 100, 4, 8) == NAMEDICT_BAD_SIZE && open_sizes(13, 1025, 100, 4, 8) == NAMEDICT_BAD_SIZE);
    CHECK(open_sizes(13, 6, 0, 4, 8) == NAMEDICT_BAD_SIZE && open_sizes(13, 6, 1048577, 4, 8) == NAMEDICT_BAD_SIZE);
    CHECK(open_sizes(13, 6, 100, 3, 8) == NAMEDICT_BAD_SIZE && open_sizes(13, 6, 100, 25, 8) == NAMEDICT_BAD_SIZE);
    CHECK(open_sizes(13, 6, 100, 4, 0) == NAMEDICT_BAD_SIZE && open_sizes(13, 6, 100, 4, 4097) == NAMEDICT_BAD_SIZE);
    CHECK(open_sizes(14, 6, 100, 4, 8) == NAMEDICT_SHORT_MEMORY);
    CHECK(open_sizes(13, 6, 100, 4, 9) == NAMEDICT_SHORT_MEMORY);
    CHECK(memcmp(&here, &before, sizeof here) == 0);
}

static void test_refused_names(void)
{
    static char longest[4002];
    memset(longest, 'x', 4001);
    open_here(6, 100, 8);
    CHECK(refuses(NAMEDICT_BAD_KIND, 4, "Ein", "") && refuses(NAMEDICT_BAD_KIND, UINT64_MAX, "Ein", ""));
    CHECK(refuses(NAMEDICT_BAD_KIND, NAMEDICT_IRI, "Ein", "de") && refuses(NAMEDICT_BAD_KIND, NAMEDICT_PLAIN, "Ein", "de"));
    CHECK(count(&here, 4).refusal == NAMEDICT_BAD_KIND && find(&here, 4, "Ein", "").refusal == NAMEDICT_BAD_KIND);
    CHECK(refuses(NAMEDICT_TOO_LONG, NAMEDICT_PLAIN, longest, ""));
    CHECK(refuses(NAMEDICT_NOT_TEXT, NAMEDICT_IRI, "\xC0\x80", "") && refuses(NAMEDICT_NOT_TEXT, NAMEDICT_TYPED, "", "\xED\xA0\x80"));
    CHECK(refuses(NAMEDICT_NO_TAG, NAMEDICT_TAGGED, "Ein", ""));
    longest[4000] = 0;
    CHECK(goes_round(0, NAMEDICT_PLAIN, longest, ""));
}

static void test_full(void)
{
    open_here(6, 1, 8);
    CHECK(goes_round(0, NAMEDICT_PLAIN, "a", "") && refuses(NAMEDICT_LIST_FULL, NAMEDICT_PLAIN, "b", ""));
    open_here(1, 100, 8);
    CHECK(refuses(NAMEDICT_NO_PAGE, NAMEDICT_IRI, "a/b", "")); /* head and rest need a page each */
    CHECK(goes_round(0, NAMEDICT_PLAIN, "a", "") && refuses(NAMEDICT_NO_PAGE, NAMEDICT_TAGGED, "a", "de"));
    open_here(6, 100, 1);
    CHECK(goes_round(0, NAMEDICT_PLAIN, "a", "") && refuses(NAMEDICT_NO_BLOCK, NAMEDICT_IRI, "a/b", ""));
}

static int unopened(size_t pages_len, size_t lists_len)
{
    const uint8_t *name = (const uint8_t *)"Ein";
    before = here;
    return namedict_add(here.pages, pages_len, here.lists, lists_len, 1, name, 3, NAMEDICT_EMPTY, 0).refusal == NAMEDICT_UNOPENED
        && namedict_find(here.pages, pages_len, here.lists, lists_len, 1, name, 3, NAMEDICT_EMPTY, 0).refusal == NAMEDICT_UNOPENED
        && namedict_read(here.pages, pages_len, here.lists, lists_len, 0, buffer, 3).refusal == NAMEDICT_UNOPENED
        && namedict_count(here.pages, pages_len, here.lists, lists_len, 1).refusal == NAMEDICT_UNOPENED
        && memcmp(&here, &before, sizeof here) == 0;
}

static void test_memory(void)
{
    memset(&here, 0, sizeof here);
    CHECK(unopened(sizeof here.pages, sizeof here.lists));
    memset(&here, 0xFF, sizeof here);
    CHECK(unopened(sizeof here.pages, sizeof here.lists));
    open_here(6, 100, 8);
    CHECK(goes_round(0, NAMEDICT_TAGGED, "Ein", "de"));
    CHECK(unopened(sizeof here.pages, 511) && unopened(sizeof here.pages, 0));
    CHECK(unopened(sizeof here.pages, sizeof here.lists - 1) && unopened(sizeof here.pages - 1, sizeof here.lists));

    there = here; /* a copy goes on by itself */
    CHECK(is(find(&there, NAMEDICT_TAGGED, "Ein", "de"), 0, NAMEDICT_KNOWN, 0));
    CHECK(is(add(&there, NAMEDICT_TAGGED, "Zwei", "de"), 0, NAMEDICT_FRESH, 1));
    CHECK(is(find(&here, NAMEDICT_TAGGED, "Zwei", "de"), 0, NAMEDICT_NONE, 0));
    CHECK(read_name(&there, 1, sizeof buffer).first_len == 4 && memcmp(buffer, "Zweide", 6) == 0);
}

/* The leaf rules, on bench cards M1 to M8. */
static void test_leaf_rules(void)
{
    static uint8_t form[8003];
    CHECK(namedict_split_iri((const uint8_t *)"http://p/a#b", 12) == 11);
    CHECK(namedict_split_iri((const uint8_t *)"a/", 2) == 2 && namedict_split_iri((const uint8_t *)"urn:press", 9) == 0);
    CHECK(namedict_is_text((const uint8_t *)"\xF4\x8F\xBF\xBF", 4) == 1 && namedict_is_text((const uint8_t *)"\xC0\x80", 2) == 0);

    CHECK(namedict_write_fid(16384, buffer, 4).length == 3 && memcmp(buffer, "\x80\x40\x00", 3) == 0);
    namedict_value v = namedict_read_fid(buffer, 4);
    CHECK(v.refusal == 0 && v.value == 16384 && v.length == 3);
    CHECK(namedict_write_fid((uint64_t)1 << 30, buffer, 4).refusal == NAMEDICT_HIGH_NUMBER);
    CHECK(namedict_write_fid(16384, buffer, 2).refusal == NAMEDICT_SHORT_BUFFER);
    CHECK(namedict_read_fid(buffer, 2).refusal == NAMEDICT_CUT_FORM);

    const uint8_t *text = (const uint8_t *)"Ein", *tag = (const uint8_t *)"de";
    CHECK(namedict_pack(text, 3, tag, 2, form, sizeof form).length == 6 && memcmp(form, "\x02" "deEin", 6) == 0);
    namedict_unpacked u = namedict_unpack(form, 6, buffer, sizeof buffer);
    CHECK(u.refusal == 0 && u.text_len == 3 && u.tag_len == 2 && memcmp(buffer, "Einde", 5) == 0);
    CHECK(namedict_unpack(form, 2, buffer, sizeof buffer).refusal == NAMEDICT_CUT_FORM);
    CHECK(namedict_unpack(form, 6, buffer, 4).refusal == NAMEDICT_SHORT_BUFFER);
    CHECK(namedict_unpack(form, sizeof form, buffer, sizeof buffer).refusal == NAMEDICT_TOO_LONG);
    CHECK(namedict_pack(text, 3, NAMEDICT_EMPTY, 0, form, sizeof form).refusal == NAMEDICT_NO_TAG);
    CHECK(namedict_pack(text, 3, tag, 2, form, 5).refusal == NAMEDICT_SHORT_BUFFER);
    CHECK(namedict_pack((const uint8_t *)"\xFF", 1, tag, 2, form, sizeof form).refusal == NAMEDICT_NOT_TEXT);
}

/* Slices with no bytes, in every place where one may stand. */
static void test_empty(void)
{
    static uint8_t form[2];
    uint8_t *no_buffer = (uint8_t *)NAMEDICT_EMPTY;
    CHECK(namedict_open(no_buffer, 0, no_buffer, 0, 13, 6, 100, 4, 8) == NAMEDICT_SHORT_MEMORY);
    open_here(6, 100, 8);
    CHECK(is(add_bytes(&here, NAMEDICT_TYPED, NAMEDICT_EMPTY, 0, NAMEDICT_EMPTY, 0), 0, NAMEDICT_FRESH, 0));
    CHECK(is(find(&here, NAMEDICT_TYPED, "", ""), 0, NAMEDICT_KNOWN, 0));
    CHECK(namedict_find(here.pages, sizeof here.pages, here.lists, sizeof here.lists, NAMEDICT_IRI,
                        NAMEDICT_EMPTY, 0, NAMEDICT_EMPTY, 0).word == NAMEDICT_NONE);
    CHECK(namedict_read(here.pages, sizeof here.pages, here.lists, sizeof here.lists, 0, no_buffer, 0).word == NAMEDICT_NAME);

    CHECK(namedict_is_text(NAMEDICT_EMPTY, 0) == 1 && namedict_split_iri(NAMEDICT_EMPTY, 0) == 0);
    CHECK(namedict_write_fid(0, no_buffer, 0).refusal == NAMEDICT_SHORT_BUFFER);
    CHECK(namedict_read_fid(NAMEDICT_EMPTY, 0).refusal == NAMEDICT_CUT_FORM);
    CHECK(namedict_pack(NAMEDICT_EMPTY, 0, (const uint8_t *)"a", 1, form, sizeof form).length == 2);
    CHECK(namedict_unpack(form, 2, no_buffer, 0).refusal == NAMEDICT_SHORT_BUFFER);
    CHECK(namedict_unpack(NAMEDICT_EMPTY, 0, buffer, sizeof buffer).refusal == NAMEDICT_CUT_FORM);
}

int main(void)
{
    test_kinds();
    test_blocks();
    test_open();
    test_refused_names();
    test_full();
    test_memory();
    test_leaf_rules();
    test_empty();
    return failed;
}
