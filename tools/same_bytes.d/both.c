#include "both.h"

#include <inttypes.h>
#include <signal.h>
#include <stdio.h>
#include <stdlib.h>
#include <string.h>
#include <unistd.h>

#include "driver.h"
#include "random.h"
#include "tally.h"

/* tools/same_bytes gives the symbols of each archive a prefix. */
#define ALL_ENTRIES(DO) \
    DO(open) DO(add) DO(find) DO(read) DO(count) DO(is_text) DO(split_iri) DO(write_fid) DO(read_fid) DO(pack) DO(unpack)
#define DECLARE(entry) extern __typeof__(namedict_##entry) old_namedict_##entry, new_namedict_##entry;
ALL_ENTRIES(DECLARE)

#define POINTER(entry) __typeof__(namedict_##entry) *entry;
#define OLD(entry) .entry = old_namedict_##entry,
#define NEW(entry) .entry = new_namedict_##entry,
static const struct {
    ALL_ENTRIES(POINTER)
} archives[2] = {{ALL_ENTRIES(OLD)}, {ALL_ENTRIES(NEW)}};

/* A piece of memory that each archive has by itself; margins before and behind it are compared too. */
enum { MARGIN = 64 };
typedef struct {
    const char *name;
    size_t most;
    uint8_t *room[2], *kept;  /* allocated once */
    uint8_t *whole[2];        /* with the margins */
    uint8_t *side[2];         /* what is lent */
    size_t len, lent;
} memory;

static memory pages = {.name = "pages", .most = PAGES_MOST};
static memory lists = {.name = "lists", .most = LISTS_MOST};
static memory out = {.name = "buffer", .most = OUT_MOST};

/* The list and the call that run, for the report of a difference. */
static const char *label = "";
static sizes opened;
static struct {
    enum entry entry;
    uint64_t numbers[5];
    part first, second;
    size_t buffer_len;
    volatile int side;
} now;
static uint64_t calls, list_calls, lists_begun, compared_at, close_from = UINT64_MAX;
static int is_foreign;

uint64_t calls_made(void)
{
    return calls;
}

uint64_t lists_made(void)
{
    return lists_begun;
}

void look_closely_from(uint64_t call)
{
    close_from = call;
}

/* ---- the report of a difference */

static void print_part(const char *name, part p)
{
    printf("  %s: %zu bytes", name, p.len);
    for (size_t i = 0; i < p.len && i < 200; i++)
        printf("%s%02x", i == 0 ? " " : "", p.bytes[i]);
    printf("%s\n", p.len > 200 ? ".." : "");
}

static void print_call(void)
{
    printf("list %" PRIu64 " (%s), sizes p %" PRIu64 ", N %" PRIu64 ", E %" PRIu64 ", w %" PRIu64 ", B %" PRIu64 ", call %" PRIu64 " of the list\n",
           lists_begun, label, opened.p, opened.n, opened.e, opened.w, opened.b, list_calls);
    printf("  %s%s, numbers", entry_names[now.entry], is_foreign ? " on memory that is no dictionary's" : "");
    for (int i = 0; i < (now.entry == OPEN ? 5 : 1); i++)
        printf(" %" PRIu64, now.numbers[i]);
    printf("; pages of %zu, lists of %zu, buffer of %zu bytes\n", pages.lent, lists.lent, now.buffer_len);
    print_part("first", now.first);
    print_part("second", now.second);
}

static void end_different(void)
{
    printf("differences: 1 or more (the run ends at the first)\n");
    exit(1);
}

/* The bytes of a large dictionary are compared now and then, so the call that made the difference may be an earlier one: then everything runs
 * again, and the calls since the bytes were the same are looked at one by one. */
static void look_again(void)
{
    if (compared_at + 1 < calls && close_from == UINT64_MAX)
        run_again_closely(compared_at);
}

static void answers_differ(const uint64_t *old, const uint64_t *new, size_t words)
{
    look_again();
    print_call();
    for (int side = 0; side < 2; side++) {
        printf("  %s answer:", side == 0 ? "old" : "new");
        for (size_t i = 0; i < words; i++)
            printf(" %" PRIu64, (side == 0 ? old : new)[i]);
        printf("\n");
    }
    end_different();
}

static void bytes_differ(const memory *m)
{
    look_again();
    size_t at = 0;
    while (m->whole[0][at] == m->whole[1][at])
        at++;
    print_call();
    printf("  %s, byte %td: old %02x, new %02x\n", m->name, m->whole[0] + at - m->side[0], m->whole[0][at], m->whole[1][at]);
    end_different();
}

/* A list takes a few seconds at the most. After so many a call does not end. */
enum { LIST_SECONDS = 300 };

static void crashed(int number)
{
    printf("signal %d in the %s archive\n", number, now.side == 0 ? "old" : "new");
    print_call();
    end_different();
}

/* ---- memory */

static size_t whole_len(const memory *m)
{
    return m->len + 2 * MARGIN;
}

static void compare_bytes(void)
{
    const memory *all[3] = {&pages, &lists, &out};
    for (int i = 0; i < 3; i++)
        if (memcmp(all[i]->whole[0], all[i]->whole[1], whole_len(all[i])) != 0)
            bytes_differ(all[i]);
    compared_at = calls;
}

static uint8_t *allocated(size_t len)
{
    uint8_t *bytes = (uint8_t *)malloc(len);
    if (bytes == NULL)
        exit(2);
    return bytes;
}

/* Noise of this length on both sides, at any address modulo 16. */
static void begin_memory(memory *m, size_t len)
{
    if (len > m->most)
        exit(2);
    size_t shift = below(16);
    for (int side = 0; side < 2; side++) {
        if (m->room[side] == NULL)
            m->room[side] = allocated(m->most + 2 * MARGIN + 16);
        m->whole[side] = m->room[side] + shift;
        m->side[side] = m->whole[side] + MARGIN;
    }
    m->len = m->lent = len;
    for (size_t i = 0; i < whole_len(m); i += 8) {
        uint64_t word = random_number();
        memcpy(m->whole[0] + i, &word, whole_len(m) - i < 8 ? whole_len(m) - i : 8);
    }
    memcpy(m->whole[1], m->whole[0], whole_len(m));
}

void begin_list(const char *new_label, size_t pages_len, size_t lists_len)
{
    static const int crashes[] = {SIGSEGV, SIGBUS, SIGILL, SIGFPE, SIGTRAP, SIGALRM};
    for (size_t i = 0; i < sizeof crashes / sizeof *crashes; i++)
        signal(crashes[i], crashed);
    alarm(LIST_SECONDS);
    label = new_label;
    lists_begun++;
    list_calls = 0;
    opened = (sizes){0, 0, 0, 0, 0};
    is_foreign = 0;
    begin_memory(&pages, pages_len);
    begin_memory(&lists, lists_len);
    begin_memory(&out, OUT_MOST);
}

void end_list(void)
{
    compare_bytes();
}

void lend(size_t pages_len, size_t lists_len)
{
    if (pages_len > pages.len || lists_len > lists.len)
        exit(2);
    pages.lent = pages_len;
    lists.lent = lists_len;
}

void foreign(int is)
{
    is_foreign = is;
}

void set_page_byte(size_t at, uint8_t value)
{
    pages.side[0][at] = pages.side[1][at] = value;
}

void set_list_byte(size_t at, uint8_t value)
{
    lists.side[0][at] = lists.side[1][at] = value;
}

uint64_t list_word(size_t index)
{
    uint64_t word = 0;
    for (size_t i = 8; i-- > 0;)
        word = word << 8 | lists.side[0][8 * index + i];
    return word;
}

void set_list_word(size_t index, uint64_t value)
{
    for (size_t i = 0; i < 8; i++)
        set_list_byte(8 * index + i, (uint8_t)(value >> (8 * i)));
}

static void keep(memory *m)
{
    if (m->kept == NULL)
        m->kept = allocated(m->most);
    memcpy(m->kept, m->side[0], m->len);
}

static void restore(memory *m)
{
    for (int side = 0; side < 2; side++)
        memcpy(m->side[side], m->kept, m->len);
}

void keep_memory(void)
{
    keep(&pages);
    keep(&lists);
}

void restore_memory(void)
{
    restore(&pages);
    restore(&lists);
}

const uint8_t *output(void)
{
    return out.side[0];
}

/* ---- calls */

static const part nothing = {(const uint8_t *)"", 0};

static void begin_call(enum entry entry, uint64_t number, part first, part second, size_t buffer_len)
{
    calls++;
    list_calls++;
    now.entry = entry;
    now.numbers[0] = number;
    now.first = first;
    now.second = second;
    now.buffer_len = buffer_len;
    if (entry == READ || entry == WRITE_FID || entry == PACK || entry == UNPACK) {
        out.lent = buffer_len;
        memset(out.side[0], (int)(calls & 0xFF), out.len);
        memset(out.side[1], (int)(calls & 0xFF), out.len);
        if (buffer_len == 0)
            note(EMPTY_BUFFER);
    }
}

/* The larger the memory, the rarer all its bytes are compared. The buffer is compared after each call. */
static int time_to_compare(void)
{
    return calls >= close_from || calls - compared_at > (pages.len + lists.len) >> 17;
}

static void end_call(const void *old, const void *new, size_t bytes)
{
    if (memcmp(old, new, bytes) != 0)
        answers_differ((const uint64_t *)old, (const uint64_t *)new, bytes / 8);
    if (memcmp(out.whole[0], out.whole[1], whole_len(&out)) != 0)
        bytes_differ(&out);
    if (time_to_compare())
        compare_bytes();
}

/* Counts a refusal, or the answer `which` where there was none. */
static void tally(uint64_t refusal, uint64_t which)
{
    int apart = is_foreign && now.entry != OPEN;
    if (refusal != 0)
        tally_refusal(apart, now.entry, refusal);
    else
        tally_answer(apart, now.entry, (unsigned)which);
}

/* Fills the stack that a call is going to use: neither archive shall find there what the other left. */
static __attribute__((noinline)) void scrub_stack(int byte)
{
    volatile uint8_t room[4096];
    memset((uint8_t *)room, byte, sizeof room);
}

#define ON_BOTH(call)                                  \
    for (now.side = 0; now.side < 2; now.side++) {     \
        scrub_stack(now.side == 0 ? 0x00 : 0xA5);      \
        answer[now.side] = archives[now.side].call;    \
    }                                                  \
    end_call(&answer[0], &answer[1], sizeof answer[0])
#define PAGES_LISTS pages.side[now.side], pages.lent, lists.side[now.side], lists.lent

uint64_t call_open(sizes s)
{
    uint64_t answer[2];
    begin_call(OPEN, s.p, nothing, nothing, 0);
    now.numbers[1] = s.n;
    now.numbers[2] = s.e;
    now.numbers[3] = s.w;
    now.numbers[4] = s.b;
    ON_BOTH(open(PAGES_LISTS, s.p, s.n, s.e, s.w, s.b));
    tally(answer[0], 0);
    if (answer[0] == 0)
        opened = s;
    return answer[0];
}

/* How many bytes of a tag are escaped: none of a short one. */
static size_t escapes(part tag)
{
    size_t count = 0;
    for (size_t i = 0; tag.len > 127 && i < tag.len; i++)
        count += tag.bytes[i] == '>' || tag.bytes[i] == '\\';
    return count;
}

/* What the parts of a fresh name tell. */
static void note_name(uint64_t kind, part first, part second)
{
    if (first.len + second.len == 4000)
        note(NAME_4000);
    if (first.len == 0)
        note(EMPTY_FIRST);
    if (kind == NAMEDICT_TYPED && second.len == 0)
        note(EMPTY_SECOND);
    if (kind == NAMEDICT_TAGGED && (second.len == 127 || second.len == 128))
        note(second.len == 127 ? TAG_127 : TAG_128);
    if (kind == NAMEDICT_TAGGED && escapes(second) > 0)
        note(ESCAPED_TAG);
    if (kind == NAMEDICT_TAGGED && escapes(second) == 4000)
        note(FORM_8002);
    for (size_t i = 0; i < first.len; i++) {
        uint8_t byte = first.bytes[i];
        if (byte < 0x80 || byte >= 0xC0)
            note(byte < 0x80 ? CHARACTERS_1 : byte < 0xE0 ? CHARACTERS_2 : byte < 0xF0 ? CHARACTERS_3 : CHARACTERS_4);
    }
}

namedict_numbered call_add(uint64_t kind, part first, part second)
{
    namedict_numbered answer[2];
    begin_call(ADD, kind, first, second, 0);
    ON_BOTH(add(PAGES_LISTS, kind, first.bytes, first.len, second.bytes, second.len));
    tally(answer[0].refusal, (answer[0].word == NAMEDICT_FRESH ? 0 : 4) + kind);
    if (answer[0].refusal == 0 && answer[0].word == NAMEDICT_FRESH && !is_foreign)
        note_name(kind, first, second);
    if (answer[0].refusal == NAMEDICT_TOO_LONG && first.len + second.len == 4001)
        note(NAME_4001);
    return answer[0];
}

namedict_numbered call_find(uint64_t kind, part first, part second)
{
    namedict_numbered answer[2];
    begin_call(FIND, kind, first, second, 0);
    ON_BOTH(find(PAGES_LISTS, kind, first.bytes, first.len, second.bytes, second.len));
    tally(answer[0].refusal, (answer[0].word == NAMEDICT_KNOWN ? 0 : 4) + kind);
    return answer[0];
}

static void note_buffer(uint64_t refusal, size_t answer_len, size_t buffer_len)
{
    if (refusal == 0 && answer_len > 0)
        note(answer_len == buffer_len ? EXACT_BUFFER : LONGER_BUFFER);
}

namedict_name call_read(uint64_t number, size_t buffer_len)
{
    namedict_name answer[2];
    begin_call(READ, number, nothing, nothing, buffer_len);
    ON_BOTH(read(PAGES_LISTS, number, out.side[now.side], out.lent));
    tally(answer[0].refusal, answer[0].word == NAMEDICT_NONE ? 4 : answer[0].kind & 3);
    note_buffer(answer[0].refusal, answer[0].first_len + answer[0].second_len, buffer_len);
    return answer[0];
}

namedict_counted call_count(uint64_t kind)
{
    namedict_counted answer[2];
    begin_call(COUNT, kind, nothing, nothing, 0);
    ON_BOTH(count(PAGES_LISTS, kind));
    tally(answer[0].refusal, kind);
    return answer[0];
}

uint64_t call_is_text(part bytes)
{
    uint64_t answer[2];
    begin_call(IS_TEXT, 0, bytes, nothing, 0);
    ON_BOTH(is_text(bytes.bytes, bytes.len));
    tally(0, answer[0]);
    return answer[0];
}

uint64_t call_split_iri(part iri)
{
    uint64_t answer[2];
    begin_call(SPLIT_IRI, 0, iri, nothing, 0);
    ON_BOTH(split_iri(iri.bytes, iri.len));
    tally(0, answer[0] != 0);
    return answer[0];
}

namedict_written call_write_fid(uint64_t value, size_t buffer_len)
{
    namedict_written answer[2];
    begin_call(WRITE_FID, value, nothing, nothing, buffer_len);
    ON_BOTH(write_fid(value, out.side[now.side], out.lent));
    tally(answer[0].refusal, answer[0].length - 1);
    note_buffer(answer[0].refusal, answer[0].length, buffer_len);
    return answer[0];
}

namedict_value call_read_fid(part bytes)
{
    namedict_value answer[2];
    begin_call(READ_FID, 0, bytes, nothing, 0);
    ON_BOTH(read_fid(bytes.bytes, bytes.len));
    tally(answer[0].refusal, answer[0].length - 1);
    return answer[0];
}

namedict_written call_pack(part text, part tag, size_t buffer_len)
{
    namedict_written answer[2];
    begin_call(PACK, 0, text, tag, buffer_len);
    ON_BOTH(pack(text.bytes, text.len, tag.bytes, tag.len, out.side[now.side], out.lent));
    tally(answer[0].refusal, tag.len > 127);
    note_buffer(answer[0].refusal, answer[0].length, buffer_len);
    return answer[0];
}

namedict_unpacked call_unpack(part packed, size_t buffer_len)
{
    namedict_unpacked answer[2];
    begin_call(UNPACK, 0, packed, nothing, buffer_len);
    ON_BOTH(unpack(packed.bytes, packed.len, out.side[now.side], out.lent));
    tally(answer[0].refusal, answer[0].tag_len > 127);
    note_buffer(answer[0].refusal, answer[0].text_len + answer[0].tag_len, buffer_len);
    if (packed.len == 8002 && answer[0].refusal == 0)
        note(FORM_8002);
    if (packed.len == 8003 && answer[0].refusal == NAMEDICT_TOO_LONG)
        note(FORM_8003);
    return answer[0];
}
