/* Lists of calls on dictionaries: random ones around each limit, and ones made for a limit. */
#include <stdio.h>
#include <string.h>

#include "driver.h"
#include "names.h"
#include "random.h"
#include "tally.h"

static size_t page_bytes(sizes s)
{
    return NAMEDICT_PAGE_BYTES(s.p, s.n);
}

static size_t list_bytes(sizes s)
{
    return NAMEDICT_LIST_BYTES(s.n, s.e, s.b);
}

/* A dictionary of these sizes in slices that are so many bytes longer than needed. */
static void begin(const char *label, sizes s, size_t longer)
{
    clear_names();
    begin_list(label, page_bytes(s) + longer, list_bytes(s) + longer);
    call_open(s);
}

static namedict_numbered add(name n)
{
    return call_add(n.kind, first_of(n), second_of(n));
}

static namedict_numbered find(name n)
{
    return call_find(n.kind, first_of(n), second_of(n));
}

/* Reads a number into buffers of many lengths, those around the answer's among them. */
static void read_all_ways(uint64_t number)
{
    namedict_name n = call_read(number, OUT_MOST);
    size_t len = n.first_len + n.second_len;
    call_read(number, len);
    call_read(number, len > 0 ? len - 1 : 0);
    call_read(number, below(len + 2));
}

static void all_counts(void)
{
    for (uint64_t kind = 0; kind < 5; kind++)
        call_count(kind);
}

/* ---- open */

/* Each size at its limits and past them, in memory that is long enough, too short by one byte, or empty. */
static void opens(void)
{
    static const uint64_t values[5][8] = {
        {0, 12, 13, 14, 20, 21, 64, UINT64_MAX},
        {0, 1, 2, 6, 1024, 1025, (uint64_t)1 << 51, UINT64_MAX},
        {0, 1, 2, 100, 1048576, 1048577, (uint64_t)1 << 60, UINT64_MAX},
        {0, 3, 4, 5, 24, 25, 64, UINT64_MAX},
        {0, 1, 2, 8, 4096, 4097, (uint64_t)1 << 61, UINT64_MAX},
    };
    const sizes fit = {13, 6, 100, 4, 8};
    begin_list("open", page_bytes(fit) + 9, list_bytes(fit) + 9);
    for (int which = 0; which < 5; which++) {
        for (int i = 0; i < 8; i++) {
            for (size_t shorter = 0; shorter < 3; shorter++) {
                sizes s = fit;
                *(which == 0 ? &s.p : which == 1 ? &s.n : which == 2 ? &s.e : which == 3 ? &s.w : &s.b) = values[which][i];
                lend(page_bytes(fit) + 9 - (shorter == 1 ? 10 : 0), list_bytes(fit) + 9 - (shorter == 2 ? 10 : 0));
                call_open(s);
            }
        }
    }
    lend(0, 0);
    call_open(fit);
    end_list();
}

static sizes any_sizes(void)
{
    static const uint64_t p[] = {0, 12, 13, 13, 14, 16, 20, 21}, n[] = {0, 1, 2, 6, 1024, 1025}, e[] = {0, 1, 2, 33, 200, 1048576, 1048577},
                          w[] = {3, 4, 5, 12, 24, 25}, b[] = {0, 1, 7, 64, 4096, 4097};
    return (sizes){ONE_OF(p), ONE_OF(n), ONE_OF(e), ONE_OF(w), ONE_OF(b)};
}

static size_t at_most(size_t most, size_t n)
{
    return n < most ? n : most;
}

/* Opens in noise: just enough of it, a byte more, a byte less, or much too little; then another open over what is there. */
static void random_opens(unsigned times)
{
    for (unsigned i = 0; i < 3000 * times; i++) {
        sizes s = any_sizes();
        size_t pages_len = at_most(120000, page_bytes(s)), lists_len = at_most(120000, list_bytes(s));
        begin_list("opens in noise", pages_len + 2, lists_len + 2);
        lend(pages_len + within(0, 2) - (pages_len > 0), lists_len + within(0, 2) - 1);
        call_open(s);
        call_count(0);
        call_open(any_sizes());
        call_count(0);
        end_list();
    }
}

/* ---- random lists */

static sizes random_sizes(void)
{
    static const uint64_t p[] = {13, 13, 13, 13, 14, 15}, n[] = {1, 2, 3, 5, 6, 6, 7, 8, 10}, e[] = {1, 2, 3, 17, 33, 64, 65, 66, 100, 200},
                          w[] = {4, 4, 4, 4, 5, 6, 7, 8, 12, 16, 20, 24}, b[] = {1, 2, 3, 4, 5, 6, 7, 8, 20, 64};
    return (sizes){ONE_OF(p), ONE_OF(n), ONE_OF(e), ONE_OF(w), ONE_OF(b)};
}

static uint64_t some_number(const uint64_t *numbers, size_t len, sizes s)
{
    uint64_t known = len > 0 ? numbers[below(len)] : 0, block = (uint64_t)1 << s.w;
    switch (below(10)) {
    case 0:
        return known + 1;
    case 1:
        return known - 1;
    case 2:
        return known + block;
    case 3:
        return s.b * block + below(3) - 1;
    case 4:
        return random_number() >> below(64);
    default:
        return known;
    }
}

/* Slices as long as lent, as long as needed, or too short by a byte. */
static void lend_some(sizes s, size_t longer)
{
    size_t more[2];
    for (int i = 0; i < 2; i++)
        more[i] = chance(1) ? (size_t)-1 : chance(20) ? 0 : longer;
    lend(page_bytes(s) + more[0], list_bytes(s) + more[1]);
    if (more[0] != (size_t)-1 && more[1] != (size_t)-1 && more[0] + more[1] > 0)
        note(LONGER_SLICES);
}

enum { NAMES_MOST = 1500 };
static name names[NAMES_MOST];
static uint64_t numbers[NAMES_MOST];

static void random_calls(sizes s, size_t longer, size_t calls)
{
    size_t names_len = 0, numbers_len = 0;
    for (size_t i = 0; i < calls; i++) {
        name n = names_len > 0 && chance(45) ? names[below(names_len)] : new_name();
        if (chance(15))
            n = near_name(n);
        lend_some(s, longer);
        size_t what = below(10);
        if (what < 5) {
            namedict_numbered a = add(n);
            names[names_len++] = n;
            if (a.refusal == 0)
                numbers[numbers_len++] = a.number;
        } else if (what < 7) {
            find(n);
        } else if (what < 9) {
            call_read(some_number(numbers, numbers_len, s), chance(50) ? OUT_MOST : below(300));
        } else {
            call_count(chance(5) ? random_number() : below(5));
        }
    }
    lend(page_bytes(s) + longer, list_bytes(s) + longer);
    for (size_t i = 0; i < numbers_len; i++)
        read_all_ways(numbers[i]);
    for (size_t i = 0; i < names_len; i++)
        find(names[i]);
    all_counts();
}

static void random_lists(unsigned times)
{
    for (unsigned i = 0; i < 900 * times; i++) {
        sizes s = random_sizes();
        size_t longer = chance(50) ? within(1, 200) : 0;
        begin("random", s, longer);
        random_calls(s, longer, within(100, NAMES_MOST));
        end_list();
    }
}

/* A few larger dictionaries. Their bytes are not compared after every call. */
static void larger_lists(unsigned times)
{
    static const sizes larger[] = {
        {20, 3, 2000, 10, 4096}, {13, 400, 3000, 24, 4096}, {16, 40, 20000, 4, 4096}, {14, 200, 1000, 5, 300}, {20, 1, 500, 6, 64},
    };
    for (unsigned i = 0; i < 10 * times; i++) {
        sizes s = larger[i % 5];
        begin("larger", s, i % 2);
        random_calls(s, i % 2, NAMES_MOST);
        end_list();
    }
}

/* ---- limits */

/* Adds the name of head n and this rest, between finds and a read. */
static namedict_numbered add_head(uint64_t kind, size_t n, const char *rest)
{
    char head[40], whole[50];
    snprintf(head, sizeof head, kind == NAMEDICT_IRI ? "%zu/" : "%zu", n);
    snprintf(whole, sizeof whole, "%s%s", head, rest);
    clear_names();
    name made = kind == NAMEDICT_IRI ? named(kind, whole, "") : named(kind, head, rest);
    find(made);
    namedict_numbered a = add(made);
    if (a.refusal == 0)
        call_read(a.number, 20);
    return a;
}

/* More heads than a lead of one byte and of two can count, of both kinds of pairs. */
static void many_heads(unsigned times)
{
    static const char *const rests[] = {"", "x", "y", "@", "\x7F"};
    static const size_t borders[] = {62, 16382, 16490};
    for (unsigned i = 0; i < times; i++) {
        const sizes s = {16, 24, 40000, 9, 4096};
        begin("many heads", s, 5);
        for (size_t n = 0; n < 16500; n++) {
            for (uint64_t kind = 0; kind < 4; kind += 3) {
                namedict_numbered a = add_head(kind, n, "x");
                if (a.refusal == 0 && a.word == NAMEDICT_FRESH && n >= 64)
                    note(kind == NAMEDICT_IRI ? IRI_HEADS_64 : TYPED_HEADS_64);
                if (a.refusal == 0 && a.word == NAMEDICT_FRESH && n >= 16384)
                    note(kind == NAMEDICT_IRI ? IRI_HEADS_16384 : TYPED_HEADS_16384);
            }
        }
        for (int more = 0; more < 20000; more++)
            add_head(chance(50) ? NAMEDICT_IRI : NAMEDICT_TYPED, chance(50) ? ONE_OF(borders) + below(5) : below(16600), ONE_OF(rests));
        all_counts();
        end_list();
    }
}

/* A little dictionary in which more than 64 heads are looked at closely. */
static void some_heads(unsigned times)
{
    for (unsigned i = 0; i < 10 * times; i++) {
        const sizes s = {13, 6, 150, 6, 10};
        begin("heads", s, 0);
        for (int calls = 0; calls < 400; calls++)
            add_head(chance(50) ? NAMEDICT_IRI : NAMEDICT_TYPED, calls < 140 ? (size_t)calls / 2 : below(80), chance(50) ? "x" : "");
        all_counts();
        end_list();
    }
}

/* Stored bytes besides the text: a lead of one byte, or a tag and its length. */
static const size_t besides[4] = {1, 0, 3, 1};
enum { PAGE = 8192 };

/* A name of this kind whose entry has so many bytes, and begins with a number. */
static name entry_of(uint64_t kind, size_t stored, size_t n)
{
    size_t len = stored - besides[kind];
    name made = {kind, room(len + 2), kind == NAMEDICT_TYPED ? 0 : len, kind == NAMEDICT_TYPED ? len : 0};
    memset(made.bytes, 'a' + (int)(n % 26), len);
    for (size_t i = 0; i < len && i < 2; i++)
        made.bytes[i] = (uint8_t)('0' + (i == 0 ? n / 10 : n) % 10);
    if (kind == NAMEDICT_TAGGED) {
        memcpy(made.bytes + len, "de", 2);
        made.second_len = 2;
    }
    return made;
}

/* How many bytes the next entry shall have, where so many are left in its page. */
static size_t wanted(uint64_t kind, size_t left)
{
    size_t least = besides[kind], most = 3995 + least;
    size_t pick = below(6);
    size_t bytes = pick == 0 ? left : pick == 1 ? left + 1 : pick == 2 && left > 0 ? left - 1 : pick == 3 ? least : within(1, 3995);
    return bytes < least ? least : bytes > most ? most : bytes;
}

/* Pages filled to one byte less, exactly, and one byte more than is left; empty entries after each. */
static void page_edges(unsigned times)
{
    for (unsigned i = 0; i < 300 * times; i++) {
        const sizes s = {13, within(1, 14), 200, 4, 100};
        size_t used[4] = {0, 0, 0, 0}, given = 0;
        begin("edges of pages", s, below(2));
        for (size_t n = 0; n < 60; n++) {
            uint64_t kind = below(4);
            size_t stored = wanted(kind, PAGE - used[kind]);
            name made = entry_of(kind, stored, n);
            namedict_numbered a = add(made);
            if (a.refusal == 0 && a.word == NAMEDICT_FRESH) {
                if (used[kind] == PAGE && stored == 0)
                    note(EMPTY_AFTER_FULL);
                used[kind] = used[kind] + stored > PAGE ? stored : used[kind] + stored;
                if (used[kind] == PAGE)
                    note(FULL_PAGE);
            }
            if (a.refusal == 0)
                numbers[given++] = a.number;
            find(made);
        }
        for (size_t n = 0; n < given; n++)
            read_all_ways(numbers[n]);
        end_list();
    }
}

/* A page that plain strings fill exactly, and then the empty string, in a dictionary with no other page. */
static void empty_after_full(void)
{
    const sizes s = {13, 1, 10, 4, 4};
    begin("empty after full", s, 0);
    for (size_t n = 0; n < 4; n++)
        add(entry_of(NAMEDICT_PLAIN, PAGE / 4, n));
    namedict_numbered a = add(named(NAMEDICT_PLAIN, "", ""));
    if (a.refusal == 0 && a.word == NAMEDICT_FRESH)
        note(EMPTY_AFTER_FULL);
    add(named(NAMEDICT_PLAIN, "a", ""));
    for (uint64_t n = 0; n < 6; n++)
        read_all_ways(n);
    end_list();
}

/* Tags of every make and many lengths, with texts that could be taken for a part of the tag. */
static void tag_lengths(unsigned times)
{
    static const char *const makes[] = {"a", "\\", ">", "\\a", ">\\", "a>", "\x01"}, *const texts[] = {"", "a", ">", "\\", "\\a>", "\x01"};
    const sizes s = {16, 24, 6000, 12, 20};
    for (unsigned i = 0; i < times; i++) {
        begin("lengths of tags", s, 0);
        for (size_t len = 1; len < 4001; len += len < 140 ? 1 : 1930) {
            for (size_t make = 0; make < sizeof makes / sizeof *makes; make++) {
                const char *text = ONE_OF(texts);
                clear_names();
                name n = {NAMEDICT_TAGGED, room(len + strlen(text)), strlen(text), len};
                memcpy(n.bytes, text, n.first_len);
                for (size_t at = 0; at < len; at++)
                    n.bytes[n.first_len + at] = (uint8_t)makes[make][at % strlen(makes[make])];
                find(n);
                namedict_numbered a = add(n);
                find(n);
                if (a.refusal == 0)
                    read_all_ways(a.number);
            }
        }
        end_list();
    }
}

/* Finds, adds and reads a name of this length, of which every byte is the same. */
static void long_name(uint64_t kind, size_t len, size_t second_len, char byte)
{
    clear_names();
    name n = {kind, room(len), len - second_len, second_len};
    memset(n.bytes, byte, len);
    find(n);
    namedict_numbered a = add(n);
    if (a.refusal == 0)
        read_all_ways(a.number);
}

/* The longest names of each kind, and one byte more; a tag of which every byte is escaped. */
static void longest_names(void)
{
    const sizes s = {13, 60, 100, 4, 30};
    begin("longest names", s, 3);
    for (size_t len = 3999; len < 4002; len++) {
        const size_t seconds[] = {0, 1, 127, 128, len - 1, len};
        for (uint64_t kind = 0; kind < 4; kind++)
            for (size_t i = 0; i < (kind < NAMEDICT_TAGGED ? 1 : sizeof seconds / sizeof *seconds); i++)
                for (int make = 0; make < 3; make++)
                    long_name(kind, len, seconds[i], "a>\\"[make]);
    }
    end_list();
}

/* A fault in one place of a plain name, of any kind and length and in every place. The names without it are known, so that a fault is all that matters. */
static void faults(void)
{
    static const uint8_t wrong[] = {0x80, 0xC3, 0xFF};
    const sizes s = {13, 8, 200, 6, 20};
    for (uint64_t kind = 0; kind < 4; kind++) {
        begin("faults", s, 0);
        for (size_t len = 1; len < 40; len++) {
            clear_names();
            name n = {kind, room(len), kind < NAMEDICT_TAGGED ? len : below(len), 0};
            n.second_len = len - n.first_len;
            fill_plain(n.bytes, len);
            for (int known = 0; known < 2; known++) {
                for (size_t at = 0; at < len; at++) {
                    uint8_t byte = n.bytes[at];
                    n.bytes[at] = ONE_OF(wrong);
                    find(n);
                    add(n);
                    n.bytes[at] = byte;
                }
                add(n);
            }
        }
        end_list();
    }
}

/* Names of all kinds in turn until nothing more fits, in every order of the kinds; every number read. */
static void blocks(unsigned times)
{
    for (unsigned order = 0; order < 256 * times; order++) {
        const sizes s = {13, 8, 80, 4, 5 + order % 7};
        begin("blocks", s, 0);
        for (size_t n = 0; n < 160; n++) {
            char bytes[20];
            uint64_t kind = order >> (n / 16 % 4 * 2) & 3;
            snprintf(bytes, sizeof bytes, "%zu/%zu", n % 3, n);
            add(named(kind, bytes, kind < 2 ? "" : "de"));
        }
        for (uint64_t number = 0; number < 16 * (s.b + 1); number++)
            call_read(number, 30);
        all_counts();
        end_list();
    }
}

void run_lists(unsigned times)
{
    random_from(1);
    opens();
    random_opens(times);
    random_lists(times);
    larger_lists(times);
    some_heads(times);
    many_heads(times);
    page_edges(times);
    empty_after_full();
    tag_lengths(times);
    longest_names();
    for (unsigned i = 0; i < 20 * times; i++)
        faults();
    blocks(times);
}
