/* Calls on memory that is no dictionary's: noise, a header with noise behind it, and dictionaries of which some bytes were changed. */
#include <stdio.h>
#include <string.h>

#include "driver.h"
#include "names.h"
#include "random.h"

/* Small, so that a changed word is soon met. */
static const sizes little[] = {{13, 6, 20, 4, 8}, {13, 3, 70, 5, 4}, {14, 6, 33, 4, 20}};

enum { NAMES = 40 };
static name names[NAMES];
static uint64_t numbers[NAMES];
static size_t numbers_len;

static size_t words_of(sizes s)
{
    return NAMEDICT_LIST_BYTES(s.n, s.e, s.b) / 8;
}

static name short_name(void)
{
    char first[20];
    uint64_t kind = below(4);
    snprintf(first, sizeof first, "%zu/%zu", below(9), below(40));
    if (chance(4))
        return new_name();
    return named(kind, first, kind < 2 ? "" : kind == 2 || chance(50) ? "de" : "");
}

/* A dictionary with names of all kinds. */
static void fill_dictionary(sizes s)
{
    clear_names();
    begin_list("memory that is no dictionary's", NAMEDICT_PAGE_BYTES(s.p, s.n), NAMEDICT_LIST_BYTES(s.n, s.e, s.b));
    call_open(s);
    numbers_len = 0;
    for (size_t i = 0; i < NAMES; i++) {
        names[i] = short_name();
        namedict_numbered a = call_add(names[i].kind, first_of(names[i]), second_of(names[i]));
        if (a.refusal == 0)
            numbers[numbers_len++] = a.number;
    }
}

/* Some calls of every entry. */
static void some_calls(size_t calls)
{
    for (size_t i = 0; i < calls; i++) {
        name n = chance(60) ? names[below(NAMES)] : short_name();
        uint64_t number = numbers_len > 0 && chance(60) ? numbers[below(numbers_len)] : chance(90) ? below(200) : random_number();
        switch (below(8)) {
        case 0:
        case 1:
        case 2:
            call_add(n.kind, first_of(n), second_of(n));
            break;
        case 3:
        case 4:
            call_find(n.kind, first_of(n), second_of(n));
            break;
        case 5:
        case 6:
            call_read(number, chance(80) ? OUT_MOST : below(20));
            break;
        default:
            call_count(below(5));
        }
    }
}

/* Another word than this one, which could still be taken for one. */
static uint64_t other_word(uint64_t word, sizes s)
{
    switch (below(9)) {
    case 0:
        return 0;
    case 1:
        return UINT64_MAX;
    case 2:
        return word + 1;
    case 3:
        return word - 1;
    case 4:
        return word ^ (uint64_t)1 << below(64);
    case 5:
        return list_word(below(words_of(s)));
    case 6:
        return word ^ (uint64_t)within(1, 255) << (8 * below(8));
    case 7:
        return below(70);
    default:
        return random_number() >> below(64);
    }
}

/* One place, more often one that is in use: the counts, the pages' words and those of the first entries. */
static size_t some_place(sizes s)
{
    size_t dictionary = 64 + (size_t)s.n + 3 * (size_t)s.e * below(6);
    switch (below(6)) {
    case 0:
        return below(64);
    case 1:
        return 64 + below((size_t)s.n);
    case 2:
    case 3:
        return dictionary + below(10);
    case 4:
        return words_of(s) - 1 - below(5 * (size_t)s.b);
    default:
        return below(words_of(s));
    }
}

/* One to four changed words of a dictionary, or changed bytes of its pages, again and again from the same dictionary. */
static void changed_dictionaries(unsigned times)
{
    for (unsigned i = 0; i < 60 * times; i++) {
        sizes s = little[i % 3];
        fill_dictionary(s);
        keep_memory();
        for (int round = 0; round < 200; round++) {
            for (size_t changes = within(1, 4); changes > 0; changes--) {
                size_t at = some_place(s);
                if (chance(85))
                    set_list_word(at, other_word(list_word(at), s));
                else
                    set_page_byte(below(s.n << s.p), (uint8_t)random_number());
            }
            foreign(1);
            some_calls(30);
            foreign(0);
            restore_memory();
        }
        end_list();
    }
}

/* Every word of a dictionary changed by itself. */
static void each_word(void)
{
    for (size_t which = 0; which < 3; which++) {
        sizes s = little[which];
        fill_dictionary(s);
        keep_memory();
        for (size_t at = 0; at < words_of(s); at++) {
            set_list_word(at, other_word(list_word(at), s));
            foreign(1);
            some_calls(20);
            foreign(0);
            restore_memory();
        }
        end_list();
    }
}

/* The sizes of another dictionary written over those of this one, where its slices may be long enough for them. */
static void other_sizes(unsigned times)
{
    static const sizes others[] = {
        {13, 6, 20, 4, 7}, {13, 6, 19, 4, 8}, {13, 5, 20, 4, 8}, {13, 6, 20, 5, 8}, {13, 1, 1, 4, 1}, {13, 6, 20, 24, 8}, {13, 3, 69, 5, 4},
        {14, 1, 20, 4, 8}, {12, 6, 20, 4, 8}, {13, 6, 20, 4, 4097}, {13, 0, 20, 4, 8}, {13, 6, (uint64_t)1 << 60, 4, 8}, {13, 6, 20, 3, 8},
    };
    for (unsigned i = 0; i < 400 * times; i++) {
        fill_dictionary(little[i % 3]);
        sizes s = others[below(sizeof others / sizeof *others)];
        const uint64_t words[] = {s.p, s.n, s.e, s.w, s.b};
        for (size_t at = 0; at < 5; at++)
            set_list_word(1 + at, words[at]);
        foreign(1);
        some_calls(60);
        end_list();
    }
}

/* Noise, zeros or ones everywhere; behind a header, or without one; of a few words of noise between zeros. */
static void noise(unsigned times)
{
    for (unsigned i = 0; i < 600 * times; i++) {
        sizes s = little[i % 3];
        clear_names();
        numbers_len = 0;
        for (size_t n = 0; n < NAMES; n++)
            names[n] = short_name();
        begin_list("noise", NAMEDICT_PAGE_BYTES(s.p, s.n), NAMEDICT_LIST_BYTES(s.n, s.e, s.b));
        size_t header = 0;
        if (i % 4 != 0) {
            call_open(s);
            header = 6;
        }
        for (size_t at = header; at < words_of(s); at++)
            set_list_word(at, i % 5 == 0 ? 0 : i % 5 == 1 ? UINT64_MAX : chance(70) ? below(9) : other_word(0, s));
        foreign(1);
        some_calls(100);
        end_list();
    }
}

/* Slices too short for the sizes written in them. */
static void short_slices(void)
{
    sizes s = little[0];
    size_t pages_len = NAMEDICT_PAGE_BYTES(s.p, s.n), lists_len = NAMEDICT_LIST_BYTES(s.n, s.e, s.b);
    fill_dictionary(s);
    for (size_t len = 0; len < 600; len++) {
        lend(pages_len, len);
        some_calls(4);
    }
    for (size_t shorter = 0; shorter < 20; shorter++) {
        lend(pages_len - shorter, lists_len);
        some_calls(8);
        lend(pages_len, lists_len - shorter);
        some_calls(8);
    }
    end_list();
}

void run_foreign(unsigned times)
{
    random_from(2);
    changed_dictionaries(times);
    each_word();
    other_sizes(times);
    noise(times);
    short_slices();
}
