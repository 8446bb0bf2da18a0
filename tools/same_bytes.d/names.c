#include "names.h"

#include <stdio.h>
#include <stdlib.h>
#include <string.h>

#include "random.h"

static uint8_t arena[32 << 20];
static size_t used;

part first_of(name n)
{
    return (part){n.bytes, n.first_len};
}

part second_of(name n)
{
    return (part){n.bytes + n.first_len, n.second_len};
}

void clear_names(void)
{
    used = 0;
}

uint8_t *room(size_t len)
{
    if (len > sizeof arena - used)
        exit(2);
    uint8_t *bytes = arena + used;
    used += len;
    return bytes;
}

static name empty_name(uint64_t kind, size_t first_len, size_t second_len)
{
    return (name){kind, room(first_len + second_len), first_len, second_len};
}

name named(uint64_t kind, const char *first, const char *second)
{
    name n = empty_name(kind, strlen(first), strlen(second));
    memcpy(n.bytes, first, n.first_len);
    memcpy(n.bytes + n.first_len, second, n.second_len);
    return n;
}

/* The first and the last characters of each length, and the marks that the rules know. */
static const char *const characters[] = {
    "a", "b", "/", "#", "\\", ">", "\x01", "\x7F", "\xC2\x80", "\xC3\xA4", "\xDF\xBF", "\xE0\xA0\x80", "\xE2\x82\xAC", "\xED\x9F\xBF",
    "\xEE\x80\x80", "\xEF\xBF\xBF", "\xF0\x90\x80\x80", "\xF0\x9F\x94\xA7", "\xF4\x8F\xBF\xBF",
};
static const char *const marks[] = {"\\", ">", "\\", ">", "a"};
static const char *const plain[] = {"a", "e", "r", "0", "1", "7", "-", "/"};

/* As many characters as fit; 'a' where only a shorter one does. */
static void fill(uint8_t *to, size_t len, const char *const *from, size_t from_len)
{
    for (size_t at = 0; at < len;) {
        const char *c = from[below(from_len)];
        if (strlen(c) > len - at)
            c = "a";
        memcpy(to + at, c, strlen(c));
        at += strlen(c);
    }
}

#define FILL(to, len, from) fill(to, len, from, sizeof(from) / sizeof *(from))

void fill_text(uint8_t *to, size_t len)
{
    switch (below(6)) {
    case 0:
    case 1:
        FILL(to, len, characters);
        break;
    case 2:
        FILL(to, len, marks);
        break;
    case 3:
        memset(to, 'a' + (int)below(26), len);
        break;
    default:
        FILL(to, len, plain);
    }
}

void fill_plain(uint8_t *to, size_t len)
{
    FILL(to, len, plain);
}

void break_text(uint8_t *bytes, size_t len)
{
    static const char *const wrong[] = {
        "\x80", "\xBF", "\xC0\x80", "\xC1\xBF", "\xC2", "\xE0\x80\x80", "\xE0\x9F\xBF", "\xED\xA0\x80", "\xED\xBF\xBF", "\xF0\x80\x80\x80",
        "\xF0\x8F\xBF\xBF", "\xF4\x90\x80\x80", "\xF5\x80\x80\x80", "\xF8\x88\x80\x80", "\xFE", "\xFF", "\xE2\x82", "\xF0\x9F\x94",
    };
    if (len == 0)
        return;
    const char *c = ONE_OF(wrong);
    size_t n = strlen(c) < len ? strlen(c) : len;
    size_t at = chance(30) ? len - n : below(len - n + 1);
    memcpy(bytes + at, c, n);
}

static size_t some_length(void)
{
    switch (below(12)) {
    case 0:
    case 1:
        return below(3);
    case 2:
        return within(60, 68);
    case 3:
        return within(124, 132);
    case 4:
        return within(253, 258);
    case 5:
        return within(300, 1500);
    case 6:
        return within(3996, 4001);
    default:
        return within(2, 30);
    }
}

/* A head that comes again and again, and a short rest. */
static name with_known_head(uint64_t kind)
{
    char head[40];
    uint8_t rest[4];
    size_t rest_len = below(sizeof rest);
    int len = snprintf(head, sizeof head, kind == NAMEDICT_IRI ? "http://p/%zu#" : "urn:%zu", below(90));
    fill_text(rest, rest_len);
    name n = empty_name(kind, (size_t)len, rest_len);
    memcpy(n.bytes, head, (size_t)len);
    memcpy(n.bytes + len, rest, rest_len);
    if (kind == NAMEDICT_IRI) {
        n.first_len += n.second_len;
        n.second_len = 0;
    }
    return n;
}

static name tagged(void)
{
    static const size_t tags[] = {0, 1, 2, 2, 5, 5, 126, 127, 128, 129, 200, 3999, 4000, 4001};
    size_t tag_len = ONE_OF(tags), text_len = some_length();
    if (tag_len + text_len > 4001 || (tag_len > 3000 && chance(70)))
        text_len = tag_len > 4000 ? 0 : 4000 - tag_len + below(2);
    return empty_name(NAMEDICT_TAGGED, text_len, tag_len);
}

name new_name(void)
{
    uint64_t kind = below(4);
    if ((kind == NAMEDICT_IRI || kind == NAMEDICT_TYPED) && chance(60))
        return with_known_head(kind);
    name n;
    if (kind == NAMEDICT_TAGGED) {
        n = tagged();
    } else {
        size_t len = some_length();
        size_t border = kind == NAMEDICT_TYPED ? below(len + 1) : len;
        n = empty_name(kind, border, len - border);
    }
    fill_text(n.bytes, n.first_len);
    fill_text(n.bytes + n.first_len, n.second_len);
    if (chance(5))
        break_text(n.bytes, n.first_len);
    if (chance(5))
        break_text(n.bytes + n.first_len, n.second_len);
    return n;
}

name near_name(name n)
{
    name near = empty_name(n.kind, n.first_len, n.second_len + 1);
    memcpy(near.bytes, n.bytes, n.first_len + n.second_len);
    near.second_len = n.second_len;
    switch (below(6)) {
    case 0:
        near.kind = chance(10) ? random_number() : below(6);
        break;
    case 1:
        if (near.first_len > 0) {
            near.first_len--;
            near.second_len++;
        }
        break;
    case 2:
        if (near.second_len > 0) {
            near.first_len++;
            near.second_len--;
        }
        break;
    case 3:
        near.bytes[near.first_len + near.second_len] = 'x';
        near.second_len++;
        break;
    case 4:
        break_text(near.bytes, near.first_len);
        break;
    default:
        if (near.first_len + near.second_len > 0)
            near.bytes[below(near.first_len + near.second_len)] = (uint8_t)random_number();
    }
    return near;
}
