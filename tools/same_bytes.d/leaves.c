/* Calls of the leaf rules. */
#include <string.h>

#include "driver.h"
#include "names.h"
#include "random.h"

/* Bytes for a call, at any address modulo 16. */
static uint8_t store[2][OUT_MOST + 16];

static uint8_t *place(int which)
{
    return store[which] + below(16);
}

static part bytes_of(uint8_t *bytes, size_t len)
{
    return (part){bytes, len};
}

/* A buffer of any length around one that is needed. */
static size_t some_buffer(size_t needed)
{
    switch (below(5)) {
    case 0:
        return needed;
    case 1:
        return needed > 0 ? needed - 1 : 0;
    case 2:
        return below(needed + 1);
    case 3:
        return needed + 1;
    default:
        return OUT_MOST;
    }
}

/* Every one and two bytes, those at the borders of the grammar in threes and fours, and text with and without a fault. */
static void texts(void)
{
    static const uint8_t edges[] = {0, 0x7F, 0x80, 0x8F, 0x90, 0x9F, 0xA0, 0xBF, 0xC0, 0xFF};
    uint8_t *at = place(0);
    call_is_text(bytes_of(at, 0));
    for (unsigned i = 0; i < 65536; i++) {
        at[0] = (uint8_t)(i >> 8);
        at[1] = (uint8_t)i;
        call_is_text(bytes_of(at, 2));
        at[2] = ONE_OF(edges);
        call_is_text(bytes_of(at, 3));
        at[3] = ONE_OF(edges);
        call_is_text(bytes_of(at, 4));
        call_is_text(bytes_of(at, 1));
    }
    for (unsigned i = 0; i < 100000; i++) {
        size_t len = chance(90) ? below(60) : below(4100);
        at = place(0);
        fill_text(at, len);
        if (chance(50))
            break_text(at, len);
        if (len > 0 && chance(10))
            at[below(len)] = (uint8_t)random_number();
        call_is_text(bytes_of(at, len));
    }
}

static void splits(void)
{
    for (unsigned i = 0; i < 100000; i++) {
        size_t len = chance(95) ? below(60) : below(4100);
        uint8_t *at = place(0);
        for (size_t n = 0; n < len; n++)
            at[n] = (uint8_t)random_number();
        for (size_t marks = below(4); marks > 0 && len > 0; marks--)
            at[below(len)] = chance(50) ? '/' : '#';
        call_split_iri(bytes_of(at, len));
    }
}

static void write_value(uint64_t value)
{
    for (size_t len = 0; len < 6; len++)
        call_write_fid(value, len);
}

static void fids(void)
{
    for (uint64_t value = 0; value < 17000; value++)
        write_value(value);
    for (unsigned bit = 0; bit < 64; bit++)
        for (uint64_t more = 0; more < 5; more++)
            write_value(((uint64_t)1 << bit) + more - 2);
    for (unsigned i = 0; i < 20000; i++) {
        write_value(random_number() >> below(64));
        uint8_t *at = place(0);
        uint64_t bytes = random_number();
        memcpy(at, &bytes, 8);
        for (size_t len = 0; len < 7; len++)
            call_read_fid(bytes_of(at, len));
    }
}

/* Changes a form in one place, cuts it, or makes it longer. */
static size_t other_form(uint8_t *form, size_t len)
{
    switch (below(7)) {
    case 0:
        return below(len + 1);
    case 1:
        form[len] = 'x';
        return len + 1;
    case 2:
        form[0] = (uint8_t)random_number();
        return len;
    case 3:
        form[below(len)] = (uint8_t)">\\a\0"[below(4)];
        return len;
    case 4:
        form[below(len)] = (uint8_t)random_number();
        return len;
    default:
        return len;
    }
}

/* A text and a tag packed into buffers of all lengths; the form, and forms near to it, unpacked. */
static void pack_and_unpack(part text, part tag)
{
    static uint8_t form[OUT_MOST + 1];
    namedict_written w = call_pack(text, tag, OUT_MOST);
    call_pack(text, tag, some_buffer(w.length));
    call_pack(text, tag, w.length);
    w = call_pack(text, tag, OUT_MOST);
    if (w.refusal != 0)
        return;
    memcpy(form, output(), w.length);
    call_unpack(bytes_of(form, w.length), OUT_MOST);
    call_unpack(bytes_of(form, w.length), some_buffer(text.len + tag.len));
    call_unpack(bytes_of(form, w.length), text.len + tag.len);
    size_t len = other_form(form, w.length);
    call_unpack(bytes_of(form, len), some_buffer(text.len + tag.len));
}

static void break_either(uint8_t *text, size_t text_len, uint8_t *tag, size_t tag_len)
{
    if (chance(50))
        break_text(text, text_len);
    else
        break_text(tag, tag_len);
}

static void packings(void)
{
    static const size_t tags[] = {0, 1, 2, 5, 126, 127, 128, 129, 200}, long_tags[] = {3998, 3999, 4000, 4001};
    for (unsigned i = 0; i < 40000; i++) {
        size_t tag_len = chance(97) ? ONE_OF(tags) : ONE_OF(long_tags);
        size_t left = tag_len < 4000 ? 4000 - tag_len : 0;
        size_t text_len = chance(95) ? below(40) : left + below(2);
        uint8_t *text = place(0), *tag = place(1);
        fill_text(text, text_len);
        fill_text(tag, tag_len);
        if (chance(10))
            break_either(text, text_len, tag, tag_len);
        pack_and_unpack(bytes_of(text, text_len), bytes_of(tag, tag_len));
    }
    for (int make = 0; make < 3; make++) {
        uint8_t *tag = place(1);
        memset(tag, "\\>a"[make], 4001);
        pack_and_unpack(bytes_of(tag, 0), bytes_of(tag, 4000));
        pack_and_unpack(bytes_of(tag, 0), bytes_of(tag, 4001));
    }
}

/* Forms that no packing made: noise, and long ones around 8,002 bytes. */
static void forms(void)
{
    static const char *const pieces[] = {"a", "a", "a", "b", "\\\\", "\\a", "\xC3\xA4", ">", "\\"};
    for (unsigned i = 0; i < 60000; i++) {
        uint8_t *at = place(0);
        size_t len = 1, pieces_len = chance(98) ? within(100, 140) : within(3990, 4005);
        at[0] = (uint8_t)(chance(80) ? 0 : random_number());
        for (size_t n = 0; n < pieces_len && len < 8000; n++) {
            const char *piece = pieces[below(chance(1) ? 9 : 7)];
            memcpy(at + len, piece, strlen(piece));
            len += strlen(piece);
        }
        at[len++] = '>';
        call_unpack(bytes_of(at, len), OUT_MOST);
        call_unpack(bytes_of(at, below(len)), OUT_MOST);
    }
    for (size_t len = 8000; len < 8006; len++) {
        uint8_t *at = place(0);
        fill_text(at, len);
        at[0] = 0;
        call_unpack(bytes_of(at, len), OUT_MOST);
    }
}

void run_leaves(unsigned times)
{
    random_from(3);
    for (unsigned i = 0; i < times; i++) {
        begin_list("leaf rules", 16, 16);
        texts();
        splits();
        fids();
        packings();
        forms();
        end_list();
    }
}
