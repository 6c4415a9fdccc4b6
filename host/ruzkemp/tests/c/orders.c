/*
 * Bytes to words and back, in both orders: to and from bytes at an odd address, in the words' own memory, and with more words than are asked for.
 */
#include <stdio.h>

#include "ruzkemp.h"

enum { WORDS = 4, LEFT = 0xA5A5 };

typedef void loads(uint16_t *words, const unsigned char *bytes, size_t count);
typedef void stores(unsigned char *bytes, const uint16_t *words, size_t count);

/* 'PASS', then a byte of high bits first and last. */
static const unsigned char file[2 * WORDS] = {'P', 'A', 'S', 'S', 0xFF, 0x00, 0x01, 0x80};

static void show_words(const char *what, const uint16_t *words)
{
    size_t i;
    printf("%s", what);
    for (i = 0; i < WORDS; i++)
        printf(" %04X", words[i]);
    printf("\n");
}

static void show_bytes(const char *what, const unsigned char *bytes)
{
    size_t i;
    printf("%s", what);
    for (i = 0; i < 2 * WORDS; i++)
        printf(" %02X", bytes[i]);
    printf("\n");
}

/* One of the two addresses is odd, whatever that of the array is. */
static void at_any_address(loads *load, stores *store)
{
    unsigned char around[2 * WORDS + 1];
    uint16_t words[WORDS];
    size_t start;
    for (start = 0; start < 2; start++) {
        memcpy(around + start, file, sizeof file);
        load(words, around + start, WORDS);
        show_words("words", words);
        memset(around, 0, sizeof around);
        store(around + start, words, WORDS);
        show_bytes("bytes", around + start);
    }
}

static void in_place(loads *load, stores *store)
{
    uint16_t words[WORDS];
    memcpy(words, file, sizeof file);
    load(words, (unsigned char *)words, WORDS);
    show_words("in place", words);
    store((unsigned char *)words, words, WORDS);
    show_bytes("in place", (unsigned char *)words);
}

static void a_part(loads *load, stores *store)
{
    uint16_t words[WORDS] = {LEFT, LEFT, LEFT, LEFT};
    unsigned char bytes[2 * WORDS];
    memset(bytes, 0xA5, sizeof bytes);
    load(words, file, 0);
    store(bytes, words, 0);
    show_words("none", words);
    show_bytes("none", bytes);
    load(words, file, 2);
    show_words("two", words);
    store(bytes, words, 1);
    show_bytes("one", bytes);
}

int main(void)
{
    loads *const load[2] = {ruzkemp_load_high_first, ruzkemp_load_low_first};
    stores *const store[2] = {ruzkemp_store_high_first, ruzkemp_store_low_first};
    size_t i;
    for (i = 0; i < 2; i++) {
        at_any_address(load[i], store[i]);
        in_place(load[i], store[i]);
        a_part(load[i], store[i]);
    }
    return 0;
}
