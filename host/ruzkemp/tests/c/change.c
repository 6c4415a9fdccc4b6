/*
 * What ruzkemp_rename and ruzkemp_resize refuse so that it is not read as 'keep', and entries that were looked up lent to Change. Each call is
 * printed with its result word, and 'changed' where the image is another after it.
 */
#include <stdio.h>
#include <stdlib.h>

#include "ruzkemp.h"

/* H = 1, s = 2, N = 20, F = 10: SYS is sector 10. */
enum { UNIT = 2, SECTORS = 20, FIRST = 10 };

static uint16_t image[SECTORS * RUZKEMP_SECTOR_WORDS];
static uint16_t before[SECTORS * RUZKEMP_SECTOR_WORDS];

static void show(const char *call, ruzkemp_answer answer)
{
    const char *changed = memcmp(image, before, sizeof image) != 0 ? " changed" : "";
    printf("%s %04X%s\n", call, answer.result, changed);
    memcpy(before, image, sizeof image);
}

static void show_entry(ruzkemp_unit *unit, const char *text)
{
    uint16_t entry[RUZKEMP_ENTRY_WORDS];
    size_t i;
    show("look-up", ruzkemp_look_up(unit, ruzkemp_name_of(text, UNIT), entry));
    for (i = 0; i < RUZKEMP_ENTRY_WORDS; i++)
        printf("%04X%s", entry[i], i + 1 < RUZKEMP_ENTRY_WORDS ? " " : "\n");
}

static void rename_it(ruzkemp_unit *unit, const char *text, const char *other)
{
    show("rename", ruzkemp_rename(unit, ruzkemp_name_of(text, UNIT), ruzkemp_name_of(other, UNIT)));
}

static void resize_it(ruzkemp_unit *unit, const char *text, uint16_t size)
{
    show("resize", ruzkemp_resize(unit, ruzkemp_name_of(text, UNIT), size));
}

/* Look-up's refusals come first. */
static void without_a_file(ruzkemp_unit *unit)
{
    rename_it(unit, "PASS", "SEASON79");
    resize_it(unit, "PASS", 40000);
    image[9 * RUZKEMP_SECTOR_WORDS] ^= 0x8000;
    before[9 * RUZKEMP_SECTOR_WORDS] ^= 0x8000;
    rename_it(unit, "PASS", "SEASON79");
    resize_it(unit, "PASS", 40000);
    image[9 * RUZKEMP_SECTOR_WORDS] ^= 0x8000;
    before[9 * RUZKEMP_SECTOR_WORDS] ^= 0x8000;
}

static void names_and_lengths(ruzkemp_unit *unit)
{
    ruzkemp_name pass = ruzkemp_name_of("PASS", UNIT);
    ruzkemp_name hollow = {{0, 0x4141, 0x4100}};
    ruzkemp_name late = {{0x0041, 0, 0}};
    /* UNIT + 256 is no unit, though its low eight bits are those of one. */
    show("create", ruzkemp_create(unit, ruzkemp_name_of("PASS", UNIT + 256), 2, RUZKEMP_EXTENDABLE));
    show("create", ruzkemp_create(unit, pass, 2, RUZKEMP_EXTENDABLE));
    rename_it(unit, "PASS", "SEASON79");
    rename_it(unit, "PASS", "");
    show("rename", ruzkemp_rename(unit, pass, hollow));
    show("rename", ruzkemp_rename(unit, pass, late));
    resize_it(unit, "PASS", 65535);
    resize_it(unit, "PASS", 40000);
    resize_it(unit, "PASS", 32768);
    resize_it(unit, "PASS", 32767);
    resize_it(unit, "PASS", 4);
    rename_it(unit, "PASS", "WEEK");
    show_entry(unit, "WEEK");
}

/* An entry-only file of an old disc, third in SYS. */
static void an_old_entry(ruzkemp_unit *unit)
{
    static const uint16_t note[RUZKEMP_ENTRY_WORDS] = {0x4E4F, 0x5445, 0, 1, 2, 3, RUZKEMP_ENTRY_ONLY, 0, 0, 0, 4, 5, 6, 7, 8, 9};
    ruzkemp_name name = ruzkemp_name_of("NOTE", UNIT);
    uint16_t entry[RUZKEMP_ENTRY_WORDS];
    memcpy(image + FIRST * RUZKEMP_SECTOR_WORDS + 2 * RUZKEMP_ENTRY_WORDS, note, sizeof note);
    memcpy(before, image, sizeof image);
    show("look-up", ruzkemp_look_up(unit, name, entry));
    show("change as looked up", ruzkemp_change(unit, name, entry));
    ruzkemp_entry_for_change(entry);
    show("change of nothing", ruzkemp_change(unit, name, entry));
    entry[RUZKEMP_ENTRY_OPTIONAL] = 7;
    show("change of optional", ruzkemp_change(unit, name, entry));
    show_entry(unit, "NOTE");
    entry[RUZKEMP_ENTRY_ATTRIBUTES] = RUZKEMP_PERMANENT;
    entry[RUZKEMP_ENTRY_TAIL] = 8;
    show("change to permanent", ruzkemp_change(unit, name, entry));
    entry[RUZKEMP_ENTRY_TAIL] = 9;
    show("change of a permanent tail", ruzkemp_change(unit, name, entry));
    show_entry(unit, "NOTE");
}

int main(void)
{
    ruzkemp_unit unit = ruzkemp_fresh_unit(UNIT, image, sizeof image / sizeof *image);
    if (ruzkemp_format_unit(&unit, 1, 2, SECTORS, FIRST) != RUZKEMP_OK)
        return EXIT_FAILURE;
    memcpy(before, image, sizeof image);
    show("init", ruzkemp_init(&unit));
    an_old_entry(&unit);
    without_a_file(&unit);
    names_and_lengths(&unit);
    return EXIT_SUCCESS;
}
