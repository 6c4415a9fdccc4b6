/*
 * A season's passes on a unit in memory: formats and initializes it, creates a file, appends two blocks through an area process, sees the
 * length booked when the area process is removed, renames the file and removes it, reads a file of fixed length to its end and keeps two files
 * whose names differ in case only. Every answer is checked against the one that the specification asks for; season.expected holds the output.
 *
 *     cc -std=c99 -I out/include examples/c/season.c out/lib/libruzkemp.a -o season && ./season
 */
#include <stdio.h>
#include <stdlib.h>

#include "ruzkemp.h"

/* The unit of the specification's worked cases: H = 1, s = 2, N = 20, F = 10. */
enum { UNIT = 0, SYS_SIZE = 1, SLICE_SIZE = 2, SECTORS = 20, FIRST = 10 };
enum { TILL = 7, GATE = 8 };

static uint16_t image[SECTORS * RUZKEMP_SECTOR_WORDS];
static uint16_t listing[SECTORS * RUZKEMP_SECTOR_WORDS];

/* Prints a call with its result word and, where it is refused, what that means, and stops at one that was not expected. */
static void expect(const char *call, uint16_t result, uint16_t expected)
{
    printf("%-36s %04X", call, result);
    if (result != RUZKEMP_OK)
        printf(" %s", ruzkemp_result_text(result));
    printf("\n");
    if (result != expected) {
        fprintf(stderr, "%s: %04X expected (%s)\n", call, expected, ruzkemp_result_text(expected));
        exit(EXIT_FAILURE);
    }
}

static void show_entry(const uint16_t *entry)
{
    char text[6];
    ruzkemp_text_of(entry + RUZKEMP_ENTRY_NAME, text);
    printf("  %-5s attributes %04X length %u index %u reserved %u\n", text, entry[RUZKEMP_ENTRY_ATTRIBUTES],
        entry[RUZKEMP_ENTRY_LENGTH], entry[RUZKEMP_ENTRY_INDEX], entry[RUZKEMP_ENTRY_RESERVED]);
}

static void show_file(ruzkemp_unit *unit, ruzkemp_name name)
{
    uint16_t entry[RUZKEMP_ENTRY_WORDS];
    expect("Look-up", ruzkemp_look_up(unit, name, entry).result, RUZKEMP_OK);
    show_entry(entry);
}

static void show_free(ruzkemp_unit *unit)
{
    uint16_t words[RUZKEMP_DESCRIPTION_WORDS];
    expect("Get Unit Description", ruzkemp_describe(unit, words).result, RUZKEMP_OK);
    printf("  %u of %u sectors free\n", words[RUZKEMP_DESCRIPTION_FREE], words[RUZKEMP_DESCRIPTION_SECTORS]);
}

/* The listing comes by name, SYS and MAP in their places. */
static void show_all(ruzkemp_unit *unit)
{
    ruzkemp_answer answer = ruzkemp_list(unit, listing, sizeof listing / sizeof *listing);
    uint32_t i;
    expect("Listing", answer.result, RUZKEMP_OK);
    for (i = 0; i < answer.entries; i++)
        show_entry(listing + i * RUZKEMP_ENTRY_WORDS);
}

/* Sells two passes: each is a block appended to the file. */
static void sell(ruzkemp_unit *unit, ruzkemp_name passes)
{
    uint16_t block[RUZKEMP_SECTOR_WORDS] = {0};
    uint16_t pass;
    expect("Create area", ruzkemp_create_area(unit, passes).result, RUZKEMP_OK);
    expect("Reserve, exclusive writer", ruzkemp_reserve(unit, passes, TILL, RUZKEMP_RESERVE_EXCLUSIVE_WRITER).result, RUZKEMP_OK);
    expect("Position at the length", ruzkemp_position(unit, passes, TILL, 2).result, RUZKEMP_OK);
    for (pass = 0; pass < 2; pass++) {
        ruzkemp_answer answer;
        block[0] = (uint16_t)(1979 + pass);
        answer = ruzkemp_output(unit, passes, TILL, block);
        expect("Output", answer.result, RUZKEMP_OK);
        printf("  %u bytes in block %u\n", answer.bytes, answer.block);
    }
}

/* Reads the second pass at the gate, and one that was not sold. */
static void check(ruzkemp_unit *unit, ruzkemp_name passes)
{
    uint16_t block[RUZKEMP_SECTOR_WORDS] = {0};
    ruzkemp_answer answer;
    expect("Input by no user", ruzkemp_input_at(unit, passes, GATE, 3, block).result, RUZKEMP_NOT_USER_OR_PAST_END);
    expect("Reserve, user", ruzkemp_reserve(unit, passes, GATE, RUZKEMP_RESERVE_USER).result, RUZKEMP_OK);
    answer = ruzkemp_input_at(unit, passes, GATE, 3, block);
    expect("Input of block 3", answer.result, RUZKEMP_OK);
    printf("  %u bytes of block %u: pass %u\n", answer.bytes, answer.block, block[0]);
    expect("Input at an extendable file's end", ruzkemp_input(unit, passes, GATE, block).result, RUZKEMP_NOT_USER_OR_PAST_END);
    expect("Output beside an exclusive writer", ruzkemp_output_at(unit, passes, GATE, 0, block).result, RUZKEMP_AREA_ILLEGAL);
    expect("Release", ruzkemp_release(unit, passes, GATE).result, RUZKEMP_OK);
}

/* Reads prices block after block. The till's old program goes on until 0A00h, the word at the end of a file of fixed length; here any refusal
   ends the loop and is checked. */
static void read_prices(ruzkemp_unit *unit, ruzkemp_name prices)
{
    uint16_t block[RUZKEMP_SECTOR_WORDS];
    ruzkemp_answer answer;
    expect("Create of a fixed file", ruzkemp_create(unit, prices, 2, 0).result, RUZKEMP_OK);
    expect("Create area", ruzkemp_create_area(unit, prices).result, RUZKEMP_OK);
    expect("Reserve, user", ruzkemp_reserve(unit, prices, TILL, RUZKEMP_RESERVE_USER).result, RUZKEMP_OK);
    answer = ruzkemp_input(unit, prices, TILL, block);
    while (answer.result == RUZKEMP_OK) {
        printf("  %u bytes of block %u\n", answer.bytes, answer.block);
        answer = ruzkemp_input(unit, prices, TILL, block);
    }
    expect("Input at a fixed file's end", answer.result, RUZKEMP_AREA_ILLEGAL);
    expect("Release", ruzkemp_release(unit, prices, TILL).result, RUZKEMP_OK);
    expect("Remove area", ruzkemp_remove_area(unit, prices).result, RUZKEMP_OK);
}

/* Keeps PASS and Pass as two files: a name is another one as soon as one of its characters is. */
static void keep_both(ruzkemp_unit *unit, ruzkemp_name large, ruzkemp_name small)
{
    uint16_t entry[RUZKEMP_ENTRY_WORDS];
    expect("Create of PASS", ruzkemp_create(unit, large, 1, 0).result, RUZKEMP_OK);
    expect("Look-up of Pass", ruzkemp_look_up(unit, small, entry).result, RUZKEMP_NO_ENTRY);
    expect("Create of Pass", ruzkemp_create(unit, small, 0, RUZKEMP_EXTENDABLE).result, RUZKEMP_OK);
    expect("Change of Pass to PASS", ruzkemp_rename(unit, small, large).result, RUZKEMP_ENTRY_EXISTS);
    expect("Change of Pass to pass", ruzkemp_rename(unit, small, ruzkemp_name_of("pass", UNIT)).result, RUZKEMP_OK);
    show_all(unit);
}

int main(void)
{
    ruzkemp_unit unit = ruzkemp_fresh_unit(UNIT, image, sizeof image / sizeof *image);
    ruzkemp_name passes = ruzkemp_name_of("PASS", UNIT);
    ruzkemp_name season = ruzkemp_name_of("S1979", UNIT);
    ruzkemp_name too_long = ruzkemp_name_of("SEASON79", UNIT);

    expect("Init of a blank image", ruzkemp_init(&unit).result, RUZKEMP_CATALOG_UNSOUND);
    expect("Format", ruzkemp_format_unit(&unit, SYS_SIZE, SLICE_SIZE, SECTORS, FIRST), RUZKEMP_OK);
    expect("Create before Init", ruzkemp_create(&unit, passes, 2, RUZKEMP_EXTENDABLE).result, RUZKEMP_CATALOG_PARAMETER);
    expect("Init", ruzkemp_init(&unit).result, RUZKEMP_OK);
    show_free(&unit);
    expect("Create of size 8", ruzkemp_create(&unit, passes, 8, RUZKEMP_EXTENDABLE).result, RUZKEMP_DISC_FULL);
    expect("Create of size 2", ruzkemp_create(&unit, passes, 2, RUZKEMP_EXTENDABLE).result, RUZKEMP_OK);
    expect("Create once more", ruzkemp_create(&unit, passes, 2, RUZKEMP_EXTENDABLE).result, RUZKEMP_ENTRY_EXISTS);
    show_free(&unit);
    sell(&unit, passes);
    check(&unit, passes);
    show_free(&unit);
    show_file(&unit, passes);
    expect("Remove of an open file", ruzkemp_remove(&unit, passes).result, RUZKEMP_CATALOG_PARAMETER);
    expect("Release", ruzkemp_release(&unit, passes, TILL).result, RUZKEMP_OK);
    expect("Remove area", ruzkemp_remove_area(&unit, passes).result, RUZKEMP_OK);
    show_file(&unit, passes);
    expect("Change to a name of 8 characters", ruzkemp_rename(&unit, passes, too_long).result, RUZKEMP_CATALOG_PARAMETER);
    expect("Change of the name", ruzkemp_rename(&unit, passes, season).result, RUZKEMP_OK);
    show_all(&unit);
    expect("Remove of the old name", ruzkemp_remove(&unit, passes).result, RUZKEMP_NO_ENTRY);
    expect("Remove", ruzkemp_remove(&unit, season).result, RUZKEMP_OK);
    show_free(&unit);
    read_prices(&unit, ruzkemp_name_of("PRICE", UNIT));
    keep_both(&unit, passes, ruzkemp_name_of("Pass", UNIT));
    printf("%s\n", ruzkemp_is_sound(&unit) ? "the unit is sound" : "the unit is not sound");
    return EXIT_SUCCESS;
}
