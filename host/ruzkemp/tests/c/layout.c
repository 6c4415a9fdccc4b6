/*
 * What C sees of the interface: the size of each struct and the place of each field, in bytes, then the named numbers, then the 146 words
 * of the state after calls that give every field of it a value of its own, as the library wrote them.
 */
#include <stdio.h>
#include <stdlib.h>

#include "ruzkemp.h"

enum { UNIT = 3, SECTORS = 60, FIRST = 10 };

static uint16_t image[SECTORS * RUZKEMP_SECTOR_WORDS];

#define SIZE(type) printf(#type " %u\n", (unsigned)sizeof(ruzkemp_##type))
#define FIELD(type, field) printf(#type "." #field " %u\n", (unsigned)offsetof(ruzkemp_##type, field))

static void show_state_layout(void)
{
    SIZE(user);
    FIELD(user, id);
    FIELD(user, role);
    FIELD(user, opens);
    FIELD(user, position);
    SIZE(area);
    FIELD(area, live);
    FIELD(area, name);
    FIELD(area, index);
    FIELD(area, length);
    FIELD(area, users);
    SIZE(state);
    FIELD(state, unit);
    FIELD(state, initialized);
    FIELD(state, areas);
}

static void show_call_layout(void)
{
    SIZE(message);
    FIELD(message, call);
    FIELD(message, name);
    FIELD(message, unit);
    FIELD(message, size);
    FIELD(message, attributes);
    FIELD(message, sender);
    FIELD(message, operation);
    FIELD(message, number);
    FIELD(message, bytes);
    FIELD(message, block);
    SIZE(answer);
    FIELD(answer, result);
    FIELD(answer, bytes);
    FIELD(answer, block);
    FIELD(answer, entries);
}

#define NUMBER(name) printf(#name " %04X\n", (unsigned)RUZKEMP_##name)

static void show_results(void)
{
    NUMBER(CATALOG_PARAMETER);
    NUMBER(CATALOG_UNSOUND);
    NUMBER(NO_ENTRY);
    NUMBER(ENTRY_EXISTS);
    NUMBER(DISC_FULL);
    NUMBER(INDEX_FULL);
    NUMBER(FORMAT_RECORD);
    NUMBER(AREA_ILLEGAL);
    NUMBER(AREA_UNSOUND);
    NUMBER(NO_AREA);
    NUMBER(AREA_FULL);
    NUMBER(AREA_RESERVED);
    NUMBER(NOT_USER_OR_PAST_END);
    NUMBER(USERS_OR_INDEX_FULL);
    NUMBER(BLOCK_SIZE);
    NUMBER(WRITE_PROTECTED_FILE);
    NUMBER(NO_SUCH_CALL);
}

static void show_numbers(void)
{
    NUMBER(CATALOG_FILE);
    NUMBER(SUB_CATALOG);
    NUMBER(PERMANENT);
    NUMBER(WRITE_PROTECTED);
    NUMBER(ENTRY_ONLY);
    NUMBER(EXTENDABLE);
    NUMBER(SHARING);
    NUMBER(EXCLUSIVE_WRITER);
    NUMBER(EXCLUSIVE_USER);
    NUMBER(CALL_INIT);
    NUMBER(CALL_SET);
    NUMBER(CALL_CREATE);
    NUMBER(CALL_LOOK_UP);
    NUMBER(CALL_CHANGE);
    NUMBER(CALL_REMOVE);
    NUMBER(CALL_CREATE_AREA);
    NUMBER(CALL_REMOVE_AREA);
    NUMBER(CALL_AREA_MESSAGE);
    NUMBER(CALL_UNIT_DESCRIPTION);
    NUMBER(CALL_LISTING);
    NUMBER(OPERATION_RESERVE);
    NUMBER(OPERATION_POSITION);
    NUMBER(OPERATION_SENSE);
    NUMBER(OPERATION_TRANSPUT);
    NUMBER(OPERATION_OTHER);
}

static void must(uint16_t result)
{
    if (result != RUZKEMP_OK) {
        fprintf(stderr, "refused with %04X\n", result);
        exit(EXIT_FAILURE);
    }
}

/* Makes a sender a user, opens it again and again and positions it. */
static void use(ruzkemp_unit *unit, ruzkemp_name name, uint16_t sender, uint16_t count, uint16_t opens, uint16_t position)
{
    uint16_t i;
    for (i = 0; i < opens; i++)
        must(ruzkemp_reserve(unit, name, sender, count).result);
    must(ruzkemp_position(unit, name, sender, position).result);
}

/* File k, named 'Fk', has k sectors and an area process. 1 to 7 have three users, the second of them exclusive writer; 8 has an exclusive user. */
static void open_file(ruzkemp_unit *unit, uint16_t k)
{
    char text[3] = "F0";
    ruzkemp_name name;
    text[1] = (char)('0' + k);
    name = ruzkemp_name_of(text, UNIT);
    must(ruzkemp_create(unit, name, k, 0).result);
    must(ruzkemp_create_area(unit, name).result);
    if (k < 8) {
        use(unit, name, (uint16_t)(100 * k + 1), RUZKEMP_RESERVE_USER, 1, k);
        use(unit, name, (uint16_t)(100 * k + 2), RUZKEMP_RESERVE_EXCLUSIVE_WRITER, 2, (uint16_t)(k - 1));
        use(unit, name, (uint16_t)(100 * k + 3), RUZKEMP_RESERVE_USER, 3, (uint16_t)(k / 2));
    } else {
        use(unit, name, (uint16_t)(100 * k + 1), RUZKEMP_RESERVE_EXCLUSIVE_USER, 4, k);
    }
}

int main(void)
{
    ruzkemp_unit unit = ruzkemp_fresh_unit(UNIT, image, sizeof image / sizeof *image);
    uint16_t words[sizeof unit.state / sizeof(uint16_t)];
    uint16_t k;
    size_t i;

    show_state_layout();
    show_call_layout();
    show_results();
    show_numbers();
    must(ruzkemp_format_unit(&unit, 1, 2, SECTORS, FIRST));
    must(ruzkemp_init(&unit).result);
    for (k = 1; k <= RUZKEMP_AREAS; k++)
        open_file(&unit, k);
    memcpy(words, &unit.state, sizeof words);
    for (i = 0; i < sizeof words / sizeof *words; i++)
        printf("%u\n", words[i]);
    return EXIT_SUCCESS;
}
