/*
 * ruzkemp.h: the RC3600 catalog unit for C and C++ programs.
 *
 * A unit is an image (256 words of 16 bits to a sector) and a state. Both belong to the caller and are lent with every call; the library
 * keeps no pointer, has no memory of its own and no locks, so calls on different units may run at once. It reads and writes nothing but the
 * words lent. Every entry point takes any image, state, message and lent words: whatever cannot be done is refused with a result word other
 * than 0, and then no word of image, state and lent words changes but, where said, the sender's position.
 *
 * Some words of the state can stand for the same value: any word but 0 for yes, any role from 2 on for an exclusive user. A call that is
 * obeyed leaves a word that stands for the new value already as it is; any other becomes 1 for yes, 0 for no, and 0, 1 or 2 for a role.
 *
 * Byte order: words are uint16_t, in the machine's own order. An image file of the tool has the high byte of each word first, whatever the
 * machine, so a program that reads or writes one goes through ruzkemp_load_high_first and ruzkemp_store_high_first; for files with the low
 * byte first there are ruzkemp_load_low_first and ruzkemp_store_low_first.
 *
 * Four rules for the caller: pointers are those of uint16_t or of the structs below, never null; state, image and lent words do not
 * overlap; nobody else uses them during a call; a call has 128 KiB of stack (it takes about 40).
 *
 * The library is libruzkemp.a, made by ./build into out/ and installed by `make install`:
 *
 *     cc -std=c99 program.c $(pkg-config --cflags --libs ruzkemp) -o program
 *     cc -std=c99 -I out/include program.c out/lib/libruzkemp.a -o program
 *
 * The first part below is the library's interface. The second part, from "One function for each message" on, is static inline: it fills a
 * message, and only ruzkemp_rename and ruzkemp_resize refuse something themselves. The third part, from "Texts and files" on, is static
 * inline too and makes no call.
 */
#ifndef RUZKEMP_H
#define RUZKEMP_H

#include <stdbool.h>
#include <stddef.h>
#include <stdint.h>
#include <string.h>

#ifdef __cplusplus
extern "C" {
#endif

/* Numbers of the layout. */
enum {
    RUZKEMP_SECTOR_WORDS = 256,
    RUZKEMP_BLOCK_BYTES = 512,      /* the byte count of every transput */
    RUZKEMP_ENTRY_WORDS = 16,
    RUZKEMP_RECORD_WORDS = 9,       /* of the record of Format */
    RUZKEMP_RECORD_BYTES = 18,
    RUZKEMP_DESCRIPTION_WORDS = 16, /* of Get Unit Description */
    RUZKEMP_DESCRIPTION_BYTES = 32,
    RUZKEMP_AREAS = 8,
    RUZKEMP_USERS = 3
};

/* A user's role in an area process; any other number is an exclusive user too. */
enum {
    RUZKEMP_SHARING = 0,
    RUZKEMP_EXCLUSIVE_WRITER = 1,
    RUZKEMP_EXCLUSIVE_USER = 2
};

/* The count of a Reserve message. */
enum {
    RUZKEMP_RELEASE = 0,
    RUZKEMP_RESERVE_EXCLUSIVE_WRITER = 2,
    RUZKEMP_RESERVE_USER = 3,
    RUZKEMP_RESERVE_EXCLUSIVE_USER = 4
};

/* The number of a transput message. */
enum {
    RUZKEMP_INPUT = 1,
    RUZKEMP_OUTPUT = 3,
    RUZKEMP_INPUT_AT = 5,
    RUZKEMP_OUTPUT_AT = 7,
    RUZKEMP_OUTPUT_CHECKED = 19
};

/* Attributes of a file. ENTRY_ONLY comes from old discs: such a file is used like others. Set, Create and Change that give it are refused; Change
   that gives attributes without it makes the file an ordinary one. */
enum {
    RUZKEMP_CATALOG_FILE = 0x8000,    /* bit 0: SYS and MAP only, no caller may set it */
    RUZKEMP_SUB_CATALOG = 0x4000,     /* bit 1: carried without meaning */
    RUZKEMP_PERMANENT = 0x0010,       /* bit 11: not removed, renamed or changed in length */
    RUZKEMP_WRITE_PROTECTED = 0x0008, /* bit 12: no output */
    RUZKEMP_ENTRY_ONLY = 0x0004,      /* bit 13: has no slices; no caller may give it */
    RUZKEMP_EXTENDABLE = 0x0001       /* bit 15: output at the length appends */
};

/* Words of an entry, as Look-up and Listing hand it back. In an entry lent to Set or Change the wanted length stands in
   RUZKEMP_ENTRY_RESERVED. For Change a name whose first word is 0 keeps that of the file, and so do attributes and a length of RUZKEMP_KEPT or
   any other word with bit 0 set: the call is obeyed, and 40000 sectors or attributes 8001h have no effect. Nor have optional and tail where the
   file is permanent before the call. An entry as Look-up gave it is not one to lend to Change: the reserved sectors would become the length,
   and the attributes of an old entry-only file are refused. ruzkemp_entry_for_change makes one of it. */
enum {
    RUZKEMP_ENTRY_NAME = 0,       /* three words */
    RUZKEMP_ENTRY_OPTIONAL = 3,   /* three words, the caller's own */
    RUZKEMP_ENTRY_ATTRIBUTES = 6,
    RUZKEMP_ENTRY_LENGTH = 7,     /* booked length in sectors */
    RUZKEMP_ENTRY_INDEX = 8,      /* sector of the index block, 0 if none */
    RUZKEMP_ENTRY_RESERVED = 9,   /* sectors of the booked slices */
    RUZKEMP_ENTRY_TAIL = 10,      /* six words, the caller's own */
    RUZKEMP_KEPT = 0x8000
};

/* Words of a unit description. */
enum {
    RUZKEMP_DESCRIPTION_UNIT = 1,
    RUZKEMP_DESCRIPTION_SYS_SIZE = 12,   /* H */
    RUZKEMP_DESCRIPTION_SLICE_SIZE = 13, /* s */
    RUZKEMP_DESCRIPTION_SECTORS = 14,    /* N */
    RUZKEMP_DESCRIPTION_FREE = 15        /* free sectors */
};

/* Result words; ruzkemp_result_text has a line for each. Where a word has several reasons, the call decides which are possible. */
enum {
    RUZKEMP_OK = 0,
    /* Unit not known or not initialized; Init, Format: area process open. Record, name, size or attributes illegal. Change, Remove: the file
       has an area process, is SYS or MAP, or is permanent. Listing, Get Unit Description: too few words lent. Format: record illegal. */
    RUZKEMP_CATALOG_PARAMETER = 0x1200,
    RUZKEMP_CATALOG_UNSOUND = 0x9000, /* the image is not sound with the state */
    RUZKEMP_NO_ENTRY = 0x5000,        /* the name does not stand in the catalog */
    RUZKEMP_ENTRY_EXISTS = 0x1010,    /* the new name is used */
    RUZKEMP_DISC_FULL = 0x1100,       /* not enough free slices */
    RUZKEMP_INDEX_FULL = 0x1008,      /* more than 127 stretches in SYS or the file */
    RUZKEMP_FORMAT_RECORD = 0x1080,   /* Format: not 18 bytes, or fewer than 9 words lent */
    /* Unit not known or not initialized; SYS or MAP; operation unknown; Reserve, output: another exclusive writer; Reserve: exclusive use
       beside another user; position negative; output or input at the end of a file that is not extendable. */
    RUZKEMP_AREA_ILLEGAL = 0x0A00,
    RUZKEMP_AREA_UNSOUND = 0x8800,  /* the image is not sound with the state */
    RUZKEMP_NO_AREA = 0x4800,       /* area create: name not entered; messages: no area process of the name */
    RUZKEMP_AREA_FULL = 0x0900,     /* area create: all eight in use; output: no slice free */
    RUZKEMP_AREA_RESERVED = 0x0200, /* another user is exclusive user */
    RUZKEMP_NOT_USER_OR_PAST_END = 0x0810, /* sender 0 or no user; position past the length; input at the end of an extendable file */
    RUZKEMP_USERS_OR_INDEX_FULL = 0x0808,  /* Reserve: three users, or 65,535 opens; output: more than 127 stretches */
    RUZKEMP_BLOCK_SIZE = 0x0880,           /* transput: not 512 bytes, or fewer than 256 words lent */
    RUZKEMP_WRITE_PROTECTED_FILE = 0x0C00, /* output: the file is write protected */
    RUZKEMP_NO_SUCH_CALL = 0xFFFF          /* the number of the message is no call's */
};

/* Which call a message is. Any other number is answered RUZKEMP_NO_SUCH_CALL, and nothing changes. */
enum {
    RUZKEMP_CALL_INIT = 0,
    RUZKEMP_CALL_SET = 1,
    RUZKEMP_CALL_CREATE = 2,
    RUZKEMP_CALL_LOOK_UP = 3,
    RUZKEMP_CALL_CHANGE = 4,
    RUZKEMP_CALL_REMOVE = 5,
    RUZKEMP_CALL_CREATE_AREA = 6,
    RUZKEMP_CALL_REMOVE_AREA = 7,
    RUZKEMP_CALL_AREA_MESSAGE = 8,
    RUZKEMP_CALL_UNIT_DESCRIPTION = 9,
    RUZKEMP_CALL_LISTING = 10 /* the entries come by name: see ruzkemp_list */
};

/* What an area message asks for; any other number is RUZKEMP_OPERATION_OTHER too, which is always refused. */
enum {
    RUZKEMP_OPERATION_RESERVE = 0,
    RUZKEMP_OPERATION_POSITION = 1,
    RUZKEMP_OPERATION_SENSE = 2,
    RUZKEMP_OPERATION_TRANSPUT = 3,
    RUZKEMP_OPERATION_OTHER = 4
};

/* A user of an area process; the entry is vacant if id is 0. */
typedef struct ruzkemp_user {
    uint16_t id;
    uint16_t role;
    uint16_t opens;    /* open count */
    uint16_t position; /* the block that the next transput reads or writes */
} ruzkemp_user;

/* An area process; the descriptor is vacant if live is 0. */
typedef struct ruzkemp_area {
    uint16_t live;
    uint16_t name[3]; /* sixth character 0 */
    uint16_t index;   /* live index sector, 0 while the file has no slice */
    uint16_t length;  /* live length in sectors */
    ruzkemp_user users[RUZKEMP_USERS];
} ruzkemp_area;

/* The state of a unit. */
typedef struct ruzkemp_state {
    uint16_t unit;        /* 0 to 3; with any other number no unit is known */
    uint16_t initialized; /* not 0 once Init has accepted the image */
    ruzkemp_area areas[RUZKEMP_AREAS];
} ruzkemp_state;

/* A call. Fields that it does not name are not read. */
typedef struct ruzkemp_message {
    uint16_t call;
    uint16_t name[3]; /* five characters, high half of a word first, and the unit number as sixth */
    uint16_t unit;    /* Init, Get Unit Description, Listing */
    uint16_t size;    /* Create: length in sectors */
    uint16_t attributes; /* Create */
    uint16_t sender;     /* area message: the sending process */
    uint16_t operation;  /* area message */
    uint16_t number;     /* Reserve: the count; transput and other: the operation's number */
    uint16_t bytes;      /* transput, Get Unit Description: the byte count */
    uint16_t block;      /* Position, transput: the block */
} ruzkemp_message;

/* What a call answers; what it does not hand back is 0. */
typedef struct ruzkemp_answer {
    uint16_t result;
    uint16_t bytes;   /* transput, Get Unit Description: bytes handed back */
    uint16_t block;   /* transput: the block read or written, or the user's position if refused */
    uint32_t entries; /* Listing: number of entries */
} ruzkemp_answer;

/* The layout that the library was compiled for; a compiler that lays out otherwise stops here. */
#if defined(__cplusplus) && __cplusplus >= 201103L
#define RUZKEMP_LAYOUT(name, condition) static_assert(condition, #name)
#elif !defined(__cplusplus) && defined(__STDC_VERSION__) && __STDC_VERSION__ >= 201112L
#define RUZKEMP_LAYOUT(name, condition) _Static_assert(condition, #name)
#else
#define RUZKEMP_LAYOUT(name, condition) typedef char ruzkemp_layout_##name[(condition) ? 1 : -1]
#endif
#define RUZKEMP_FIELD(type, field, offset) RUZKEMP_LAYOUT(type##_##field, offsetof(ruzkemp_##type, field) == (offset))

RUZKEMP_LAYOUT(user, sizeof(ruzkemp_user) == 8);
RUZKEMP_FIELD(user, id, 0);
RUZKEMP_FIELD(user, role, 2);
RUZKEMP_FIELD(user, opens, 4);
RUZKEMP_FIELD(user, position, 6);
RUZKEMP_LAYOUT(area, sizeof(ruzkemp_area) == 36);
RUZKEMP_FIELD(area, live, 0);
RUZKEMP_FIELD(area, name, 2);
RUZKEMP_FIELD(area, index, 8);
RUZKEMP_FIELD(area, length, 10);
RUZKEMP_FIELD(area, users, 12);
RUZKEMP_LAYOUT(state, sizeof(ruzkemp_state) == 292);
RUZKEMP_FIELD(state, unit, 0);
RUZKEMP_FIELD(state, initialized, 2);
RUZKEMP_FIELD(state, areas, 4);
RUZKEMP_LAYOUT(message, sizeof(ruzkemp_message) == 24);
RUZKEMP_FIELD(message, call, 0);
RUZKEMP_FIELD(message, name, 2);
RUZKEMP_FIELD(message, unit, 8);
RUZKEMP_FIELD(message, size, 10);
RUZKEMP_FIELD(message, attributes, 12);
RUZKEMP_FIELD(message, sender, 14);
RUZKEMP_FIELD(message, operation, 16);
RUZKEMP_FIELD(message, number, 18);
RUZKEMP_FIELD(message, bytes, 20);
RUZKEMP_FIELD(message, block, 22);
RUZKEMP_LAYOUT(answer, sizeof(ruzkemp_answer) == 12);
RUZKEMP_FIELD(answer, result, 0);
RUZKEMP_FIELD(answer, bytes, 2);
RUZKEMP_FIELD(answer, block, 4);
RUZKEMP_FIELD(answer, entries, 8);

#undef RUZKEMP_FIELD
#undef RUZKEMP_LAYOUT

/* Whether image and state are a sound unit, for every image and state; RULES.md has the rules. */
bool ruzkemp_sound(const uint16_t *image, size_t words, ruzkemp_state state);

/* Carries out a call. lent holds what the message lends: the entry of Set and Change, the words that Look-up, Listing and Get Unit
   Description fill, the block of a transput. Lent words that are not filled keep theirs. */
ruzkemp_answer ruzkemp_perform(
    ruzkemp_state *state, uint16_t *image, size_t words, uint16_t *lent, size_t lent_words, ruzkemp_message message);

/* Format: writes an empty catalog, leaves the unit uninitialized and answers the result word. The record has nine words: unit, H, s, N, free
   sectors (N - F), F, top (N), and two words that the kit keeps as given; bytes must be 18 and words 256 times N. */
uint16_t ruzkemp_format(
    ruzkemp_state *state, uint16_t *image, size_t words, const uint16_t *record, size_t record_words, uint16_t bytes);

/*
 * One function for each message.
 */

/* A unit: the state, and the image by pointer and number of words. */
typedef struct ruzkemp_unit {
    ruzkemp_state state;
    uint16_t *image;
    size_t words;
} ruzkemp_unit;

/* A name as messages have it: five characters and the unit as sixth. */
typedef struct ruzkemp_name {
    uint16_t words[3];
} ruzkemp_name;

/* The state of a unit that has nothing open and is not initialized. */
static inline ruzkemp_state ruzkemp_fresh_state(uint16_t unit)
{
    ruzkemp_state state;
    memset(&state, 0, sizeof state);
    state.unit = unit;
    return state;
}

/* A unit over an image, with nothing open and not initialized. */
static inline ruzkemp_unit ruzkemp_fresh_unit(uint16_t unit, uint16_t *image, size_t words)
{
    ruzkemp_unit fresh;
    fresh.state = ruzkemp_fresh_state(unit);
    fresh.image = image;
    fresh.words = words;
    return fresh;
}

/* The name of a text of one to five characters on a unit, each as given: 'pass' and 'PASS' are two names. A legal one has a letter (A to Z or a to
   z) and then letters or digits. A longer or empty text gives a name that no file can have; in an entry lent to Change it keeps the file's name.
   The sixth character has eight bits: any unit above 254 is 255 there, which no unit is. */
static inline ruzkemp_name ruzkemp_name_of(const char *text, uint16_t unit)
{
    unsigned char characters[6] = {0, 0, 0, 0, 0, 0};
    size_t length = strlen(text);
    size_t i;
    ruzkemp_name name;
    if (length <= 5)
        memcpy(characters, text, length);
    characters[5] = (unsigned char)(unit > 255 ? 255 : unit);
    for (i = 0; i < 3; i++)
        name.words[i] = (uint16_t)(characters[2 * i] * 256u + characters[2 * i + 1]);
    return name;
}

/* The text of a name, sixth character left out; text has room for six characters. */
static inline void ruzkemp_text_of(const uint16_t name[3], char text[6])
{
    size_t i;
    for (i = 0; i < 5; i++)
        text[i] = (char)(i % 2 == 0 ? name[i / 2] >> 8 : name[i / 2] & 0xFF);
    text[5] = '\0';
}

/* The steps that the functions below share: an empty message, one with a name, one to an area process, and the call. */
static inline ruzkemp_message ruzkemp_empty_message(uint16_t call)
{
    ruzkemp_message message;
    memset(&message, 0, sizeof message);
    message.call = call;
    return message;
}

static inline ruzkemp_message ruzkemp_named_message(uint16_t call, ruzkemp_name name)
{
    ruzkemp_message message = ruzkemp_empty_message(call);
    memcpy(message.name, name.words, sizeof message.name);
    return message;
}

static inline ruzkemp_message ruzkemp_area_message(ruzkemp_name name, uint16_t sender, uint16_t operation)
{
    ruzkemp_message message = ruzkemp_named_message(RUZKEMP_CALL_AREA_MESSAGE, name);
    message.sender = sender;
    message.operation = operation;
    return message;
}

static inline ruzkemp_answer ruzkemp_send(ruzkemp_unit *unit, ruzkemp_message message, uint16_t *lent, size_t lent_words)
{
    return ruzkemp_perform(&unit->state, unit->image, unit->words, lent, lent_words, message);
}

static inline ruzkemp_answer ruzkemp_send_alone(ruzkemp_unit *unit, ruzkemp_message message)
{
    uint16_t none = 0;
    return ruzkemp_send(unit, message, &none, 0);
}

/* Whether the unit is sound. */
static inline bool ruzkemp_is_sound(const ruzkemp_unit *unit)
{
    return ruzkemp_sound(unit->image, unit->words, unit->state);
}

/* Format with H, s, N and F; the other words of the record follow from these, kit words 6 and 7 are 0. */
static inline uint16_t ruzkemp_format_unit(
    ruzkemp_unit *unit, uint16_t sys_size, uint16_t slice_size, uint16_t sectors, uint16_t first)
{
    uint16_t record[RUZKEMP_RECORD_WORDS];
    memset(record, 0, sizeof record);
    record[0] = unit->state.unit;
    record[1] = sys_size;
    record[2] = slice_size;
    record[3] = sectors;
    record[4] = (uint16_t)(sectors - first);
    record[5] = first;
    record[6] = sectors;
    return ruzkemp_format(&unit->state, unit->image, unit->words, record, RUZKEMP_RECORD_WORDS, RUZKEMP_RECORD_BYTES);
}

/* Init: accepts the image if it is sound and no area process is open. */
static inline ruzkemp_answer ruzkemp_init(ruzkemp_unit *unit)
{
    ruzkemp_message message = ruzkemp_empty_message(RUZKEMP_CALL_INIT);
    message.unit = unit->state.unit;
    return ruzkemp_send_alone(unit, message);
}

/* Set: a new file with the size, attributes (no ENTRY_ONLY), optional and tail of an entry. */
static inline ruzkemp_answer ruzkemp_set(ruzkemp_unit *unit, ruzkemp_name name, uint16_t entry[RUZKEMP_ENTRY_WORDS])
{
    return ruzkemp_send(unit, ruzkemp_named_message(RUZKEMP_CALL_SET, name), entry, RUZKEMP_ENTRY_WORDS);
}

/* Create: a new file of so many sectors, all zero; attributes without ENTRY_ONLY. It lies in one stretch where as many neighbouring slices are
   free, the lowest that are. */
static inline ruzkemp_answer ruzkemp_create(ruzkemp_unit *unit, ruzkemp_name name, uint16_t size, uint16_t attributes)
{
    ruzkemp_message message = ruzkemp_named_message(RUZKEMP_CALL_CREATE, name);
    message.size = size;
    message.attributes = attributes;
    return ruzkemp_send_alone(unit, message);
}

/* Look-up: fills entry with the booked entry. */
static inline ruzkemp_answer ruzkemp_look_up(ruzkemp_unit *unit, ruzkemp_name name, uint16_t entry[RUZKEMP_ENTRY_WORDS])
{
    return ruzkemp_send(unit, ruzkemp_named_message(RUZKEMP_CALL_LOOK_UP, name), entry, RUZKEMP_ENTRY_WORDS);
}

/* Makes of an entry that Look-up gave one that Change is lent: name, attributes and length are kept, optional and tail are its own. What is to be
   changed is put into it then; the wanted length into RUZKEMP_ENTRY_RESERVED. */
static inline void ruzkemp_entry_for_change(uint16_t entry[RUZKEMP_ENTRY_WORDS])
{
    memset(entry + RUZKEMP_ENTRY_NAME, 0, 3 * sizeof *entry);
    entry[RUZKEMP_ENTRY_ATTRIBUTES] = RUZKEMP_KEPT;
    entry[RUZKEMP_ENTRY_RESERVED] = RUZKEMP_KEPT;
}

/* Change: gives a file the name, attributes (no ENTRY_ONLY, unless they are kept), length, optional and tail of an entry, which is sent as it
   is: see RUZKEMP_KEPT for the words of it that keep the file's. A permanent file keeps optional and tail, even where the same call takes that
   attribute away; Look-up tells what stands. */
static inline ruzkemp_answer ruzkemp_change(ruzkemp_unit *unit, ruzkemp_name name, uint16_t entry[RUZKEMP_ENTRY_WORDS])
{
    return ruzkemp_send(unit, ruzkemp_named_message(RUZKEMP_CALL_CHANGE, name), entry, RUZKEMP_ENTRY_WORDS);
}

/* Another name, all else kept: a Look-up, then a Change. The unit is that of the old name; that of the other is not looked at. A name that
   Change would read as 'keep', such as that of a text of no or of more than five characters, is refused with RUZKEMP_CATALOG_PARAMETER, as
   any other illegal name is. */
static inline ruzkemp_answer ruzkemp_rename(ruzkemp_unit *unit, ruzkemp_name name, ruzkemp_name other)
{
    uint16_t entry[RUZKEMP_ENTRY_WORDS];
    ruzkemp_answer answer = ruzkemp_look_up(unit, name, entry);
    if (answer.result == RUZKEMP_OK && other.words[0] == 0)
        answer.result = RUZKEMP_CATALOG_PARAMETER;
    if (answer.result != RUZKEMP_OK)
        return answer;
    ruzkemp_entry_for_change(entry);
    memcpy(entry + RUZKEMP_ENTRY_NAME, other.words, sizeof other.words);
    return ruzkemp_change(unit, name, entry);
}

/* Another length, all else kept: a Look-up, then a Change. A length above 32,767, which Change would read as 'keep', is refused with
   RUZKEMP_CATALOG_PARAMETER, as ruzkemp_create refuses it. */
static inline ruzkemp_answer ruzkemp_resize(ruzkemp_unit *unit, ruzkemp_name name, uint16_t size)
{
    uint16_t entry[RUZKEMP_ENTRY_WORDS];
    ruzkemp_answer answer = ruzkemp_look_up(unit, name, entry);
    if (answer.result == RUZKEMP_OK && (size & RUZKEMP_KEPT) != 0)
        answer.result = RUZKEMP_CATALOG_PARAMETER;
    if (answer.result != RUZKEMP_OK)
        return answer;
    ruzkemp_entry_for_change(entry);
    entry[RUZKEMP_ENTRY_RESERVED] = size;
    return ruzkemp_change(unit, name, entry);
}

/* Remove. */
static inline ruzkemp_answer ruzkemp_remove(ruzkemp_unit *unit, ruzkemp_name name)
{
    return ruzkemp_send_alone(unit, ruzkemp_named_message(RUZKEMP_CALL_REMOVE, name));
}

/* Create area: opens a file; nothing happens if it is open. */
static inline ruzkemp_answer ruzkemp_create_area(ruzkemp_unit *unit, ruzkemp_name name)
{
    return ruzkemp_send_alone(unit, ruzkemp_named_message(RUZKEMP_CALL_CREATE_AREA, name));
}

/* Remove area: books the file's length and slices; nothing happens if it is not open or has users. */
static inline ruzkemp_answer ruzkemp_remove_area(ruzkemp_unit *unit, ruzkemp_name name)
{
    return ruzkemp_send_alone(unit, ruzkemp_named_message(RUZKEMP_CALL_REMOVE_AREA, name));
}

/* Reserve: with RUZKEMP_RESERVE_USER and the like the sender becomes a user or opens once more. */
static inline ruzkemp_answer ruzkemp_reserve(ruzkemp_unit *unit, ruzkemp_name name, uint16_t sender, uint16_t count)
{
    ruzkemp_message message = ruzkemp_area_message(name, sender, RUZKEMP_OPERATION_RESERVE);
    message.number = count;
    return ruzkemp_send_alone(unit, message);
}

/* Release: one open less; at zero the sender is no user any more. */
static inline ruzkemp_answer ruzkemp_release(ruzkemp_unit *unit, ruzkemp_name name, uint16_t sender)
{
    return ruzkemp_reserve(unit, name, sender, RUZKEMP_RELEASE);
}

/* Position: the sender's next block. A negative one is refused and becomes 0, one past the length is refused and becomes the length. */
static inline ruzkemp_answer ruzkemp_position(ruzkemp_unit *unit, ruzkemp_name name, uint16_t sender, uint16_t block)
{
    ruzkemp_message message = ruzkemp_area_message(name, sender, RUZKEMP_OPERATION_POSITION);
    message.block = block;
    return ruzkemp_send_alone(unit, message);
}

/* Sense. */
static inline ruzkemp_answer ruzkemp_sense(ruzkemp_unit *unit, ruzkemp_name name, uint16_t sender)
{
    return ruzkemp_send_alone(unit, ruzkemp_area_message(name, sender, RUZKEMP_OPERATION_SENSE));
}

/* Transput by its number: RUZKEMP_INPUT and RUZKEMP_INPUT_AT fill the 256 words, the others write them to the file. */
static inline ruzkemp_answer ruzkemp_transput(
    ruzkemp_unit *unit, ruzkemp_name name, uint16_t sender, uint16_t number, uint16_t block, uint16_t words[RUZKEMP_SECTOR_WORDS])
{
    ruzkemp_message message = ruzkemp_area_message(name, sender, RUZKEMP_OPERATION_TRANSPUT);
    message.number = number;
    message.bytes = RUZKEMP_BLOCK_BYTES;
    message.block = block;
    return ruzkemp_send(unit, message, words, RUZKEMP_SECTOR_WORDS);
}

/* Input at the sender's position. At the end of the file it is refused and the position stays: RUZKEMP_AREA_ILLEGAL where the file is of fixed
   length, RUZKEMP_NOT_USER_OR_PAST_END where it is extendable. */
static inline ruzkemp_answer ruzkemp_input(
    ruzkemp_unit *unit, ruzkemp_name name, uint16_t sender, uint16_t words[RUZKEMP_SECTOR_WORDS])
{
    return ruzkemp_transput(unit, name, sender, RUZKEMP_INPUT, 0, words);
}

/* Position, then input, with the refusals of both. */
static inline ruzkemp_answer ruzkemp_input_at(
    ruzkemp_unit *unit, ruzkemp_name name, uint16_t sender, uint16_t block, uint16_t words[RUZKEMP_SECTOR_WORDS])
{
    return ruzkemp_transput(unit, name, sender, RUZKEMP_INPUT_AT, block, words);
}

/* Output at the sender's position; at the length it appends. */
static inline ruzkemp_answer ruzkemp_output(
    ruzkemp_unit *unit, ruzkemp_name name, uint16_t sender, uint16_t words[RUZKEMP_SECTOR_WORDS])
{
    return ruzkemp_transput(unit, name, sender, RUZKEMP_OUTPUT, 0, words);
}

/* Position, then output. */
static inline ruzkemp_answer ruzkemp_output_at(
    ruzkemp_unit *unit, ruzkemp_name name, uint16_t sender, uint16_t block, uint16_t words[RUZKEMP_SECTOR_WORDS])
{
    return ruzkemp_transput(unit, name, sender, RUZKEMP_OUTPUT_AT, block, words);
}

/* Output with a read after it; answers as ruzkemp_output does. */
static inline ruzkemp_answer ruzkemp_output_checked(
    ruzkemp_unit *unit, ruzkemp_name name, uint16_t sender, uint16_t words[RUZKEMP_SECTOR_WORDS])
{
    return ruzkemp_transput(unit, name, sender, RUZKEMP_OUTPUT_CHECKED, 0, words);
}

/* Get Unit Description: fills the words; see RUZKEMP_DESCRIPTION_FREE and the like. */
static inline ruzkemp_answer ruzkemp_describe(ruzkemp_unit *unit, uint16_t description[RUZKEMP_DESCRIPTION_WORDS])
{
    ruzkemp_message message = ruzkemp_empty_message(RUZKEMP_CALL_UNIT_DESCRIPTION);
    message.unit = unit->state.unit;
    message.bytes = RUZKEMP_DESCRIPTION_BYTES;
    return ruzkemp_send(unit, message, description, RUZKEMP_DESCRIPTION_WORDS);
}

/* Listing: fills 16 words for each entry, SYS's and MAP's among them, by name: the entries' first words increase as unsigned numbers; where
   two are equal, the second words do, and then the third. As many words as the image has are always enough. */
static inline ruzkemp_answer ruzkemp_list(ruzkemp_unit *unit, uint16_t *entries, size_t entries_words)
{
    ruzkemp_message message = ruzkemp_empty_message(RUZKEMP_CALL_LISTING);
    message.unit = unit->state.unit;
    return ruzkemp_send(unit, message, entries, entries_words);
}

/*
 * Texts and files.
 */

/* What a result word means, in one short line without the word; Error of the Rust package has the same texts. */
static inline const char *ruzkemp_result_text(uint16_t result)
{
    switch (result) {
    case RUZKEMP_OK: return "done";
    case RUZKEMP_CATALOG_PARAMETER: return "parameter refused by the catalog";
    case RUZKEMP_CATALOG_UNSOUND: return "image is not sound with the state";
    case RUZKEMP_NO_ENTRY: return "no entry of the name";
    case RUZKEMP_ENTRY_EXISTS: return "name is used by another file";
    case RUZKEMP_DISC_FULL: return "not enough free slices";
    case RUZKEMP_INDEX_FULL: return "more than 127 stretches in SYS or the file";
    case RUZKEMP_FORMAT_RECORD: return "not one record of 18 bytes";
    case RUZKEMP_AREA_ILLEGAL: return "illegal area call, or the end of a fixed file";
    case RUZKEMP_AREA_UNSOUND: return "image is not sound with the state, at an area call";
    case RUZKEMP_NO_AREA: return "no area process of the name, or no entry to open";
    case RUZKEMP_AREA_FULL: return "no area process vacant, or no slice free";
    case RUZKEMP_AREA_RESERVED: return "another user is exclusive user";
    case RUZKEMP_NOT_USER_OR_PAST_END: return "sender is no user, or the position is at or past the end";
    case RUZKEMP_USERS_OR_INDEX_FULL: return "no more users or opens, or more than 127 stretches in the file";
    case RUZKEMP_BLOCK_SIZE: return "not one block of 512 bytes";
    case RUZKEMP_WRITE_PROTECTED_FILE: return "file is write protected";
    case RUZKEMP_NO_SUCH_CALL: return "no call has the message's number";
    default: return "no result word of the library";
    }
}

/* So many words of a file's bytes, two bytes each, the high one first as image files of the tool have it. bytes has any alignment, and may be
   the memory of words itself, so that a file can be read into the image and turned there:

       sectors = fread(image, 512, most, file);
       ruzkemp_load_high_first(image, (const unsigned char *)image, RUZKEMP_SECTOR_WORDS * sectors); */
static inline void ruzkemp_load_high_first(uint16_t *words, const unsigned char *bytes, size_t count)
{
    size_t i;
    for (i = 0; i < count; i++)
        words[i] = (uint16_t)(bytes[2 * i] * 256u + bytes[2 * i + 1]);
}

/* The bytes of so many words, for a file with the high byte first; bytes is apart from words or, as above, their memory itself. */
static inline void ruzkemp_store_high_first(unsigned char *bytes, const uint16_t *words, size_t count)
{
    size_t i;
    for (i = 0; i < count; i++) {
        unsigned word = words[i];
        bytes[2 * i] = (unsigned char)(word >> 8);
        bytes[2 * i + 1] = (unsigned char)(word & 0xFF);
    }
}

/* As ruzkemp_load_high_first, of a file with the low byte first. */
static inline void ruzkemp_load_low_first(uint16_t *words, const unsigned char *bytes, size_t count)
{
    size_t i;
    for (i = 0; i < count; i++)
        words[i] = (uint16_t)(bytes[2 * i + 1] * 256u + bytes[2 * i]);
}

/* As ruzkemp_store_high_first, for a file with the low byte first. */
static inline void ruzkemp_store_low_first(unsigned char *bytes, const uint16_t *words, size_t count)
{
    size_t i;
    for (i = 0; i < count; i++) {
        unsigned word = words[i];
        bytes[2 * i] = (unsigned char)(word & 0xFF);
        bytes[2 * i + 1] = (unsigned char)(word >> 8);
    }
}

#ifdef __cplusplus
}
#endif

#endif
