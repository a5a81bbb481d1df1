/* Gaugetwinkle's C boundary. Link libembed.a (`rt lib` in crates/embed).
 *
 * Every call is total: any table, any tables, any state, any lengths get a number, and a refused send or receive changes nothing.
 * What no call can test is where a pointer leads. So:
 *
 * - A slice is a pointer and a length in elements. The pointer is aligned for its type and leads to so many elements; where the
 *   length is 0 it may be NULL or lead anywhere, and is not followed.
 * - A place for an answer (place, label, payload, offered, set, count, lowest) is never NULL and is aligned. Each call writes all of its
 *   places, refused or not, and reads none of them.
 * - What a call writes overlaps nothing else that it is given: the room, each place for an answer, and in fresh, send and receive
 *   the four slices of the state. Slices that are only read (table, tables, the state in awaited) may overlap each other.
 *
 * A call keeps no pointer, has no memory of its own and takes nothing from the heap: calls over different memory may run at the
 * same time. */
#ifndef GAUGETWINKLE_H
#define GAUGETWINKLE_H

#include <stddef.h>
#include <stdint.h>

/* The limits. */
#define GAUGETWINKLE_ROLES 8
#define GAUGETWINKLE_ROWS 256
#define GAUGETWINKLE_LABELS 64
#define GAUGETWINKLE_DEPTH 4

/* The numbers that come back. */
enum gaugetwinkle_number {
    GAUGETWINKLE_ACCEPTED = 0,
    GAUGETWINKLE_WORDS = 1,
    GAUGETWINKLE_ROLE_COUNT = 2,
    GAUGETWINKLE_ROOM = 3,
    GAUGETWINKLE_KIND = 4,
    GAUGETWINKLE_FIELD = 5,
    GAUGETWINKLE_LINK = 6,
    GAUGETWINKLE_NAMED = 7,
    GAUGETWINKLE_TWICE = 8,
    GAUGETWINKLE_UNBOUND = 9,
    GAUGETWINKLE_UNGUARDED = 10,
    GAUGETWINKLE_NOPART = 11,
    GAUGETWINKLE_TABLES = 12,
    GAUGETWINKLE_STATE = 13,
    GAUGETWINKLE_PARTY = 14,
    GAUGETWINKLE_TURN = 15,
    GAUGETWINKLE_LABEL = 16,
    GAUGETWINKLE_FULL = 17,
    GAUGETWINKLE_EMPTY = 18,
    GAUGETWINKLE_STRAY = 19
};

/* A state. The queue from p to q has the number p * 8 + q, and its slots stand from 4 times that on, the oldest message first. */
struct gaugetwinkle_session {
    uint16_t heads[8];
    uint8_t counts[64];
    uint8_t labels[256];
    uint32_t payloads[256];
};

/* Opens a table of so many roles. Accepted, the first roles * words words of the room are the roles' parts, the rest stays, and
 * *place is 0; refused, the room stays as it is, and *place is the row (4 to 10) or the role (11) that the number is about, or 0
 * (1 to 3). */
uint8_t gaugetwinkle_open(const uint16_t *table, size_t words, size_t roles, uint16_t *room, size_t room_words, size_t *place);

/* The calls below take the tables that an opening wrote: exactly roles * words of the room. The state is lent as four slices, of 8,
 * 64, 256 and 256 elements. Where one of them has another length, they are no state: each call then leaves all four as they are and
 * gives 13, or 12 if the tables are not well formed either. GAUGETWINKLE_LEND names its argument more than once. */
#define GAUGETWINKLE_LENT                                                                              \
    uint16_t *heads, size_t heads_count, uint8_t *counts, size_t counts_count, uint8_t *labels,        \
        size_t labels_count, uint32_t *payloads, size_t payloads_count
#define GAUGETWINKLE_LEND(s)                                                                           \
    (s)->heads, (size_t)8, (s)->counts, (size_t)64, (s)->labels, (size_t)256, (s)->payloads, (size_t)256

/* A fresh state, whatever stood in the slices before; refused with 12 it is all zeros. Slices of other lengths stay as they are, with
 * 12 too; only they are refused with 13. */
uint8_t gaugetwinkle_fresh(const uint16_t *tables, size_t words, size_t roles, GAUGETWINKLE_LENT);

/* Refused, the state stays as it is. Refused with 16, *offered is the lowest label that the sender may send to the receiver; in every
 * other answer, accepted too, it is GAUGETWINKLE_LABELS. */
uint8_t gaugetwinkle_send(const uint16_t *tables, size_t words, size_t roles, size_t sender, size_t receiver, size_t label,
                          uint32_t payload, uint16_t *offered, GAUGETWINKLE_LENT);

/* The message goes to *label and *payload. Refused, they are 0 and the state stays as it is. Refused with 19, *offered is the lowest
 * label that the receiver takes from the sender; in every other answer it is GAUGETWINKLE_LABELS. */
uint8_t gaugetwinkle_receive(const uint16_t *tables, size_t words, size_t roles, size_t sender, size_t receiver, uint8_t *label,
                             uint32_t *payload, uint16_t *offered, GAUGETWINKLE_LENT);

/* The awaited roles: role r is the bit 1 << r of *set; how many; the lowest, or 8. Refused, they are 0, 0 and 8. */
uint8_t gaugetwinkle_awaited(const uint16_t *tables, size_t words, size_t roles, uint8_t *set, uint32_t *count, uint32_t *lowest,
                             const uint16_t *heads, size_t heads_count, const uint8_t *counts, size_t counts_count,
                             const uint8_t *labels, size_t labels_count, const uint32_t *payloads, size_t payloads_count);

#endif
