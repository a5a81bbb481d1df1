/* Two stories over the C boundary: document 01's T5, and a vote that comes out of turn. */
#include <stdio.h>

#include "gaugetwinkle.h"

/* T5: role 0 may send label 1 again and again, or 2 to end. */
static const uint16_t T5[] = {3, 1, 0, 0, 1, 0, 1, 2, 2, 1, 3, 4, 4, 0, 0, 0, 2, 2, 5, 0, 0, 0, 0, 0};

/* The coordinator asks guest 1 and hears its vote, then asks guest 2 and hears its vote. Labels: 0 ask, 1 yes. */
static const uint16_t VOTE[] = {1, 0, 1, 1, 2, 0, 2, 0, 1, 1, 0, 3, 2, 1, 4, 0, 1, 0, 2, 5, 2, 0, 6, 0, 1, 2, 0, 7, 2, 1, 8, 0, 0, 0, 0, 0};

enum { ROLES = 3, ROOM = 256 };

static uint16_t room[ROOM];
static size_t words;
static struct gaugetwinkle_session session;

static void say_awaited(void) {
    uint8_t set;
    uint32_t count, lowest;
    gaugetwinkle_awaited(room, ROLES * words, ROLES, &set, &count, &lowest, GAUGETWINKLE_LEND(&session));
    printf(" awaited %u:", count);
    for (unsigned role = 0; role < ROLES; role++)
        if (set >> role & 1) printf(" %u", role);
    printf("\n");
}

static void open_table(const char *name, const uint16_t *table, size_t length) {
    size_t place;
    words = length;
    unsigned number = gaugetwinkle_open(table, length, ROLES, room, ROOM, &place);
    printf("%s %u %zu\n", name, number, place);
    number = gaugetwinkle_fresh(room, ROLES * words, ROLES, GAUGETWINKLE_LEND(&session));
    printf("fresh %u", number);
    say_awaited();
}

static void say_send(size_t sender, size_t receiver, size_t label, uint32_t payload) {
    uint16_t offered;
    unsigned number =
        gaugetwinkle_send(room, ROLES * words, ROLES, sender, receiver, label, payload, &offered, GAUGETWINKLE_LEND(&session));
    printf("send %zu %zu %zu %u %u", sender, receiver, label, number, offered);
    say_awaited();
}

static void say_receive(size_t sender, size_t receiver) {
    uint8_t label;
    uint32_t payload;
    uint16_t offered;
    unsigned number = gaugetwinkle_receive(room, ROLES * words, ROLES, sender, receiver, &label, &payload, &offered,
                                           GAUGETWINKLE_LEND(&session));
    printf("receive %zu %zu %u %u %u %u", sender, receiver, number, label, payload, offered);
    say_awaited();
}

int main(void) {
    open_table("T5", T5, sizeof T5 / sizeof *T5);
    for (uint32_t i = 0; i < 5; i++) say_send(0, 1, 1, 100 + i);
    say_receive(0, 1);
    say_send(0, 1, 1, 105);

    open_table("VOTE", VOTE, sizeof VOTE / sizeof *VOTE);
    say_send(2, 0, 1, 7); /* guest 2 votes before it is asked: TURN, and nothing is lost */
    say_send(0, 1, 0, 0);
    say_receive(0, 1);
    say_send(1, 0, 2, 5); /* no vote has the label 2: LABEL, and the label 1 is offered */
    say_send(1, 0, 1, 5);
    say_receive(1, 0);
    say_send(0, 2, 0, 0);
    say_receive(0, 2);
    say_send(2, 0, 1, 7); /* now it is its turn */
    say_receive(2, 0);
    return 0;
}
