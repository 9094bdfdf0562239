/* A small caller of the saver in C: saves frames as they come and says what each call wrote.
 * `saver CARDS POOL` takes the card of each frame from standard input, in decimal; `make firmware` runs it on cards 0 0 1
 * with 2 cards and a pool of 2. */
#include <stdio.h>
#include <stdlib.h>

#include "dockplan.h"

/* What the last call answered. The saver's record in it goes into the next call by value and comes back. */
static dockplan_saver_answer answer;

/* What the cycle wrote, if the call made one. */
static void show_cycle(void)
{
    if (answer.cycle.number == 0) {
        printf(" no cycle");
    } else {
        printf(" cycle %u writes", answer.cycle.number);
        for (unsigned card = 0; card < DOCKPLAN_MAX_CARDS; card++) {
            if (answer.written[card].number != DOCKPLAN_NONE) {
                printf(" %u", answer.written[card].number);
            }
        }
    }
    printf(", %u in the pool\n", answer.saver.waiting);
}

/* A number as the calls take it. One that is too large for its type stays too large for the call, which refuses it. */
static unsigned at_most(unsigned long number, unsigned most)
{
    return number < most ? (unsigned)number : most;
}

/* Saves each frame. A refused call gives the record back as it was, so saving goes on; answers whether none was refused. */
static int save_all(void)
{
    int good = 1;
    unsigned long card;
    while (scanf("%lu", &card) == 1) {
        answer = dockplan_saver_save(answer.saver, (uint8_t)at_most(card, UINT8_MAX));
        if (answer.refusal != 0) {
            printf("a frame on card %lu is refused by %u\n", card, answer.refusal);
            good = 0;
        } else {
            printf("frame %u, card %lu:", answer.saver.taken - 1u, card);
            show_cycle();
        }
    }
    return good;
}

/* Closing cycles, until 14 says that the pool is empty. */
static void close_all(void)
{
    for (;;) {
        answer = dockplan_saver_close(answer.saver);
        if (answer.refusal != 0) {
            break;
        }
        printf("closing:");
        show_cycle();
    }
}

int main(int count, char **word)
{
    if (dockplan_version() != DOCKPLAN_VERSION) {
        printf("this library does not belong to the header\n");
        return 1;
    }
    if (count != 3) {
        printf("usage: saver CARDS POOL, and the card of each frame on standard input\n");
        return 1;
    }
    answer = dockplan_saver_new((uint8_t)at_most(strtoul(word[1], NULL, 10), UINT8_MAX),
                                (uint16_t)at_most(strtoul(word[2], NULL, 10), UINT16_MAX));
    if (answer.refusal != 0) {
        printf("refused by %u\n", answer.refusal);
        return 1;
    }
    int good = save_all();
    close_all();
    printf("%u frames in %u cycles\n", answer.saver.taken, answer.saver.made.number);
    return good ? 0 : 1;
}
