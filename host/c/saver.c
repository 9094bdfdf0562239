/* The saver in plain C, written by hand for speed, twice: with the record by value, as include/dockplan.h has it, and with a record that is lent and
 * changed in place. Both give the same answers for every record that a call gave. It is compiled as plain.c is. */
#include <string.h>

#include "dockplan.h"

#ifndef PLAIN
#define PLAIN(name) plain_##name
#endif

enum {
    WRONG_CARDS = 4,
    WRONG_POOL = 5,
    WRONG_CARD = 8,
    ALL_TAKEN = 13,
    EMPTY_POOL = 14,
    HAS_CLOSED = 15
};

/* What a call with a lent record answers, into lent memory too: all of the header's answer but for the record. */
typedef struct {
    uint8_t refusal;
    dockplan_cycle cycle;
    dockplan_position written[DOCKPLAN_MAX_CARDS];
} made_answer;

dockplan_saver_answer PLAIN(saver_new)(uint8_t cards, uint16_t pool);
dockplan_saver_answer PLAIN(saver_save)(dockplan_saver saver, uint8_t card);
dockplan_saver_answer PLAIN(saver_close)(dockplan_saver saver);
void PLAIN(lent_new)(dockplan_saver *saver, uint8_t cards, uint16_t pool, made_answer *answer);
void PLAIN(lent_save)(dockplan_saver *saver, uint8_t card, made_answer *answer);
void PLAIN(lent_close)(dockplan_saver *saver, made_answer *answer);

/* ---- The steps --------------------------------------------------------------------------------------------------------------------------- */

static inline unsigned new_refusal(unsigned cards, unsigned pool)
{
    if (cards < 1 || cards > DOCKPLAN_MAX_CARDS) {
        return WRONG_CARDS;
    }
    return pool < 1 || pool > DOCKPLAN_MAX_POOL ? WRONG_POOL : 0;
}

static inline unsigned save_refusal(const dockplan_saver *saver, unsigned card)
{
    if (saver->closing) {
        return HAS_CLOSED;
    }
    if (card >= saver->cards) {
        return WRONG_CARD;
    }
    return saver->taken >= DOCKPLAN_MAX_FRAMES ? ALL_TAKEN : 0;
}

/* An empty record; beside a refusal it has one card, a pool of 1 and closing begun. */
static inline void start(dockplan_saver *saver, unsigned refusal, unsigned cards, unsigned pool)
{
    memset(saver, 0, sizeof *saver);
    saver->cards = (uint8_t)(refusal == 0 ? cards : 1);
    saver->pool = (uint16_t)(refusal == 0 ? pool : 1);
    saver->closing = refusal != 0;
}

/* No card writes anything. */
static inline void write_nothing(dockplan_position *written)
{
    memset(written, 0xFF, DOCKPLAN_MAX_CARDS * sizeof *written);
}

static inline void enter(dockplan_saver *saver, unsigned card)
{
    saver->card[saver->waiting] = (uint8_t)card;
    saver->position[saver->waiting].number = saver->taken;
    saver->waiting++;
    saver->taken++;
}

/* The set of one card. */
static inline uint32_t set_of(unsigned card)
{
    return (uint32_t)1 << card;
}

/* The set of the cards with waiting frames, by way of four sets, so that not each frame waits for the one before it. */
static inline uint32_t waiting_cards(const dockplan_saver *saver)
{
    const uint8_t *card = saver->card;
    const size_t waiting = saver->waiting;
    uint32_t a = 0, b = 0, c = 0, d = 0;
    size_t i = 0;
    for (; i + 4 <= waiting; i += 4) {
        a |= set_of(card[i]);
        b |= set_of(card[i + 1]);
        c |= set_of(card[i + 2]);
        d |= set_of(card[i + 3]);
    }
    for (; i < waiting; i++) {
        a |= set_of(card[i]);
    }
    return a | b | c | d;
}

/* How many frames are taken at once before it is asked whether more of them can be the first of their card. */
#define FRAMES_AT_ONCE 8

/* One cycle: the first frame of each card is written, and the others move up, from one record to another or within one. Answers how many are left;
 * what stands behind them is for the caller to clear.
 *   seen     the cards of the frames so far
 *   first    at c the first frame of card c; at 32 + c goes any other one of it, so that there is no branch, which could not be foretold
 * Once all cards with frames are seen, the rest moves up at once. */
static inline size_t move_up(const dockplan_saver *from, dockplan_saver *to, dockplan_position *written)
{
    dockplan_position first[2 * DOCKPLAN_MAX_CARDS];
    const uint32_t all = waiting_cards(from);
    const size_t waiting = from->waiting;
    uint32_t seen = 0;
    size_t left = 0;
    size_t i = 0;
    write_nothing(first);
    while (seen != all) {
        size_t end = waiting - i < FRAMES_AT_ONCE ? waiting : i + FRAMES_AT_ONCE;
        for (; i < end; i++) {
            unsigned card = from->card[i];
            dockplan_position position = from->position[i];
            unsigned again = seen >> card & 1;
            seen |= set_of(card);
            to->card[left] = (uint8_t)card;
            to->position[left] = position;
            first[card + DOCKPLAN_MAX_CARDS * again] = position;
            left += again;
        }
    }
    memmove(to->card + left, from->card + i, (waiting - i) * sizeof to->card[0]);
    memmove(to->position + left, from->position + i, (waiting - i) * sizeof to->position[0]);
    memcpy(written, first, DOCKPLAN_MAX_CARDS * sizeof written[0]);
    return left + (waiting - i);
}

/* ---- By value ---------------------------------------------------------------------------------------------------------------------------- */

dockplan_saver_answer PLAIN(saver_new)(uint8_t cards, uint16_t pool)
{
    dockplan_saver_answer answer;
    unsigned refusal = new_refusal(cards, pool);
    answer.refusal = (uint8_t)refusal;
    answer.cycle.number = 0;
    write_nothing(answer.written);
    start(&answer.saver, refusal, cards, pool);
    return answer;
}

/* The record after a cycle: the frames that are left, and zeros behind them. */
static inline void make_cycle(const dockplan_saver *saver, dockplan_saver_answer *answer)
{
    dockplan_saver *to = &answer->saver;
    size_t left = move_up(saver, to, answer->written);
    memset(to->card + left, 0, (DOCKPLAN_MAX_POOL - left) * sizeof to->card[0]);
    memset(to->position + left, 0, (DOCKPLAN_MAX_POOL - left) * sizeof to->position[0]);
    to->cards = saver->cards;
    to->pool = saver->pool;
    to->taken = saver->taken;
    to->made.number = (uint16_t)(saver->made.number + 1);
    to->waiting = (uint16_t)left;
    to->closing = saver->closing;
    answer->cycle = to->made;
}

dockplan_saver_answer PLAIN(saver_save)(dockplan_saver saver, uint8_t card)
{
    dockplan_saver_answer answer;
    unsigned refusal = save_refusal(&saver, card);
    answer.refusal = (uint8_t)refusal;
    answer.cycle.number = 0;
    write_nothing(answer.written);
    if (refusal != 0) {
        answer.saver = saver;
        return answer;
    }
    if (saver.waiting < saver.pool) {
        answer.saver = saver;
    } else {
        make_cycle(&saver, &answer);
    }
    enter(&answer.saver, card);
    return answer;
}

dockplan_saver_answer PLAIN(saver_close)(dockplan_saver saver)
{
    dockplan_saver_answer answer;
    answer.refusal = 0;
    answer.cycle.number = 0;
    write_nothing(answer.written);
    if (saver.waiting == 0) {
        answer.refusal = EMPTY_POOL;
        answer.saver = saver;
        return answer;
    }
    saver.closing = true;
    make_cycle(&saver, &answer);
    return answer;
}

/* ---- With a lent record ------------------------------------------------------------------------------------------------------------------ */

/* The answer of a call that makes no cycle, so far. */
static inline void answer_quietly(made_answer *answer, unsigned refusal)
{
    answer->refusal = (uint8_t)refusal;
    answer->cycle.number = 0;
    write_nothing(answer->written);
}

/* In place: only the places of the frames that were written become free, at the end of the others. */
static inline void make_cycle_in_place(dockplan_saver *saver, made_answer *answer)
{
    size_t left = move_up(saver, saver, answer->written);
    memset(saver->card + left, 0, (saver->waiting - left) * sizeof saver->card[0]);
    memset(saver->position + left, 0, (saver->waiting - left) * sizeof saver->position[0]);
    saver->waiting = (uint16_t)left;
    saver->made.number++;
    answer->cycle = saver->made;
}

void PLAIN(lent_new)(dockplan_saver *saver, uint8_t cards, uint16_t pool, made_answer *answer)
{
    unsigned refusal = new_refusal(cards, pool);
    answer_quietly(answer, refusal);
    start(saver, refusal, cards, pool);
}

void PLAIN(lent_save)(dockplan_saver *saver, uint8_t card, made_answer *answer)
{
    unsigned refusal = save_refusal(saver, card);
    answer_quietly(answer, refusal);
    if (refusal != 0) {
        return;
    }
    if (saver->waiting >= saver->pool) {
        make_cycle_in_place(saver, answer);
    }
    enter(saver, card);
}

void PLAIN(lent_close)(dockplan_saver *saver, made_answer *answer)
{
    if (saver->waiting == 0) {
        answer_quietly(answer, EMPTY_POOL);
        return;
    }
    answer_quietly(answer, 0);
    saver->closing = true;
    make_cycle_in_place(saver, answer);
}
