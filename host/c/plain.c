/* The planner in plain C, written by hand: the measure for the library's speed. It has the shape of include/dockplan.h and the same answers for
 * every input. It is compiled once by gcc and once by clang, and PLAIN gives the functions of each a name of their own. */
#include <string.h>

#include "dockplan.h"

#ifndef PLAIN
#define PLAIN(name) plain_##name
#endif

#define HEADER_BYTES 15
#define CARD_DIGITS 2
#define SECOND_DIGITS 8
#define PRINTED_HEADER_BYTES 5
#define PRINTED_LINE_BYTES 11
#define END '\n'

enum {
    NO_HEADER = 1,
    WRONG_EDITION = 2,
    WRONG_MODE = 3,
    WRONG_CARDS = 4,
    WRONG_POOL = 5,
    WRONG_FRAMES = 6,
    WRONG_LINE = 7,
    WRONG_CARD = 8,
    BYTES_FOLLOW = 9,
    FEW_PLACES = 10,
    OTHER_LENGTH = 11,
    MODE_NOT_CHECKED = 12,
    FALLING_SECOND = 17,
    DIFFERENT_TICKETS = 18,
    MANY_TOGETHER = 19,
    WRONG_HUB = 20,
    WRONG_CAMERA = 21
};

/* ---- The ticket -------------------------------------------------------------------------------------------------------------------------- */

/* The value of each byte as a digit, and `NO` for a byte that is none. */
#define DIGIT_VALUES(NO) \
    { \
        NO, NO, NO, NO, NO, NO, NO, NO, NO, NO, NO, NO, NO, NO, NO, NO, /* 00 */ \
        NO, NO, NO, NO, NO, NO, NO, NO, NO, NO, NO, NO, NO, NO, NO, NO, /* 10 */ \
        NO, NO, NO, NO, NO, NO, NO, NO, NO, NO, NO, NO, NO, NO, NO, NO, /* 20 */ \
        0,  1,  2,  3,  4,  5,  6,  7,  8,  9,  NO, NO, NO, NO, NO, NO, /* 30: the digits 0 to 9 */ \
        NO, 10, 11, 12, 13, 14, 15, NO, NO, NO, NO, NO, NO, NO, NO, NO, /* 40: the digits A to F */ \
        NO, NO, NO, NO, NO, NO, NO, NO, NO, NO, NO, NO, NO, NO, NO, NO, /* 50 */ \
        NO, 10, 11, 12, 13, 14, 15, NO, NO, NO, NO, NO, NO, NO, NO, NO, /* 60: the digits a to f */ \
        NO, NO, NO, NO, NO, NO, NO, NO, NO, NO, NO, NO, NO, NO, NO, NO, /* 70 */ \
        NO, NO, NO, NO, NO, NO, NO, NO, NO, NO, NO, NO, NO, NO, NO, NO, /* 80 */ \
        NO, NO, NO, NO, NO, NO, NO, NO, NO, NO, NO, NO, NO, NO, NO, NO, /* 90 */ \
        NO, NO, NO, NO, NO, NO, NO, NO, NO, NO, NO, NO, NO, NO, NO, NO, /* A0 */ \
        NO, NO, NO, NO, NO, NO, NO, NO, NO, NO, NO, NO, NO, NO, NO, NO, /* B0 */ \
        NO, NO, NO, NO, NO, NO, NO, NO, NO, NO, NO, NO, NO, NO, NO, NO, /* C0 */ \
        NO, NO, NO, NO, NO, NO, NO, NO, NO, NO, NO, NO, NO, NO, NO, NO, /* D0 */ \
        NO, NO, NO, NO, NO, NO, NO, NO, NO, NO, NO, NO, NO, NO, NO, NO, /* E0 */ \
        NO, NO, NO, NO, NO, NO, NO, NO, NO, NO, NO, NO, NO, NO, NO, NO, /* F0 */ \
    }

/* One byte that is none makes a number of 2 digits so large that it does not pass for a card. */
#define NO_DIGIT 255
static const uint8_t digit_value[256] = DIGIT_VALUES(NO_DIGIT);

/* The same for numbers of up to 8 digits: one byte that is none makes it larger than any second. */
#define NO_WIDE_DIGIT ((uint64_t)UINT32_MAX + 1)
static const uint64_t wide_digit_value[256] = DIGIT_VALUES(NO_WIDE_DIGIT);

static bool are_digits(const uint8_t *text, size_t count)
{
    for (size_t i = 0; i < count; i++) {
        if (digit_value[text[i]] == NO_DIGIT) {
            return false;
        }
    }
    return true;
}

static unsigned number(const uint8_t *digits, size_t count)
{
    unsigned value = 0;
    for (size_t i = 0; i < count; i++) {
        value = value * 16 + digit_value[digits[i]];
    }
    return value;
}

static dockplan_ticket_answer refused(unsigned refusal)
{
    return (dockplan_ticket_answer){.refusal = (uint8_t)refusal};
}

/* The digits of a frame line, 0 where the edition is not known. */
static inline size_t line_digits(unsigned edition)
{
    switch (edition) {
    case 1:
        return CARD_DIGITS;
    case 2:
        return CARD_DIGITS + SECOND_DIGITS;
    default:
        return 0;
    }
}

/* The first 15 bytes of a ticket. */
static dockplan_ticket_answer read_header(const uint8_t *ticket, size_t bytes)
{
    if (bytes < HEADER_BYTES || !are_digits(ticket, HEADER_BYTES - 1) || ticket[HEADER_BYTES - 1] != END) {
        return refused(NO_HEADER);
    }
    unsigned edition = number(ticket, 2);
    unsigned mode = number(ticket + 2, 2);
    unsigned cards = number(ticket + 4, 2);
    unsigned pool = number(ticket + 6, 4);
    unsigned frames = number(ticket + 10, 4);
    if (line_digits(edition) == 0) {
        return refused(WRONG_EDITION);
    }
    if (mode > DOCKPLAN_SAVE_AND_KEEP) {
        return refused(WRONG_MODE);
    }
    if (cards < 1 || cards > DOCKPLAN_MAX_CARDS) {
        return refused(WRONG_CARDS);
    }
    if (pool < 1 || pool > DOCKPLAN_MAX_POOL) {
        return refused(WRONG_POOL);
    }
    if (frames > DOCKPLAN_MAX_FRAMES) {
        return refused(WRONG_FRAMES);
    }
    return (dockplan_ticket_answer){
        .edition = (uint8_t)edition,
        .mode = (uint8_t)mode,
        .cards = (uint8_t)cards,
        .pool = (uint16_t)pool,
        .frames = (uint16_t)frames,
    };
}

/* The first ground against a line that was not taken. */
static unsigned line_refusal(const uint8_t *line, size_t digits, unsigned cards)
{
    if (!are_digits(line, digits) || line[digits] != END) {
        return WRONG_LINE;
    }
    return number(line, CARD_DIGITS) >= cards ? WRONG_CARD : FALLING_SECOND;
}

/* Lines of edition 01. Stores the card of each frame and answers the refusal, 0 for none. */
static unsigned read_cards(const uint8_t *line, size_t lines, unsigned cards, uint8_t *card)
{
    const size_t digits = line_digits(1);
    for (size_t i = 0; i < lines; i++, line += digits + 1) {
        unsigned value = digit_value[line[0]] * 16u + digit_value[line[1]];
        if (value >= cards || line[digits] != END) {
            return line_refusal(line, digits, cards);
        }
        card[i] = (uint8_t)value;
    }
    return 0;
}

/* Lines of edition 02: the same, and no second may be lower than the one before. That a second has digits alone is one test of its number. */
static unsigned read_cards_and_seconds(const uint8_t *line, size_t lines, unsigned cards, uint8_t *card)
{
    const size_t digits = line_digits(2);
    uint64_t before = 0;
    for (size_t i = 0; i < lines; i++, line += digits + 1) {
        uint64_t value = wide_digit_value[line[0]] * 16 + wide_digit_value[line[1]];
        uint64_t second = 0;
        for (size_t k = CARD_DIGITS; k < digits; k++) {
            second = second * 16 + wide_digit_value[line[k]];
        }
        if (value >= cards || second > UINT32_MAX || line[digits] != END || second < before) {
            return line_refusal(line, digits, cards);
        }
        card[i] = (uint8_t)value;
        before = second;
    }
    return 0;
}

/* The lines of the frames, which begin at `line`. Stores the card of each frame and answers the refusal, 0 for none. */
static unsigned read_lines(const uint8_t *line, size_t bytes, dockplan_ticket_answer header, uint8_t *card)
{
    size_t line_bytes = line_digits(header.edition) + 1;
    size_t whole_lines = bytes / line_bytes;
    size_t lines = whole_lines < header.frames ? whole_lines : header.frames;
    unsigned refusal = header.edition == 1 ? read_cards(line, lines, header.cards, card)
                                           : read_cards_and_seconds(line, lines, header.cards, card);
    if (refusal != 0) {
        return refusal;
    }
    if (lines < header.frames) {
        return WRONG_LINE;
    }
    return bytes > header.frames * line_bytes ? BYTES_FOLLOW : 0;
}

/* Reads a ticket: what its header says, and the card of each frame. */
static dockplan_ticket_answer read_ticket(const uint8_t *ticket, size_t bytes, uint8_t *card)
{
    dockplan_ticket_answer header = read_header(ticket, bytes);
    if (header.refusal != 0) {
        return header;
    }
    unsigned refusal = read_lines(ticket + HEADER_BYTES, bytes - HEADER_BYTES, header, card);
    return refusal != 0 ? refused(refusal) : header;
}

dockplan_ticket_answer PLAIN(parse)(const uint8_t *ticket, size_t bytes)
{
    uint8_t card[DOCKPLAN_MAX_FRAMES];
    return read_ticket(ticket, bytes, card);
}

/* ---- The plan ---------------------------------------------------------------------------------------------------------------------------- */

/* The cycles made when the last frame has entered the pool, and with the closing cycles. */
struct cycles {
    unsigned made;
    unsigned all;
};

static unsigned larger(unsigned a, unsigned b)
{
    return a > b ? a : b;
}

static unsigned largest(const uint16_t *numbers, size_t count)
{
    unsigned most = 0;
    for (size_t i = 0; i < count; i++) {
        most = larger(most, numbers[i]);
    }
    return most;
}

/* greedyWriting in one pass, over the list from its front or from its back. A frame's cycle is known when it enters the pool: it is the first one
 * that its card has free.
 *   due[s]     how many frames have cycle s
 *   latest[c]  the cycle of card c's latest frame, 0 for none */
static inline struct cycles write_greedily(const uint8_t *card, size_t frames, unsigned pool, bool backward, uint16_t *plan)
{
    uint16_t due[DOCKPLAN_MAX_FRAMES + 1];
    uint16_t latest[DOCKPLAN_MAX_CARDS] = {0};
    unsigned made = 0;
    unsigned waiting = 0;
    memset(due, 0, (frames + 1) * sizeof due[0]);
    for (size_t k = 0; k < frames; k++) {
        if (waiting == pool) {
            made++;
            waiting -= due[made];
        }
        size_t i = backward ? frames - 1 - k : k;
        unsigned cycle = larger(latest[card[i]], made) + 1;
        latest[card[i]] = (uint16_t)cycle;
        plan[i] = (uint16_t)cycle;
        due[cycle]++;
        waiting++;
    }
    return (struct cycles){.made = made, .all = largest(latest, DOCKPLAN_MAX_CARDS)};
}

/* Lazy prefetching: greedyWriting from the back, with the cycles turned round. */
static unsigned plan_read(const uint8_t *card, size_t frames, unsigned pool, uint16_t *plan)
{
    unsigned all = write_greedily(card, frames, pool, true, plan).all;
    for (size_t i = 0; i < frames; i++) {
        plan[i] = (uint16_t)(all - plan[i] + 1);
    }
    return all;
}

static unsigned plan_save(const uint8_t *card, size_t frames, unsigned pool, uint16_t *plan)
{
    return write_greedily(card, frames, pool, false, plan).all;
}

/* Save and keep: the cycles that were not made are taken back. */
static unsigned plan_save_and_keep(const uint8_t *card, size_t frames, unsigned pool, uint16_t *plan)
{
    unsigned made = write_greedily(card, frames, pool, false, plan).made;
    for (size_t i = 0; i < frames; i++) {
        plan[i] = plan[i] <= made ? plan[i] : 0;
    }
    return made;
}

/* Fills the first places of the plan and answers T. */
static unsigned fill_plan(dockplan_ticket_answer header, const uint8_t *card, uint16_t *plan)
{
    switch (header.mode) {
    case DOCKPLAN_READ:
        return plan_read(card, header.frames, header.pool, plan);
    case DOCKPLAN_SAVE:
        return plan_save(card, header.frames, header.pool, plan);
    default:
        return plan_save_and_keep(card, header.frames, header.pool, plan);
    }
}

dockplan_plan_answer PLAIN(plan)(const uint8_t *ticket, size_t bytes, uint16_t *plan, size_t places)
{
    uint8_t card[DOCKPLAN_MAX_FRAMES];
    dockplan_ticket_answer header = read_ticket(ticket, bytes, card);
    if (header.refusal != 0) {
        return (dockplan_plan_answer){.refusal = header.refusal};
    }
    if (places < header.frames) {
        return (dockplan_plan_answer){.refusal = FEW_PLACES};
    }
    return (dockplan_plan_answer){.cycles = {(uint16_t)fill_plan(header, card, plan)}};
}

/* ---- Printing ---------------------------------------------------------------------------------------------------------------------------- */

static uint8_t *put2(uint8_t *text, unsigned value)
{
    static const char digit[] = "0123456789ABCDEF";
    text[0] = (uint8_t)digit[value >> 4];
    text[1] = (uint8_t)digit[value & 15];
    return text + 2;
}

static uint8_t *put4(uint8_t *text, unsigned value)
{
    return put2(put2(text, value >> 8), value & 255);
}

static size_t print_refusal(unsigned refusal, uint8_t *text, size_t places)
{
    if (places < PRINTED_HEADER_BYTES) {
        return 0;
    }
    text = put2(put2(text, 255), refusal);
    *text = END;
    return PRINTED_HEADER_BYTES;
}

size_t PLAIN(print)(const uint8_t *ticket, size_t bytes, uint8_t *text, size_t places)
{
    uint8_t card[DOCKPLAN_MAX_FRAMES];
    uint16_t plan[DOCKPLAN_MAX_FRAMES];
    dockplan_ticket_answer header = read_ticket(ticket, bytes, card);
    if (header.refusal != 0) {
        return print_refusal(header.refusal, text, places);
    }
    size_t size = PRINTED_HEADER_BYTES + (size_t)header.frames * PRINTED_LINE_BYTES;
    if (places < size) {
        return 0;
    }
    text = put4(text, fill_plan(header, card, plan));
    *text++ = END;
    for (unsigned i = 0; i < header.frames; i++) {
        text = put4(put2(put4(text, i), card[i]), plan[i]);
        *text++ = END;
    }
    return size;
}

/* ---- Two tickets joined ------------------------------------------------------------------------------------------------------------------ */

#define JOINED_LINE_BYTES (CARD_DIGITS + SECOND_DIGITS + 1)

/* Larger than any eight digits: the key of a ticket whose lines are all taken. */
#define NO_KEY UINT64_MAX

/* Eight bytes as a number, the first one the highest; and the other way round. */
static inline uint64_t eight_at(const uint8_t *bytes)
{
    uint64_t number;
    memcpy(&number, bytes, sizeof number);
    return __builtin_bswap64(number);
}

static inline void put_eight(uint8_t *bytes, uint64_t number)
{
    number = __builtin_bswap64(number);
    memcpy(bytes, &number, sizeof number);
}

/* The key of a ticket whose next line this is: the digits of the line's second in upper case, which have the order of their values. A letter has
 * bit 6 of its byte, and a small one bit 5 too. */
static inline uint64_t key(const uint8_t *line, const uint8_t *end)
{
    if (line == end) {
        return NO_KEY;
    }
    uint64_t digits = eight_at(line + CARD_DIGITS);
    return digits & ~((digits & 0x4040404040404040) >> 1);
}

/* Puts a line in upper case: the digits of its card, those of its second, which are its key, and an end byte. */
static inline void put_line(uint8_t *text, const uint8_t *line, uint64_t key)
{
    uint16_t card;
    memcpy(&card, line, sizeof card);
    card = (uint16_t)(card & ~((card & 0x4040) >> 1));
    memcpy(text, &card, sizeof card);
    put_eight(text + CARD_DIGITS, key);
    text[CARD_DIGITS + SECOND_DIGITS] = END;
}

/* One pass over the lines of both tickets: the one with the lower key is the next, the first ticket's where they are equal. A key is worked out
 * when its ticket moves on. */
static void put_lines(uint8_t *text, size_t frames, const uint8_t *first, const uint8_t *first_end, const uint8_t *second, const uint8_t *second_end)
{
    uint64_t first_key = key(first, first_end);
    uint64_t second_key = key(second, second_end);
    for (size_t i = 0; i < frames; i++, text += JOINED_LINE_BYTES) {
        if (first_key <= second_key) {
            put_line(text, first, first_key);
            first += JOINED_LINE_BYTES;
            first_key = key(first, first_end);
        } else {
            put_line(text, second, second_key);
            second += JOINED_LINE_BYTES;
            second_key = key(second, second_end);
        }
    }
}

static void put_header(uint8_t *text, dockplan_ticket_answer header, size_t frames)
{
    text = put2(put2(put2(text, header.edition), header.mode), header.cards);
    text = put4(put4(text, header.pool), (unsigned)frames);
    *text = END;
}

static bool can_be_joined(dockplan_ticket_answer header)
{
    return header.edition == 2 && header.mode == DOCKPLAN_READ;
}

dockplan_join_answer PLAIN(join)(const uint8_t *first, size_t first_bytes, const uint8_t *second, size_t second_bytes, uint8_t *ticket,
                                 size_t places)
{
    uint8_t card[DOCKPLAN_MAX_FRAMES];
    dockplan_ticket_answer one = read_ticket(first, first_bytes, card);
    if (one.refusal != 0) {
        return (dockplan_join_answer){.refusal = one.refusal};
    }
    dockplan_ticket_answer other = read_ticket(second, second_bytes, card);
    if (other.refusal != 0) {
        return (dockplan_join_answer){.refusal = other.refusal};
    }
    if (!can_be_joined(one) || !can_be_joined(other) || one.cards != other.cards || one.pool != other.pool) {
        return (dockplan_join_answer){.refusal = DIFFERENT_TICKETS};
    }
    size_t frames = (size_t)one.frames + other.frames;
    if (frames > DOCKPLAN_MAX_FRAMES) {
        return (dockplan_join_answer){.refusal = MANY_TOGETHER};
    }
    size_t size = HEADER_BYTES + frames * JOINED_LINE_BYTES;
    if (places < size) {
        return (dockplan_join_answer){.refusal = FEW_PLACES};
    }
    put_header(ticket, one, frames);
    put_lines(ticket + HEADER_BYTES, frames, first + HEADER_BYTES, first + first_bytes, second + HEADER_BYTES, second + second_bytes);
    return (dockplan_join_answer){.bytes = size};
}

/* ---- A field hub ------------------------------------------------------------------------------------------------------------------------- */

/* The cards of each pattern, place by place. */
static const uint8_t pattern_cards[8][DOCKPLAN_HUB_CARDS] = {
    {0, 1, 2, 3, 4, 5, 6, 7}, {0, 3, 6, 1, 4, 7, 2, 5}, {0, 5, 2, 7, 4, 1, 6, 3}, {0, 7, 6, 5, 4, 3, 2, 1},
    {4, 5, 6, 7, 0, 1, 2, 3}, {4, 7, 2, 5, 0, 3, 6, 1}, {4, 1, 6, 3, 0, 5, 2, 7}, {4, 3, 2, 1, 0, 7, 6, 5},
};

static uint8_t largest_byte(const uint8_t *bytes, size_t count)
{
    uint8_t most = 0;
    for (size_t i = 0; i < count; i++) {
        most = bytes[i] > most ? bytes[i] : most;
    }
    return most;
}

static unsigned hub_refusal(const uint8_t *patterns, size_t cameras, const uint8_t *list, size_t frames, size_t places)
{
    if (cameras < 1 || cameras > DOCKPLAN_HUB_CAMERAS || largest_byte(patterns, cameras) > 7) {
        return WRONG_HUB;
    }
    if (frames > DOCKPLAN_MAX_FRAMES) {
        return WRONG_FRAMES;
    }
    if (frames > 0 && largest_byte(list, frames) >= cameras) {
        return WRONG_CAMERA;
    }
    return places < frames ? FEW_PLACES : 0;
}

/* Eight bytes as they stand in memory, the first one the lowest; and with the first one behind the others. */
static inline uint64_t eight_of(const uint8_t *bytes)
{
    uint64_t eight;
    memcpy(&eight, bytes, sizeof eight);
    return eight;
}

static inline uint64_t turned(uint64_t eight)
{
    return eight >> 8 | eight << 56;
}

/* next[c] has the eight cards of camera c's pattern, that of its next frame first. */
static inline void put_cards(const uint8_t *list, size_t frames, uint64_t *next, uint8_t *cards)
{
    for (size_t i = 0; i < frames; i++) {
        unsigned camera = list[i];
        uint64_t eight = next[camera];
        cards[i] = (uint8_t)eight;
        next[camera] = turned(eight);
    }
}

/* Eight frames of one camera at once have the eight cards, which then are as before. Other frames go one by one. */
static void put_all_cards(const uint8_t *list, size_t frames, uint64_t *next, uint8_t *cards)
{
    size_t i = 0;
    for (; i + 8 <= frames; i += 8) {
        uint64_t eight = eight_of(list + i);
        if (eight == turned(eight)) {
            memcpy(cards + i, &next[list[i]], 8);
        } else {
            put_cards(list + i, 8, next, cards + i);
        }
    }
    put_cards(list + i, frames - i, next, cards + i);
}

dockplan_hub_answer PLAIN(hub)(const uint8_t *patterns, size_t cameras, const uint8_t *list, size_t frames, uint8_t *cards, size_t places)
{
    uint64_t next[DOCKPLAN_HUB_CAMERAS];
    unsigned refusal = hub_refusal(patterns, cameras, list, frames, places);
    if (refusal != 0) {
        return (dockplan_hub_answer){.refusal = (uint8_t)refusal};
    }
    for (size_t i = 0; i < cameras; i++) {
        next[i] = eight_of(pattern_cards[patterns[i]]);
    }
    put_all_cards(list, frames, next, cards);
    return (dockplan_hub_answer){.frames = (uint16_t)frames};
}

/* ---- Plans that anyone made -------------------------------------------------------------------------------------------------------------- */

/* Up to this cycle there are tables by cycle. A plan with a larger one is counted frame by frame. */
#define MAX_TABLE_CYCLE DOCKPLAN_MAX_FRAMES

/* A plan, the cards of its frames and its largest cycle. */
struct foreign_plan {
    const uint8_t *card;
    const uint16_t *cycle;
    size_t frames;
    unsigned top;
};

static dockplan_check_answer valid(unsigned cycles, unsigned peak)
{
    return (dockplan_check_answer){.verdict = DOCKPLAN_VALID, .cycles = {(uint16_t)cycles}, .peak = (uint16_t)peak};
}

static dockplan_check_answer fault(unsigned verdict, size_t position)
{
    return (dockplan_check_answer){.verdict = (uint8_t)verdict, .position = {(uint16_t)position}};
}

/* A read, frame by frame. Of two frames, the earlier one has more frames in its pool unless its cycle is smaller. So the first frame with too many,
 * and one with the peak, have a larger cycle than every frame before them; and there its pool, with the frame itself, has all frames with a cycle
 * up to its own but for those before it.
 *   up_to[s]  how many frames of the plan have a cycle up to s
 *   highest   the largest cycle so far
 *   peak      the most frames in a pool so far, with the frame itself */
struct read_pools {
    uint16_t up_to[MAX_TABLE_CYCLE + 1];
    unsigned highest;
    unsigned peak;
};

static void start_read(struct read_pools *pools, const struct foreign_plan *plan)
{
    memset(pools->up_to, 0, (plan->top + 1) * sizeof pools->up_to[0]);
    for (size_t i = 0; i < plan->frames; i++) {
        pools->up_to[plan->cycle[i]]++;
    }
    unsigned sum = 0;
    for (size_t s = 0; s < plan->top + 1; s++) {
        sum += pools->up_to[s];
        pools->up_to[s] = (uint16_t)sum;
    }
    pools->highest = 0;
    pools->peak = 0;
}

/* Takes the next frame, and answers whether it is the first with too many frames in its pool. */
static inline bool read_overfull(struct read_pools *pools, unsigned cycle, size_t i, unsigned pool)
{
    if (cycle <= pools->highest) {
        return false;
    }
    pools->highest = cycle;
    pools->peak = larger(pools->peak, pools->up_to[cycle] - (unsigned)i);
    return pools->peak > pool;
}

/* A save, frame by frame. A frame has too many frames in its pool exactly when its cycle is not after `full`.
 *   due[s]  how many frames so far have cycle s
 *   full    the largest cycle such that as many frames as the pool holds, or more, are due in it or later; 0 where there is none
 *   above   how many frames so far have a cycle after `full`: fewer than the pool holds */
struct save_pools {
    uint16_t due[MAX_TABLE_CYCLE + 1];
    unsigned full;
    unsigned above;
};

static void start_save(struct save_pools *pools, const struct foreign_plan *plan)
{
    memset(pools->due, 0, (plan->top + 1) * sizeof pools->due[0]);
    pools->full = 0;
    pools->above = 0;
}

/* Takes the next frame, and answers whether it is the first with too many frames in its pool. */
static inline bool save_overfull(struct save_pools *pools, unsigned cycle, unsigned pool)
{
    if (cycle <= pools->full) {
        return true;
    }
    pools->due[cycle]++;
    pools->above++;
    while (pools->above >= pool) {
        pools->full++;
        pools->above -= pools->due[pools->full];
    }
    return false;
}

/* The cards of the first frames: used[s] has a bit for each card with a frame in cycle s. */
static void enter_cards(uint32_t *used, const struct foreign_plan *plan, size_t frames)
{
    memset(used, 0, (plan->top + 1) * sizeof used[0]);
    for (size_t i = 0; i < frames; i++) {
        used[plan->cycle[i]] |= (uint32_t)1 << plan->card[i];
    }
}

/* A plan whose cycles are within the tables: each frame is looked at a fixed number of times. As long as every frame is after all earlier ones of
 * its card, as in our plans, it has a cycle and shares it with none; latest[c] is card c's latest cycle. From the first other frame on, the cards
 * of each cycle are kept. */
static inline dockplan_check_answer check_by_table(const struct foreign_plan *plan, unsigned pool, bool read)
{
    union {
        struct read_pools read;
        struct save_pools save;
    } pools;
    uint16_t latest[DOCKPLAN_MAX_CARDS] = {0};
    uint32_t used[MAX_TABLE_CYCLE + 1];
    size_t i = 0;
    if (read) {
        start_read(&pools.read, plan);
    } else {
        start_save(&pools.save, plan);
    }
    for (; i < plan->frames && plan->cycle[i] > latest[plan->card[i]]; i++) {
        unsigned cycle = plan->cycle[i];
        latest[plan->card[i]] = (uint16_t)cycle;
        if (read ? read_overfull(&pools.read, cycle, i, pool) : save_overfull(&pools.save, cycle, pool)) {
            return fault(DOCKPLAN_OVERFULL, i);
        }
    }
    if (i < plan->frames) {
        enter_cards(used, plan, i);
    }
    for (; i < plan->frames; i++) {
        unsigned cycle = plan->cycle[i];
        uint32_t bit = (uint32_t)1 << plan->card[i];
        if (cycle == 0) {
            return fault(DOCKPLAN_NO_CYCLE, i);
        }
        if ((used[cycle] & bit) != 0) {
            return fault(DOCKPLAN_SHARED_CARD, i);
        }
        used[cycle] |= bit;
        if (read ? read_overfull(&pools.read, cycle, i, pool) : save_overfull(&pools.save, cycle, pool)) {
            return fault(DOCKPLAN_OVERFULL, i);
        }
    }
    return valid(plan->top, read ? pools.read.peak : 0);
}

/* How many frames have a cycle before this one. */
static unsigned frames_before(const struct foreign_plan *plan, unsigned cycle)
{
    unsigned count = 0;
    for (size_t i = 0; i < plan->frames; i++) {
        count += plan->cycle[i] < cycle;
    }
    return count;
}

/* Whether an earlier frame of frame i's card has its cycle. */
static bool shares_card(const struct foreign_plan *plan, size_t i)
{
    for (size_t j = 0; j < i; j++) {
        if (plan->cycle[j] == plan->cycle[i] && plan->card[j] == plan->card[i]) {
            return true;
        }
    }
    return false;
}

/* The fault of frame i other than a full pool, 0 for none. latest[c] is the latest cycle of card c so far: a frame after it needs no search. */
static inline unsigned frame_fault(const struct foreign_plan *plan, size_t i, uint16_t *latest)
{
    unsigned card = plan->card[i];
    if (plan->cycle[i] > latest[card]) {
        latest[card] = plan->cycle[i];
        return 0;
    }
    if (plan->cycle[i] == 0) {
        return DOCKPLAN_NO_CYCLE;
    }
    return shares_card(plan, i) ? DOCKPLAN_SHARED_CARD : 0;
}

/* A read with any cycles: the frames ahead of all earlier ones decide, as by table, and there all frames of the plan are counted. */
static dockplan_check_answer count_read(const struct foreign_plan *plan, unsigned pool)
{
    uint16_t latest[DOCKPLAN_MAX_CARDS] = {0};
    unsigned highest = 0;
    unsigned peak = 0;
    for (size_t i = 0; i < plan->frames; i++) {
        unsigned verdict = frame_fault(plan, i, latest);
        if (verdict != 0) {
            return fault(verdict, i);
        }
        if (plan->cycle[i] > highest) {
            highest = plan->cycle[i];
            peak = larger(peak, frames_before(plan, highest + 1) - (unsigned)i);
            if (peak > pool) {
                return fault(DOCKPLAN_OVERFULL, i);
            }
        }
    }
    return valid(plan->top, peak);
}

/* Whether no frame of a save has too many frames in its pool. Of two frames, the later one has more unless its cycle is larger, so it is enough
 * to look at frames with a smaller cycle than every frame after them. */
static bool save_has_room(const struct foreign_plan *plan, unsigned pool)
{
    unsigned lowest = plan->top + 1;
    for (size_t i = plan->frames; i-- > 0;) {
        if (plan->cycle[i] < lowest) {
            lowest = plan->cycle[i];
            if (i - frames_before(plan, lowest) >= pool) {
                return false;
            }
        }
    }
    return true;
}

/* A save: how many earlier frames have a cycle equal to or later than frame i's. */
static unsigned frames_in_pool(const uint16_t *cycle, size_t i)
{
    unsigned count = 0;
    for (size_t j = 0; j < i; j++) {
        count += cycle[j] >= cycle[i];
    }
    return count;
}

/* A save with any cycles. Every pool is counted only to find the first of those with too many frames. */
static dockplan_check_answer count_save(const struct foreign_plan *plan, unsigned pool)
{
    uint16_t latest[DOCKPLAN_MAX_CARDS] = {0};
    bool has_room = save_has_room(plan, pool);
    for (size_t i = 0; i < plan->frames; i++) {
        unsigned verdict = frame_fault(plan, i, latest);
        if (verdict != 0) {
            return fault(verdict, i);
        }
        if (!has_room && frames_in_pool(plan->cycle, i) >= pool) {
            return fault(DOCKPLAN_OVERFULL, i);
        }
    }
    return valid(plan->top, 0);
}

static dockplan_check_answer check_read(const struct foreign_plan *plan, unsigned pool)
{
    return plan->top <= MAX_TABLE_CYCLE ? check_by_table(plan, pool, true) : count_read(plan, pool);
}

static dockplan_check_answer check_save(const struct foreign_plan *plan, unsigned pool)
{
    return plan->top <= MAX_TABLE_CYCLE ? check_by_table(plan, pool, false) : count_save(plan, pool);
}

dockplan_check_answer PLAIN(check)(const uint8_t *ticket, size_t bytes, const uint16_t *plan, size_t places)
{
    uint8_t card[DOCKPLAN_MAX_FRAMES];
    dockplan_ticket_answer header = read_ticket(ticket, bytes, card);
    if (header.refusal != 0) {
        return (dockplan_check_answer){.refusal = header.refusal};
    }
    if (header.mode == DOCKPLAN_SAVE_AND_KEEP) {
        return (dockplan_check_answer){.refusal = MODE_NOT_CHECKED};
    }
    if (places != header.frames) {
        return (dockplan_check_answer){.refusal = OTHER_LENGTH};
    }
    struct foreign_plan foreign = {.card = card, .cycle = plan, .frames = places, .top = largest(plan, places)};
    return header.mode == DOCKPLAN_READ ? check_read(&foreign, header.pool) : check_save(&foreign, header.pool);
}
