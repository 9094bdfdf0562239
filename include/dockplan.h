/* The dock planner for C and C++: plans, checks and runs for up to 32 memory cards and a pool of buffers.
 *
 * For x86-64 Linux, C99 and later, C++11 and later. `make firmware` puts the archive into target/lib; link it by
 *
 *     cc -Iinclude caller.c target/lib/libdockplan.a          (beside the sources)
 *     cc caller.c $(pkg-config --cflags --libs dockplan)      (after make install PREFIX=...)
 *
 * From outside it needs memcpy and memset, and nothing else.
 *
 * What holds of every call:
 *   - It is proved: for every input it does what its comment says, touches only the memory lent to it, and
 *     returns. The proof is about callers who keep the rules of this page; nothing can check them here.
 *   - It keeps no state and uses no heap, so calls may run at the same time in several threads.
 *   - A refused call gives one number, of the table below. It changes nothing in lent memory, and the other
 *     numbers of its answer are 0 (the saver's are said below). Two calls have no place for the number:
 *     dockplan_print prints it, and dockplan_line has dockplan_line_refusal beside it.
 *   - A pointer and a count are one piece of memory: `count` elements from the pointer on, of its type and
 *     alignment. With a count of 0 any pointer will do, NULL too. Memory that a call writes must not overlap
 *     other memory lent to the same call.
 *   - DOCKPLAN_STACK_.. is the stack that the call uses, in bytes, as measured on x86-64: all that lies below
 *     its return address. Results of more than 16 bytes and the saver's record stand in the caller's memory.
 *
 * A ticket is text: a header of 14 digits and a line for each frame (docs/FORMAT.md). The edition in the header says
 * what a line has: in edition 01 the 2 digits of the frame's card, in edition 02 these and the 8 digits of the second
 * in which it was captured. Seconds may repeat but not fall. They have no say in a plan, its text, a check, a run or
 * the counts; two tickets are joined by them. Digits are hexadecimal, in either case; tickets with the same values get
 * the same answers. Any bytes may be handed in as a ticket. L is the number of its frames, T the number of a plan's
 * cycles. The paper is D. A. Hutchinson, P. Sanders and J. S. Vitter, "Duality between prefetching and queued writing
 * with parallel disks".
 *
 * Refusals, in the order in which they are tried: 1 to 6, then line by line 7 before 8 before 17, then 9, which are
 * the ticket's own; after that 10, or 12 before 11, or 16. Where two tickets are joined, the first one's own, then the
 * second one's, then 18 before 19 before 10. A hub's are 20, 6, 21, 10 in this order. A saver's are given with its
 * calls.
 *
 *    1  the first 15 bytes are not 14 digits and an end byte    11  a plan has not exactly L cycles
 *    2  edition is neither 01 nor 02                            12  the checker is given mode 02
 *    3  mode is over 02                                         13  the saver has taken 4,096 frames
 *    4  cards not 1 to 32                                       14  a closing cycle with an empty pool
 *    5  pool not 1 to 192                                       15  a save after closing has begun
 *    6  frames over 4,096, in a ticket or in a hub's list       16  a line is wanted at a position not below L
 *    7  a frame line is missing or is not the digits of         17  a second is lower than that of the line before
 *       the edition, 2 or 10, and an end byte                   18  of two tickets to join, one is not edition 02 or
 *    8  a card number is not below cards                            not a read, or cards or pool differ
 *    9  bytes follow the last line                              19  they have more than 4,096 frames together
 *   10  the plan buffer has fewer than L places, the            20  a hub has not 1 to 6 cameras, or a pattern is not
 *       joined ticket has no room, or the hub's buffer              0 to 7
 *       has fewer places than its list has frames               21  a camera number is not below the camera count
 */
#ifndef DOCKPLAN_H
#define DOCKPLAN_H

#include <stdbool.h>
#include <stddef.h>
#include <stdint.h>

#ifdef __cplusplus
extern "C" {
#endif

/* The version of this header: 107 for 1.7. It grows whenever a call is added or changed, or uses more stack by its own
 * code. A newer compiler alone does not move it: take the figures of stack from the header that came with the archive. */
#define DOCKPLAN_VERSION 107

/* The version of the archive. Header and archive belong together exactly when this is DOCKPLAN_VERSION. */
uint32_t dockplan_version(void);
#define DOCKPLAN_STACK_VERSION 0

/* The limits of a ticket; those of cards and pool are a saver's too. The longest ticket is of edition 02. */
#define DOCKPLAN_MAX_CARDS 32
#define DOCKPLAN_MAX_POOL 192
#define DOCKPLAN_MAX_FRAMES 4096
#define DOCKPLAN_MAX_TICKET_BYTES 45071
/* The bytes of the longest printed plan. */
#define DOCKPLAN_MAX_PRINTED_BYTES 45061

/* A ticket's modes. */
#define DOCKPLAN_READ 0
#define DOCKPLAN_SAVE 1
#define DOCKPLAN_SAVE_AND_KEEP 2

/* A cycle, counted from 1, and a frame's position in the list, counted from 0. They are types of their own, so
 * that the compiler does not take one for the other. A plan's buffer holds plain numbers: place i has the cycle
 * of the frame at position i. */
typedef struct {
    uint16_t number;
} dockplan_cycle;

typedef struct {
    uint16_t number;
} dockplan_position;

/* ---- The ticket ---------------------------------------------------------------------------------------------- */

/* What the header of a ticket says; edition is 1 or 2, and frames is L. */
typedef struct {
    uint8_t refusal;
    uint8_t edition;
    uint8_t mode;
    uint8_t cards;
    uint16_t pool;
    uint16_t frames;
} dockplan_ticket_answer;

/* Reads a whole ticket, its lines too, and answers what its header says. Refusals 1 to 9 and 17. */
dockplan_ticket_answer dockplan_parse(const uint8_t *ticket, size_t bytes);
#define DOCKPLAN_STACK_PARSE 10720

/* A part of the caller's ticket: `length` bytes from byte `offset` on. */
typedef struct {
    size_t offset;
    size_t length;
} dockplan_part;

/* The line of the frame at a position as it stands there: the 2 digits of its card and, in edition 02, the 8 digits
 * of its second, without the end byte. With a refusal (1 to 9 and 17, then 16) offset and length are 0; the number is
 * dockplan_line_refusal's. */
dockplan_part dockplan_line(const uint8_t *ticket, size_t bytes, dockplan_position position);
#define DOCKPLAN_STACK_LINE 10736

/* The number that goes with dockplan_line: 0, the ticket's own refusal (1 to 9 and 17), or 16 for a position not
 * below L. */
uint8_t dockplan_line_refusal(const uint8_t *ticket, size_t bytes, dockplan_position position);
#define DOCKPLAN_STACK_LINE_REFUSAL 10720

/* How many frames each of the 32 cards has. */
typedef struct {
    uint8_t refusal;
    uint16_t frames[DOCKPLAN_MAX_CARDS];
} dockplan_counts_answer;

/* Counts the frames of each card. Refusals 1 to 9 and 17. */
dockplan_counts_answer dockplan_counts(const uint8_t *ticket, size_t bytes);
#define DOCKPLAN_STACK_COUNTS 10832

/* ---- The plan ------------------------------------------------------------------------------------------------ */

/* T, the number of cycles of a plan. */
typedef struct {
    uint8_t refusal;
    dockplan_cycle cycles;
} dockplan_plan_answer;

/* Plans a ticket. The read plan is lazy prefetching: no way of driving a dock of its pool's buffers, 1 to 192, needs
 * fewer than its T cycles. The save plan is greedyWriting: no correct schedule has fewer. The first L places of the
 * plan get each frame's cycle (0 for a frame that save and keep leaves in the pool), later places keep their content.
 * Refusals 1 to 9 and 17, then 10 where `places` is below L. L is dockplan_parse's, and DOCKPLAN_MAX_FRAMES places are always enough. */
dockplan_plan_answer dockplan_plan(const uint8_t *ticket, size_t bytes, uint16_t *plan, size_t places);
#define DOCKPLAN_STACK_PLAN 12560

/* Prints the plan of a ticket as text: T in 4 digits, then for each frame its position (4), card (2) and cycle (4),
 * in upper-case hexadecimal, each line with its end byte. A ticket that is refused (1 to 9 and 17) prints one line,
 * FF and the number in 2 digits, which for 17 are 11. Answers how many bytes the text has; it stands at the front of
 * the buffer, and later places keep their content. Where the whole text has no room, the answer is 0 and nothing
 * changes; DOCKPLAN_MAX_PRINTED_BYTES places are always enough. */
size_t dockplan_print(const uint8_t *ticket, size_t bytes, uint8_t *text, size_t places);
#define DOCKPLAN_STACK_PRINT 20816

/* ---- One showing from two tickets ---------------------------------------------------------------------------- */

/* How many bytes the joined ticket has. */
typedef struct {
    uint8_t refusal;
    size_t bytes;
} dockplan_join_answer;

/* Joins two read tickets of edition 02, such as the halves of a survey, into one, sorted by second: for equal seconds
 * the first ticket's frames go before the second's, and each ticket's own order is kept. The joined ticket is one of
 * edition 02 too, a read with the cards and the pool of both and all their frames, L of them together. It stands in
 * upper case at the front of the buffer, `bytes` is its length, 15 + 11 L, and later places keep their content.
 * dockplan_parse accepts it, and its T is never below that of either ticket. Refusals: the first ticket's own, 1 to 9
 * and 17, then the second's; then 18 where one of them is not edition 02 or not a read, or cards or pool differ; then
 * 19 where L is over 4,096; then 10 where `places` is below 15 + 11 L. DOCKPLAN_MAX_TICKET_BYTES places are always
 * enough. The tickets are only read, so both may be the same memory. */
dockplan_join_answer dockplan_join(const uint8_t *first, size_t first_bytes, const uint8_t *second,
                                   size_t second_bytes, uint8_t *ticket, size_t places);
#define DOCKPLAN_STACK_JOIN 10800

/* ---- A field hub with eight cards ---------------------------------------------------------------------------- */

/* The most cameras that a hub gathers, and its cards. */
#define DOCKPLAN_HUB_CAMERAS 6
#define DOCKPLAN_HUB_CARDS 8

/* How many cards stand at the front of the buffer: as many as the list has frames. */
typedef struct {
    uint8_t refusal;
    uint16_t frames;
} dockplan_hub_answer;

/* Gives the card of each frame of a field hub, which gathers S cameras, 1 to 6, onto 8 cards. `patterns` has the number
 * of a pattern, 0 to 7, for each camera, and so S is `cameras`; `list` has the number of a camera, 0 to S - 1, for each
 * frame, in list order. Frame k of a camera, counted from 0, goes to place k mod 8 of the camera's pattern. Each of the
 * patterns names every card once:
 *
 *    0  0 1 2 3 4 5 6 7      2  0 5 2 7 4 1 6 3      4  4 5 6 7 0 1 2 3      6  4 1 6 3 0 5 2 7
 *    1  0 3 6 1 4 7 2 5      3  0 7 6 5 4 3 2 1      5  4 7 2 5 0 3 6 1      7  4 3 2 1 0 7 6 5
 *
 * Place i of the buffer gets the card of frame i, and later places keep their content. A read or save ticket of these
 * cards, of either edition, with L frames and a pool above 7 S takes exactly as many cycles as the fullest card has
 * frames: dockplan_plan's T is the largest number of dockplan_counts, and 8 T is at most L + 7 S. With a pool of 7 S
 * some lists take a cycle more. Refusals: 20 where S is not 1 to 6 or a pattern is not 0 to 7; then 6 where the list
 * has over 4,096 frames; then 21 where a camera number is not below S; then 10 where `places` is below `frames`.
 * DOCKPLAN_MAX_FRAMES places are always enough. */
dockplan_hub_answer dockplan_hub(const uint8_t *patterns, size_t cameras, const uint8_t *list, size_t frames,
                                 uint8_t *cards, size_t places);
#define DOCKPLAN_STACK_HUB 168

/* ---- Plans that anyone made ---------------------------------------------------------------------------------- */

/* The verdicts. 0 is none of them, so that a cleared answer never says valid. */
#define DOCKPLAN_NO_VERDICT 0  /* the call was refused */
#define DOCKPLAN_VALID 1       /* the plan is a correct schedule of `cycles` cycles */
#define DOCKPLAN_NO_CYCLE 2    /* the frame at `position` has cycle 0 */
#define DOCKPLAN_SHARED_CARD 3 /* an earlier frame of its card has the same cycle */
#define DOCKPLAN_OVERFULL 4    /* too many frames in the pool */

/* A verdict. T and the peak come with a valid plan, the position with a fault; they are 0 otherwise. The peak of a
 * read plan is the most frames held right after the reads of a cycle, before handing over, on a dock with a buffer
 * for every frame: the buffers that it needs. The plan is valid for every pool from its peak on, and for no smaller
 * one. A save's peak is 0. */
typedef struct {
    uint8_t refusal;
    uint8_t verdict;
    dockplan_position position;
    dockplan_cycle cycles;
    uint16_t peak;
} dockplan_check_answer;

/* Checks a plan for a read or save ticket: valid exactly when it is a correct schedule by the paper's conditions.
 * Otherwise the lowest position at fault is named, with the first of its faults in the order above. Refusals 1 to 9
 * and 17, then 12 for mode 02, then 11 where `places` is not L. */
dockplan_check_answer dockplan_check(const uint8_t *ticket, size_t bytes, const uint16_t *plan, size_t places);
#define DOCKPLAN_STACK_CHECK 28864

/* A plan's run on the dock: whether a step was against the rules (broken), the frames handed over, the cycles that
 * ended, whether all frames were handed over (complete; with no frames they are) and the cycles needed for it, 0 if
 * not, and the peak, the most frames held right after the reads of a cycle. It is above the ticket's pool just where
 * the run broke off at the end of a cycle that found more frames held than there are buffers. */
typedef struct {
    uint8_t refusal;
    bool broken;
    bool complete;
    uint16_t delivered;
    dockplan_cycle ended;
    dockplan_cycle needed;
    uint16_t peak;
} dockplan_run_answer;

/* Runs a plan, good or bad, on the dock of the ticket's list and pool: for each cycle the reads of its frames in
 * list order, then the end of the cycle. A step against the rules breaks the run off. The ticket's mode is not looked
 * at. Refusals 1 to 9 and 17, then 11 where `places` is not L. */
dockplan_run_answer dockplan_run_plan(const uint8_t *ticket, size_t bytes, const uint16_t *plan, size_t places);
#define DOCKPLAN_STACK_RUN_PLAN 21056

/* ---- The saver: frames saved as they come -------------------------------------------------------------------- */

/* A saver's record. It goes into each call by value and the new one comes back. HAND IN ONLY RECORDS THAT A CALL
 * GAVE: the proofs of dockplan_saver_save and dockplan_saver_close are about these, and a record made or changed by
 * hand may lead outside its tables. The frames in the pool stand at the first `waiting` places of the two tables,
 * oldest first; the other places are 0. */
typedef struct {
    uint8_t cards;
    uint16_t pool;
    uint16_t taken;      /* frames saved: also the number of the next one's position */
    dockplan_cycle made; /* cycles made: the number of the last one, 0 for none */
    uint16_t waiting;    /* frames in the pool */
    bool closing;
    uint8_t card[DOCKPLAN_MAX_POOL];
    dockplan_position position[DOCKPLAN_MAX_POOL];
} dockplan_saver;

/* The entry of a card that writes nothing. */
#define DOCKPLAN_NONE 65535

/* What a call did: the number of the cycle that it made, 0 for none; for each card the position written in it,
 * DOCKPLAN_NONE for none; and the new record. Beside a refusal the cycle is 0, each entry DOCKPLAN_NONE, and the
 * record the one that was handed in. */
typedef struct {
    uint8_t refusal;
    dockplan_cycle cycle;
    dockplan_position written[DOCKPLAN_MAX_CARDS];
    dockplan_saver saver;
} dockplan_saver_answer;

/* A new saver. Refusals 4, then 5; the record that comes with them has one card, a pool of 1 and closing begun, so
 * it takes no frame. */
dockplan_saver_answer dockplan_saver_new(uint8_t cards, uint16_t pool);
#define DOCKPLAN_STACK_SAVER_NEW 688

/* Saves the next frame of the list, on this card; if the pool is full, one cycle is made first. Refusals 15, 8, 13 in
 * this order. */
dockplan_saver_answer dockplan_saver_save(dockplan_saver saver, uint8_t card);
#define DOCKPLAN_STACK_SAVER_SAVE 1904

/* Makes one closing cycle; ask until it is refused by 14, when the pool is empty. The first one that is not refused
 * begins closing: no frame is taken from then on. */
dockplan_saver_answer dockplan_saver_close(dockplan_saver saver);
#define DOCKPLAN_STACK_SAVER_CLOSE 1296

#ifdef __cplusplus
}
#endif

#endif
