/* A small caller of the planner in C: writes the read ticket of a field hub's frames to standard output.
 * `hub POOL PATTERN..` takes the pattern of each camera as a word and the camera of each frame from standard input, in
 * decimal; `make hub` builds and runs it on POOL, PATTERNS and CAMERAS, `make firmware` on the example beside this file. */
#include <stdio.h>
#include <stdlib.h>

#include "dockplan.h"

#define HEADER_BYTES 15
#define LINE_BYTES 3

/* One number more than a hub can have: whatever follows is refused by 20 or by 6 all the same. */
static uint8_t patterns[DOCKPLAN_HUB_CAMERAS + 1];
static uint8_t list[DOCKPLAN_MAX_FRAMES + 1];
static uint8_t cards[DOCKPLAN_MAX_FRAMES];
/* A ticket of edition 01, and the end of its string. */
static char ticket[HEADER_BYTES + LINE_BYTES * DOCKPLAN_MAX_FRAMES + 1];

/* A number as the calls take it. One that is too large for its type stays too large for the call, which refuses it. */
static unsigned at_most(unsigned long number, unsigned most)
{
    return number < most ? (unsigned)number : most;
}

/* The number of a word. A word that is no number stands for one that is too large. */
static unsigned number(const char *word, unsigned most)
{
    char *end;
    unsigned long value = strtoul(word, &end, 10);
    return end == word || *end != '\0' ? most : at_most(value, most);
}

/* The camera of each frame on standard input. What is no number ends the list, as a camera number that is too large. */
static size_t read_list(void)
{
    size_t frames = 0;
    int read = 1;
    while (frames < sizeof list && read == 1) {
        unsigned long camera = UINT8_MAX;
        read = scanf("%lu", &camera);
        if (read != EOF) {
            list[frames++] = (uint8_t)at_most(camera, UINT8_MAX);
        }
    }
    return frames;
}

/* A read ticket of edition 01 for the hub's cards. Answers its bytes. */
static size_t write_ticket(unsigned pool, unsigned frames)
{
    int bytes = sprintf(ticket, "0100%02X%04X%04X\n", DOCKPLAN_HUB_CARDS, pool, frames);
    for (unsigned position = 0; position < frames; position++) {
        bytes += sprintf(ticket + bytes, "%02X\n", cards[position]);
    }
    return (size_t)bytes;
}

static int refused(unsigned refusal)
{
    fprintf(stderr, "refused by %u\n", refusal);
    return 1;
}

int main(int count, char **word)
{
    if (dockplan_version() != DOCKPLAN_VERSION) {
        fprintf(stderr, "this library does not belong to the header\n");
        return 1;
    }
    if (count < 2) {
        fprintf(stderr, "usage: hub POOL PATTERN.., and the camera of each frame on standard input\n");
        return 1;
    }
    size_t cameras = at_most((unsigned long)count - 2, sizeof patterns);
    for (size_t camera = 0; camera < cameras; camera++) {
        patterns[camera] = (uint8_t)number(word[2 + camera], UINT8_MAX);
    }
    dockplan_hub_answer answer = dockplan_hub(patterns, cameras, list, read_list(), cards, sizeof cards);
    if (answer.refusal != 0) {
        return refused(answer.refusal);
    }
    size_t bytes = write_ticket(number(word[1], UINT16_MAX), answer.frames);
    dockplan_ticket_answer header = dockplan_parse((const uint8_t *)ticket, bytes);
    if (header.refusal != 0) {
        return refused(header.refusal);
    }
    return fwrite(ticket, 1, bytes, stdout) == bytes && fflush(stdout) == 0 ? 0 : 1;
}
