/* A small caller of the planner in C: plans the ticket on standard input and says what to do in each cycle.
 * `make firmware` builds and runs it on examples/first.ticket, or on TICKET=file. */
#include <stdio.h>

#include "dockplan.h"

/* One byte more than the longest ticket has: whatever follows is refused by 9 all the same. */
static uint8_t ticket[DOCKPLAN_MAX_TICKET_BYTES + 1];
static uint16_t plan[DOCKPLAN_MAX_FRAMES];

int main(void)
{
    if (dockplan_version() != DOCKPLAN_VERSION) {
        printf("this library does not belong to the header\n");
        return 1;
    }
    size_t bytes = fread(ticket, 1, sizeof ticket, stdin);
    dockplan_ticket_answer header = dockplan_parse(ticket, bytes);
    dockplan_plan_answer answer = dockplan_plan(ticket, bytes, plan, DOCKPLAN_MAX_FRAMES);
    if (answer.refusal != 0) {
        printf("refused by %u\n", answer.refusal);
        return 1;
    }
    printf("%u frames in %u cycles\n", header.frames, answer.cycles.number);
    for (unsigned cycle = 1; cycle <= answer.cycles.number; cycle++) {
        printf("cycle %u:", cycle);
        for (unsigned position = 0; position < header.frames; position++) {
            if (plan[position] == cycle) {
                printf(" %u", position);
            }
        }
        printf("\n");
    }
    return 0;
}
