/* A small caller of the planner in C: joins two tickets, such as the halves of a survey, into one on standard output.
 * `make join` builds and runs it on FIRST=file and SECOND=file, `make firmware` on the two halves beside this file. */
#include <stdio.h>

#include "dockplan.h"

/* A ticket from a file. It has one byte more than the longest ticket: whatever follows is refused by 9 all the same. */
struct ticket {
    uint8_t text[DOCKPLAN_MAX_TICKET_BYTES + 1];
    size_t bytes;
};

static struct ticket first;
static struct ticket second;
static uint8_t joined[DOCKPLAN_MAX_TICKET_BYTES];

/* Answers whether the file could be read. */
static int read_ticket(const char *name, struct ticket *ticket)
{
    FILE *file = fopen(name, "rb");
    if (file == NULL) {
        fprintf(stderr, "%s cannot be read\n", name);
        return 0;
    }
    ticket->bytes = fread(ticket->text, 1, sizeof ticket->text, file);
    fclose(file);
    return 1;
}

int main(int count, char **word)
{
    if (dockplan_version() != DOCKPLAN_VERSION) {
        fprintf(stderr, "this library does not belong to the header\n");
        return 1;
    }
    if (count != 3) {
        fprintf(stderr, "usage: join FIRST SECOND, the files of two tickets\n");
        return 1;
    }
    if (!read_ticket(word[1], &first) || !read_ticket(word[2], &second)) {
        return 1;
    }
    dockplan_join_answer answer =
        dockplan_join(first.text, first.bytes, second.text, second.bytes, joined, sizeof joined);
    if (answer.refusal != 0) {
        fprintf(stderr, "refused by %u\n", answer.refusal);
        return 1;
    }
    return fwrite(joined, 1, answer.bytes, stdout) == answer.bytes && fflush(stdout) == 0 ? 0 : 1;
}
