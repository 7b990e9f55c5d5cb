/* Reads reports by tools/lib/reader.c, each from a room of just its length, so that what looks beyond it is found out. From standard
 * input it takes the numbers of the schedule, the texts that are due, and then of each report how many faults are asked for and how
 * many bytes it has, the faults and the bytes; to standard output it writes of each what the reader answers, the faults and the outcome. */
#include "../../tools/lib/reader.c"
#include <stdio.h>
#include <stdlib.h>

static void *read_room(size_t length)
{
    char *room = malloc(length);
    if ((!room && length > 0) || fread(room, 1, length, stdin) != length)
        exit(2);
    return room;
}

static void write_all(const void *from, size_t length)
{
    if (fwrite(from, 1, length, stdout) != length)
        exit(2);
}

int main(void)
{
    struct schedule schedule;
    uint64_t due_length, head[2];
    if (fread(&schedule, sizeof schedule, 1, stdin) != 1 || fread(&due_length, sizeof due_length, 1, stdin) != 1)
        return 2;
    char *due = read_room(due_length);
    schedule.due = due;
    while (fread(head, sizeof head, 1, stdin) == 1) {
        struct fault *faults = read_room(head[0] * sizeof *faults);
        char *report = read_room(head[1]);
        struct outcome outcome;
        uint64_t answer = (uint64_t)read_outcome_1(report, head[1], &schedule, faults, head[0], &outcome);
        write_all(&answer, sizeof answer);
        write_all(faults, head[0] * sizeof *faults);
        write_all(&outcome, sizeof outcome);
        free(report);
        free(faults);
    }
    free(due);
    return 0;
}
