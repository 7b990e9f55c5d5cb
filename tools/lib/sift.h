/* The program as a library: one function. See docs/library.md. */
#ifndef SIFT_H
#define SIFT_H

#include <stddef.h>
#include <stdint.h>

#ifdef __cplusplus
extern "C" {
#endif

/* The room is too small for the text: it holds the front of it, and *count is the length of all of it. */
#define SIFT_NO_ROOM 100
/* Memory was wanting: there is no text, and *count is 0. */
#define SIFT_NO_MEMORY 10

/* Does what the words ask for with this input, as the program `sift` does with these words and this standard input.
 *
 * words, words_length   the command words, in UTF-8, one a line: "run" or "plan\n--copies\n3"; not the program's name
 * input, input_length   what the program reads: a mission, or a report
 * room, room_length     where the text goes that the program writes
 * count                 is set to the length of that text, in bytes
 *
 * The status is SIFT_NO_ROOM or SIFT_NO_MEMORY, or else the program's (docs/statuses.md), and the text then stands in the
 * first *count bytes of the room. Statuses 8 and 9 don't come: memory neither fails to read nor to write.
 *
 * The caller answers for this, which nothing checks: each pointer with its length is memory that may be read, room and count
 * also written; these lie apart; a pointer isn't null, even where its length is 0. malloc, realloc and free are those of the
 * C library. One call at a time.
 */
uint8_t sift_call(const uint8_t *words, size_t words_length, const uint8_t *input, size_t input_length,
                  uint8_t *room, size_t room_length, size_t *count);

#ifdef __cplusplus
}
#endif

#endif
