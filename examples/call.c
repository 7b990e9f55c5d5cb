/* Calls the library as the program is called: the words are this program's, and the input is its standard input. */
#include <stdio.h>
#include <stdlib.h>
#include <string.h>
#include "sift.h"

enum { MOST_WORDS = 4096, MOST_INPUT = 1 << 24 };

int main(int count, char **word) {
    static uint8_t words[MOST_WORDS], input[MOST_INPUT];
    size_t words_length = 0, length = 0, size = 65536;
    for (int at = 1; at < count && words_length + strlen(word[at]) < MOST_WORDS; at++)
        words_length += sprintf((char *)words + words_length, "%s\n", word[at]);
    size_t input_length = fread(input, 1, MOST_INPUT, stdin);
    for (;; size = length) {
        uint8_t *room = malloc(size), status = SIFT_NO_MEMORY;
        if (room) status = sift_call(words, words_length, input, input_length, room, size, &length);
        if (room && status != SIFT_NO_ROOM) fwrite(room, 1, length, stdout);
        free(room);
        if (status != SIFT_NO_ROOM) return status;
    }
}
