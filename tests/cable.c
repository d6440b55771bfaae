/*
 * Reads a task sheet from standard input as it comes, by read into a small buffer, and prints what is said of it: its answer in a line, and
 * then a line a row. Called with 'pieces' it hands each read on to circuitrail_pieces_feed and keeps nothing but the state; with 'whole' it
 * collects all bytes for circuitrail_read_sheet. On standard error it tells that it is ready, and at the end how many reads there were, and
 * how many that brought fewer bytes than were asked for.
 */
#define _XOPEN_SOURCE 700

#include "circuitrail.h"

#include <errno.h>
#include <stdio.h>
#include <stdlib.h>
#include <string.h>
#include <unistd.h>

enum { AT_ONCE = 32, MOST_BYTES = 8192, MOST_WORDS = 3 * CIRCUITRAIL_MOST_ROWS };

static unsigned reads, short_reads;

/* Ends the program where there is nothing to be told. */
static void give_up(const char *why) {
    fprintf(stderr, "cable: %s\n", why);
    exit(2);
}

/* The next bytes of standard input: how many came, and none at its end. */
static size_t next_bytes(uint8_t bytes[AT_ONCE]) {
    ssize_t came;
    do
        came = read(STDIN_FILENO, bytes, AT_ONCE);
    while (came < 0 && errno == EINTR);
    if (came < 0)
        give_up(strerror(errno));
    reads += came > 0;
    short_reads += came > 0 && came < AT_ONCE;
    return (size_t)came;
}

/* The sheet taken as it comes. */
static circuitrail_read in_pieces(uint32_t *words) {
    uint8_t bytes[AT_ONCE];
    circuitrail_pieces state = circuitrail_pieces_start();
    for (size_t came = next_bytes(bytes); came > 0; came = next_bytes(bytes))
        state = circuitrail_pieces_feed(state, bytes, came);
    return circuitrail_pieces_end(state, words, MOST_WORDS).answer;
}

/* The sheet collected and read at once. */
static circuitrail_read as_a_whole(uint32_t *words) {
    static uint8_t all[MOST_BYTES];
    uint8_t bytes[AT_ONCE];
    size_t length = 0;
    for (size_t came = next_bytes(bytes); came > 0; came = next_bytes(bytes)) {
        if (length + came > MOST_BYTES)
            give_up("there are more bytes than it can collect");
        memcpy(all + length, bytes, came);
        length += came;
    }
    return circuitrail_read_sheet(all, length, words, MOST_WORDS);
}

int main(int count, char **asked) {
    uint32_t words[MOST_WORDS] = {0};
    circuitrail_read answer;
    if (count != 2 || (strcmp(asked[1], "pieces") != 0 && strcmp(asked[1], "whole") != 0))
        give_up("it is called with 'pieces' or with 'whole'");
    fprintf(stderr, "ready\n");
    answer = strcmp(asked[1], "pieces") == 0 ? in_pieces(words) : as_a_whole(words);
    printf("refusal %u, place %u, processors %u, rows %u\n", answer.refusal, answer.place, answer.processors, answer.rows);
    for (uint32_t row = 0; row < answer.rows; row++)
        printf("%u %u %u\n", words[3 * row], words[3 * row + 1], words[3 * row + 2]);
    fprintf(stderr, "%u reads, %u short\n", reads, short_reads);
    return 0;
}
