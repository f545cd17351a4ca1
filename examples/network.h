/* What the programs here have in common: they read a network's text from standard input, say in words why a
 * network is refused, and see that what they printed has arrived. */
#include "../include/cornetariel.h"

#include <stdio.h>
#include <stdlib.h>

enum { REFUSED = 2, UNREAD = 4, UNWRITTEN = 5 };

/* The network. There is room for the greatest, so that no call ever answers number 3. */
static size_t vertices;
static size_t lines;
static uint16_t ends[2 * CORNETARIEL_MAX_LINES];

/* What happened is said by the status, but not if what was printed before is lost. */
static _Noreturn void leave(int status) {
    if (fflush(stdout) != 0 || ferror(stdout)) {
        perror("standard output");
        exit(UNWRITTEN);
    }
    exit(status);
}

static _Noreturn void refuse(unsigned number) {
    fprintf(stderr, "Number %u: ", number);
    switch (number) {
    case CORNETARIEL_FORM:
        fputs("this is not the text of a network. Each line of it is to be eight digits, 0 to 9 and a to f in small\n"
              "letters, and a line feed, with nothing else, and after the first there are to be as many as the last\n"
              "four digits of the first one say.\n",
              stderr);
        break;
    case CORNETARIEL_LIMITS:
        fprintf(stderr, "give a network of at least 1 vertex, at most %d vertices and at most %d lines.\n",
                CORNETARIEL_MAX_VERTICES, CORNETARIEL_MAX_LINES);
        break;
    case CORNETARIEL_END:
        fputs("a line ends at a vertex that is not there. Vertices are counted from 0: correct that end, or raise the\n"
              "vertex count in the first four digits.\n",
              stderr);
        break;
    case CORNETARIEL_PAIR:
        fputs("a line has twice the same end, or two lines join the same pair of vertices. Leave out such a line: it\n"
              "does not decide whether the network can be laid out flat.\n",
              stderr);
        break;
    case CORNETARIEL_UNREACHED:
        fputs("the network is in several parts, with no line from one to another. Ask about each part by itself, its\n"
              "vertices counted from 0.\n",
              stderr);
        break;
    default:
        fputs("include/cornetariel.h says what that means.\n", stderr);
    }
    leave(REFUSED);
}

static void read_network(void) {
    /* A first frame can announce 65,535 lines at most. The one byte more lets read see that a text is longer
     * than any text of the right form. */
    static uint8_t text[9 * 65536 + 1];
    size_t length = fread(text, 1, sizeof text, stdin);
    if (ferror(stdin)) {
        perror("standard input");
        exit(UNREAD);
    }
    uint64_t network = cornetariel_read(text, length, ends, 2 * CORNETARIEL_MAX_LINES);
    if (cornetariel_number(network) != CORNETARIEL_DONE)
        refuse(cornetariel_number(network));
    vertices = cornetariel_count(network);
    lines = cornetariel_second(network);
}

static void print_count(size_t count, const char *one, const char *many) {
    printf("%zu %s", count, count == 1 ? one : many);
}
