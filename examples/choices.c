/* Reads a network's text from standard input and says whether the network can be laid out flat: with the
 * aligned choices of sides if it can, with a ring that shows why if it cannot. */
#include "network.h"

enum { CHOICE = 0, RING = 1, MOST_SHOWN = 64 };

static uint8_t kinds[CORNETARIEL_MAX_LINES];
static uint16_t heights[CORNETARIEL_MAX_VERTICES];
static uint8_t choice[CORNETARIEL_MAX_LINES];
static uint16_t ring_lines[CORNETARIEL_MAX_LINES];
static uint8_t ring_kinds[CORNETARIEL_MAX_LINES];

static void print_line(size_t line) {
    printf("line %zu (%u-%u)", line, ends[2 * line], ends[2 * line + 1]);
}

static void print_back_lines(size_t back_lines) {
    print_count(back_lines, "back line", "back lines");
    const char *before = ": ";
    for (size_t k = 0; k < lines; k++) {
        if (kinds[k] != CORNETARIEL_BACK_LINE)
            continue;
        fputs(before, stdout);
        print_line(k);
        before = ", ";
    }
    putchar('\n');
}

static void print_choice(void) {
    for (size_t k = 0; k < lines; k++)
        if (choice[k] != CORNETARIEL_NO_SIDE)
            putchar(choice[k] == CORNETARIEL_LEFT ? 'L' : 'R');
    putchar('\n');
}

static int print_choices(size_t back_lines) {
    if (back_lines == 0) {
        puts("It can be laid out flat. There is one choice, with no back line to put on a side.");
        return CHOICE;
    }
    puts("It can be laid out flat. Aligned choices, with L (left) or R (right) for each back line in turn:");
    for (int shown = 1;; shown++) {
        print_choice();
        unsigned number = cornetariel_number(cornetariel_next(vertices, ends, 2 * lines, choice, sizeof choice));
        if (number == CORNETARIEL_LAST)
            return CHOICE;
        if (number != CORNETARIEL_DONE)
            refuse(number);
        if (shown == MOST_SHOWN) {
            printf("These are the first %d; there are more.\n", MOST_SHOWN);
            return CHOICE;
        }
    }
}

static int print_ring(size_t steps) {
    puts("It cannot be laid out flat. In any flat layout all of this would hold:");
    for (size_t i = 0; i < steps; i++) {
        print_line(ring_lines[i]);
        fputs(" and ", stdout);
        print_line(ring_lines[(i + 1) % steps]);
        puts(ring_kinds[i] == CORNETARIEL_SAME ? " must be on the same side" : " must be on different sides");
    }
    printf("Whoever puts line %u on a side and goes round finds that it must be on the other.\n", ring_lines[0]);
    return RING;
}

int main(void) {
    read_network();
    print_count(vertices, "vertex, ", "vertices, ");
    print_count(lines, "line\n", "lines\n");

    /* First tells the back lines too, by the bytes of its choice, but with a ring there is no choice. */
    uint64_t oriented = cornetariel_orient(vertices, ends, 2 * lines, kinds, sizeof kinds, heights,
                                           CORNETARIEL_MAX_VERTICES);
    if (cornetariel_number(oriented) != CORNETARIEL_DONE)
        refuse(cornetariel_number(oriented));
    print_back_lines(cornetariel_count(oriented));

    uint64_t first = cornetariel_first(vertices, ends, 2 * lines, choice, sizeof choice, ring_lines,
                                       CORNETARIEL_MAX_LINES, ring_kinds, sizeof ring_kinds);
    switch (cornetariel_number(first)) {
    case CORNETARIEL_DONE:
        leave(print_choices(cornetariel_count(first)));
    case CORNETARIEL_RING:
        leave(print_ring(cornetariel_second(first)));
    default:
        refuse(cornetariel_number(first));
    }
}
