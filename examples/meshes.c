/* Reads a network's text from standard input and prints the meshes of its first choice, walked: for each mesh
 * its directions in the order of the walk, from the lowest one on. With the signs that a walk gives its lines
 * one adds up flows round a mesh. */
#include "network.h"

enum { PRINTED = 0, NOT_FLAT = 1, SIGNS_DIFFER = 6 };

static uint8_t choice[CORNETARIEL_MAX_LINES];
static uint16_t ring_lines[CORNETARIEL_MAX_LINES];
static uint8_t ring_kinds[CORNETARIEL_MAX_LINES];
static uint16_t order[2 * CORNETARIEL_MAX_LINES];
static uint16_t mesh[2 * CORNETARIEL_MAX_LINES];
static uint16_t sizes[2 * CORNETARIEL_MAX_LINES + 1];

/* The order at vertex v is order[begins[v]] up to order[begins[v + 1]], that one excepted. */
static size_t begins[CORNETARIEL_MAX_VERTICES + 1];

static unsigned times_walked[2 * CORNETARIEL_MAX_LINES];

/* Direction 2k goes along line k from its first end to its second, 2k + 1 the other way. */
static size_t from(size_t direction) {
    return ends[direction];
}

static size_t to(size_t direction) {
    return ends[direction ^ 1];
}

static size_t away_from(size_t vertex, size_t line) {
    return ends[2 * line] == vertex ? 2 * line : 2 * line + 1;
}

static void find_begins(void) {
    for (size_t direction = 0; direction < 2 * lines; direction++)
        begins[from(direction) + 1]++;
    for (size_t v = 0; v < vertices; v++)
        begins[v + 1] += begins[v];
}

/* After a direction that arrives at a vertex the walk takes the line that follows clockwise. */
static size_t next_direction(size_t direction) {
    size_t vertex = to(direction);
    size_t place = begins[vertex];
    while (order[place] != direction / 2)
        place++;
    place = place + 1 < begins[vertex + 1] ? place + 1 : begins[vertex];
    return away_from(vertex, order[place]);
}

static void print_walk(size_t start) {
    size_t direction = start;
    do {
        printf("%4u  %4zu  %4zu  %4zu  %4c\n", mesh[start], direction / 2, from(direction), to(direction),
               direction % 2 == 0 ? '+' : '-');
        times_walked[direction]++;
        direction = next_direction(direction);
    } while (direction != start);
}

/* The corner at vertex 0 from the last line of its order on to the first is in the outer mesh. */
static unsigned outer_mesh(void) {
    if (lines == 0)
        return 0;
    return mesh[away_from(0, order[begins[1] - 1]) ^ 1];
}

static int print_signs(void) {
    size_t opposite = 0;
    for (size_t k = 0; k < lines; k++)
        opposite += times_walked[2 * k] == 1 && times_walked[2 * k + 1] == 1;
    printf("%zu of %zu lines are walked once + and once -.\n", opposite, lines);
    return opposite == lines ? PRINTED : SIGNS_DIFFER;
}

int main(void) {
    read_network();
    uint64_t first = cornetariel_first(vertices, ends, 2 * lines, choice, sizeof choice, ring_lines,
                                       CORNETARIEL_MAX_LINES, ring_kinds, sizeof ring_kinds);
    if (cornetariel_number(first) == CORNETARIEL_RING) {
        fputs("Number 7: the network cannot be laid out flat, so it has no meshes; examples/choices shows why.\n", stderr);
        leave(NOT_FLAT);
    }
    if (cornetariel_number(first) != CORNETARIEL_DONE)
        refuse(cornetariel_number(first));
    uint64_t drawn = cornetariel_draw(vertices, ends, 2 * lines, choice, sizeof choice, order, 2 * CORNETARIEL_MAX_LINES,
                                      mesh, 2 * CORNETARIEL_MAX_LINES, sizes, 2 * CORNETARIEL_MAX_LINES + 1);
    if (cornetariel_number(drawn) != CORNETARIEL_DONE)
        refuse(cornetariel_number(drawn));

    print_count(vertices, "vertex, ", "vertices, ");
    print_count(lines, "line, ", "lines, ");
    print_count(cornetariel_count(drawn), "mesh\n", "meshes\n");
    puts("mesh  line  from    to  sign");
    find_begins();
    for (size_t direction = 0; direction < 2 * lines; direction++)
        if (times_walked[direction] == 0)
            print_walk(direction);
    printf("Mesh %u is the outer one.\n", outer_mesh());
    leave(print_signs());
}
