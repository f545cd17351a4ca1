#include "parts.h"

#include <stdlib.h>

/* The random numbers are splitmix64's: a few lines, and the same on every machine. */
static uint64_t state;

void start_random(uint64_t seed) {
    state = seed;
}

size_t below(size_t bound) {
    state += 0x9e3779b97f4a7c15u;
    uint64_t mixed = state;
    mixed = (mixed ^ mixed >> 30) * 0xbf58476d1ce4e5b9u;
    mixed = (mixed ^ mixed >> 27) * 0x94d049bb133111ebu;
    return (size_t)((mixed ^ mixed >> 31) % bound);
}

void add(struct network *network, size_t first, size_t second) {
    if (network->lines == CORNETARIEL_MAX_LINES)
        abort(); /* a rule was asked for more than the library takes */
    network->ends[2 * network->lines] = (uint16_t)first;
    network->ends[2 * network->lines + 1] = (uint16_t)second;
    network->lines++;
}

static int are_joined(const struct network *network, size_t one, size_t other) {
    for (size_t line = 0; line < network->lines; line++) {
        size_t first = network->ends[2 * line], second = network->ends[2 * line + 1];
        if ((first == one && second == other) || (first == other && second == one))
            return 1;
    }
    return 0;
}

void add_random(struct network *network, size_t lines) {
    while (network->lines < lines) {
        size_t one = below(network->vertices), other = below(network->vertices);
        if (one != other && !are_joined(network, one, other))
            add(network, one, other);
    }
}

/* Sweeps over all lines until no vertex is new. */
static int is_connected(const struct network *network) {
    char reached[CORNETARIEL_MAX_VERTICES] = {1};
    size_t count = 1, before = 0;
    while (count != before) {
        before = count;
        for (size_t line = 0; line < network->lines; line++) {
            size_t first = network->ends[2 * line], second = network->ends[2 * line + 1];
            if (reached[first] != reached[second]) {
                reached[first] = reached[second] = 1;
                count++;
            }
        }
    }
    return count == network->vertices;
}

void cut(struct network *network, size_t lines) {
    while (network->lines > lines) {
        size_t line = below(network->lines), last = network->lines - 1;
        uint16_t first = network->ends[2 * line], second = network->ends[2 * line + 1];
        network->ends[2 * line] = network->ends[2 * last];
        network->ends[2 * line + 1] = network->ends[2 * last + 1];
        network->lines--;
        if (!is_connected(network))
            add(network, first, second);
    }
}

void stretch(struct network *network, size_t from) {
    for (size_t v = from; v < network->vertices; v++) {
        size_t line = below(network->lines);
        add(network, v, network->ends[2 * line + 1]);
        network->ends[2 * line + 1] = (uint16_t)v;
    }
}

/* Each goes to a random place among those before it, and what stood there to the end: every order is as likely. */
void renumber(struct network *network) {
    uint16_t numbers[CORNETARIEL_MAX_VERTICES];
    for (size_t v = 0; v < network->vertices; v++) {
        size_t place = below(v + 1);
        numbers[v] = numbers[place];
        numbers[place] = (uint16_t)v;
    }
    for (size_t line = 0; line < network->lines; line++) {
        uint16_t first = numbers[network->ends[2 * line]], second = numbers[network->ends[2 * line + 1]];
        size_t place = below(line + 1), way = below(2);
        network->ends[2 * line] = network->ends[2 * place];
        network->ends[2 * line + 1] = network->ends[2 * place + 1];
        network->ends[2 * place + way] = first;
        network->ends[2 * place + 1 - way] = second;
    }
}

struct triangle {
    size_t corners[3];
};

/* Those of the network that was stacked last. */
static struct triangle triangles[2 * CORNETARIEL_MAX_VERTICES];

void stack(struct network *network) {
    size_t count = 2;
    add(network, 0, 1);
    add(network, 1, 2);
    add(network, 2, 0);
    triangles[0] = triangles[1] = (struct triangle){{0, 1, 2}};
    for (size_t v = 3; v < network->vertices; v++) {
        size_t place = below(count);
        struct triangle around = triangles[place];
        for (size_t corner = 0; corner < 3; corner++) {
            struct triangle part = around;
            part.corners[corner] = v;
            triangles[corner == 0 ? place : count++] = part;
            add(network, around.corners[corner], v);
        }
    }
}

static int has_corner(const struct triangle *triangle, size_t v) {
    return triangle->corners[0] == v || triangle->corners[1] == v || triangle->corners[2] == v;
}

/* The corner that is neither of two others. */
static size_t tip(const struct triangle *triangle, size_t one, size_t other) {
    size_t corner = 0;
    while (triangle->corners[corner] == one || triangle->corners[corner] == other)
        corner++;
    return triangle->corners[corner];
}

void turn(struct network *network, size_t turns) {
    while (turns-- > 0) {
        size_t line = below(network->lines), found = 0;
        size_t first = network->ends[2 * line], second = network->ends[2 * line + 1];
        struct triangle *beside[2];
        for (struct triangle *triangle = triangles; found < 2; triangle++)
            if (has_corner(triangle, first) && has_corner(triangle, second))
                beside[found++] = triangle;
        size_t one = tip(beside[0], first, second), other = tip(beside[1], first, second);
        if (one == other || are_joined(network, one, other))
            continue;
        network->ends[2 * line] = (uint16_t)one;
        network->ends[2 * line + 1] = (uint16_t)other;
        *beside[0] = (struct triangle){{one, other, first}};
        *beside[1] = (struct triangle){{one, other, second}};
    }
}
