/* Does what examples/orient.py does, for machines that have no Python for x86-64: loads the shared library that it is
 * given, calls orient on K4 and prints the answer. */
#include "../../include/cornetariel.h"

#include <dlfcn.h>
#include <stdio.h>
#include <string.h>

int main(int argc, char **argv) {
    uint64_t (*orient)(size_t, const uint16_t *, size_t, uint8_t *, size_t, uint16_t *, size_t);
    uint16_t ends[12] = {0, 1, 1, 2, 2, 3, 3, 0, 3, 1, 2, 0};
    uint8_t kinds[6];
    uint16_t heights[4];
    void *library = dlopen(argc > 1 ? argv[1] : NULL, RTLD_NOW);
    void *found = library ? dlsym(library, "cornetariel_orient") : NULL;
    if (!found) {
        fprintf(stderr, "%s\n", dlerror());
        return 1;
    }
    memcpy(&orient, &found, sizeof orient);
    uint64_t answer = orient(4, ends, 12, kinds, 6, heights, 4);
    printf("number %u and %zu back lines\nkinds", cornetariel_number(answer), cornetariel_count(answer));
    for (size_t k = 0; k < 6; k++)
        printf(" %u", kinds[k]);
    fputs(" heights", stdout);
    for (size_t v = 0; v < 4; v++)
        printf(" %u", heights[v]);
    putchar('\n');
    return 0;
}
