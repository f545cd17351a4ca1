/* The header read by a compiler, as C99 and as C++11 (tests/run): it may be included twice, its names have the
 * numbers of docs/RULES.md, and a C++ program finds the calls under their C names. Compiled and never run. */
#include "../include/cornetariel.h"
#include "../include/cornetariel.h"

/* An array of -1 places is no array, and the compiler says so. */
#define IS(name, number) typedef char name##_is_##number[(name) == (number) ? 1 : -1];

IS(CORNETARIEL_MAX_VERTICES, 512)
IS(CORNETARIEL_MAX_LINES, 2048)
IS(CORNETARIEL_DONE, 0)
IS(CORNETARIEL_FORM, 1)
IS(CORNETARIEL_LIMITS, 2)
IS(CORNETARIEL_ROOM, 3)
IS(CORNETARIEL_END, 4)
IS(CORNETARIEL_PAIR, 5)
IS(CORNETARIEL_UNREACHED, 6)
IS(CORNETARIEL_RING, 7)
IS(CORNETARIEL_CHOICE, 8)
IS(CORNETARIEL_LAST, 9)
IS(CORNETARIEL_EULER, 10)
IS(CORNETARIEL_TREE_LINE, 0)
IS(CORNETARIEL_BACK_LINE, 1)
IS(CORNETARIEL_LEFT, 0)
IS(CORNETARIEL_RIGHT, 1)
IS(CORNETARIEL_NO_SIDE, 2)
IS(CORNETARIEL_SAME, 0)
IS(CORNETARIEL_DIFFERENT, 1)

typedef void (*any_call)(void);
any_call calls[] = {
    (any_call)cornetariel_orient, (any_call)cornetariel_first, (any_call)cornetariel_next,
    (any_call)cornetariel_draw,   (any_call)cornetariel_read,  (any_call)cornetariel_write,
};
