/* cornetariel.h -- the calls of Cornetariel for C and C++
 *
 * Can an electricity network be laid out flat, no line crossing another? If so, how do the lines follow each
 * other round every vertex, and which meshes do they enclose? If not, why not? This header is the manual of the
 * six calls. docs/RULES.md is the whole of the rules: it fixes every number that a call returns and every place
 * that it writes, but for which ring is shown. The header needs C99 or C++11.
 *
 * The archive, target/staticlib/libcornetariel.a, comes from `examples/archive`. It holds x86-64 code, for
 * processors of level v2 and higher (SSE4.2 and POPCNT), and asks of the C library memcpy and memset, and
 * nothing that allocates, prints or exits.
 *
 *
 * A network in memory
 *
 * A network is a vertex count and a list of ends. Vertices and lines are counted from 0. At place 2k of the list
 * stands the first end of line k, at place 2k + 1 its second, so a list of n lines has 2n places. This is K4,
 * four vertices all joined to each other:
 *
 *     uint16_t ends[12] = {0,1, 1,2, 2,3, 3,0, 3,1, 2,0};
 *     uint8_t kinds[6];
 *     uint16_t heights[4];
 *     uint64_t answer = cornetariel_orient(4, ends, 12, kinds, 6, heights, 4);
 *
 * The order of a line's two ends gives its flow a sign: flow towards the second end is positive. No call swaps
 * them.
 *
 *
 * Memory
 *
 * The caller owns all memory and lends it for the time of the call. A call allocates nothing, frees nothing and
 * keeps nothing, neither a pointer nor any other state: calls are reentrant, and several threads may call at
 * once as long as none of them writes to memory that another one has lent.
 *
 * Each buffer is a pointer and a length. The length counts elements (bytes, or 16-bit numbers), not bytes. Each
 * buffer needs a room, given at each call below. It may be longer than that; the places beyond what is filled
 * keep what they held.
 *
 * Two things a call cannot check, and beside a stack they are all that is asked of the caller: that a pointer
 * is one to as many elements of its type as the length says, and that no two buffers of one call overlap.
 * Whatever else is wrong with what is lent is answered with a number. Nothing is read or written behind a
 * pointer whose length is 0, so NULL will do for it: a lone vertex has no list of ends and no choice.
 *
 * A call takes less than half a megabyte of stack: 436,768 bytes at most were measured (with kit
 * rattle-kit-13f), for draw on a path through 512 vertices. More than half of that is a table of all pairs of
 * vertices. A thread that was given a small stack should have one megabyte.
 *
 *
 * Words
 *
 * The search begins at vertex 0 and uses at each vertex the unused line with the lowest number; where there is
 * none it goes back. A line by which it finds a new vertex is a tree line and points up to that vertex. Any other
 * line is a back line and points down, from where the search met it to a vertex found before. A line leaves the
 * vertex that it points away from. The height of a vertex counts the tree lines from vertex 0 to it. One vertex
 * is above another if the way from it down tree lines to vertex 0 goes through the other.
 *
 * The returns of a line that leaves v: of a back line, itself; of a tree line, the back lines that start at its
 * upper end or above that and end below v. One that ends at v itself is no return. The low of a line is the
 * least height at which one of its returns ends; if it has none, the height of v.
 *
 * Two different lines e and f that leave one vertex are a fork. It has two groups: the returns of e whose end
 * is higher than the low of f, and the returns of f whose end is higher than the low of e. A return that ends
 * level with the other line's low is in neither. A choice puts each back line on a side, left or right. By the
 * fork rule a group has one side, and the two groups of a fork have different sides. An empty group asks for
 * nothing.
 *
 * A choice is legal if it obeys the rule of every fork. It is aligned if it is legal and no tree line has two
 * returns on different sides that both end at its low. Where some choice is legal, some choice is aligned, and
 * these are the networks that can be laid out flat.
 *
 *
 * Versions
 *
 * A change that breaks programs raises the first number of the version, an addition the second, a repair the
 * third. The numbers that calls answer keep their meaning in every version: a later one may give some of them
 * less often, or have more of them, but puts no other meaning on any. CHANGELOG.md says what each version brought.
 */
#ifndef CORNETARIEL_H
#define CORNETARIEL_H

#include <stddef.h>
#include <stdint.h>

#ifdef __cplusplus
extern "C" {
#endif

#define CORNETARIEL_VERSION_MAJOR 2
#define CORNETARIEL_VERSION_MINOR 0
#define CORNETARIEL_VERSION_PATCH 1
#define CORNETARIEL_VERSION "2.0.1"

/* A network has at least one vertex and at most these many vertices and lines. It may have no lines. */
#define CORNETARIEL_MAX_VERTICES 512
#define CORNETARIEL_MAX_LINES 2048

/* The answer of a call is one number that packs three:
 *
 *     number + 256 * first count + 2^32 * second count
 *
 * The number is 0 when the work is done, and else it is a refusal. What the counts are stands at each call.
 * With a refusal both are 0, except the second count of number 7. */
static inline unsigned cornetariel_number(uint64_t answer) {
    return (unsigned)(answer & 0xff);
}

static inline size_t cornetariel_count(uint64_t answer) {
    return (size_t)(answer >> 8 & 0xffffff);
}

static inline size_t cornetariel_second(uint64_t answer) {
    return (size_t)(answer >> 32);
}

/* The numbers. A call makes its checks from the lowest number up and answers with the first that catches.
 * A refusal leaves every lent buffer as it was; number 7 alone writes something, its ring. */
enum cornetariel_numbers {
    /* The work is done. */
    CORNETARIEL_DONE = 0,

    /* The text breaks its form (see cornetariel_read). Usual causes are capital digits, a carriage return
     * before the line feed, a missing last line feed, or a line count in the first frame that is not the
     * number of frames after it. Mend the text. Only read answers this. */
    CORNETARIEL_FORM = 1,

    /* There is no vertex, or there are more than 512, or more than 2,048 lines. Give a smaller network:
     * parts that hang together at one vertex only can be asked about one by one. */
    CORNETARIEL_LIMITS = 2,

    /* The list of ends has an odd length, or a buffer has less than its room. Lend a longer buffer, and see
     * that lengths count elements and not bytes. */
    CORNETARIEL_ROOM = 3,

    /* Some end is as great as the vertex count, or greater. Vertices are counted from 0, so the last one has
     * a number one less than the count: correct the end or raise the count. */
    CORNETARIEL_END = 4,

    /* Some line has twice the same end, or some pair of vertices has a second line, in whichever order its
     * ends are named. Such a line never decides whether a network can be laid out flat: if that is all that is
     * asked, leave it out. But it carries flow and closes a loop. If meshes are wanted, put a new vertex in the
     * middle of a second line, and two in a line from a vertex to itself. Its parts then have one flow. */
    CORNETARIEL_PAIR = 5,

    /* Some vertex cannot be reached from some other along lines. Ask about each connected part as a network
     * of its own, its vertices counted from 0. */
    CORNETARIEL_UNREACHED = 6,

    /* No choice is legal, so the network cannot be laid out flat. This is a result and no mistake: the ring
     * buffers now hold a ring, which shows why. It does not say which line to take out: that may be one
     * outside the ring, and one of the ring alone may not be enough. Only first answers this. */
    CORNETARIEL_RING = 7,

    /* The choice that is lent has a wrong byte (2 belongs to each tree line, 0 or 1 to each back line), or it
     * is not aligned. Start from what first wrote for this very network. Only next and draw answer this. */
    CORNETARIEL_CHOICE = 8,

    /* The choice that is lent is the last aligned one. This is the end of the list and no mistake. Only next
     * answers this. */
    CORNETARIEL_LAST = 9,

    /* Vertices minus lines plus meshes makes something other than 2, so what came out is no flat drawing and
     * is not handed over. There is nothing for the caller to mend: please report the network and the choice.
     * Only draw answers this. */
    CORNETARIEL_EULER = 10
};

/* What orient writes for a line. */
enum cornetariel_kinds { CORNETARIEL_TREE_LINE = 0, CORNETARIEL_BACK_LINE = 1 };

/* What a choice has for a line: the side of a back line, or 2 for a tree line. These are not orient's bytes,
 * where 0 and 1 have another meaning. A left line's round trip, down the line and up the tree lines to its
 * start again, turns anticlockwise, a right line's clockwise, where the outer mesh is the one that draw names
 * below. */
enum cornetariel_sides { CORNETARIEL_LEFT = 0, CORNETARIEL_RIGHT = 1, CORNETARIEL_NO_SIDE = 2 };

/* What a step of a ring asks of its line and the next one: the same side or different sides. */
enum cornetariel_constraints { CORNETARIEL_SAME = 0, CORNETARIEL_DIFFERENT = 1 };

/* orient: what each line is, and how high each vertex stands, by the search that "Words" above describes.
 *
 *   ends      2 * lines places, read. Its length gives the line count.
 *   kinds     room for a byte a line. On 0: byte k is 0 if line k is a tree line, 1 if it is a back line.
 *   heights   room for a place a vertex. On 0: place v is the height of vertex v.
 *
 * Numbers: 0, 2, 3, 4, 5, 6. On any but 0, kinds and heights stay as they were.
 * First count: the number of back lines. Second count: 0. */
uint64_t cornetariel_orient(size_t vertices, const uint16_t *ends, size_t ends_len, uint8_t *kinds, size_t kinds_len,
                            uint16_t *heights, size_t heights_len);

/* first: the earliest aligned choice of sides, or a ring that shows why there is none.
 *
 * Choices have the order of a dictionary, from the lowest back line up, left before right.
 *
 *   ends         2 * lines places, read.
 *   choice       room for a byte a line. On 0: the earliest aligned choice. On 7 it stays.
 *   ring_lines   room for a place a line. On 7: the line of each step of the ring. On 0 it stays.
 *   ring_kinds   room for a byte a line. On 7: the constraint from that step's line to the line of the next
 *                step, 0 the same side, 1 different sides; the last step's leads back to the first line. On 0
 *                it stays.
 *
 * A ring is a round of two or more back lines, no line twice. The line of a step and the next one stand in one
 * group of some fork and have to share a side, or in the two groups of a fork and have to differ. Those that
 * differ are odd in number, so no choice meets all steps. The first step has the lowest line of the ring, and
 * the second step the lower of the two lines beside it in the round. A ring of two lines has "same" in its first
 * step. A network may have many rings; the rules leave open which one is written.
 *
 * Numbers: 0, 2, 3, 4, 5, 6, 7. On 2 to 6 all buffers stay as they were.
 * First count: on 0 the number of back lines, on 7 it is 0. Second count: on 0 it is 0, on 7 the number of
 * steps of the ring; places of the ring buffers from there on stay. */
uint64_t cornetariel_first(size_t vertices, const uint16_t *ends, size_t ends_len, uint8_t *choice, size_t choice_len,
                           uint16_t *ring_lines, size_t ring_lines_len, uint8_t *ring_kinds, size_t ring_kinds_len);

/* next: the aligned choice that follows the one lent.
 *
 * first, and then next until it answers 9, goes through all aligned choices, each once and in their order.
 * Their number is a power of two, and it may be far too great to go through them all: a path through 511
 * vertices, all joined to one more, can have 2^510.
 *
 *   ends     2 * lines places, read.
 *   choice   room for a byte a line, read. On 0: the earliest aligned choice that is later, written over it.
 *
 * Numbers: 0, 2, 3, 4, 5, 6, 8, 9. On any but 0 the choice stays as it was: after 9 it is still the last one.
 * First count: the number of back lines. Second count: 0. */
uint64_t cornetariel_next(size_t vertices, const uint16_t *ends, size_t ends_len, uint8_t *choice, size_t choice_len);

/* read: the network in a text.
 *
 * A text is made of frames of nine bytes: eight hexadecimal digits, 0 to 9 and a to f, and a line feed. A
 * frame holds two numbers of four digits each. The first frame has the vertex count and the line count, and
 * after it comes a frame for each line, its first end and its second end. Nothing stands between the digits
 * or after the last line feed.
 *
 *   text   any length, read. No byte of 0 is needed at its end.
 *   ends   room for 2 * lines places, lines as the first frame counts them. On 0: the list of ends. Room for
 *          2 * CORNETARIEL_MAX_LINES places is enough for each text that is not refused for another reason.
 *
 * Numbers: 0, 1, 2, 3, 4, 5, 6. On any but 0, ends stay as they were.
 * First count: the number of vertices. Second count: the number of lines. So what the other calls are given
 * is cornetariel_count(answer), ends and 2 * cornetariel_second(answer), and checks 4 to 6 are then behind. */
uint64_t cornetariel_read(const uint8_t *text, size_t text_len, uint16_t *ends, size_t ends_len);

/* write: the text of a network.
 *
 * A network has one text only: reading what was written gives the same network back, and writing what was
 * read gives the same text back.
 *
 *   ends   2 * lines places, read.
 *   text   room for 9 * (lines + 1) bytes. On 0: the text, with no byte of 0 after it.
 *
 * Numbers: 0, 2, 3, 4, 5, 6. On any but 0, text stays as it was.
 * First count: the number of bytes written, 9 * (lines + 1). Second count: 0. */
uint64_t cornetariel_write(size_t vertices, const uint16_t *ends, size_t ends_len, uint8_t *text, size_t text_len);

/* draw: the clockwise order of the lines at every vertex, and the meshes, of an aligned choice.
 *
 * Direction 2k goes along line k from its first end to its second, direction 2k + 1 the other way. So direction
 * d leaves vertex ends[d], arrives at ends[d ^ 1], and d ^ 1 is the direction back. Each direction has one mesh
 * on its left hand. Mesh 0 is that of direction 0; of the directions not on it, the lowest is on mesh 1; and so
 * on. The size of a mesh counts its lines, one that it walks both ways once.
 *
 *   ends     2 * lines places, read.
 *   choice   room for a byte a line, read.
 *   order    room for 2 * lines places. On 0: line numbers, those at vertex 0 clockwise, then those at vertex
 *            1, and so on. A vertex has as many places as it has lines. So the list of vertex v begins at
 *            the place whose number is how often the list of ends has a number less than v.
 *   mesh     room for 2 * lines places. On 0: place d is the mesh of direction d.
 *   sizes    room for 2 * lines + 1 places. On 0: place m is the size of mesh m, for as many places as there
 *            are meshes; those beyond stay.
 *
 * Numbers: 0, 2, 3, 4, 5, 6, 8, 10. On any but 0, order, mesh and sizes stay as they were.
 * First count: the number of meshes. Second count: 0.
 *
 * To add up flows round mesh m no walk is needed: add the flow of line k if mesh[2k] is m, and subtract it if
 * mesh[2k + 1] is m. Where a mesh walks a line both ways, its flow cancels. Taken over all meshes each line is
 * added once and subtracted once, so the totals of all meshes make 0 and any one of them follows from the rest.
 * Those are independent: meshes - 1 of them, which is lines - vertices + 1. It is usual to leave out the outer
 * mesh.
 *
 * To walk a mesh, go on from direction d like this. It arrives at v = ends[d ^ 1]. Look for line d / 2 in the
 * list of v in order, and let k be the line after it, or the first line if it is the last. Leave by direction 2k
 * if ends[2k] is v, and else by 2k + 1. The walk closes where it began. It turns anticlockwise round a mesh
 * inside, and clockwise along the outer one. (From mesh alone: go on with the direction of the same mesh that
 * leaves v. There is only one where the mesh comes to v once; else order has to tell.)
 *
 * The outer mesh is the one that has the corner at vertex 0 between the last line of its list and the first. A
 * walk that arrives by the last leaves by the first: so, with k = order[0], it is the mesh of direction 2k if
 * ends[2k] is 0, and else of 2k + 1. A lone vertex has mesh 0 alone. On K4 with every back line left, order
 * begins with 5, 3, 0, line 5 goes from 2 to 0, and mesh[11] is 1: mesh 1 is the outer one. */
uint64_t cornetariel_draw(size_t vertices, const uint16_t *ends, size_t ends_len, const uint8_t *choice,
                          size_t choice_len, uint16_t *order, size_t order_len, uint16_t *mesh, size_t mesh_len,
                          uint16_t *sizes, size_t sizes_len);

#ifdef __cplusplus
}
#endif

#endif
