/* Prints names that would fall on one place of a table of names: collide COUNT BITS. For `hostile`.

   It would be so if the table hashed names by the default of its library. That takes a name in as one word, and then a byte of ones;
   each step multiplies to 128 bits and lays one half on the other. What comes out is laid on itself in the same way. The names have
   the same lowest BITS of that, which choose the place where a search begins, and the same highest eight, which are compared before
   the names are. The table begins with all names that it gets, so that they fall on many places of it. */
#include <stdint.h>
#include <stdio.h>
#include <stdlib.h>
#include <string.h>

#define LETTERS 7

static uint64_t folded(uint64_t a, uint64_t b) {
    unsigned __int128 product = (unsigned __int128)a * b;
    return (uint64_t)product ^ (uint64_t)(product >> 64);
}

/* `length` bytes that are read as one word. */
static uint64_t taken_in(uint64_t state, uint64_t word, uint64_t length) {
    return folded(state ^ word, 0x9e3779b97f4a7c15 ^ 2 * length);
}

static char name[LETTERS + 1];
static uint32_t mask;
static long left;

/* The first and the last four letters as a word. */
static uint64_t word_of_name(void) {
    uint32_t first, last;
    memcpy(&first, name, 4);
    memcpy(&last, name + LETTERS - 4, 4);
    return first | (uint64_t)last << 32;
}

static void search(int at) {
    for (const char *digit = "abcdefghijklmnopqrstuvwxyz0123456789"; *digit && left > 0; digit++) {
        name[at] = *digit;
        if (at + 1 < LETTERS) {
            search(at + 1);
            continue;
        }
        uint64_t state = taken_in(0x243f6a8885a308d3, word_of_name(), LETTERS);
        state = taken_in(state, 0xff * 0x10101, 1);
        if (((uint32_t)(state ^ state >> 32) & mask) == 0x80000000) {
            puts(name);
            left--;
        }
    }
}

int main(int count, char **words) {
    if (count != 3) return 2;
    left = atol(words[1]);
    mask = 0xff000000 | ((1u << atoi(words[2])) - 1);
    name[0] = 'n';
    search(1);
    return left != 0;
}
