/* Itunguzafe: the wiring-sheet unit's three services. Link target/staticlib/libcapi.a (made by `tests/build capi`).
 *
 * Every call is defined for every block, stage, name and buffer length: nothing needs to be checked first. A caller must not hand a null
 * pointer (an empty block or buffer is a length of 0 with any non-null pointer), nor a length beyond what the pointer has, nor a buffer that
 * overlaps the block. Calls keep nothing between them, and use at most 64 bytes of stack for each post that the longest board has.
 *
 * reply: number * 65536 + value; number 0 = accepted (value: n for check, 2k for sheet, 0 for post), else the refusal's number with its place:
 * 1 to 13 and 18 to 20 for check, also 15 and 16 for sheet, and 15 and 17 for post. 18, 19 and 20 stand beside 9: which fault a list has.
 * README.md has the words for each. 14 is retired: it is never given, and its number is not used again.
 */
#ifndef PGB_H
#define PGB_H

#include <stddef.h>
#include <stdint.h>

#ifdef __cplusplus
extern "C" {
#endif

/* Accepted with the number of posts, or the refusal and place that the table fixes. */
uint32_t pgb_check(const uint8_t *block, size_t len);

/* Accepted with 2k: buffer[0 .. 2k-1] is x, y of the posts in positions 1 to k at that stage, and what is beyond stays. Refused: the whole
 * buffer is as it came. */
uint32_t pgb_sheet(const uint8_t *block, size_t len, size_t stage, uint16_t *buffer, size_t room);

/* standing 0 waiting (first = second = 0), 1 on the contour (left, right), 2 covered (the covering post, twice). fit_left, fit_right: the posts
 * between which the post was fitted, the leftmost and the rightmost of its neighbours that were there before it; the same at every later stage.
 * The first two posts of the order and a waiting post have their own name twice. A refusal has zeros beside its reply. */
typedef struct {
    uint32_t reply;
    uint16_t x, y, standing, first, second, fit_left, fit_right;
} pgb_post_reply;

/* The post's record at that stage. */
pgb_post_reply pgb_post(const uint8_t *block, size_t len, size_t stage, size_t name);

#ifdef __cplusplus
}
#endif

#endif
