/* include/pgb.h as a C program sees it: board D from standard input, through each of its three functions. */
#include "pgb.h"

#include <stdio.h>

/* The record as the library returns it: a compiler that lays it out otherwise refuses this (C99 has no _Static_assert). */
#define ASSERTED(name, fact) typedef char name[(fact) ? 1 : -1]

ASSERTED(size_is_20, sizeof(pgb_post_reply) == 20);
ASSERTED(reply_at_0, offsetof(pgb_post_reply, reply) == 0);
ASSERTED(x_at_4, offsetof(pgb_post_reply, x) == 4);
ASSERTED(y_at_6, offsetof(pgb_post_reply, y) == 6);
ASSERTED(standing_at_8, offsetof(pgb_post_reply, standing) == 8);
ASSERTED(first_at_10, offsetof(pgb_post_reply, first) == 10);
ASSERTED(second_at_12, offsetof(pgb_post_reply, second) == 12);
ASSERTED(fit_left_at_14, offsetof(pgb_post_reply, fit_left) == 14);
ASSERTED(fit_right_at_16, offsetof(pgb_post_reply, fit_right) == 16);

static int differs(const char *what, unsigned long got, unsigned long wanted)
{
    if (got != wanted)
        printf("header.c: %s is %lu, and not %lu\n", what, got, wanted);
    return got != wanted;
}

int main(void)
{
    static const uint16_t sheet[] = {0, 0, 6, 0, 3, 1, 3, 2, 3, 3};
    uint8_t block[100];
    uint16_t buffer[11] = {0};
    size_t len = fread(block, 1, sizeof block, stdin);
    int faults = differs("check", pgb_check(block, len), 5);

    buffer[10] = 4242;
    faults += differs("sheet", pgb_sheet(block, len, 5, buffer, 11), 10);
    for (size_t i = 0; i < 10; i++)
        faults += differs("an entry", buffer[i], sheet[i]);
    faults += differs("the entry beyond", buffer[10], 4242);
    faults += differs("sheet without room", pgb_sheet(block, len, 5, buffer, 9), 16 * 65536UL);

    pgb_post_reply post = pgb_post(block, len, 4, 3);
    faults += differs("post", post.reply, 0);
    faults += differs("x", post.x, 2) + differs("y", post.y, 2);
    faults += differs("standing", post.standing, 1);
    faults += differs("left", post.first, 0) + differs("right", post.second, 1);
    faults += differs("left end", post.fit_left, 0) + differs("right end", post.fit_right, 1);

    post = pgb_post(block, len, 4, 4);
    faults += differs("a waiting post", post.reply, 0);
    faults += differs("its left end", post.fit_left, 4) + differs("its right end", post.fit_right, 4);

    post = pgb_post(block, len, 4, 5);
    faults += differs("a name too high", post.reply, 17 * 65536UL);
    faults += differs("a place beside a refusal", post.x | post.y | post.standing | post.first | post.second, 0);
    faults += differs("an end beside a refusal", post.fit_left | post.fit_right, 0);
    faults += differs("check of a cut block", pgb_check(block, 6), 1 * 65536UL);
    return faults != 0;
}
