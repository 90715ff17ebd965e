/* Repairs a book that came by mail through the C declarations: its first rule has a variable from outside on its right, and `rules=` is wrong. */
#include <stdio.h>
#include <string.h>

#include "rosenduch.h"

static const char mail[] = "book=1\nrules=3\n"
                           "rule=4\nvars=1\nleft=s2.1 m0.0\nright=v1\n"
                           "rule=7\nvars=1\nleft=s3.1 l m0.0\nright=m0.0\n";
static const char cut[] = "book=1\nrules=3\nrule=4\n";

/* One byte more, so that the text always ends in a zero. */
static uint8_t text[ROSENDUCH_MOST_REPAIRED + 1];

/* Repairs into the first bytes of the buffer and prints what is answered and left. */
static void repaired(const char *what, size_t out_len)
{
    size_t at = 0;
    uint32_t answer = rosenduch_repair_book((const uint8_t *)what, strlen(what), text, out_len, &at);
    printf("answer=%u at=%zu\n%s", (unsigned)answer, at, (const char *)text);
}

int main(void)
{
    repaired(mail, ROSENDUCH_MOST_REPAIRED);
    /* Refusals: a line is missing, and there is no room; every byte is zero then. */
    repaired(cut, ROSENDUCH_MOST_REPAIRED);
    repaired(mail, 10);
    return 0;
}
