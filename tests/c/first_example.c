/* Document 01's first example through the C declarations: reads book A and a term, compiles, simplifies and prints the result's text. */
#include <stdio.h>
#include <string.h>

#include "rosenduch.h"

static const char book_a[] = "book=1\nrules=3\n"
                             "rule=0\nvars=1\nleft=s2.2 m0.0 m0.0\nright=m0.0\n"
                             "rule=1\nvars=1\nleft=s3.1 l m0.0\nright=m0.0\n"
                             "rule=2\nvars=1\nleft=s3.1 l s4.1 m0.1 v1\nright=s4.1 s3.1 l m0.1 v1\n";
static const char first_term[] = "s2.2 s3.1 l s7.0 s7.0\n";

static uint32_t book[ROSENDUCH_MOST_BOOK];
static uint32_t tree[ROSENDUCH_MOST_TREE];
static uint32_t term[ROSENDUCH_MOST_TERM];
static uint32_t result[ROSENDUCH_MOST_TERM];
static uint8_t text[ROSENDUCH_MOST_TEXT + 1];

/* The words of a term: each closes one place and opens one for each child. */
static size_t term_length(const uint32_t *words, size_t most)
{
    size_t length = 0;
    size_t open = 1;
    while (open > 0 && length < most) {
        open = open - 1 + (words[length] >> 16 & 0xff);
        length++;
    }
    return length;
}

/* The words of a book: its count, and for each rule three words and both sides. */
static size_t book_length(const uint32_t *words)
{
    size_t length = 1;
    for (uint32_t rule = 0; rule < words[0]; rule++) {
        length += 3 + words[length + 1] + words[length + 2];
    }
    return length;
}

/* Whether an answer is the number that is due; another is told. */
static int is(const char *what, uint32_t answer, uint32_t due, size_t at)
{
    if (answer != due) {
        fprintf(stderr, "%s: %u at %zu\n", what, (unsigned)answer, at);
    }
    return answer == due;
}

/* Simplifies the term with the book's tree and writes its text. */
static int simplified(size_t book_len, size_t term_len)
{
    size_t at = 0;
    uint32_t words = 0;
    uint16_t steps = 0;
    uint64_t visits = 0;
    if (!is("compile", rosenduch_compile(book, book_len, tree, ROSENDUCH_MOST_TREE, &words, &at), 0, at)) {
        return 0;
    }
    uint32_t answer = rosenduch_simplify(book, book_len, tree, words, term, term_len, 1000, result, ROSENDUCH_MOST_TERM, &steps, &visits, &at);
    if (!is("simplify", answer, 0, at)) {
        return 0;
    }
    size_t length = term_length(result, ROSENDUCH_MOST_TERM);
    if (!is("write_term", rosenduch_write_term(result, length, text, ROSENDUCH_MOST_TEXT, &at), 0, at)) {
        return 0;
    }
    printf("tree=%u\nsteps=%u\nvisits=%llu\nresult=%s", (unsigned)words, (unsigned)steps, (unsigned long long)visits, (const char *)text);
    return 1;
}

int main(void)
{
    size_t at = 0;
    if (!is("read_book", rosenduch_read_book((const uint8_t *)book_a, strlen(book_a), book, ROSENDUCH_MOST_BOOK, &at), 0, at)) {
        return 1;
    }
    if (!is("read_term", rosenduch_read_term((const uint8_t *)first_term, strlen(first_term), term, ROSENDUCH_MOST_TERM, &at), 0, at)) {
        return 1;
    }
    if (!simplified(book_length(book), term_length(term, ROSENDUCH_MOST_TERM))) {
        return 1;
    }
    /* A refusal: the empty list is no term, and its place is 0. */
    at = 1;
    return is("check_term", rosenduch_check_term(term, 0, &at), 11, at) && at == 0 ? 0 : 1;
}
