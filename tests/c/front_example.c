/*
 * A rule for a front part of the arguments through the C declarations: the rule has one argument, the terms have three, so two are set aside. It
 * is matched by itself and by the tree, and what it writes takes the two, or cannot.
 */
#include <stdio.h>
#include <string.h>

#include "rosenduch.h"

static const char book_text[] = "book=1\nrules=1\nrule=0\nvars=1\nleft=s2.1 m0.0\nright=m0.0\n";
static const char takes[] = "s2.3 s7.0 v1 v2\n";
static const char takes_not[] = "s2.3 l v1 v1 v2\n";

static uint32_t tree[ROSENDUCH_MOST_TREE];
static uint32_t bodies[ROSENDUCH_MOST_BODIES];
static uint32_t lengths[ROSENDUCH_LENGTHS];
static uint32_t out[ROSENDUCH_MOST_TERM];
static uint8_t text[ROSENDUCH_MOST_TEXT + 1];

/* What fits a term, by the rule and by the tree, and what is written at its root. */
static void show(const uint32_t *book, size_t book_len, uint32_t tree_len, const char *term_text, size_t term_len, size_t new_len)
{
    uint32_t term[8];
    uint32_t rule = 9;
    uint32_t aside = 9;
    uint64_t visits = 9;
    size_t at = 9;
    rosenduch_read_term((const uint8_t *)term_text, strlen(term_text), term, 8, &at);
    uint32_t answer = rosenduch_match_rule(book, book_len, 0, term, term_len, bodies, ROSENDUCH_MOST_BODIES, lengths, &aside, &at);
    printf("match_rule=%u aside=%u words=%u\n", (unsigned)answer, (unsigned)aside, (unsigned)lengths[0]);
    answer = rosenduch_match_tree(tree, tree_len, term, term_len, bodies, ROSENDUCH_MOST_BODIES, lengths, &rule, &aside, &visits, &at);
    printf("match_tree=%u rule=%u aside=%u words=%u visits=%u\n", (unsigned)answer, (unsigned)rule, (unsigned)aside, (unsigned)lengths[0],
           (unsigned)visits);
    visits = 9;
    answer = rosenduch_rewrite_root(book, book_len, tree, tree_len, term, term_len, out, ROSENDUCH_MOST_TERM, &visits, &at);
    printf("rewrite_root=%u visits=%u at=%zu\n", (unsigned)answer, (unsigned)visits, at);
    if (answer == 0 && rosenduch_write_term(out, new_len, text, ROSENDUCH_MOST_TEXT, &at) == 0) {
        printf("result=%s", (const char *)text);
    }
}

int main(void)
{
    uint32_t book[16];
    uint32_t words = 0;
    size_t at = 0;
    if (rosenduch_read_book((const uint8_t *)book_text, strlen(book_text), book, 16, &at) != 0) {
        return 1;
    }
    /* One word for the number of rules, three for the rule, its left side of two words and its right side of one. */
    size_t book_len = 1 + 3 + 2 + 1;
    if (rosenduch_compile(book, book_len, tree, ROSENDUCH_MOST_TREE, &words, &at) != 0) {
        return 1;
    }
    show(book, book_len, words, takes, 4, 3);
    show(book, book_len, words, takes_not, 5, 0);
    return 0;
}
