/*
 * Rosenduch: simplifying the scripts of museum audio guides by a book of rewrite rules.
 *
 * A term, a book and a compiled tree are lists of 32-bit words, and texts are bytes, all as document 01 lays them out. Link with libcapi.a,
 * which `tools/build capi` makes; it needs memcpy and memset of the C library alone and keeps no state, so calls from several threads do
 * not meet.
 *
 * Every function answers with a number of document 01 and writes the place that goes with it through `at`:
 *
 *     0   done; simplify: no rule fits anywhere
 *     1   no rule fits
 *     2   the budget is used and a rule still fits
 *     10  text not in form: at is its line from 1, or 0 where it is over 65,536 bytes
 *     11  bad term: at is its first bad word; for bodies the first bad variable, or 16 where their lengths are wrong
 *     12  bad book: at is its first bad rule
 *     13  the output is too short, the tree over 16,384 words or the book's text over 65,536 bytes: at is 0
 *     14  damaged tree: at is the address of its node
 *     15  the term that is built or rewritten is over 4,096 words, nesting 64 or id 65,535: at is 0
 *     16  no such rule: at is the rule asked for
 *     18  what a rule writes cannot take the arguments set aside: at is their number
 *
 * With 0, 1 and 2, at is 0. Where several hold, the first of 10, 12, 16, 11, 14, 1, 18, 15, 13 is answered; in simplifying, an earlier step's
 * refusal comes before a later one's.
 *
 * A rule is for a front part of the arguments: at the root of a match, a left side with b arguments fits a symbol with a arguments where a is at
 * least b, and the last a - b are set aside. Inside a left side the counts are equal. What the rule writes gets the arguments set aside at its
 * end; for that its root is to be a symbol and to have at most 15 arguments together with them, else the answer is 18. By a rule with the left
 * side `s2.1 m0.0` the term `s2.3 s7.0 v1 v2` is rewritten with v1 and v2 set aside:
 *
 *     right=s4.2 m0.0 s9.0    to s4.4 s7.0 s9.0 v1 v2
 *     right=m0.0              to s7.2 v1 v2, for m0.0 is s7.0
 *     right=l m0.0            18 at 2: an abstraction takes no arguments
 *
 * Where a tree is walked, visits gets the number of nodes visited, the last node included; a term that the root Switch sends to a Fail counts 2,
 * and so does such an offset in simplifying. simplify gives the sum over all walks of all steps and of the last search, which finds no rule
 * anywhere, or a rule with the budget used, or is refused. After 14, visits counts up to and including the damaged node, so a tree of no words
 * counts 1. After 1, 2, 13, 15 and 18 it is what was walked. Where nothing was walked it is 0: after 11 and 12, and with a tree over 16,384 words.
 *
 * Every input is taken, whole or damaged, and every call ends. A lent output is always written to its end: after 1 and after a refusal (10
 * and up) it is zero, else it is zero behind the result. A word of a result may be zero too (the token s0.0), so a term's end is told by the
 * counts in its words, a book's by the lengths in it, a text's by the first zero byte.
 *
 * What the caller sees to:
 *  - No pointer is NULL, not even with the length 0. A pointer to words is aligned for them.
 *  - Lengths are in elements: words of 32 bits, or bytes where the pointer is to bytes. The lengths of bodies are always sixteen words.
 *  - What is written (outputs, further results, at) overlaps nothing else that is passed in the same call.
 *  - 2 MiB of stack are free. Compiling took 1.3 MiB at the worst that was measured, every other call less than half a MiB. The main thread
 *    of a process commonly has 8 MiB; a thread may have to be given more than its default.
 */
#ifndef ROSENDUCH_H
#define ROSENDUCH_H

#include <stddef.h>
#include <stdint.h>

#ifdef __cplusplus
extern "C" {
#endif

/* The largest sizes, in words or bytes. An output of the size that is named is never too short. */
#define ROSENDUCH_MOST_TERM 4096u
#define ROSENDUCH_MOST_BOOK 8385u
#define ROSENDUCH_MOST_TREE 16384u
#define ROSENDUCH_MOST_TEXT 65536u
#define ROSENDUCH_MOST_BODIES 65536u
/* The text of a repaired book: the book, as many bytes again for a line for each rule, and 16 for the last line. */
#define ROSENDUCH_MOST_REPAIRED 131088u
/* The number of lengths beside a list of bodies. */
#define ROSENDUCH_LENGTHS 16u

/* Checks that words are one term. Answers 0 or 11. */
uint32_t rosenduch_check_term(const uint32_t *term, size_t term_len, size_t *at);

/* Checks that words are a book. Answers 0 or 12. */
uint32_t rosenduch_check_book(const uint32_t *book, size_t book_len, size_t *at);

/*
 * Matches a rule of the book, counted from 0, against the term. Where it fits, bodies gets the body of each variable, in variable order,
 * lengths the length of each, 0 for an unused variable, and aside the number of arguments set aside; else aside is 0. Answers 0, 1, 11, 12, 13
 * or 16.
 */
uint32_t rosenduch_match_rule(const uint32_t *book, size_t book_len, uint32_t rule, const uint32_t *term, size_t term_len,
                              uint32_t *bodies, size_t bodies_len, uint32_t lengths[16], uint32_t *aside, size_t *at);

/*
 * Builds the left side of a rule of the book from the bodies of its variables, given as match_rule gives them. out gets the term; from a match
 * it is the term that was matched, without the arguments set aside. Answers 0, 11, 12, 13, 15 or 16.
 */
uint32_t rosenduch_build_left(const uint32_t *book, size_t book_len, uint32_t rule, const uint32_t *bodies, size_t bodies_len,
                              const uint32_t lengths[16], uint32_t *out, size_t out_len, size_t *at);

/* Compiles a book. out gets the tree, and words the number of its words; words is 0 after a refusal. Answers 0, 12 or 13. */
uint32_t rosenduch_compile(const uint32_t *book, size_t book_len, uint32_t *out, size_t out_len, uint32_t *words, size_t *at);

/*
 * Matches a term by a tree. Where a rule fits, rule gets its number, and bodies, lengths and aside what match_rule gives; else rule and aside
 * are 0. visits gets the nodes visited. The tree is taken up to 16,384 words; a compiled one may have zeros behind it. Answers 0, 1, 11, 13 or
 * 14.
 */
uint32_t rosenduch_match_tree(const uint32_t *tree, size_t tree_len, const uint32_t *term, size_t term_len, uint32_t *bodies,
                              size_t bodies_len, uint32_t lengths[16], uint32_t *rule, uint32_t *aside, uint64_t *visits, size_t *at);

/*
 * Rewrites a term at its root by the rule of the book that the tree names. out gets the new term, the arguments set aside at its end, and visits
 * the nodes visited. Answers 0, 1, 11, 12, 13, 14, 15 or 18.
 */
uint32_t rosenduch_rewrite_root(const uint32_t *book, size_t book_len, const uint32_t *tree, size_t tree_len, const uint32_t *term,
                                size_t term_len, uint32_t *out, size_t out_len, uint64_t *visits, size_t *at);

/*
 * Simplifies a term: rewrites at the lowest offset where the tree names a rule, until there is none or the budget of steps is used. out gets
 * the term so far, steps the number of steps made, and visits the nodes visited by all walks; after a refusal steps are those completed before
 * it. Answers 0, 2, 11, 12, 13, 14, 15 or 18.
 */
uint32_t rosenduch_simplify(const uint32_t *book, size_t book_len, const uint32_t *tree, size_t tree_len, const uint32_t *term,
                            size_t term_len, uint16_t budget, uint32_t *out, size_t out_len, uint16_t *steps, uint64_t *visits,
                            size_t *at);

/* Reads the text of a book. out gets its words. Answers 0, 10, 12 or 13. */
uint32_t rosenduch_read_book(const uint8_t *text, size_t text_len, uint32_t *out, size_t out_len, size_t *at);

/* Writes the text of a book, with no zero byte of its own. out gets its bytes. Answers 0, 12 or 13. */
uint32_t rosenduch_write_book(const uint32_t *book, size_t book_len, uint8_t *out, size_t out_len, size_t *at);

/*
 * Repairs the text of a book that came by mail: leaves out the rules that break the book rules, numbers the others from 0 on, and keeps the first
 * 64. What the text numbers its rules does not count. out gets the text of the new book; then a line for each rule present, by its old number
 * from 0, `dropped=<old>` or `kept=<old> <new>`; then `rules-was=<number>` where the text's `rules=` is not the number of rules present. It has no
 * zero byte of its own. Answers 0, 10 or 13.
 */
uint32_t rosenduch_repair_book(const uint8_t *text, size_t text_len, uint8_t *out, size_t out_len, size_t *at);

/* Reads the text of a term: its tokens and the end of the line. out gets its words. Answers 0, 10, 11 or 13. */
uint32_t rosenduch_read_term(const uint8_t *text, size_t text_len, uint32_t *out, size_t out_len, size_t *at);

/* Writes the text of a term, its line's end included. out gets its bytes. Answers 0, 11 or 13. */
uint32_t rosenduch_write_term(const uint32_t *term, size_t term_len, uint8_t *out, size_t out_len, size_t *at);

#ifdef __cplusplus
}
#endif

#endif
