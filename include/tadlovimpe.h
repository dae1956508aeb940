/* The operations of Tadlovimpe for C and C++, on x86-64 Linux. Link libtadlovimpe.a or libtadlovimpe.so, which bindings/build writes.
 *
 * Every function returns, whatever figures and bytes it is lent. Nothing is allocated, kept or printed, and there is no state: any number
 * of threads may call at once. What the caller owes, and nothing tests:
 *
 *   - a pointer and the length behind it, in elements, name memory that is there, aligned, and initialised;
 *   - no pointer is NULL, not even before a length of 0: for no table write TADLOVIMPE_BUILT_IN, for other empty lists any array;
 *   - `out` overlaps no other argument, and during a call nobody else writes what an argument points to.
 *
 * A refusal is 0 where nothing is refused, and otherwise a number of tadlovimpe_refusal. On a refusal `out` keeps what it had, and every
 * other field of an answer is 0; only a board that is refused by 13 or 14 keeps its count and verdicts, for it was judged.
 * `table` is the bytes of groups.tab. docs/FORMAT.md has records, ranges, equations, and each operation's checks in their order;
 * docs/CALLING.md says how to build, link and call. */
#ifndef TADLOVIMPE_H
#define TADLOVIMPE_H

#include <stddef.h>
#include <stdint.h>

#ifdef __cplusplus
extern "C" {
#endif

/* No table, so the built-in groups 1, 2 and 3. It stands for the two arguments `table` and `table_len`. */
#define TADLOVIMPE_BUILT_IN ((const uint8_t *)""), ((size_t)0)

#define TADLOVIMPE_RECORD_BYTES 32         /* a record of a board, a set, or a group of a table */
#define TADLOVIMPE_LINK_BYTES 64           /* a link of a chain */
#define TADLOVIMPE_DIGEST_BYTES 32         /* a digest */
#define TADLOVIMPE_TEXT_BYTES 1024         /* what is lent for the text of `draw` */
#define TADLOVIMPE_MAX_MEMBERS 31          /* members of a round, at most */
#define TADLOVIMPE_MAX_PLOTS 4096          /* plots to pick from, at most */
#define TADLOVIMPE_MAX_TABLE_BYTES 256     /* a table: 8 records, at most */
#define TADLOVIMPE_MAX_BOARD_BYTES 65536   /* a board: 2,048 records, at most */
#define TADLOVIMPE_MAX_CHAIN_BYTES 65536   /* a chain: 1,024 links, at most */
#define TADLOVIMPE_MAX_MESSAGE_BYTES 65536 /* a message to be hashed, at most */

typedef enum {
    TADLOVIMPE_OK = 0,                /* nothing is refused */
    TADLOVIMPE_NO_GROUP = 1,          /* no group of the table has this number */
    TADLOVIMPE_BAD_N_OR_T = 2,        /* n is not 1 to 31 and below q, or t is not 1 to n */
    TADLOVIMPE_BAD_LENGTH = 3,        /* a length: of a message, list, buffer, set, table, board or chain */
    TADLOVIMPE_BAD_RECORD = 4,        /* a record's kind, dealer, member or spare word; a link's spare byte */
    TADLOVIMPE_BAD_ORDER = 5,         /* a record of a board is not above the one before */
    TADLOVIMPE_NO_ELEMENT = 6,        /* a figure is no element of the group, or a key is 1 */
    TADLOVIMPE_NO_EXPONENT = 7,       /* a figure is not below q, or a secret key is 0 */
    TADLOVIMPE_NO_MEMBER = 8,         /* a dealer or member is not 1 to n; in recovery: fewer than t members, or one twice */
    TADLOVIMPE_DEGREE_FAILS = 9,      /* commitments fail the degree check */
    TADLOVIMPE_PROOF_FAILS = 10,      /* an equality proof fails, or a challenge is not the one that is worked out */
    TADLOVIMPE_OPENING_FAILS = 11,    /* an opening is not right */
    TADLOVIMPE_MISSING_RECORD = 12,   /* a member has no key on the board, or a dealer has some lines, but not n */
    TADLOVIMPE_STUCK_DEALING = 13,    /* an accepted dealing is stuck, and fewer than t added shares are accepted */
    TADLOVIMPE_TOO_FEW_DEALINGS = 14, /* fewer than t dealings are accepted */
    TADLOVIMPE_BAD_RADIUS = 15,       /* the radius of plots is not 10 or 15 */
    TADLOVIMPE_BAD_COUNT = 16,        /* the plots in all are not 1 to 4,096, or those to be picked not 1 to all */
    TADLOVIMPE_OTHER_ROUND = 17,      /* a record of another round */
    TADLOVIMPE_BAD_DIGEST = 18,       /* the digest of a link is not the one that is worked out */
    TADLOVIMPE_NOT_NEXT_ROUND = 19,   /* the round of a link is not the next */
    TADLOVIMPE_BAD_PRIMES = 20,       /* p or q of a group of the table */
    TADLOVIMPE_BAD_GENERATORS = 21,   /* g or h of a group of the table */
    TADLOVIMPE_EQUAL_KEYS = 22        /* two members have the same key */
} tadlovimpe_refusal;

/* What a board says of one dealer. */
typedef enum {
    TADLOVIMPE_NONE = 0,      /* he has posted no lines */
    TADLOVIMPE_REFUSED = 1,   /* his dealing is refused; the value is the number */
    TADLOVIMPE_OPENED = 2,    /* accepted, and his opening is right; the value is his secret */
    TADLOVIMPE_RECOVERED = 3, /* accepted, and t shares give his secret, the value */
    TADLOVIMPE_STUCK = 4      /* accepted, with neither */
} tadlovimpe_kind;

/* A round's public parameters: the group's number, the members, the threshold, the round's number, and the first round whose challenges
 * come from the whole digest, 0 for none. */
typedef struct {
    uint32_t group;
    uint32_t n;
    uint32_t t;
    uint32_t round;
    uint32_t first_new_round;
} tadlovimpe_round;

/* A value, or a refusal. */
typedef struct {
    uint32_t refusal;
    uint32_t value;
} tadlovimpe_answer;

/* A proof that x1 is b1, and x2 is b2, to the same exponent: announcements a1 and a2, challenge c, response r. */
typedef struct {
    uint32_t b1;
    uint32_t x1;
    uint32_t b2;
    uint32_t x2;
    uint32_t a1;
    uint32_t a2;
    uint32_t c;
    uint32_t r;
} tadlovimpe_proof;

/* A part of the lent board, in bytes from its start. */
typedef struct {
    uint32_t refusal;
    size_t start;
    size_t length;
} tadlovimpe_part;

/* A verdict; its kind is one of tadlovimpe_kind. */
typedef struct {
    uint32_t kind;
    uint32_t value;
} tadlovimpe_verdict;

/* A judged board: the draw value, the count of accepted dealings, and the verdict on dealer d at verdicts[d - 1]. Above n all are none. */
typedef struct {
    uint32_t refusal;
    uint32_t value;
    uint32_t accepted;
    tadlovimpe_verdict verdicts[TADLOVIMPE_MAX_MEMBERS];
} tadlovimpe_board;

/* ---- Figures */

/* SHA-256. */
uint32_t tadlovimpe_digest(const uint8_t *message, size_t message_len, uint8_t out[TADLOVIMPE_DIGEST_BYTES]);

/* The base, an element, to the exponent. */
tadlovimpe_answer tadlovimpe_power(const uint8_t *table, size_t table_len, uint32_t group, uint32_t base, uint32_t exponent);

uint32_t tadlovimpe_equality_check(const uint8_t *table, size_t table_len, uint32_t group, tadlovimpe_proof proof);

/* ---- The commitments of one dealing */

/* The degree check of n commitments by n - t coefficients of a check polynomial. */
uint32_t tadlovimpe_degree_check(const uint8_t *table, size_t table_len, tadlovimpe_round round, const uint32_t *commitments,
                                 size_t commitments_len, const uint32_t *coefficients, size_t coefficients_len);

/* Whether s opens the dealing: g^s is what the first t of the n commitments give at 0. */
uint32_t tadlovimpe_opening(const uint8_t *table, size_t table_len, tadlovimpe_round round, const uint32_t *commitments,
                            size_t commitments_len, uint32_t s);

/* The secret, from the decrypted shares of t or more members, in the members' order. */
tadlovimpe_answer tadlovimpe_recovery(const uint8_t *table, size_t table_len, tadlovimpe_round round, const uint32_t *members,
                                      size_t members_len, const uint32_t *shares, size_t shares_len);

/* ---- Dealings and shares */

/* The n lines of a dealing, 32n bytes, from n keys, t coefficients of the dealer's polynomial, and n nonces. */
uint32_t tadlovimpe_write_dealing(const uint8_t *table, size_t table_len, tadlovimpe_round round, uint32_t dealer, const uint32_t *keys,
                                  size_t keys_len, const uint32_t *coefficients, size_t coefficients_len, const uint32_t *nonces,
                                  size_t nonces_len, uint8_t *out, size_t out_len);

uint32_t tadlovimpe_judge_dealing(const uint8_t *table, size_t table_len, tadlovimpe_round round, uint32_t dealer, const uint32_t *keys,
                                  size_t keys_len, const uint8_t *lines, size_t lines_len);

/* The record of a member's decrypted share for the dealer, 32 bytes, from the encrypted share of his line. */
uint32_t tadlovimpe_write_share(const uint8_t *table, size_t table_len, tadlovimpe_round round, uint32_t dealer, uint32_t member,
                                uint32_t encrypted, uint32_t secret_key, uint32_t nonce, uint8_t *out, size_t out_len);

/* The value is the decrypted share. */
tadlovimpe_answer tadlovimpe_judge_share(const uint8_t *table, size_t table_len, tadlovimpe_round round, uint32_t dealer, uint32_t member,
                                         uint32_t key, uint32_t encrypted, const uint8_t *share, size_t share_len);

/* The same for an added share, whose encrypted share is the product of those of the member's lines in all accepted dealings. */
uint32_t tadlovimpe_write_added(const uint8_t *table, size_t table_len, tadlovimpe_round round, uint32_t member, uint32_t encrypted,
                                uint32_t secret_key, uint32_t nonce, uint8_t *out, size_t out_len);

tadlovimpe_answer tadlovimpe_judge_added(const uint8_t *table, size_t table_len, tadlovimpe_round round, uint32_t member, uint32_t key,
                                         uint32_t encrypted, const uint8_t *share, size_t share_len);

/* ---- Boards */

/* The dealer's number, and the board's length, form, round and order. */
uint32_t tadlovimpe_lines_check(const uint8_t *table, size_t table_len, tadlovimpe_round round, uint32_t dealer, const uint8_t *board,
                                size_t board_len);

/* The lines of the dealer, as a part of the board. */
tadlovimpe_part tadlovimpe_dealer_lines(const uint8_t *table, size_t table_len, tadlovimpe_round round, uint32_t dealer,
                                        const uint8_t *board, size_t board_len);

tadlovimpe_board tadlovimpe_judge_board(const uint8_t *table, size_t table_len, tadlovimpe_round round, const uint8_t *board,
                                        size_t board_len);

/* Writes what `draw` prints for the bytes of its files over the first bytes of out, and answers how many these are. */
size_t tadlovimpe_draw_text(const uint8_t *table, size_t table_len, const uint8_t *set, size_t set_len, const uint8_t *board,
                            size_t board_len, uint8_t out[TADLOVIMPE_TEXT_BYTES]);

/* ---- Draw values */

/* Picks `count` plots out of 1 to `total` by the draw value, in their order; out is `count` long. */
uint32_t tadlovimpe_pick_plots(const uint8_t *table, size_t table_len, uint32_t group, uint32_t value, uint32_t radius, uint32_t total,
                               uint32_t count, uint32_t *out, size_t out_len);

uint32_t tadlovimpe_judge_chain(const uint8_t *table, size_t table_len, const uint8_t *chain, size_t chain_len);

/* The link that the draw value adds to the chain, 64 bytes, to be put behind it. */
uint32_t tadlovimpe_extend_chain(const uint8_t *table, size_t table_len, const uint8_t *chain, size_t chain_len, uint32_t group,
                                 uint32_t value, uint8_t *out, size_t out_len);

#ifdef __cplusplus
}
#endif

#endif
