/* Prints how many bytes of stack each operation takes on its largest figures: group 3, n = 31, t = 16, a board with everything posted
 * but openings, another with added shares in the place of opened ones, 4,096 plots, a chain of 1,023 links. Each is called in a thread
 * whose stack was filled before; what the call has changed is counted, less what an empty call changes.
 * From the root: cc -std=c11 -O2 -pthread -Iinclude bindings/c/stack.c target/staticlib/libtadlovimpe.a -o stack && ./stack */
#define _GNU_SOURCE
#include "tadlovimpe.h"
#include <pthread.h>
#include <stdio.h>
#include <stdlib.h>
#include <string.h>
#include <sys/mman.h>

enum { N = TADLOVIMPE_MAX_MEMBERS, T = 16, RECORD = TADLOVIMPE_RECORD_BYTES, LINKS = 1023, ROOM = 1 << 20 };

static const tadlovimpe_round round_3 = {.group = 3, .n = N, .t = T, .round = 1, .first_new_round = 1};
static const uint64_t p = 4294967087;
static uint8_t table[3 * RECORD], set[RECORD], opened[2048 * RECORD], added[2048 * RECORD], chain[(LINKS + 1) * TADLOVIMPE_LINK_BYTES];
static size_t opened_len, added_len;
static uint32_t secret_keys[N], keys[N], nonces[N], coefficients[N], commitments[N], members[N], shares[N], encrypted[N];
static uint8_t lines[N * RECORD], record[RECORD], text[TADLOVIMPE_TEXT_BYTES], digest[TADLOVIMPE_DIGEST_BYTES];
static uint32_t plots[TADLOVIMPE_MAX_PLOTS];
static tadlovimpe_proof proof;
static tadlovimpe_board judged;
static volatile uint32_t refusal;

static void put(uint8_t *at, const uint32_t words[8])
{
    for (int k = 0; k < RECORD; k++)
        at[k] = (uint8_t)(words[k / 4] >> (24 - k % 4 * 8));
}

static uint32_t word(const uint8_t *at, int k)
{
    at += 4 * k;
    return (uint32_t)at[0] << 24 | (uint32_t)at[1] << 16 | (uint32_t)at[2] << 8 | at[3];
}

static void expect(uint32_t answered)
{
    if (answered != TADLOVIMPE_OK) {
        fprintf(stderr, "stack: refused %u\n", (unsigned)answered);
        exit(1);
    }
}

static void no_call(void) { refusal = 0; }
static void call_digest(void) { refusal = tadlovimpe_digest(opened, TADLOVIMPE_MAX_MESSAGE_BYTES, digest); }
static void call_power(void) { refusal = tadlovimpe_power(table, sizeof table, 3, 9, 2147483542).refusal; }
static void call_equality_check(void) { refusal = tadlovimpe_equality_check(table, sizeof table, 3, proof); }
static void call_degree_check(void) { refusal = tadlovimpe_degree_check(table, sizeof table, round_3, commitments, N, nonces, N - T); }
static void call_opening(void) { refusal = tadlovimpe_opening(table, sizeof table, round_3, commitments, N, coefficients[0]); }
static void call_recovery(void) { refusal = tadlovimpe_recovery(table, sizeof table, round_3, members, N, shares, N).refusal; }
static void call_write_dealing(void)
{
    refusal = tadlovimpe_write_dealing(table, sizeof table, round_3, N, keys, N, coefficients, T, nonces, N, lines, sizeof lines);
}
static void call_judge_dealing(void) { refusal = tadlovimpe_judge_dealing(table, sizeof table, round_3, N, keys, N, lines, sizeof lines); }
static void call_write_share(void)
{
    refusal = tadlovimpe_write_share(table, sizeof table, round_3, N, N, encrypted[N - 1], secret_keys[N - 1], 5, record, RECORD);
}
static void call_judge_share(void)
{
    refusal = tadlovimpe_judge_share(table, sizeof table, round_3, N, N, keys[N - 1], encrypted[N - 1], record, RECORD).refusal;
}
static void call_write_added(void)
{
    refusal = tadlovimpe_write_added(table, sizeof table, round_3, N, encrypted[N - 1], secret_keys[N - 1], 5, record, RECORD);
}
static void call_judge_added(void)
{
    refusal = tadlovimpe_judge_added(table, sizeof table, round_3, N, keys[N - 1], encrypted[N - 1], record, RECORD).refusal;
}
static void call_lines_check(void) { refusal = tadlovimpe_lines_check(table, sizeof table, round_3, N, opened, opened_len); }
static void call_dealer_lines(void) { refusal = tadlovimpe_dealer_lines(table, sizeof table, round_3, N, opened, opened_len).refusal; }
static void call_judge_board(void)
{
    judged = tadlovimpe_judge_board(table, sizeof table, round_3, opened, opened_len);
    refusal = judged.refusal;
    judged = tadlovimpe_judge_board(table, sizeof table, round_3, added, added_len);
    refusal |= judged.refusal;
}
static void call_draw_text(void)
{
    size_t length = tadlovimpe_draw_text(table, sizeof table, set, RECORD, opened, opened_len, text);
    length = length == 0 ? 0 : tadlovimpe_draw_text(table, sizeof table, set, RECORD, added, added_len, text);
    refusal = length == 0;
}
static void call_pick_plots(void)
{
    refusal = tadlovimpe_pick_plots(table, sizeof table, 3, 9, 15, TADLOVIMPE_MAX_PLOTS, TADLOVIMPE_MAX_PLOTS, plots, TADLOVIMPE_MAX_PLOTS);
}
static void call_judge_chain(void) { refusal = tadlovimpe_judge_chain(table, sizeof table, chain, LINKS * TADLOVIMPE_LINK_BYTES); }
static void call_extend_chain(void)
{
    uint8_t *end = chain + LINKS * TADLOVIMPE_LINK_BYTES;
    refusal = tadlovimpe_extend_chain(table, sizeof table, chain, LINKS * TADLOVIMPE_LINK_BYTES, 3, 9, end, TADLOVIMPE_LINK_BYTES);
}

static void prepare(void)
{
    put(table, (uint32_t[8]){7, 1, 23, 11, 4, 9, 0, 0});
    put(table + RECORD, (uint32_t[8]){7, 2, 2039, 1019, 4, 9, 0, 0});
    put(table + 2 * RECORD, (uint32_t[8]){7, 3, 4294967087, 2147483543, 4, 9, 0, 0});
    put(set, (uint32_t[8]){9, 3, N, T, 1, 1, 0, 0});
    uint64_t sums[N];
    for (uint32_t i = 0; i < N; i++) {
        members[i] = i + 1, secret_keys[i] = 1000003 * (i + 1), nonces[i] = 2000003 * (i + 1), coefficients[i] = 3000017 * (i + 1);
        keys[i] = tadlovimpe_power(TADLOVIMPE_BUILT_IN, 3, 9, secret_keys[i]).value;
        put(opened + RECORD * i, (uint32_t[8]){1, 0, i + 1, keys[i], 0, 0, 0, 1});
        sums[i] = 1;
    }
    uint8_t *at = opened + RECORD * N;
    for (uint32_t d = 1; d <= N; d++, at += sizeof lines) {
        coefficients[0] = 7 * d;
        expect(tadlovimpe_write_dealing(TADLOVIMPE_BUILT_IN, round_3, d, keys, N, coefficients, T, nonces, N, at, sizeof lines));
        for (uint32_t i = 0; i < N; i++)
            sums[i] = sums[i] * word(at + RECORD * i, 4) % p;
    }
    memcpy(lines, at - sizeof lines, sizeof lines);
    memcpy(added, opened, (size_t)(at - opened));
    uint8_t *end = added + (at - opened);
    for (uint32_t d = 1; d <= N; d++)
        for (uint32_t i = 0; i < N; i++, at += RECORD) {
            const uint8_t *line = opened + RECORD * (N * d + i);
            encrypted[i] = word(line, 4), commitments[i] = word(line, 3);
            expect(tadlovimpe_write_share(TADLOVIMPE_BUILT_IN, round_3, d, i + 1, encrypted[i], secret_keys[i], 5, at, RECORD));
            shares[i] = word(at, 3);
        }
    for (uint32_t i = 0; i < N; i++, end += RECORD)
        expect(tadlovimpe_write_added(TADLOVIMPE_BUILT_IN, round_3, i + 1, (uint32_t)sums[i], secret_keys[i], 5, end, RECORD));
    opened_len = (size_t)(at - opened), added_len = (size_t)(end - added);
    for (size_t i = 0; i < LINKS; i++) {
        uint8_t *link = chain + i * TADLOVIMPE_LINK_BYTES;
        expect(tadlovimpe_extend_chain(TADLOVIMPE_BUILT_IN, chain, (size_t)(link - chain), 3, 4, link, TADLOVIMPE_LINK_BYTES));
    }
    /* The proof in the share of the last member for the last dealer. */
    const uint8_t *share = at - RECORD;
    uint32_t a1 = tadlovimpe_power(TADLOVIMPE_BUILT_IN, 3, 9, 5).value;
    uint32_t a2 = tadlovimpe_power(TADLOVIMPE_BUILT_IN, 3, word(share, 3), 5).value;
    proof = (tadlovimpe_proof){9, keys[N - 1], word(share, 3), encrypted[N - 1], a1, a2, word(share, 4), word(share, 5)};
}

static void *run(void *call)
{
    (*(void (**)(void))call)();
    return NULL;
}

static size_t used(void (*call)(void))
{
    uint8_t *stack = mmap(NULL, ROOM, PROT_READ | PROT_WRITE, MAP_PRIVATE | MAP_ANONYMOUS, -1, 0);
    pthread_attr_t attributes;
    pthread_t thread;
    if (stack == MAP_FAILED)
        exit(1);
    memset(stack, 0x5c, ROOM);
    refusal = 1;
    if (pthread_attr_init(&attributes) || pthread_attr_setstack(&attributes, stack, ROOM) ||
        pthread_create(&thread, &attributes, run, &call) || pthread_join(thread, NULL))
        exit(1);
    expect(refusal);
    size_t kept = 0;
    while (kept < ROOM && stack[kept] == 0x5c)
        kept++;
    munmap(stack, ROOM);
    return ROOM - kept;
}

int main(void)
{
#define CALL(name) {#name, call_##name}
    const struct {
        const char *name;
        void (*call)(void);
    } calls[] = {CALL(digest), CALL(power), CALL(equality_check), CALL(degree_check), CALL(opening), CALL(recovery),
                 CALL(write_dealing), CALL(judge_dealing), CALL(write_share), CALL(judge_share), CALL(write_added), CALL(judge_added),
                 CALL(lines_check), CALL(dealer_lines), CALL(judge_board), CALL(draw_text), CALL(pick_plots), CALL(judge_chain),
                 CALL(extend_chain)};
    prepare();
    size_t none = used(no_call);
    for (size_t i = 0; i < sizeof calls / sizeof *calls; i++)
        printf("%s %zu\n", calls[i].name, used(calls[i].call) - none);
    return 0;
}
