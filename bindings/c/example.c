/* Prints the text of `draw` for a folder, and five plots of radius 15 out of 40 where the round has a draw value.
 * From the root: cc -std=c11 -Iinclude bindings/c/example.c target/staticlib/libtadlovimpe.a -o example && ./example FOLDER */
#include "tadlovimpe.h"
#include <stdio.h>

/* No file that is longer than a board is accepted, so one byte more is read at most. */
enum { ROOM = TADLOVIMPE_MAX_BOARD_BYTES + 1, PLOTS = 5 };

/* The length of a file, and its bytes; 0 where there is no file. */
static size_t bytes_of(const char *folder, const char *name, uint8_t bytes[ROOM])
{
    char path[4096];
    int length = snprintf(path, sizeof path, "%s/%s", folder, name);
    FILE *file = length < (int)sizeof path ? fopen(path, "rb") : NULL;
    if (file == NULL)
        return 0;
    size_t count = fread(bytes, 1, ROOM, file);
    fclose(file);
    return count;
}

static uint32_t word(const uint8_t *record, int k)
{
    const uint8_t *b = record + 4 * k;
    return (uint32_t)b[0] << 24 | (uint32_t)b[1] << 16 | (uint32_t)b[2] << 8 | b[3];
}

/* Whether a set is one record of kind 9; its round. */
static int round_of(const uint8_t *set, size_t set_len, tadlovimpe_round *round)
{
    if (set_len != TADLOVIMPE_RECORD_BYTES || word(set, 0) != 9 || word(set, 6) != 0 || word(set, 7) != 0)
        return 0;
    *round = (tadlovimpe_round){
        .group = word(set, 1), .n = word(set, 2), .t = word(set, 3), .round = word(set, 4), .first_new_round = word(set, 5)};
    return 1;
}

int main(int argc, char **argv)
{
    static uint8_t table[ROOM], set[ROOM], board[ROOM], text[TADLOVIMPE_TEXT_BYTES];
    if (argc != 2) {
        fputs("usage: example FOLDER\n", stderr);
        return 2;
    }
    size_t table_len = bytes_of(argv[1], "groups.tab", table);
    size_t set_len = bytes_of(argv[1], "round.set", set);
    size_t board_len = bytes_of(argv[1], "board.bin", board);
    fwrite(text, 1, tadlovimpe_draw_text(table, table_len, set, set_len, board, board_len, text), stdout);

    tadlovimpe_round round;
    if (!round_of(set, set_len, &round))
        return 0;
    tadlovimpe_board judged = tadlovimpe_judge_board(table, table_len, round, board, board_len);
    if (judged.refusal != TADLOVIMPE_OK)
        return 0;
    uint32_t plots[PLOTS] = {0};
    if (tadlovimpe_pick_plots(table, table_len, round.group, judged.value, 15, 40, PLOTS, plots, PLOTS) != TADLOVIMPE_OK)
        return 1;
    fputs("plots", stdout);
    for (int i = 0; i < PLOTS; i++)
        printf(" %lu", (unsigned long)plots[i]);
    putchar('\n');
    return 0;
}
