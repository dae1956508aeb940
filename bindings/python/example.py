"""Prints the text of `draw` for a folder, and five plots of radius 15 out of 40 where the round has a draw value.
usage: example.py FOLDER"""

import sys
from pathlib import Path
from struct import unpack

from tadlovimpe import MAX_BOARD_BYTES, RECORD_BYTES, Round, draw_text, judge_board, pick_plots


def bytes_of(path):
    """The bytes of a file, none where there is none. No file longer than a board is accepted, so one byte more is read at most."""
    try:
        with open(path, "rb") as file:
            return file.read(MAX_BOARD_BYTES + 1)
    except OSError:
        return b""


def round_of(set):
    """The round of a set, which is one record of kind 9."""
    if len(set) != RECORD_BYTES:
        return None
    kind, *round, word_6, word_7 = unpack(">8I", set)
    return Round(*round) if (kind, word_6, word_7) == (9, 0, 0) else None


def main():
    if len(sys.argv) != 2:
        sys.exit("usage: example.py FOLDER")
    table, set, board = (bytes_of(Path(sys.argv[1]) / name) for name in ("groups.tab", "round.set", "board.bin"))
    sys.stdout.write(draw_text(table, set, board))
    round = round_of(set)
    if round is None:
        return
    judged = judge_board(table, round, board)
    if judged.refusal == 0:
        print("plots", *pick_plots(table, round.group, judged.value, 15, 40, 5))


main()
