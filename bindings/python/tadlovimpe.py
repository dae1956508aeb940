"""The operations of Tadlovimpe, through libtadlovimpe.so, which bindings/build writes.

`table` is the bytes of groups.tab; b"" stands for the built-in groups. What is refused raises Refused, but for judge_board. A figure that
is not from 0 to 2^32 - 1 raises OverflowError. docs/FORMAT.md has records, ranges, equations, and each operation's checks in their order.

The library is taken from the folder that TADLOVIMPE_LIB names in the environment, or from target/staticlib of the repository.
"""

import os
from ctypes import CDLL, Structure, byref, c_char_p, c_size_t, c_uint8, c_uint32
from enum import IntEnum
from operator import index
from pathlib import Path
from typing import List, NamedTuple, Sequence, Tuple

RECORD_BYTES = 32  # a record of a board, a set, or a group of a table
LINK_BYTES = 64  # a link of a chain
DIGEST_BYTES = 32  # a digest
TEXT_BYTES = 1024  # the text of `draw`, at most
MAX_MEMBERS = 31  # members of a round, at most
MAX_PLOTS = 4096  # plots to pick from, at most
MAX_TABLE_BYTES = 256  # a table, at most
MAX_BOARD_BYTES = 65536  # a board, at most
MAX_CHAIN_BYTES = 65536  # a chain, at most
MAX_MESSAGE_BYTES = 65536  # a message to be hashed, at most


class Refusal(IntEnum):
    """The numbers of refusals."""

    NO_GROUP = 1  # no group of the table has this number
    BAD_N_OR_T = 2  # n is not 1 to 31 and below q, or t is not 1 to n
    BAD_LENGTH = 3  # a length: of a message, list, buffer, set, table, board or chain
    BAD_RECORD = 4  # a record's kind, dealer, member or spare word; a link's spare byte
    BAD_ORDER = 5  # a record of a board is not above the one before
    NO_ELEMENT = 6  # a figure is no element of the group, or a key is 1
    NO_EXPONENT = 7  # a figure is not below q, or a secret key is 0
    NO_MEMBER = 8  # a dealer or member is not 1 to n; in recovery: fewer than t members, or one twice
    DEGREE_FAILS = 9  # commitments fail the degree check
    PROOF_FAILS = 10  # an equality proof fails, or a challenge is not the one that is worked out
    OPENING_FAILS = 11  # an opening is not right
    MISSING_RECORD = 12  # a member has no key on the board, or a dealer has some lines, but not n
    STUCK_DEALING = 13  # an accepted dealing is stuck, and fewer than t added shares are accepted
    TOO_FEW_DEALINGS = 14  # fewer than t dealings are accepted
    BAD_RADIUS = 15  # the radius of plots is not 10 or 15
    BAD_COUNT = 16  # the plots in all are not 1 to 4,096, or those to be picked not 1 to all
    OTHER_ROUND = 17  # a record of another round
    BAD_DIGEST = 18  # the digest of a link is not the one that is worked out
    NOT_NEXT_ROUND = 19  # the round of a link is not the next
    BAD_PRIMES = 20  # p or q of a group of the table
    BAD_GENERATORS = 21  # g or h of a group of the table
    EQUAL_KEYS = 22  # two members have the same key


class Kind(IntEnum):
    """The kinds of verdicts."""

    NONE = 0  # the dealer has posted no lines
    REFUSED = 1  # his dealing is refused; the value is the number
    OPENED = 2  # accepted, and his opening is right; the value is his secret
    RECOVERED = 3  # accepted, and t shares give his secret, the value
    STUCK = 4  # accepted, with neither


class Refused(Exception):
    """An operation refuses, by `number`, which has `name`."""

    def __init__(self, number: int):
        super().__init__(number)
        self.number = number
        self.name = Refusal(number).name

    def __str__(self):
        return f"{self.number} {self.name}"


class Round(NamedTuple):
    """A round's public parameters; first_new_round is the first whose challenges come from the whole digest, 0 for none."""

    group: int
    n: int
    t: int
    round: int = 0
    first_new_round: int = 0


class Proof(NamedTuple):
    """A proof that x1 is b1, and x2 is b2, to the same exponent: announcements a1 and a2, challenge c, response r."""

    b1: int
    x1: int
    b2: int
    x2: int
    a1: int
    a2: int
    c: int
    r: int


class Verdict(NamedTuple):
    """What a board says of one dealer."""

    kind: Kind
    value: int


class Judgement(NamedTuple):
    """A judged board: `refusal` is 0 where there is a draw value. The verdict on dealer d is verdicts[d - 1]; above n all are none."""

    refusal: int
    value: int
    accepted: int
    verdicts: Tuple[Verdict, ...]


class _Round(Structure):
    _fields_ = [("group", c_uint32), ("n", c_uint32), ("t", c_uint32), ("round", c_uint32), ("first_new_round", c_uint32)]


class _Answer(Structure):
    _fields_ = [("refusal", c_uint32), ("value", c_uint32)]


class _Proof(Structure):
    _fields_ = [("b1", c_uint32), ("x1", c_uint32), ("b2", c_uint32), ("x2", c_uint32),
                ("a1", c_uint32), ("a2", c_uint32), ("c", c_uint32), ("r", c_uint32)]


class _Part(Structure):
    _fields_ = [("refusal", c_uint32), ("start", c_size_t), ("length", c_size_t)]


class _VerdictFigures(Structure):
    _fields_ = [("kind", c_uint32), ("value", c_uint32)]


class _BoardAnswer(Structure):
    _fields_ = [("refusal", c_uint32), ("value", c_uint32), ("accepted", c_uint32), ("verdicts", _VerdictFigures * MAX_MEMBERS)]


_folder = os.environ.get("TADLOVIMPE_LIB") or Path(__file__).resolve().parents[2] / "target" / "staticlib"
_library = CDLL(os.path.join(_folder, "libtadlovimpe.so"))


# Each of these answers the C arguments of one parameter.


def _figure(figure):
    if not 0 <= index(figure) < 1 << 32:
        raise OverflowError(f"{figure} is not from 0 to 2^32 - 1")  # ctypes would cut it
    return index(figure)


def _u32(figure):
    return [c_uint32(_figure(figure))]


def _round(round):
    return [_Round(*map(_figure, Round(*round)))]


def _proof(proof):
    return [_Proof(*map(_figure, Proof(*proof)))]


def _bytes(buffer):
    lent = bytes(memoryview(buffer))
    return [c_char_p(lent), c_size_t(len(lent))]


def _words(figures):
    lent = [_figure(figure) for figure in figures]
    return [(c_uint32 * len(lent))(*lent), c_size_t(len(lent))]


def _out(out):
    return [byref(out), c_size_t(len(out))]


def _out_array(out):
    return [byref(out)]


def _call(name, result, **arguments):
    function = getattr(_library, "tadlovimpe_" + name)
    function.restype = result
    return function(*(c for argument in arguments.values() for c in argument))


def _passed(refusal):
    if refusal != 0:
        raise Refused(refusal)


def _value(answer):
    _passed(answer.refusal)
    return answer.value


def digest(message: bytes) -> bytes:
    """SHA-256."""
    out = (c_uint8 * DIGEST_BYTES)()
    _passed(_call("digest", c_uint32, message=_bytes(message), out=_out_array(out)))
    return bytes(out)


def power(table: bytes, group: int, base: int, exponent: int) -> int:
    """The base, an element, to the exponent."""
    return _value(_call("power", _Answer, table=_bytes(table), group=_u32(group), base=_u32(base), exponent=_u32(exponent)))


def equality_check(table: bytes, group: int, proof: Proof) -> None:
    """Checks one equality proof."""
    _passed(_call("equality_check", c_uint32, table=_bytes(table), group=_u32(group), proof=_proof(proof)))


def degree_check(table: bytes, round: Round, commitments: Sequence[int], coefficients: Sequence[int]) -> None:
    """The degree check of n commitments by n - t coefficients of a check polynomial."""
    _passed(_call("degree_check", c_uint32, table=_bytes(table), round=_round(round), commitments=_words(commitments),
                  coefficients=_words(coefficients)))


def opening(table: bytes, round: Round, commitments: Sequence[int], s: int) -> None:
    """Whether s opens the dealing: g^s is what the first t of the n commitments give at 0."""
    _passed(_call("opening", c_uint32, table=_bytes(table), round=_round(round), commitments=_words(commitments), s=_u32(s)))


def recovery(table: bytes, round: Round, members: Sequence[int], shares: Sequence[int]) -> int:
    """The secret, from the decrypted shares of t or more members, in the members' order."""
    return _value(_call("recovery", _Answer, table=_bytes(table), round=_round(round), members=_words(members), shares=_words(shares)))


def write_dealing(table: bytes, round: Round, dealer: int, keys: Sequence[int], coefficients: Sequence[int],
                  nonces: Sequence[int]) -> bytes:
    """The n lines of a dealing, from n keys, t coefficients of the dealer's polynomial, and n nonces."""
    out = (c_uint8 * (RECORD_BYTES * len(keys)))()  # other than n keys are refused as other than 32n bytes are
    _passed(_call("write_dealing", c_uint32, table=_bytes(table), round=_round(round), dealer=_u32(dealer), keys=_words(keys),
                  coefficients=_words(coefficients), nonces=_words(nonces), out=_out(out)))
    return bytes(out)


def judge_dealing(table: bytes, round: Round, dealer: int, keys: Sequence[int], lines: bytes) -> None:
    """Judges the n lines of a dealing."""
    _passed(_call("judge_dealing", c_uint32, table=_bytes(table), round=_round(round), dealer=_u32(dealer), keys=_words(keys),
                  lines=_bytes(lines)))


def write_share(table: bytes, round: Round, dealer: int, member: int, encrypted: int, secret_key: int, nonce: int) -> bytes:
    """The record of a member's decrypted share for the dealer, from the encrypted share of his line."""
    out = (c_uint8 * RECORD_BYTES)()
    _passed(_call("write_share", c_uint32, table=_bytes(table), round=_round(round), dealer=_u32(dealer), member=_u32(member),
                  encrypted=_u32(encrypted), secret_key=_u32(secret_key), nonce=_u32(nonce), out=_out(out)))
    return bytes(out)


def judge_share(table: bytes, round: Round, dealer: int, member: int, key: int, encrypted: int, share: bytes) -> int:
    """Judges the record of a member's decrypted share, and answers the share."""
    return _value(_call("judge_share", _Answer, table=_bytes(table), round=_round(round), dealer=_u32(dealer), member=_u32(member),
                        key=_u32(key), encrypted=_u32(encrypted), share=_bytes(share)))


def write_added(table: bytes, round: Round, member: int, encrypted: int, secret_key: int, nonce: int) -> bytes:
    """The record of an added share. Its encrypted share is the product of those of the member's lines in all accepted dealings."""
    out = (c_uint8 * RECORD_BYTES)()
    _passed(_call("write_added", c_uint32, table=_bytes(table), round=_round(round), member=_u32(member), encrypted=_u32(encrypted),
                  secret_key=_u32(secret_key), nonce=_u32(nonce), out=_out(out)))
    return bytes(out)


def judge_added(table: bytes, round: Round, member: int, key: int, encrypted: int, share: bytes) -> int:
    """Judges the record of an added share, and answers the decrypted share."""
    return _value(_call("judge_added", _Answer, table=_bytes(table), round=_round(round), member=_u32(member), key=_u32(key),
                        encrypted=_u32(encrypted), share=_bytes(share)))


def lines_check(table: bytes, round: Round, dealer: int, board: bytes) -> None:
    """Checks the dealer's number, and the board's length, form, round and order."""
    _passed(_call("lines_check", c_uint32, table=_bytes(table), round=_round(round), dealer=_u32(dealer), board=_bytes(board)))


def dealer_lines(table: bytes, round: Round, dealer: int, board: bytes) -> bytes:
    """The lines of the dealer on the board."""
    part = _call("dealer_lines", _Part, table=_bytes(table), round=_round(round), dealer=_u32(dealer), board=_bytes(board))
    _passed(part.refusal)
    return bytes(memoryview(board)[part.start : part.start + part.length])


def judge_board(table: bytes, round: Round, board: bytes) -> Judgement:
    """Judges a board. What is refused is not raised, for 13 and 14 keep the verdicts and the count."""
    board_answer = _call("judge_board", _BoardAnswer, table=_bytes(table), round=_round(round), board=_bytes(board))
    verdicts = tuple(Verdict(Kind(v.kind), v.value) for v in board_answer.verdicts)
    return Judgement(board_answer.refusal, board_answer.value, board_answer.accepted, verdicts)


def draw_text(table: bytes, set: bytes, board: bytes) -> str:
    """What `draw` prints for the bytes of its files."""
    out = (c_uint8 * TEXT_BYTES)()
    length = _call("draw_text", c_size_t, table=_bytes(table), set=_bytes(set), board=_bytes(board), out=_out_array(out))
    return bytes(out[:length]).decode("ascii")


def pick_plots(table: bytes, group: int, value: int, radius: int, total: int, count: int) -> List[int]:
    """Picks `count` plots out of 1 to `total` by the draw value, in their order."""
    out = (c_uint32 * min(_figure(count), MAX_PLOTS))()  # a larger count is refused before the length is
    _passed(_call("pick_plots", c_uint32, table=_bytes(table), group=_u32(group), value=_u32(value), radius=_u32(radius),
                  total=_u32(total), count=_u32(count), out=_out(out)))
    return list(out)


def judge_chain(table: bytes, chain: bytes) -> None:
    """Judges a chain of draw values."""
    _passed(_call("judge_chain", c_uint32, table=_bytes(table), chain=_bytes(chain)))


def extend_chain(table: bytes, chain: bytes, group: int, value: int) -> bytes:
    """The link that the draw value adds to the chain, to be put behind it."""
    out = (c_uint8 * LINK_BYTES)()
    _passed(_call("extend_chain", c_uint32, table=_bytes(table), chain=_bytes(chain), group=_u32(group), value=_u32(value), out=_out(out)))
    return bytes(out)
