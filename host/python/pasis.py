"""The proved library libpasis from Python 3: every call of pasis.h, on bytes, with no package but Python's own.

pasis.h is the manual: what each call does, the order of its refusals, and what the caller owes (ask numbers, channels, one desk a session,
the book on disk before the reply is sent). This module adds names and no rule: bytes of a wrong length are refused by the library.

What a call only reads may be bytes or a bytearray. What it writes (a book, a session, a desk) is a bytearray of the caller's, which stays as it
came where the call is refused; a refusal is an exception, a class for each number. What a call makes anew (a request, a reply, a block) it gives back.

The library is the file that PASIS_LIBRARY names, or lib/libpasis.so.4 of the PREFIX that this file was installed under, or what the
system's loader finds by that name.
"""

import ctypes
import os
from pathlib import Path
from typing import List, NamedTuple, Optional, Tuple, Union

INTERFACE = 4

PLAN_SIZE = 11
SESSION_SIZE = 237
ENDING_SIZE = 42
COUNTS_SIZE = 2
TOLD_SIZE = 24
TIMESTAMP_SIZE = 40
NODES_MOST = 16
BOOK_LEAST = 11
BOOK_MOST = 65536
FRAME_HEAD = 15

REPAIRABLE, NON_REPAIR = 0, 1  # member
CRASH, BYZANTINE = 0, 1  # clients

DONE, NEVER_WRITTEN, ABORTED, ROUNDS_SPENT, CLOCK_SPENT = 101, 102, 103, 104, 105

Lent = Union[bytes, bytearray]


# ---- Answers


class Refused(Exception):
    """A refused call: it left every byte that it was lent as it came. `number` is the answer, 1 to 31."""

    number = 0
    words = "not an answer of this interface"

    def __str__(self) -> str:
        return f"refusal {self.number}: {self.words}"


def _refusal(number: int, name: str, words: str) -> type:
    return type(name, (Refused,), {"number": number, "words": words, "__doc__": f"{number}: {words}.", "__module__": __name__})


RefusedPlan = _refusal(1, "RefusedPlan", "plan outside its rules")
RefusedLength = _refusal(2, "RefusedLength", "a lent length is wrong")
RefusedBook = _refusal(3, "RefusedBook", "book not of this shape, or not of this plan")
RefusedFrame = _refusal(
    4, "RefusedFrame", "frame length (for its kind too), version, kind for this party, or node wrong; a node number of N or more"
)
RefusedTime = _refusal(5, "RefusedTime", "time 0 in a record or a bound")
RefusedHash = _refusal(6, "RefusedHash", "a hash check fails")
RefusedHeld = _refusal(7, "RefusedHeld", "same timestamp held with other bytes")
RefusedRoom = _refusal(8, "RefusedRoom", "no room in the book for R more bytes")
RefusedSession = _refusal(9, "RefusedSession", "session out of its ranges, or of the other operation")
RefusedAwaited = _refusal(10, "RefusedAwaited", "ask number, kind or write timestamp not the one awaited")
RefusedHeard = _refusal(11, "RefusedHeard", "this node is already heard")
RefusedBound = _refusal(12, "RefusedBound", "reply not strictly below the bound")
RefusedAsk = _refusal(13, "RefusedAsk", "opening ask number plus W above 2^64-1")
RefusedEnded = _refusal(14, "RefusedEnded", "session has ended")
RefusedWish = _refusal(20, "RefusedWish", "no N and Q up to 16 are accepted for this wish")
RefusedRun = _refusal(21, "RefusedRun", "under R+15 reply bytes or one number place for each frame of the run")

REFUSALS = {kind.number: kind for kind in Refused.__subclasses__()}

_WORDS = {0: "accepted", 101: "done", 102: "never written", 103: "aborted", 104: "rounds spent", 105: "clock spent"}


def words(answer: int) -> str:
    """An answer in words, as pasis_strerror gives them."""
    return REFUSALS[answer].words if answer in REFUSALS else _WORDS.get(answer, Refused.words)


class Ending(NamedTuple):
    """How an operation ended: 101 to 105; the timestamp, zero where there is none; the rounds of a read; the block of a read that is done."""

    answer: int
    timestamp: bytes
    rounds: int
    item: Optional[bytes]

    @property
    def time(self) -> int:
        return int.from_bytes(self.timestamp[:8], "big")


class Ran(NamedTuple):
    """What came of a run: for each frame that was cut its reply, or its refusal; and the place where the run ended."""

    outcomes: List[Union[bytes, Refused]]
    place: int


# ---- The plan


class Plan(NamedTuple):
    """The nine values of document 01. They are looked at by the library, in every call."""

    N: int
    t: int
    b: int
    Q: int
    m: int
    F: int
    member: int = REPAIRABLE
    clients: int = CRASH
    W: int = 16

    def bytes(self) -> bytes:
        wide = {"F": 2, "W": 2}
        return b"".join(_number(value, wide.get(name, 1)).to_bytes(wide.get(name, 1), "big") for name, value in zip(self._fields, self))

    @property
    def record_size(self) -> int:
        return 40 + 32 * self.N + self.F

    @property
    def desk_size(self) -> int:
        return self.N * self.record_size

    @property
    def item_size(self) -> int:
        return self.m * self.F

    @property
    def frame_size(self) -> int:
        return self.record_size + FRAME_HEAD

    def replies_size(self, frames: int) -> int:
        return frames * self.frame_size

    def book_size(self, records: int) -> int:
        return BOOK_LEAST + records * self.record_size


def frame_length(frame: Lent) -> int:
    """The whole length of a frame, from its first 4 bytes. Of a stranger's it may be anything: refuse what is above Plan.frame_size."""
    return int.from_bytes(frame[:4], "big") + 4


def frame_node(frame: Lent) -> int:
    """The node that a frame of at least 7 bytes names, to be compared with the channel's."""
    return frame[6]


# ---- The library


def _number(value: int, size: int) -> int:
    """A number that fits so many bytes: ctypes would cut off what is above."""
    if not 0 <= value < 1 << 8 * size:
        raise ValueError(f"{value} is no number of {size} bytes")
    return value


def _library() -> ctypes.CDLL:
    name = f"libpasis.so.{INTERFACE}"
    beside = Path(__file__).resolve().parents[2].parent / "lib" / name
    path = os.environ.get("PASIS_LIBRARY") or (str(beside) if beside.is_file() else name)
    try:
        library = ctypes.CDLL(path)
    except OSError as error:
        raise ImportError(f"the library is not to be had ({error}): set PASIS_LIBRARY to the path of {name}") from None
    library.pasis_interface.restype = ctypes.c_uint32
    if library.pasis_interface() != INTERFACE:
        raise ImportError(f"{path} is of interface {library.pasis_interface()}, and this module of {INTERFACE}")
    for call in ("pasis_plan_size", "pasis_session_size", "pasis_ending_size"):
        getattr(library, call).restype = ctypes.c_size_t
    return library


_pasis = _library()


def _slice(lent: Lent) -> list:
    """A pointer and the length: into a bytearray itself, so that the call writes there; of bytes, which nobody writes."""
    if isinstance(lent, bytearray):
        return [(ctypes.c_uint8 * len(lent)).from_buffer(lent), ctypes.c_size_t(len(lent))]
    return [ctypes.c_char_p(lent), ctypes.c_size_t(len(lent))]


def _call(name: str, *lent: object) -> int:
    """Makes a call: numbers as they are, bytes as slices. A refusal is raised."""
    written = [id(part) for part in lent if isinstance(part, bytearray)]
    if len(set(written)) < len(written):
        raise ValueError("what a call may write overlaps nothing else that it is lent")
    words = [word for part in lent for word in (_slice(part) if isinstance(part, (bytes, bytearray)) else [part])]
    call = getattr(_pasis, name)
    call.restype = ctypes.c_uint32
    answer = call(*words)
    if 1 <= answer <= 31:
        raise REFUSALS.get(answer, Refused)()
    return answer


def _writable(*lent: bytearray) -> None:
    for part in lent:
        if not isinstance(part, bytearray):
            raise TypeError(f"what the call writes is a bytearray, and not {type(part).__name__}")


def _u64(value: int) -> ctypes.c_uint64:
    return ctypes.c_uint64(_number(value, 8))


def interface() -> int:
    """The interface number of the library."""
    return _pasis.pasis_interface()


def sizes() -> Tuple[int, int, int]:
    """The library's own word for the sizes of a plan, a session and an ending."""
    return _pasis.pasis_plan_size(), _pasis.pasis_session_size(), _pasis.pasis_ending_size()


def smallest_plan(member: int, t: int, b: int, m: int) -> Tuple[int, int]:
    """The smallest N for a wish, and with it the smallest Q. Refused: 1, 20."""
    counts = bytearray(COUNTS_SIZE)
    _call("pasis_smallest_plan", ctypes.c_uint8(_number(member, 1)), _u64(t), _u64(b), _u64(m), counts)
    return counts[0], counts[1]


# ---- The node


def fresh_book(plan: Plan, node: int, book: bytearray) -> None:
    """Makes the empty book of a node in `book`, 11 to 65,536 bytes. Refused: 1, 2, 4."""
    _writable(book)
    _call("pasis_fresh_book", plan.bytes(), _u64(node), book)


def node(plan: Plan, request: Lent, book: bytearray) -> bytes:
    """Serves one request: gives its reply. Refused: 1 to 8; then nothing is sent. A changed book is on disk before the reply goes out."""
    _writable(book)
    reply = bytearray(plan.frame_size)
    _call("pasis_node", plan.bytes(), bytes(request), book, reply)
    return bytes(reply[: frame_length(reply)])


def run(plan: Plan, frames: Lent, book: bytearray) -> Ran:
    """Serves requests laid end to end: one outcome for each, as if they came singly. Refused as a whole: 1, 2, 3."""
    _writable(book)
    most = len(frames) // FRAME_HEAD
    replies, numbers, told = bytearray(plan.replies_size(most)), bytearray(most), bytearray(TOLD_SIZE)
    _call("pasis_run", plan.bytes(), bytes(frames), book, replies, numbers, told)
    cut, _, place = (int.from_bytes(told[at : at + 8], "big") for at in (0, 8, 16))
    outcomes: List[Union[bytes, Refused]] = []
    at = 0
    for number in numbers[:cut]:
        if number == 0:
            end = at + frame_length(replies[at:at + 4])
            outcomes.append(bytes(replies[at:end]))
            at = end
        else:
            outcomes.append(REFUSALS.get(number, Refused)())
    return Ran(outcomes, place)


# ---- The client


def open_write(plan: Plan, ask: int) -> bytearray:
    """Opens a save: gives its session. `ask` is the first of W+1 numbers that were never used. Refused: 1, 13."""
    return _opened("pasis_open_write", plan, ask)


def open_read(plan: Plan, ask: int) -> bytearray:
    """Opens an open: gives its session. Refused: 1, 13."""
    return _opened("pasis_open_read", plan, ask)


def _opened(name: str, plan: Plan, ask: int) -> bytearray:
    session = bytearray(SESSION_SIZE)
    _call(name, plan.bytes(), _u64(ask), session)
    return session


def owed(plan: Plan, session: Lent, node: int, desk: Lent) -> bytes:
    """The request that the open round owes to a node that is not heard yet. Refused: 1, 2, 9, 14, 4, 11."""
    request = bytearray(plan.frame_size)
    _call("pasis_owed", plan.bytes(), bytes(session), _u64(node), bytes(desk), request)
    return bytes(request[: frame_length(request)])


def write_reply(plan: Plan, session: bytearray, reply: Lent, desk: bytearray, item: Lent) -> Optional[Ending]:
    """Takes a reply to a save of `item`: None, go on; or how it ended, 101 or 105. Refused: 1, 2, 9, 14, 4, 10, 11."""
    _writable(session, desk)
    ending = bytearray(ENDING_SIZE)
    answer = _call("pasis_write_reply", plan.bytes(), session, bytes(reply), desk, bytes(item), ending)
    return _ended(answer, ending, None)


def read_reply(plan: Plan, session: bytearray, reply: Lent, desk: bytearray) -> Optional[Ending]:
    """Takes a reply to an open: None, go on; or how it ended, 101 to 104, with the block at 101. Refused: as in pasis.h, 5, 6 and 12 too."""
    _writable(session, desk)
    item, ending = bytearray(plan.item_size), bytearray(ENDING_SIZE)
    answer = _call("pasis_read_reply", plan.bytes(), session, bytes(reply), desk, item, ending)
    return _ended(answer, ending, bytes(item))


def _ended(answer: int, ending: bytearray, item: Optional[bytes]) -> Optional[Ending]:
    if answer == 0:
        return None
    return Ending(answer, bytes(ending[:40]), int.from_bytes(ending[40:], "big"), item if answer == DONE else None)
