"""LRU reuse distances of a log of extents, by a proved library: what Python calls.

A log is a list of extents in the order read; an extent is a number from 0 to 4,294,967,295. A summary is an array('I'):
the reads L, the number v of different extents, then v words F (the extents by first read), v words R (by last read, the
latest first) and v words H (the word for d counts the reads of reuse distance d).

A read is answered with an Answer: its reuse distance, or, for a cold read, its number, which is how many different
extents the log has had, itself included.

Words are any buffer of unsigned 32-bit words (array('I'), a numpy array of uint32, a memoryview of one), which is read
where it stands, or any iterable of numbers, which is copied; they come back as an array('I'). Texts are any buffer of
bytes (bytes, bytearray, mmap, array('B')), an iterable of numbers from 0 to 255, or a str, which is taken in UTF-8.
What is handed in is never changed. A buffer of other cells, of several dimensions or with gaps is refused with
TypeError, words that stand at no multiple of 4 with ValueError, and a number that does not fit with OverflowError.
A call that the library sends back raises Refusal with the number.

A buffer is held through the call: meanwhile nothing can resize or free it. A call on memory that could be written to
keeps the interpreter's lock, so that no other thread of Python changes it; one whose inputs are bytes objects and
copies lets other threads run. Memory that other processes or C code change during a call is for the caller to copy.

`python/build` builds the shared object that is loaded here, target/libjemqolu.so; the environment variable
JEMQOLU_LIBRARY names another one.
"""
import ctypes
import operator
import os
import sys
from array import array

from jemqolu_answers import COLD_BASE, Answer, Answers, Smallest, Split  # noqa: F401
from jemqolu_answers import MOST as _MOST
from jemqolu_answers import number_of as _number

MAX_READS = 1_048_576
MAX_EXTENTS = 1024
MAX_PLAN_BYTES = 65_536
MAX_JOINS = 8
MAX_PARTS = 16
MAX_SEG = 1_048_576
MAX_STORE = 1024
MAX_CUSTOMERS = 8
MAX_NAMES = 8
# a session's slots, and its right-hand sums: one for each branching point of the binary tree over the slots
SLOTS = 2 * MAX_EXTENTS
RIGHT_SUMS = SLOTS - 1
SUMMARY_WORDS = 2 + 3 * MAX_EXTENTS
# two summaries
LEVEL_WORDS = 2 * SUMMARY_WORDS
WORK_WORDS = LEVEL_WORDS * MAX_JOINS
# the lines before the rows of all sizes, and these rows, of at most so many bytes
LISTING_BYTES = 64 + 23 * MAX_EXTENTS
# the reads, F, H, the slots, the count of all marks, the right-hand sums and the next slot
SESSION_WORDS = 1 + MAX_EXTENTS + MAX_EXTENTS + SLOTS + 1 + RIGHT_SUMS + 1
WATCH_WORDS = 4
NAME_WORDS = 1 + SESSION_WORDS
NAMES_WORDS = NAME_WORDS * MAX_NAMES

MEANINGS = {
    1: "a text line with which no text of the rule can go on, or an end too early",
    2: f"in a text an extent above {_MOST:,} or a seg above {MAX_SEG:,}; a read's answer given to a watch that is "
    f"neither a distance from 1 to {MAX_EXTENTS:,} nor cold with such a number; a store above {MAX_STORE:,}; a number "
    f"of customers that is not 1 to {MAX_CUSTOMERS}; a name that is not 1 to {MAX_NAMES}; a place past a log's end",
    3: "the segs of a plan do not add up to the log",
    4: f"a plan text over {MAX_PLAN_BYTES:,} bytes, a ninth join open, a seventeenth part of one join",
    5: "words that are not a well-formed summary",
    6: "fewer words or bytes lent than the answer needs",
    7: "words that are not a sound session or watch, too few of them among these",
    8: f"more than {MAX_READS:,} reads would result",
    9: f"more than {MAX_EXTENTS:,} different extents would result",
    10: "the least shares add up to more than the store",
    11: "a return to a name that is not set",
    12: "a number of misses allowed that is below the cold reads",
}


class Refusal(Exception):
    """A call that was sent back; `number` says why, and MEANINGS has the words for it."""

    def __init__(self, number):
        super().__init__("refused with %d: %s" % (number, MEANINGS.get(number, "no such number")))
        self.number = number

    def __reduce__(self):
        return Refusal, (self.number,)


class _Buffer(ctypes.Structure):
    """What Python tells of a buffer that it holds: the Py_buffer of its C interface."""

    _fields_ = [
        ("address", ctypes.c_void_p),
        ("owner", ctypes.c_void_p),
        ("bytes", ctypes.c_ssize_t),
        ("item_bytes", ctypes.c_ssize_t),
        ("read_only", ctypes.c_int),
        ("dimensions", ctypes.c_int),
        ("format", ctypes.c_void_p),
        ("shape", ctypes.c_void_p),
        ("strides", ctypes.c_void_p),
        ("suboffsets", ctypes.c_void_p),
        ("internal", ctypes.c_void_p),
    ]


_hold = ctypes.pythonapi.PyObject_GetBuffer
_hold.argtypes, _hold.restype = [ctypes.py_object, ctypes.POINTER(_Buffer), ctypes.c_int], ctypes.c_int
_release = ctypes.pythonapi.PyBuffer_Release
_release.argtypes, _release.restype = [ctypes.POINTER(_Buffer)], None


def _path():
    """Where the shared object is."""
    beside = os.path.join(os.path.dirname(os.path.abspath(__file__)), "..", "target", "libjemqolu.so")
    path = os.environ.get("JEMQOLU_LIBRARY", beside)
    if not os.path.exists(path):
        raise ImportError("%s is not there: run python/build" % path)
    return path


def _load(library):
    """The library's calls by their names, with their types."""
    lent = [ctypes.c_void_p, ctypes.c_size_t]
    number, count, place = [ctypes.c_uint32], [ctypes.c_size_t], [ctypes.c_void_p]
    types = {
        "summarize": lent + lent,
        "join": lent + lent + lent,
        "distances": lent + lent + lent,
        "misses": lent + number,
        "share": lent + number + place,
        "smallest": lent + number + place,
        "split": number + lent + lent + lent,
        "one_more": lent + count + number + number + place,
        "plan": lent + lent + lent + lent,
        "list": lent + lent,
        "session_new": lent,
        "session_read": lent + number + place + place,
        "session_summary": lent + lent,
        "session_misses": lent + number,
        "session_share": lent + number + place,
        "names_new": lent,
        "session_name": lent + lent + number,
        "session_return": lent + lent + number,
        "watch_new": number + lent,
        "watch_read": lent + number,
        "watch_misses": lent,
        "watch_share": lent + place,
    }
    calls = {}
    for name, arguments in types.items():
        call = getattr(library, "jemqolu_" + name)
        call.argtypes, call.restype = arguments, ctypes.c_int64
        calls[name] = call
    return calls


# the calls that keep the interpreter's lock, and those that let other threads run
_LOCKED = _load(ctypes.PyDLL(_path()))
_UNLOCKED = _load(ctypes.CDLL(_path()))
# the address that goes with a length of 0
_NOTHING = ctypes.c_uint64(0)


class _Cells:
    """A kind of cell: its name, its bytes, and the formats that a buffer of it may have."""

    def __init__(self, name, typecode, codes):
        self.name, self.typecode = name, typecode
        self.bytes = array(typecode).itemsize
        self.formats = frozenset(mark + code for mark in ("", "@", "=", "<") for code in codes)

    def checked(self, view):
        """The view, where it is of such cells; otherwise it is released, and TypeError raised."""
        if view.format in self.formats and view.itemsize == self.bytes and view.ndim == 1 and view.c_contiguous:
            return view
        kind = "%d dimensions of %r, %d bytes each" % (view.ndim, view.format, view.itemsize)
        view.release()
        raise TypeError("a buffer of %s without gaps is wanted, not %s" % (self.name, kind))

    def viewed(self, values):
        """A view of the buffer that the values are, which it holds, or else of a copy in a bytes object."""
        try:
            view = memoryview(values)
        except TypeError:
            return memoryview(array(self.typecode, tuple(values)).tobytes()).cast(self.typecode)
        return self.checked(view)


_WORDS = _Cells("unsigned 32-bit words", "I", "IL")
_BYTES = _Cells("bytes", "B", "Bbc")


def _words(values):
    """A view of words: of the buffer that they are, or of a copy."""
    return _WORDS.viewed(values)


def _text(values):
    """A view of a text's bytes: of the buffer that they are, or of a copy."""
    return _BYTES.viewed(values.encode("utf-8", "surrogatepass") if isinstance(values, str) else values)


def _state(words):
    """A view of the words that a session or a watch has, which are a buffer."""
    return _WORDS.checked(memoryview(words))


def _writable(words):
    """A view of words that a call may change."""
    view = _state(words)
    if view.readonly:
        view.release()
        raise TypeError("words that can be written to are wanted")
    return view


def _apart(view, count):
    """A view of a copy of the first words, so that what a call writes to overlaps them in nothing."""
    return memoryview(view[:count].tobytes()).cast("I")


def _zeros(count, typecode="I"):
    return array(typecode, [0]) * count


def _lend(view, held):
    """The address and the length that stand for a view; what Python holds for it is added to `held`."""
    buffer = _Buffer()
    _hold(view, ctypes.byref(buffer), 0)
    held.append(buffer)
    if not len(view):
        return [ctypes.addressof(_NOTHING), 0]
    if buffer.address % view.itemsize:
        raise ValueError("words that stand at a multiple of %d are wanted" % view.itemsize)
    return [buffer.address, len(view)]


def _call(name, *arguments, calls=_LOCKED):
    """The call's answer; a view goes as its address and its length. A negative answer is raised as a Refusal."""
    passed, held = [], []
    try:
        for argument in arguments:
            passed += _lend(argument, held) if isinstance(argument, memoryview) else [argument]
        answer = calls[name](*passed)
    finally:
        for buffer in held:
            _release(ctypes.byref(buffer))
    if answer < 0:
        raise Refusal(-answer)
    return answer


def _calls_on(lent):
    """The calls that let other threads run where these views are of bytes objects and copies, else those that do not."""
    return _UNLOCKED if all(type(view.obj) is bytes for view in lent) else _LOCKED


def _written(name, out, *lent, work=()):
    """What the call on these views writes to the front of `out`, an array that nobody else has, nor has `work`; each view
    is released."""
    try:
        with memoryview(out) as room:
            count = _call(name, *lent, *map(memoryview, work), room, calls=_calls_on(lent))
    finally:
        for view in lent:
            view.release()
    return out[:count]


def _share(name, *arguments):
    """The share that the call writes, or None where there are no reads but cold ones."""
    share = ctypes.c_double(0.0)
    return share.value if _call(name, *arguments, ctypes.byref(share)) else None


def _copied(words):
    """The words of one summary as bytes, or None where there are not 2 + 3 v of them."""
    with _words(words) as view:
        # of more words than a summary can have, one too many is copied
        copy = array("I", view[: SUMMARY_WORDS + 1].tobytes())
    return copy.tobytes() if len(copy) > 1 and len(copy) == 2 + 3 * copy[1] else None


def _end_to_end(summaries):
    """The words of the summaries end to end, as bytes; no words at all where one of them has not 2 + 3 v: no words are no
    summary, so that the library refuses them in its order."""
    copies = [_copied(words) for words in summaries]
    return b"" if None in copies else b"".join(copies)


def summarize(reads):
    """The summary of a list of reads. Refusals: 8, 9."""
    return _written("summarize", _zeros(SUMMARY_WORDS), _words(reads))


def join(a, b):
    """The summary of the log of `a`, then the log of `b`. Refusals: 5, 8, 9."""
    return _written("join", _zeros(SUMMARY_WORDS), _words(a), _words(b))


def distances(prefix, reads):
    """The Answers of the reads after all that `prefix` sums up, whose extents the number of a cold read counts too; the
    summary [0, 0] is of no reads. Refusals: 5, 8, 9."""
    with _words(reads) as part:
        return Answers(_written("distances", _zeros(min(len(part), MAX_READS)), _words(prefix), part))


def misses(words, size):
    """The misses of a cache of `size` extents that reads the summary's log. Refusal: 5."""
    with _words(words) as summary:
        return _call("misses", summary, _number(size))


def share(words, size):
    """The hits of such a cache divided by the reads that some size could have served, reads less cold reads, or None where
    there are none: between 0 and 1, and 1 where `size` is at least the number of extents. Refusal: 5."""
    with _words(words) as summary:
        return _share("share", summary, _number(size))


def smallest(words, misses):
    """The smallest size at which a cache that reads the summary's log misses at most `misses` times, as a Smallest; every
    larger cache keeps within that too. Refusals: 5; then 12, exactly if `misses` is below the cold reads, which every
    cache misses."""
    words_read = ctypes.c_uint32(0)
    with _words(words) as summary:
        size = _call("smallest", summary, _number(misses), ctypes.byref(words_read))
    return Smallest(size, words_read.value)


def split(store, leasts, summaries):
    """The split of a store of `store` extents among customers, as a Split. `leasts` has each customer's least share, and
    `summaries` each customer's summary, in the same order, each of which is copied. No share is below its least, and in
    all they are no more than the store; of all such shares they have the fewest misses in all, then the smallest total,
    then the smallest first share, second share, and so on. Another number of summaries than of least shares is refused
    as a summary that is not well formed. Refusals: 2, 5, 10."""
    number, shares = _number(min(operator.index(store), _MOST)), _zeros(MAX_CUSTOMERS)
    with _words(leasts) as least, memoryview(shares) as room:
        with memoryview(_end_to_end(tuple(summaries))).cast("I") as words:
            misses = _call("split", number, least, words, room, calls=_calls_on([least, words]))
        return Split(misses, shares[: len(least)])


def one_more(log, place, extent, size):
    """What one more read can do: the misses of a cache of `size` extents that reads the log with a read of `extent` put in
    before the read at `place`, less its misses without that read. Places count from 0; the log's length is the place
    after its last read. The change is from -1 to `size` + 1. Refusals: 2, 8, 9."""
    change = ctypes.c_int64(0)
    # a place above this is past the end of every log, as this one is
    at = _number(min(operator.index(place), sys.maxsize), sys.maxsize)
    with _words(log) as reads:
        _call("one_more", reads, at, _number(extent), _number(size), ctypes.byref(change), calls=_calls_on([reads]))
    return change.value


def plan(text, log):
    """The log's summary, its parts summarized and joined as the plan's text says. Refusals: 1, 2, 3, 4, 8, 9."""
    return _written("plan", _zeros(SUMMARY_WORDS), _text(text), _words(log), work=[_zeros(WORK_WORDS)])


def listing(text):
    """The listing of a log text, as bytes: its reads, its cold reads, and for every size from 1 to its extents the
    misses. Refusals: 1, 2, 8, 9."""
    return _written("list", _zeros(LISTING_BYTES, "B"), _text(text)).tobytes()


def _name(name):
    """The number, where it is a name; any other number is refused as 0 is."""
    number = operator.index(name)
    return number if 1 <= number <= MAX_NAMES else 0


def _new_names():
    """The words of names of which none is set."""
    names = _zeros(NAMES_WORDS)
    with _writable(names) as words:
        _call("names_new", words)
    return names


class Session:
    """A log taken read by read. `words` is its whole state, an array('I'), which may be kept and copied, or set to any
    buffer of words that can be written to.

    The present session can be put under a name, a number from 1 to 8, and returned to as often as wanted. `names` has the
    words of the names, an array('I'), which may be kept, copied and set like `words`; it is None before the first naming or
    return. A deep copy or a pickle of a session has names of its own, as it has words.

    `sums_read` and `slots_looked` are those of the last read accepted here, 0 before it. The first is the number of sums
    read, 0 for a cold read. The second is the number of slots looked at, after any move of the marks: from the one below
    the next slot down to the extent's own mark, or all below the next slot for a cold read."""

    names = None

    def __init__(self):
        self.sums_read = self.slots_looked = 0
        self.words = _zeros(SESSION_WORDS)
        with _writable(self.words) as words:
            _call("session_new", words)

    @classmethod
    def resume(cls, words):
        """A session that goes on from a copy of these words, with no name set."""
        session = cls()
        with _words(words) as view:
            session.words = array("I", view.tobytes())
        return session

    def read(self, extent):
        """One more read, and its Answer. A refused read changes nothing. Refusals: 7, 8, 9."""
        sums_read, slots_looked = ctypes.c_uint32(0), ctypes.c_uint32(0)
        with _writable(self.words) as words:
            word = _call("session_read", words, _number(extent), ctypes.byref(sums_read), ctypes.byref(slots_looked))
        self.sums_read, self.slots_looked = sums_read.value, slots_looked.value
        return Answer(word)

    def summary(self):
        """The summary of the reads accepted. Refusal: 7."""
        return _written("session_summary", _zeros(SUMMARY_WORDS), _state(self.words))

    def misses(self, size):
        """The misses of a cache of `size` extents that reads the same log. Refusal: 7."""
        with _state(self.words) as words:
            return _call("session_misses", words, _number(size))

    def share(self, size):
        """The hits of such a cache divided by the reads that some size could have served, reads less cold reads, or None
        where there are none. Refusal: 7."""
        with _state(self.words) as words:
            return _share("session_share", words, _number(size))

    def _names(self):
        """The words of the names; where there are none, new ones, the same for all threads that ask at once."""
        if self.names is None:
            vars(self).setdefault("names", _new_names())
        return self.names

    def name(self, name):
        """Puts the present session under a name, in place of what was there. Refusals: 2, 7, 6."""
        number = _name(name)
        with _state(self.words) as words, _writable(self._names()) as names, _apart(words, SESSION_WORDS) as copy:
            _call("session_name", copy, names, number)

    def return_to(self, name):
        """Makes the session under a name the present one, whatever that is; no name is forgotten. Refusals: 2, 11, 7, 6."""
        number = _name(name)
        with _writable(self.words) as words, _state(self._names()) as names, _apart(names, NAMES_WORDS) as copy:
            _call("session_return", words, copy, number)


class Watch:
    """Reads, cold reads and hits of one cache size. `words` is its whole state, an array('I'), which may be set to any
    buffer of words that can be written to."""

    def __init__(self, size):
        self.words = _zeros(WATCH_WORDS)
        with _writable(self.words) as words:
            _call("watch_new", _number(size), words)

    @classmethod
    def resume(cls, words):
        """A watch that goes on from a copy of these words; the first of them is its size."""
        watch = cls(0)
        with _words(words) as view:
            watch.words = array("I", view.tobytes())
        return watch

    def read(self, answer):
        """One more read, by its Answer, or by a whole number, which is a distance and never stands for a cold read.
        Refusals: 7, 2, 8."""
        if not isinstance(answer, Answer):
            distance = operator.index(answer)
            # any other number is refused as 0 is
            answer = Answer.at(distance if 1 <= distance <= MAX_EXTENTS else 0)
        with _writable(self.words) as words:
            _call("watch_read", words, _number(answer.word))

    def misses(self):
        """The misses so far. Refusal: 7."""
        with _state(self.words) as words:
            return _call("watch_misses", words)

    def share(self):
        """The hits so far divided by the reads that some size could have served, reads less cold reads, or None where there
        are none. Refusal: 7."""
        with _state(self.words) as words:
            return _share("watch_share", words)
