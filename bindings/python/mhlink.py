"""A runtime for dynamic calls in the style of java.lang.invoke, and a planner for inline caches, over libmhlink.

One file over ctypes, without dependencies. The functions of libmhlink are proved to meet their contracts; this module is only
tested. mhlink.h and docs/ of the repository describe the library.

    from mhlink import Machine

    definition = {"version": 2, "points": [], "sites": [
        {"name": "negate", "type": "(int)int", "target": ["op", "ineg"], "links": []}]}
    with Machine(definition) as machine:
        print(machine.call(machine.site("negate"), 7).value)  # -7

The library is libmhlink.so.0 where the loader finds it, or the file that the environment variable MHLINK_LIBRARY names.
"""

from __future__ import annotations

import ctypes
import enum
import json
import os
from collections.abc import Iterable, Sequence
from ctypes import POINTER, byref, c_char_p, c_int64, c_size_t, c_uint32, c_uint64, c_void_p
from dataclasses import dataclass
from typing import Any, NamedTuple, Union

__all__ = ["Link", "Machine", "MhlinkError", "OldHits", "Reply", "Selection", "Thrown", "Usage", "explain", "plan"]

Value = Union[int, bool, str]
"""An argument or a result. A site's type says whether a number is an int or a long."""


class Kind(enum.IntEnum):
    """The kind of a value."""

    INT = 1
    LONG = 2
    BOOLEAN = 3
    STRING = 4
    THROWN = 5


class Thrown(enum.IntEnum):
    """The exception that a call threw."""

    ARITHMETIC_EXCEPTION = 1
    TEXT_TOO_LONG = 2


class OldHits(enum.IntEnum):
    """The part of the flushed hits that a renewal keeps."""

    KEEP = 0
    HALVE = 1
    DROP = 2


class Form(enum.IntEnum):
    """The forms of texts that `explain` reads."""

    DEFINITION = 0
    SCRIPT = 1
    PROBLEM = 2
    PROBLEM_WITH_PLAN = 3


class Reply(NamedTuple):
    """The outcome of a call: a value, or the exception that it threw, and the number of nodes evaluated."""

    value: Value | Thrown
    steps: int


class Usage(NamedTuple):
    """The usage of a history. It holds at most 1,024 snapshots and 1,024 plans."""

    records: int
    snapshots: int
    plans: int


@dataclass(frozen=True)
class Link:
    """A link of a problem: its gain, the points that it needs, ascending, and a cost of its own."""

    gain: int
    needs: Sequence[int] = ()
    charge: int = 0
    eligible: bool = True


class Selection(NamedTuple):
    """An optimal selection of links, ascending, and its value: gains less charges and the costs of the points needed."""

    links: list[int]
    value: int


class MhlinkError(Exception):
    """A status of the library other than 0. `status` is the number in mhlink.h, and `part` what the status leaves open."""

    def __init__(self, status: int, part: int = 0) -> None:
        super().__init__(f"{_text_of(status, part)} (status {status})")
        self.status = status
        self.part = part


class _Machine(ctypes.Structure):
    _fields_ = [("at", c_void_p)]


class _Limits(ctypes.Structure):
    _fields_ = [("history", c_uint64), ("ledger", c_uint64), ("total", c_uint64)]


class _Usage(ctypes.Structure):
    _fields_ = [("records", c_uint64), ("snapshots", c_uint64), ("plans", c_uint64)]


class _Value(ctypes.Structure):
    _fields_ = [("kind", c_uint32), ("number", c_int64)]


class _Reply(ctypes.Structure):
    _fields_ = [("kind", c_uint32), ("number", c_int64), ("steps", c_uint64)]


class _Link(ctypes.Structure):
    _fields_ = [("gain", c_uint64), ("charge", c_uint64), ("first", c_size_t), ("count", c_size_t), ("eligible", c_uint32)]


_KINDS = {
    "machine": POINTER(_Machine), "limits": POINTER(_Limits), "values": POINTER(_Value), "reply": POINTER(_Reply),
    "usage": POINTER(_Usage), "links": POINTER(_Link), "bytes": c_char_p, "buffer": POINTER(ctypes.c_uint8), "size": c_size_t,
    "size*": POINTER(c_size_t), "u32": c_uint32, "u32*": POINTER(c_uint32), "u64": c_uint64, "u64*": POINTER(c_uint64),
    "i64*": POINTER(c_int64),
}
_PARAMETERS = {
    "fault_text": "u32 u64 buffer size size*",
    "explain": "u32 bytes size buffer size size*",
    "open": "bytes size u32 limits machine u64*",
    "site": "machine bytes size u64*",
    "point": "machine bytes size u64*",
    "link": "machine size values bytes size u64*",
    "call": "machine u32 size values size bytes size reply",
    "text": "machine buffer size size*",
    "flush": "machine u32",
    "target": "machine size bytes size u64*",
    "invalidate": "machine u32* size",
    "snapshot": "machine u64*",
    "plan": "machine size u64*",
    "offer": "machine size bytes size u64* u64*",
    "install": "machine size u64* u64*",
    "certificate": "machine size buffer size size*",
    "used": "machine usage",
    "renew": "machine u32* size u32",
    "extend": "machine bytes size u64*",
    "hits": "machine u32 size u64*",
    "total": "machine size u64*",
    "linked": "machine size u64*",
    "detail": "machine u32 size size u64*",
    "tree_text": "machine size buffer size size*",
    "report": "machine buffer size size*",
    "plan_problem": "u64* size links size u32* size u32* size size* i64*",
}
_SHORT = 302
_SITE_PARAMETERS, _SITE_PARAMETER, _SITE_KEY = 8, 9, 6


def _load() -> dict[str, Any]:
    library = ctypes.CDLL(os.environ.get("MHLINK_LIBRARY", "libmhlink.so.0"))
    calls = {}
    for name, words in _PARAMETERS.items():
        call = getattr(library, f"mhlink_{name}")
        call.argtypes, call.restype = [_KINDS[word] for word in words.split()], c_uint32
        calls[name] = call
    calls["close"] = library.mhlink_close
    calls["close"].argtypes, calls["close"].restype = [_Machine], None
    return calls


_calls: dict[str, Any] = {}


def _status(name: str, *words: Any) -> int:
    if not _calls:
        _calls.update(_load())
    return _calls[name](*words)


def _check(name: str, *words: Any) -> None:
    if status := _status(name, *words):
        raise MhlinkError(status)


def _check_part(name: str, *words: Any) -> None:
    """Calls a function whose last parameter is the part of its status."""
    part = c_uint64()
    if status := _status(name, *words, byref(part)):
        raise MhlinkError(status, part.value)


def _copied(name: str, *words: Any) -> str:
    """Returns a text that a function copies into a buffer: asks for its length first."""
    length = c_size_t()
    status = _status(name, *words, None, 0, byref(length))
    if status not in (0, _SHORT):
        raise MhlinkError(status)
    buffer = (ctypes.c_uint8 * length.value)()
    _check(name, *words, buffer, length.value, byref(length))
    return bytes(buffer[: length.value]).decode("ascii")


def _text_of(status: int, part: int) -> str:
    try:
        return _copied("fault_text", status, part)
    except MhlinkError:
        return "an unknown status"


def _json(text: Any) -> bytes:
    return text.encode() if isinstance(text, str) else json.dumps(text).encode()


def _numbers(numbers: Iterable[int]) -> Any:
    listed = list(numbers)
    return (c_uint32 * len(listed))(*listed)


def _value(kind: Kind, value: Value) -> tuple[_Value, bytes]:
    """Returns a value of a kind as the library takes it, and its bytes."""
    if kind is Kind.STRING and isinstance(value, str):
        text = value.encode()
        return _Value(kind, len(text)), text
    if kind is Kind.BOOLEAN and isinstance(value, bool):
        return _Value(kind, value), b""
    if kind in (Kind.INT, Kind.LONG) and isinstance(value, int) and not isinstance(value, bool):
        if not -(2**63) <= value < 2**63:
            raise OverflowError(f"{value} has more than 64 bits")
        return _Value(kind, value), b""
    raise TypeError(f"expected a value of kind {kind.name}, found {value!r}")


def explain(form: Form, text: Any) -> str:
    """Returns why a text cannot be read as one of the forms, or an empty text if it can be read."""
    given = _json(text)
    return _copied("explain", form, given, len(given))


def plan(costs: Sequence[int], links: Sequence[Link]) -> Selection:
    """Computes an optimal selection of links; among optimal selections, the one with the fewest links, which is unique.

    `costs` has the cost of each point, which is charged once however many of the selected links need the point.
    """
    rows, needs = (_Link * len(links))(), []
    for row, link in zip(rows, links):
        row.gain, row.charge, row.eligible = link.gain, link.charge, link.eligible
        row.first, row.count = len(needs), len(link.needs)
        needs.extend(link.needs)
    selected, count, value = (c_uint32 * len(links))(), c_size_t(), c_int64()
    given = (c_uint64 * len(costs))(*costs)
    needed = _numbers(needs)
    _check("plan_problem", given, len(costs), rows, len(links), needed, len(needs), selected, len(links), byref(count), byref(value))
    return Selection(list(selected[: count.value]), value.value)


class Machine:
    """A runtime for one thread at a time: call sites with their trees, counts of hits, and plans.

    Sites, points and links are named by their numbers, from 0; snapshots and plans by theirs, from 1. A call that raises
    MhlinkError changes nothing.
    """

    def __init__(self, definition: Any, workers: int = 1, *, history: int = 1 << 20, ledger: int = 1 << 20, total: int = 1 << 40) -> None:
        """Opens a machine for a definition, as JSON or as the value that json.dumps writes, with 1 to 64 workers.

        `history` is the most records, `ledger` the most unflushed hits of a link by a worker, and `total` the most flushed ones.
        """
        self._machine = _Machine()
        self._kinds: dict[int, list[Kind]] = {}
        text = _json(definition)
        _check_part("open", text, len(text), workers, byref(_Limits(history, ledger, total)), byref(self._machine))

    def __enter__(self) -> Machine:
        return self

    def __exit__(self, *_: object) -> None:
        self.close()

    def __del__(self) -> None:
        self.close()

    def close(self) -> None:
        """Frees the machine. It may be closed twice; every other method of a closed machine raises ValueError."""
        if self._machine.at:
            machine, self._machine = self._machine, _Machine()
            _calls["close"](machine)

    @property
    def _at(self) -> Any:
        if not self._machine.at:
            raise ValueError("the machine is closed")
        return byref(self._machine)

    def _number(self, name: str, *words: Any) -> int:
        number = c_uint64()
        _check(name, self._at, *words, byref(number))
        return number.value

    def _detail(self, detail: int, number: int, place: int = 0) -> int:
        return self._number("detail", detail, number, place)

    def site(self, name: str) -> int:
        """Returns the number of the site with this name."""
        return self._number("site", name.encode(), len(name.encode()))

    def point(self, name: str) -> int:
        """Returns the number of the point with this name."""
        return self._number("point", name.encode(), len(name.encode()))

    def kinds(self, site: int) -> list[Kind]:
        """Returns the kinds of the parameters of a site."""
        if site not in self._kinds:
            count = self._detail(_SITE_PARAMETERS, site)
            self._kinds[site] = [Kind(self._detail(_SITE_PARAMETER, site, it)) for it in range(count)]
        return self._kinds[site]

    def link(self, site: int, key: Value) -> int:
        """Returns the number of the link of a site with this key."""
        value, text = _value(self.kinds(site)[self._detail(_SITE_KEY, site)], key)
        return self._number("link", site, byref(value), text, len(text))

    def call(self, site: int, *arguments: Value, worker: int = 0) -> Reply:
        """Calls a site as a worker, and counts the hit of its link."""
        kinds = self.kinds(site)
        if len(arguments) != len(kinds):
            raise TypeError(f"expected {len(kinds)} arguments, found {len(arguments)}")
        given = [_value(kind, it) for kind, it in zip(kinds, arguments)]
        values, texts = (_Value * len(given))(*(it for it, _ in given)), b"".join(it for _, it in given)
        reply = _Reply()
        _check("call", self._at, worker, site, values, len(given), texts, len(texts), byref(reply))
        return Reply(self._result(reply), reply.steps)

    def _result(self, reply: _Reply) -> Value | Thrown:
        if reply.kind == Kind.STRING:
            return _copied("text", self._at)
        if reply.kind == Kind.THROWN:
            return Thrown(reply.number)
        return bool(reply.number) if reply.kind == Kind.BOOLEAN else reply.number

    def flush(self, worker: int = 0) -> None:
        """Adds the unflushed hits of a worker to the totals."""
        _check("flush", self._at, worker)

    def target(self, site: int, tree: Any) -> None:
        """Replaces the tree of a site (MutableCallSite.setTarget)."""
        text = _json(tree)
        _check_part("target", self._at, site, text, len(text))

    def invalidate(self, points: Iterable[int]) -> None:
        """Invalidates points together and for good (SwitchPoint.invalidateAll)."""
        numbers = _numbers(points)
        _check("invalidate", self._at, numbers, len(numbers))

    def snapshot(self) -> int:
        """Takes a snapshot of the totals, and returns its number."""
        return self._number("snapshot")

    def plan(self, snapshot: int) -> int:
        """Computes the optimal plan for a snapshot, publishes it and returns its number."""
        return self._number("plan", snapshot)

    def offer(self, snapshot: int, given: Any) -> int:
        """Publishes a plan of the caller for a snapshot if the checker accepts it, and returns its number."""
        text, number = _json(given), c_uint64()
        _check_part("offer", self._at, snapshot, text, len(text), byref(number))
        return number.value

    def install(self, number: int) -> int:
        """Installs the newest plan, and returns the number of sites at which it installs links."""
        linked = c_uint64()
        _check_part("install", self._at, number, byref(linked))
        return linked.value

    def certificate(self, snapshot: int) -> Any:
        """Returns the optimal plan for a snapshot, with the flow that proves it optimal."""
        return json.loads(_copied("certificate", self._at, snapshot))

    def used(self) -> Usage:
        """Returns the usage of the history."""
        used = _Usage()
        _check("used", self._at, byref(used))
        return Usage(used.records, used.snapshots, used.plans)

    def renew(self, again: Iterable[int] = (), hits: OldHits = OldHits.KEEP) -> None:
        """Starts a new history, in which the points `again` are valid. Calls return what they returned before."""
        numbers = _numbers(again)
        _check("renew", self._at, numbers, len(numbers), hits)

    def extend(self, added: Any) -> None:
        """Appends points and sites, and starts a new history."""
        text = _json(added)
        _check_part("extend", self._at, text, len(text))

    def hits(self, link: int, worker: int = 0) -> int:
        """Returns the unflushed hits of a link by a worker."""
        return self._number("hits", worker, link)

    def total(self, link: int) -> int:
        """Returns the flushed hits of a link."""
        return self._number("total", link)

    def linked(self, site: int) -> int:
        """Returns the number of links installed at a site."""
        return self._number("linked", site)

    def tree(self, site: int) -> Any:
        """Returns the current tree of a site, in the form of a definition."""
        return json.loads(_copied("tree_text", self._at, site))

    def report(self) -> list[str]:
        """Returns a line for each point, site and link, as `mhlink run --report` prints them."""
        return _copied("report", self._at).splitlines()
