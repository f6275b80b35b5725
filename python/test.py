"""Holds python/turrethog.py to the header and to the stored questions: python/test calls it with QUESTIONS ANSWERS.

Each question is put to the module and its answer written as the program `ask` writes it; lines that are no questions
(answered `?`) are passed over. Every message that is read has its segments and leaves held to find. Prints how often
each was asked; ends with 1 at the first difference, and where a verb was never asked.
"""

import dataclasses
import doctest
import inspect
import os
import re
import sys
from typing import Dict, List, Optional

import turrethog as t

STATES = ["absent", "empty", "null", "present"]
STOPS = ["more", "frame", "drop", "-"]
# Messages of up to so many bytes have all their leaves and segments asked for.
LONGEST_LISTED = 4096


def fail(said: str) -> None:
    print("Python differs: " + said)
    sys.exit(1)


# ---- the module beside the header


def of_header() -> str:
    here = os.path.dirname(os.path.abspath(__file__))
    with open(os.path.join(here, "..", "include", "turrethog.h"), encoding="ascii") as header:
        return re.sub(r"/\*.*?\*/", "", header.read(), flags=re.DOTALL)


def same_constants(header: str) -> None:
    """Every macro and every number of the header, but for NOT_SENT, which is None here."""
    found = dict(re.findall(r"^#define TURRETHOG_(\w+) (\S+) *$", header, re.MULTILINE))
    found = {name: value.strip('"') for name, value in found.items() if name != "NOT_SENT"}
    found.update(re.findall(r"^\s+TURRETHOG_(\w+) = (\d+)", header, re.MULTILINE))
    mine = {name: str(value) for name, value in vars(t).items() if name.isupper() and not name.startswith("_")}
    if len(found) < 40 or found != mine:
        fail("constants: %s" % sorted(set(found.items()) ^ set(mine.items())))


def class_of(struct: str) -> str:
    return "".join(word.capitalize() for word in struct.split("_"))


def same_structs(header: str) -> None:
    """Every struct of the header is a class with its fields, and is laid out as the header has it."""
    kinds = {"uint32_t": "c_uint", "uint64_t": "c_ulong", "size_t": "c_ulong", "int64_t": "c_long", "bool": "c_bool"}
    structs = re.findall(r"typedef struct \{(.*?)\} turrethog_(\w+);", header, re.DOTALL)
    if len(structs) != 12:
        fail("the header has %d structs" % len(structs))
    for body, name in structs:
        fields = re.findall(r"(\w+) (\w+);", body)
        shown = [field.name for field in dataclasses.fields(getattr(t, class_of(name)))]
        if shown != [field for _, field in fields]:
            fail("class %s has the fields %s" % (class_of(name), shown))
        laid = vars(t).get("_" + class_of(name)) or vars(t)["_" + class_of(name.replace("_answer", ""))]
        wanted = [(field, kinds.get(kind, "_" + class_of(kind.replace("turrethog_", "")))) for kind, field in fields]
        if [(field, kind.__name__) for field, kind in laid._fields_] != wanted:
            fail("class _%s is laid out otherwise" % class_of(name))


def same_functions(header: str) -> None:
    """Every function of the header is one of the module, with a docstring and a type for all that it takes and gives."""
    names = set(re.findall(r"^(?:static inline )?[\w ]+?[ *]turrethog_(\w+)\(", header, re.MULTILINE))
    mine = {name for name, f in vars(t).items() if inspect.isfunction(f) and not name.startswith("_") and name != "dataclass"}
    if len(names) < 20 or names != mine:
        fail("functions: %s" % sorted(names ^ mine))
    for name in names:
        function = getattr(t, name)
        signature = inspect.signature(function)
        typed = [p.annotation for p in signature.parameters.values()] + [signature.return_annotation]
        if not function.__doc__ or inspect.Signature.empty in typed:
            fail("%s has no docstring, or not all types" % name)


def same_words(header: str) -> None:
    numbers = dict(re.findall(r"^\s+(TURRETHOG_\w+) = (\d+)", header, re.MULTILINE))
    words = {int(numbers[name]): said for name, said in re.findall(r'case (\w+): return "(.*)";', header)}
    if len(words) < 30 or any(t.words(n) != words.get(n, "") for n in range(1000)) or t.words(2**32 + 1) or t.words(-1):
        fail("the words are others")


def same_limits() -> None:
    mine = (t.version(), t.message_limit(), t.segment_limit(), t.id_limit())
    if mine != (t.VERSION_NUMBER, t.MESSAGE_LIMIT, t.SEGMENT_LIMIT, t.ID_LIMIT):
        fail("the limits of the library are %s" % (mine,))


def readme_holds() -> None:
    """What the README shows of Python is what it says."""
    here = os.path.dirname(os.path.abspath(__file__))
    os.chdir(os.path.join(here, ".."))
    with open("README.md", encoding="utf-8") as file:
        shown = doctest.DocTestParser().get_doctest(file.read(), {}, "README.md", "README.md", 0)
    held = doctest.DocTestRunner().run(shown)
    if held.failed or not held.attempted:
        fail("%d of the README's %d lines" % (held.failed, held.attempted))


def refuses() -> None:
    """What is no question is refused by Python: a str, a number that ctypes would cut, a buffer that cannot be written to."""
    wrong = [
        (TypeError, lambda: t.read("MSH")),  # type: ignore[arg-type]
        (TypeError, lambda: t.escape(b"|^~\\&", b"a", b"bbb")),  # type: ignore[arg-type]
        (ValueError, lambda: t.find(b"MSH", 2**64, 1)),
        (ValueError, lambda: t.segment(b"MSH", -1)),
        (ValueError, lambda: t.escape(b"|^~", b"a")),
        (ValueError, lambda: t.feed(t.FrameState(0, 2**64, 0), b"", bytearray(1))),
    ]
    for kind, call in wrong:
        try:
            call()
        except kind:
            continue
        fail("a call is not refused with %s" % kind.__name__)


# ---- an answer as the program prints it


def hex_of(some: bytes) -> str:
    return bytes(some).hex() or "-"


def bytes_of(word: str) -> bytes:
    return b"" if word == "-" else bytes.fromhex(word)


def state_of(answer: object) -> str:
    return "-" if answer.number else STATES[answer.state]  # type: ignore[attr-defined]


def say_time(time: t.Time) -> str:
    d, c, o = time.date, time.clock, time.offset
    figures = [d.year, d.month, d.day, c.hour, c.minute, c.second, c.fraction, None if c.fraction is None else c.digits]
    said = ["-" if figure is None else str(figure) for figure in figures]
    sign = {t.NO_OFFSET: "", t.PLUS: "+", t.MINUS: "-"}[o.sign]
    said.append("%s%02d%02d" % (sign, o.hours, o.minutes) if sign else "-")
    return " ".join([str(time.number), str(time.place), state_of(time)] + said)


def say_names(message: bytes, count: int) -> str:
    names = [t.could_stand(message, i) for i in range(count)]
    if t.could_stand(message, count) or t.could_stand(message, 2**64 - 1):
        return "a name past the last"
    return ",".join(names) or "-"


def look_up(verb: str, words: List[str]) -> str:
    message, address = bytes_of(words[0]), [int(word) for word in words[1:]]
    if verb == "find":
        e = t.find(message, *address)
        return "%d %d %s %d %d" % (e.number, e.place, state_of(e), e.start, e.end)
    if verb in ("nm", "si"):
        n = getattr(t, verb)(message, *address)
        said = "%d %d %s %d" % (n.number, n.place, state_of(n), n.value)
        return said + " %d" % n.decimals if verb == "nm" else said
    return say_time(getattr(t, verb)(message, *address))


def parts_agree(message: bytes, read: t.Answer) -> bool:
    """The segments and the leaves of a message are what find says of it."""
    count, leaves = t.segments(message), t.leaves(message)
    if (count.number, count.place) != (read.number, read.place) or (leaves.number, leaves.place) != (read.number, read.place):
        return False
    if read.number:
        return count.length == 0 and leaves.leaves == [] and t.segment(message, 0).number == read.number
    parts = [t.segment(message, i) for i in range(count.length)]
    if [message[s.start : s.end] for s in parts] != message.split(b"\r")[:-1] or t.segment(message, count.length).number != t.ADDRESS:
        return False
    if any(s.number or s.name.encode() != message[s.start : s.start + 3] for s in parts) or leaves.length != len(leaves.leaves):
        return False
    addresses = [dataclasses.astuple(leaf)[:5] for leaf in leaves.leaves]
    # A leaf for each separator, but for those of MSH-1 and MSH-2, which are six bytes and two leaves.
    separators = sum(message.count(message[i : i + 1], 8) for i in (3, 4, 5, 7))
    if len(set(addresses)) != 2 + separators or addresses != sorted(addresses):
        return False
    for leaf in leaves.leaves:
        e = t.find(message, leaf.segment, leaf.field, leaf.repetition, leaf.component, leaf.subcomponent)
        if (e.number, e.state, e.start, e.end) != (0, leaf.state, leaf.start, leaf.end):
            return False
    return True


def judge(verb: str, words: List[str]) -> str:
    message = bytes_of(words[0])
    if verb == "read":
        r = t.read(message)
        agree = len(message) > LONGEST_LISTED or parts_agree(message, r)
        return "%d %d" % (r.number, r.place) + ("" if agree else " and its parts are others")
    if verb == "structure":
        s = t.structure(message)
        return "%d %d %s %s" % (s.number, s.place, "yes" if s.could_end else "no", say_names(message, s.names))
    v = t.verdict(message)
    end = "yes" if v.could_end else "no"
    return "%d %d %d %d %s %s" % (v.number, v.place, v.field, v.repetition, end, say_names(message, v.names))


def write(verb: str, words: List[str]) -> str:
    first, second, room = bytes_of(words[0]), bytes_of(words[1]), int(words[-1])
    buffer = bytearray(b"\xa5" * room)
    if verb == "ack":
        asked = (first, second, bytes_of(words[2]))
        w, own = t.acknowledge(*asked, buffer), t.acknowledge(*asked)
    else:
        function = getattr(t, verb)
        w, own = function(second, first, buffer), function(second, first)
    if w.written != buffer[: w.length] or (w.number not in (t.NO_ROOM, t.ACKNOWLEDGEMENT_TOO_LONG) and own != w) or own.number == t.NO_ROOM:
        return "and without a buffer it is another"
    return "%d %d %d %s" % (w.number, w.place, w.length, hex_of(buffer))


def take_piece(words: List[str]) -> str:
    state, buffer = t.FrameState(*(int(word) for word in words[:3])), bytearray(b"\xa5" * int(words[4]))
    f = t.feed(state, bytes_of(words[3]), buffer)
    s = f.state
    return "%d %d %s %d %d %d %d %s" % (f.number, f.used, STOPS[f.stop], f.length, s.mode, s.held, s.count, hex_of(buffer))


def take_line(words: List[str]) -> str:
    state, buffer, events = t.FrameState(), bytearray(b"\xa5" * int(words[0])), []
    for word in words[1:]:
        piece = bytes_of(word)
        while True:
            fed = t.feed(state, piece, buffer)
            state, piece = fed.state, piece[fed.used :]
            if fed.stop == t.MORE:
                break
            events.append(str(fed.number) if fed.stop == t.DROP else "f" + hex_of(buffer[: fed.length]))
    return "%s %d %d %d %s" % (",".join(events) or "-", state.mode, state.held, state.count, hex_of(buffer))


LOOKUPS = ("find", "nm", "si", "dt", "tm", "ts")
JUDGES = ("read", "structure", "verdict")
WRITERS = ("escape", "unescape", "format", "ack")


def ask(verb: str, words: List[str]) -> Optional[str]:
    if verb in LOOKUPS:
        return look_up(verb, words)
    if verb in JUDGES:
        return judge(verb, words)
    if verb in WRITERS:
        return write(verb, words)
    return {"frame": take_piece, "frames": take_line}[verb](words) if verb in ("frame", "frames") else None


def lines_of(name: str) -> List[str]:
    """The last line may be ended by the end of the file alone."""
    with open(name, encoding="ascii", errors="replace", newline="\n") as file:
        lines = file.read().split("\n")
    return lines if lines[-1] else lines[:-1]


def main(questions: str, answers: str) -> None:
    header = of_header()
    for held in (same_constants, same_structs, same_functions, same_words):
        held(header)
    same_limits()
    refuses()
    readme_holds()
    asked: Dict[str, int] = dict.fromkeys((*JUDGES, *LOOKUPS, *WRITERS, "frame", "frames"), 0)
    put, expected = lines_of(questions), lines_of(answers)
    if len(put) != len(expected):
        fail("%s and %s do not belong together" % (questions, answers))
    for line, answer in zip(put, expected):
        if answer == "?":
            continue
        verb, *words = line.split(" ")
        said = ask(verb, words)
        if said != answer:
            fail("%s\n  expected: %s\n  said:     %s" % (line[:400], answer[:400], said and said[:400]))
        asked[verb] += 1
    print(", ".join("%s %d" % each for each in asked.items()) + ", all as stored")
    if 0 in asked.values():
        sys.exit(1)


if __name__ == "__main__":
    main(sys.argv[1], sys.argv[2])
