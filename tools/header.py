"""What include/mhlink.h declares: its functions with their comments, its structs, and its constants."""
import re
from pathlib import Path

ROOT = Path(__file__).resolve().parent.parent
HEADER = ROOT / "include/mhlink.h"
PROTOTYPE = re.compile(r"(?m)^(?:uint32_t|void) (mhlink_\w+)\(([^;]*)\);")
STRUCT = re.compile(r"(?s)typedef struct (mhlink_\w+) \{\n(.*?)\n\} \1;")


def text():
    return HEADER.read_text(encoding="utf-8")


def without_comments(code):
    return re.sub(r"(?s)/\*.*?\*/", "", code)


def abi():
    """The number of the shared library that tools/build_c makes, and of the version of its symbols."""
    return int(re.search(r"(?m)^ABI = (\d+)$", (ROOT / "tools/build_c").read_text(encoding="utf-8"))[1])


def prototypes():
    """The prototype of each function on one line, by name."""
    found = {}
    for it in PROTOTYPE.finditer(without_comments(text())):
        found[it[1]] = re.sub(r"\s+", " ", it[0])
    return found


def members():
    """The names of the members of each struct, in order, by its name."""
    found = {}
    for name, body in STRUCT.findall(without_comments(text())):
        declared = [it.strip() for it in body.split(";") if it.strip()]
        found[name] = [re.search(r"(\w+)$", part.strip())[1] for it in declared for part in it.split(",")]
    return found


def constants():
    """The names of the enumerators and of the macros that are numbers, in order."""
    code = without_comments(text())
    named = re.findall(r"(MHLINK_\w+) = \d+", code)
    return [*named, *re.findall(r"(?m)^#define (MHLINK_\w+) \d+u$", code)]


def paragraphs(comment):
    """The paragraphs of a comment, each a list of lines without the indentation of the comment."""
    lines = [re.sub(r"^   ", "", line) for line in comment.strip().split("\n")]
    return [part.split("\n") for part in re.split(r"\n\s*\n", "\n".join(lines))]


def introduction():
    """The paragraphs of the comment with which the header begins."""
    return paragraphs(re.match(r"(?s)/\*(.*?)\*/", text())[1])


def entries():
    """The comment of each group of functions, as paragraphs, with the prototypes that follow it, as they are written."""
    found = []
    for it in re.finditer(r"(?s)/\*((?:(?!\*/).)*)\*/\n((?:(?:uint32_t|void) mhlink_\w+\([^;]*\);\n)+)", text()):
        found.append((paragraphs(it[1]), [one[0] for one in PROTOTYPE.finditer(it[2])]))
    return found
