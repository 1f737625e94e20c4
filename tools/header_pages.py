"""The manual pages of the library for C, section 3, made from the comments of include/mhlink.h."""
import re

import header

INTRODUCTION = "mhlink.h"


def roff(line):
    """A line for a manual page, with the characters that mean something there hidden."""
    line = line.replace("\\", r"\e").replace("-", r"\-")
    return re.sub(r"^([.'])", r"\\&\1", line)


def block(lines):
    """A paragraph: a list if its lines begin with a dash, a table if the second line is indented, and prose otherwise."""
    if any(line.startswith("- ") for line in lines):
        items = re.split(r"(?m)^- ", "\n".join(lines))
        shown = [f'.IP \\(bu 2\n{roff(" ".join(it.split()))}' for it in items[1:]]
        return "\n".join([".PP", roff(" ".join(items[0].split())), *shown])
    if re.match(r"\w+ {2,}\S", lines[0]):
        rows = re.split(r"(?m)^(?=\w+ {2,}\S)", "\n".join(lines))
        return "\n".join(f".TP\n.I {it.split()[0]}\n{roff(' '.join(it.split()[1:]))}" for it in rows if it.strip())
    return ".PP\n" + "\n".join(roff(line.strip()) for line in lines)


def page(names, about, prototypes, paragraphs, version):
    """A manual page. The paragraphs that say what is returned have a section of their own."""
    declared = "\n".join(roff(line) for it in prototypes for line in it.split("\n"))
    told = [it for it in paragraphs if re.match("Returns? ", it[0])]
    lines = [f'.TH "{names[0]}" 3 "" "mhlink {version}"', ".SH NAME", f"{roff(', '.join(names))} \\- {roff(about)}", ".SH SYNOPSIS", ".EX"]
    lines += ["#include <mhlink.h>", *(["", declared] if declared else []), ".EE", ".SH DESCRIPTION"]
    lines += [block(it) for it in paragraphs if it not in told]
    others = [".BR mhlink (1)"] if names[0] == INTRODUCTION else [".BR mhlink (1),", f".BR {INTRODUCTION} (3)"]
    lines += [".SH RETURN VALUE", *map(block, told)] if told else []
    return "\n".join([*lines, ".SH SEE ALSO", *others, ""])


def first_sentence(name, paragraphs):
    """What the entry of a function says of it first."""
    said = " ".join(" ".join(paragraphs[0]).split())
    found = re.search(rf"\b{name}(?:, mhlink_\w+)*: ([^.:]*)", said)
    return found[1] if found else said.partition(".")[0]


def pages(version):
    """Each page by the name of its file: that of the first function of a group, to which those of the others lead, and one on the
    header as a whole."""
    whole = header.introduction()
    about = re.sub(r"^mhlink\.h: ", "", " ".join(" ".join(whole[0]).split())).partition(",")[0]
    found = {f"{INTRODUCTION}.3": page([INTRODUCTION], about, [], whole, version)}
    for paragraphs, prototypes in header.entries():
        names = [re.search(r"(mhlink_\w+)\(", it)[1] for it in prototypes]
        found[f"{names[0]}.3"] = page(names, first_sentence(names[0], paragraphs), prototypes, paragraphs, version)
        found |= {f"{it}.3": f".so man3/{names[0]}.3\n" for it in names[1:]}
    return found
