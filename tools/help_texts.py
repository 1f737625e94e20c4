"""What the program says of itself: `mhlink help` and `mhlink help COMMAND` as objects, for tools that write or check by them."""
import re, subprocess
from dataclasses import dataclass, field
from pathlib import Path

ROOT = Path(__file__).resolve().parent.parent


@dataclass
class Option:
    """An option: its words (`-h`, `--help`), the name of its value or None, and what it does."""

    words: list
    value: str
    says: str

    def ends(self):
        """The least and the greatest value, where the help gives them."""
        ends = re.search(r"(\d+) to (\d+)", self.says) if self.value else None
        return list(ends.groups()) if ends else []

    def values(self):
        """Values to be offered: the least, the greatest, and powers of 2 or of 10 between them."""
        if not self.ends():
            return []
        least, most = map(int, self.ends())
        base = 2 if most <= 100 else 10
        between = [base**power for power in range(40) if least < base**power < most]
        return [str(it) for it in (least, *between, most)]


@dataclass
class Help:
    """The help of the program (named by the empty name) or of a command."""

    name: str
    about: str
    usage: str
    options: list
    commands: list = field(default_factory=list)
    paragraphs: list = field(default_factory=list)


def said(*words):
    """What the program writes for these words."""
    ran = subprocess.run([ROOT / "mhlink", *words], stdin=subprocess.DEVNULL, stdout=subprocess.PIPE, check=True)
    return ran.stdout.decode()


def listed(lines):
    """The words and the text of each line of a list, where a line that begins with two words of blank space goes on."""
    rows = []
    for line in lines:
        found = re.fullmatch(r" {2,6}(\S.*?)(?: {2,}(\S.*))?", line)
        if found:
            rows.append([found[1], found[2] or ""])
        else:
            rows[-1][1] = f"{rows[-1][1]} {line.strip()}".strip()
    return rows


def option(head, says):
    """The option of a line `-w, --word <VALUE>`."""
    value = re.search(r"<(\w+)>", head)
    return Option(re.findall(r"--?[\w-]+", head), value and value[1], says)


def parsed(name, text):
    """The help that a text is."""
    about, *parts = [part for part in re.split(r"\n\n+", text.strip("\n"))]
    it = Help(name, about, "", [])
    for part in parts:
        head, _, rest = part.partition("\n")
        if head.startswith("Usage: "):
            it.usage = head.removeprefix("Usage: ")
        elif head == "Commands:":
            it.commands = listed(rest.split("\n"))
        elif head == "Options:":
            it.options = [option(*row) for row in listed(rest.split("\n"))]
        elif head != "Arguments:":
            it.paragraphs.append(part)
    return it


def helps():
    """The help of the program, and of each of its commands in their order."""
    whole = parsed("", said("help"))
    return whole, [parsed(name, said("help", name)) for name, _ in whole.commands]
