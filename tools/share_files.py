"""The manual page and the completions of the program for bash, zsh and fish, made from its help."""
import re

MADE = "tools/check_share --write writes it from what the program says with `help`"
WRAPPER = """The script
.B mhlink
at the top of the repository runs the program that was proved from its sources, or makes an unproved build of them."""


def roff(text):
    """Text for a manual page, with the characters that mean something there hidden."""
    text = text.replace("\\", r"\e").replace("-", r"\-")
    return re.sub(r"(?m)^([.'])", r"\\&\1", text)


def bold_options(option):
    """An option's head: its words, and its value in italics."""
    words = ", ".join(rf"\fB{roff(word)}\fR" for word in option.words)
    return words + (rf" \fI{option.value}\fR" if option.value else "")


def paragraph(text):
    """A paragraph of the help: an indented block behind a line that ends with a colon is shown as it stands."""
    head, _, rest = text.partition("\n")
    if head.endswith(":") and rest:
        shown = "\n".join(roff(line.strip()) for line in rest.split("\n"))
        return f".PP\n{roff(head)}\n.PP\n.RS 4\n.EX\n{shown}\n.EE\n.RE"
    return f".PP\n{roff(text)}"


def section(it):
    """The part of the manual page that is a command's."""
    lines = [f".SS {it.name}", roff(it.about) + "."]
    for option in it.options:
        lines += [".TP", bold_options(option), roff(option.says)]
    return "\n".join([*lines, *map(paragraph, it.paragraphs)])


def manual(whole, commands, version):
    """The page mhlink(1)."""
    about = whole.about.replace("\n", " ")
    parts = [f'.\\" {MADE}.', f'.TH MHLINK 1 "" "{version}" "User Commands"', ".SH NAME", rf"mhlink \- {roff(about)}"]
    parts += [".SH SYNOPSIS", r".B mhlink", r"\fICOMMAND\fR [\fIOPTION\fR]...", ".SH DESCRIPTION"]
    tail = {"EXAMPLES": [], "EXIT STATUS": []}
    for it in whole.paragraphs:
        kind = "EXAMPLES" if it.startswith("Example") else "EXIT STATUS" if it.startswith("Status") else None
        (tail[kind] if kind else parts).append(paragraph(it).removeprefix(".PP\nExamples:\n"))
    parts += [".SH OPTIONS"]
    for option in whole.options:
        parts += [".TP", bold_options(option), roff(option.says)]
    parts += [".SH COMMANDS", *map(section, commands)]
    for head, lines in tail.items():
        parts += [f".SH {head}", *lines]
    parts += [".PP", WRAPPER, "It ends with status 70 where there is no program to run."]
    parts += [".SH ENVIRONMENT", ".TP", r"\fBMHLINK\fR", "With the value", r".B proved", "the script runs the proved program or none."]
    return "\n".join(parts) + "\n"


def words_of(it):
    """The words of all options of a help."""
    return [word for option in it.options for word in option.words]


def bash(whole, commands, _version):
    names = [name for name, _ in whole.commands]
    cases = []
    for it in commands:
        for option in it.options:
            if option.values():
                cases.append(f"    {it.name}:{option.words[-1]}) words='{' '.join(option.values())}' ;;")
        cases.append(f"    {it.name}:*) words='{' '.join(names if it.name == 'help' else words_of(it))}' ;;")
    return BASH.format(made=MADE, cases="\n".join(cases), top=" ".join([*names, *words_of(whole)]))


BASH = """# Completion of mhlink for bash.
# {made}.
_mhlink() {{
    local word=${{COMP_WORDS[COMP_CWORD]}} before=${{COMP_WORDS[COMP_CWORD - 1]}} command='' words it
    # (the sign of `--option=value` is a word of its own)
    if [[ $word == = ]]; then
        word=''
    elif [[ $before == = ]]; then
        before=${{COMP_WORDS[COMP_CWORD - 2]}}
    fi
    # (with no word offered, bash completes names of files)
    if [[ $before == *[\\<\\>] ]]; then
        COMPREPLY=()
        return
    fi
    for it in "${{COMP_WORDS[@]:1:COMP_CWORD-1}}"; do
        if [[ $it != -* ]]; then
            command=$it
            break
        fi
    done
    case $command:$before in
{cases}
    :*) words='{top}' ;;
    *) words='' ;;
    esac
    COMPREPLY=($(compgen -W "$words" -- "$word"))
}}
complete -o default -F _mhlink mhlink
"""


def quoted(text):
    """Text in single quotes, as zsh and fish read it."""
    return text.replace("\n", " ").replace("'", "")


def zsh_option(option):
    """A line of `_arguments` for an option."""
    says = re.sub(r"([\[\]:])", r"\\\1", quoted(option.says))
    if not option.value:
        heads = "{" + ",".join(option.words) + "}" if len(option.words) > 1 else option.words[0]
        return f"'(- *)'{heads}'[{says}]'" if len(option.words) > 1 else f"'{heads}[{says}]'"
    return f"'{option.words[-1]}=[{says}]:{option.value}:({' '.join(option.values())})'"


def zsh(whole, commands, _version):
    cases = []
    for it in commands:
        lines = ["_describe -t commands command commands"]
        if it.name != "help":
            lines = [" \\\n                ".join(["_arguments", *map(zsh_option, it.options)])]
        cases += [f"        {it.name})", f"            {lines[0]}", "            ;;"]
    said = [f"        '{name}:{quoted(says)}'" for name, says in whole.commands]
    top = " \\\n        ".join(["_arguments -C", *map(zsh_option, whole.options), "'1:command:->command' '*::argument:->argument'"])
    return ZSH.format(made=MADE, top=top, commands="\n".join(said), cases="\n".join(cases))


ZSH = """#compdef mhlink
# Completion of mhlink for zsh.
# {made}.
_mhlink() {{
    local context state state_descr line
    local -a commands
    typeset -A opt_args
    commands=(
{commands}
    )
    {top} && return
    case $state in
    command) _describe -t commands command commands ;;
    argument)
        case $words[1] in
{cases}
        esac
        ;;
    esac
}}
_mhlink "$@"
"""


def fish_line(where, option):
    words = " ".join(f"-l {word[2:]}" if word.startswith("--") else f"-s {word[1:]}" for word in option.words)
    value = f" -x -a '{' '.join(option.values())}'" if option.value else ""
    return f"complete -c mhlink -n '{where}' {words}{value} -d '{quoted(option.says)}'"


def fish(whole, commands, _version):
    lines = ["# Completion of mhlink for fish.", f"# {MADE}.", "complete -c mhlink -f"]
    for name, says in whole.commands:
        lines.append(f"complete -c mhlink -n __fish_use_subcommand -a {name} -d '{quoted(says)}'")
    lines += [fish_line("__fish_use_subcommand", option) for option in whole.options]
    names = " ".join(name for name, _ in whole.commands)
    for it in commands:
        if it.name == "help":
            lines.append(f"complete -c mhlink -n '__fish_seen_subcommand_from help' -a '{names}'")
        else:
            where = f"__fish_seen_subcommand_from {it.name}; and not __fish_seen_subcommand_from help"
            lines += [fish_line(where, option) for option in it.options]
    return "\n".join(lines) + "\n"


FILES = {
    "share/man/man1/mhlink.1": manual,
    "share/bash-completion/completions/mhlink": bash,
    "share/zsh/site-functions/_mhlink": zsh,
    "share/fish/vendor_completions.d/mhlink.fish": fish,
}
