"""Makes the manual page and the completions of `lincheck` from its --help, on standard input. For bin/release.

    lincheck --help | bin/manual.py man|bash|zsh
"""
import re
import sys

from scripts import fail, read_file, run, write

BASH = """# Completions of lincheck for bash.
_lincheck() {
    local word=${COMP_WORDS[COMP_CWORD]}
    case ${COMP_WORDS[COMP_CWORD - 1]} in
        %s) COMPREPLY=() ;;
        *)
            case $word in
                -*) mapfile -t COMPREPLY < <(compgen -W "%s" -- "$word") ;;
                *) mapfile -t COMPREPLY < <(compgen -f -- "$word") ;;
            esac
            ;;
    esac
}
complete -o filenames -F _lincheck lincheck
"""
ZSH = """#compdef lincheck
_arguments \\
%s
    '*:history:_files'
"""
OPTION = re.compile(r" {2,6}(?:-\w, )?(--\w+)( <\w+>)? +(.*)")


def options(table):
    """Each option of the table with the word for its number, if it takes one, and what is said of it."""
    found = []
    for line in table.splitlines():
        if named := OPTION.fullmatch(line):
            found.append([named[1], (named[2] or "").strip(" <>"), named[3]])
        else:
            found[-1][2] += " " + line.strip()
    return found


def plain(text):
    """A text as roff has it."""
    return re.sub(r"(?m)^([.'])", r"\\&\1", text.replace("\\", "\\e").replace("-", "\\-"))


def manual(version, first, usage, table, rest):
    """The manual page."""
    yield f'.TH LINCHECK 1 "" "{version}"'
    yield f".SH NAME\nlincheck \\- {plain(first[0].lower() + first.splitlines()[0][1:].rstrip('.'))}"
    yield f".SH SYNOPSIS\n.B {plain(usage)}\n.SH DESCRIPTION\n{plain(first)}\n.SH OPTIONS"
    for name, number, told in options(table):
        yield f".TP\n\\fB{plain(name)}\\fR {f'{chr(92)}fI{number}{chr(92)}fR' if number else ''}\n{plain(told)}"
    for part in re.split(r"\n(?=\w[^\n]*:(?: |\n))", rest):
        head, _, body = part.partition(":")
        yield f".SH {head.upper()}\n.nf\n{plain(body.strip(chr(10)))}\n.fi"


def completion(kind, table):
    """The completions for a shell."""
    found = options(table)
    if kind == "bash":
        return BASH % (" | ".join(name for name, number, _ in found if number), " ".join(name for name, _, _ in found))
    rows = (f"    '{name}[{short(told)}]{f':{number}:' if number else ''}'" for name, number, told in found)
    return ZSH % "".join(f"{row} \\\n" for row in rows).rstrip("\n")


def short(told):
    """The first few words, without what would end a description."""
    return re.sub(r"[\[\]':]", "", re.split(r"[,.:;\[]", told)[0]).strip()


def main():
    text = read_file("-").decode()
    found = re.fullmatch(r"(.*?)\n\nUsage: ([^\n]*)\n\nOptions:\n(.*?)\n\n(.*)", text, re.DOTALL)
    if not found or sys.argv[1:2] not in (["man"], ["bash"], ["zsh"]):
        fail("give --help of lincheck, and one of man, bash and zsh")
    first, usage, table, rest = found.groups()
    if sys.argv[1] == "man":
        write("\n".join(manual(" ".join(sys.argv[2:]), first, usage, table, rest.rstrip("\n"))) + "\n")
    else:
        write(completion(sys.argv[1], table))
    return 0


if __name__ == "__main__":
    run(main)
