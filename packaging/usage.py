"""Prints the manual page or a shell's completions, from the usage that the program itself prints.

usage.py PROGRAM manual|bash|zsh|fish
"""
import re
import subprocess
import sys
from pathlib import Path

HERE = Path(__file__).parent


def usage(program, *command):
    """What the program prints for `help`, which it ends with status 2."""
    ended = subprocess.run([program, "help", *command], capture_output=True, text=True)
    if ended.returncode != 2 or not ended.stderr:
        sys.exit(f"{program} help {' '.join(command)}: status {ended.returncode}")
    return ended.stderr


def part(text, heading):
    """The lines of a part of the usage, each as its first word or words and what is said of it."""
    found = re.search(rf"^{heading}:\n((?: .*\n?)+)", text, re.M)
    rows = found.group(1).splitlines() if found else []
    return [tuple(re.split(r"\s{2,}", row.strip(), maxsplit=1)) for row in rows]


def commands(program):
    """Each command with what it does, its words, and its options."""
    for name, does in part(usage(program), "Commands"):
        if name != "help":
            text = usage(program, name)
            words = re.search(r"^Usage: bridge_club (.*)$", text, re.M).group(1)
            options = [row for row in part(text, "Options") if "--help" not in row[0]]
            yield name, does, words, part(text, "Arguments"), options


def escaped(text):
    """A text within a manual page."""
    return text.replace("\\", "\\e").replace("-", "\\-").replace("'", "\\(aq")


def manual(program):
    lines = [(HERE / "manual_head.txt").read_text().replace("VERSION", version(program))]
    for _, does, words, arguments, options in commands(program):
        lines.append(f".SS {escaped(words)}\n{escaped(does)}.\n")
        for word, says in arguments + options:
            lines.append(f".TP\n.B {escaped(word)}\n{escaped(says)}.\n")
    lines.append((HERE / "manual_tail.txt").read_text())
    return "".join(lines)


def version(program):
    """The program's version, the second word of what `version` prints."""
    said = subprocess.run([program, "version"], capture_output=True, text=True, check=True).stdout
    return said.split()[1].rstrip(",")


def bash(program):
    cases, names = [], []
    for name, _, _, _, options in commands(program):
        names.append(name)
        flags = " ".join(option.split()[0] for option, _ in options)
        cases.append(f'        {name}) words="{flags} --help" ;;\n')
    return f"""_bridge_club() {{
    local words="{' '.join(names)} help"
    [ "$COMP_CWORD" -eq 1 ] || case ${{COMP_WORDS[1]}} in
{''.join(cases)}        *) words= ;;
    esac
    mapfile -t COMPREPLY < <(compgen -W "$words" -- "${{COMP_WORDS[COMP_CWORD]}}")
    [ "$COMP_CWORD" -eq 1 ] || mapfile -t -O "${{#COMPREPLY[@]}}" COMPREPLY < <(compgen -f -- "${{COMP_WORDS[COMP_CWORD]}}")
}}
complete -o filenames -F _bridge_club bridge_club
"""


def zsh(program):
    names, cases = [], []
    for name, does, _, _, options in commands(program):
        names.append(f"        '{name}:{does.replace(chr(39), '')}'\n")
        flags = "".join(f" '{option.split()[0]}[{says}]{':word:' if ' ' in option else ''}'" for option, says in options)
        cases.append(f"        {name}) _arguments{flags} '*:file:_files' ;;\n")
    return f"""#compdef bridge_club
local -a commands
if (( CURRENT == 2 )); then
    commands=(
{''.join(names)}    )
    _describe command commands
else
    local command=$words[2]
    shift words
    (( CURRENT-- ))
    case $command in
{''.join(cases)}    esac
fi
"""


def fish(program):
    lines = []
    for name, does, _, _, options in commands(program):
        said = does.replace("'", "\\'")
        lines.append(f"complete -c bridge_club -n __fish_use_subcommand -a {name} -d '{said}'\n")
        for option, says in options:
            flag, *word = option.split()
            needs = " -r" if word else ""
            lines.append(f"complete -c bridge_club -n '__fish_seen_subcommand_from {name}' -l {flag[2:]}{needs} -d '{says}'\n")
    return "".join(lines)


if __name__ == "__main__":
    sys.stdout.write({"manual": manual, "bash": bash, "zsh": zsh, "fish": fish}[sys.argv[2]](sys.argv[1]))
