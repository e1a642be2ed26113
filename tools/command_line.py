#!/usr/bin/env python3
"""The command line of refrun, for where the program isn't built: the help, the version, and what is wrong with words that are no command.

usage: tools/command_line.py [WORD ..]

The words are those of the program, as the script `refrun` passes them. What is answered ends with the program's status for these words: 0
for help and the version, 2 for a wrong command line, 4 if the answer can't be written. The status is 100, and nothing is printed, if the
words are a command, which only the program can do.

What the program takes is not written here. It is read from crates/refrun/src/commands.rt: from its constants, and from the functions that
build the command line for clap, which are called here as they stand there. What is printed is laid out as clap lays it out.
`examples/check` compares all this with the program, and `./quick` reads the functions.
"""

import difflib
import itertools
import os
import re
import sys
from pathlib import Path

sys.dont_write_bytecode = True
sys.path.insert(0, str(Path(__file__).resolve().parent))
import clap_source

SOURCE = clap_source.CRATES / "refrun" / "src" / "commands.rt"

# What the status says: the words are no command, an answer can't be written, or the words are a command.
USAGE, WRITE, IS_COMMAND = 2, 4, 100

# ---- what is printed


def usage_of(root, command):
    if command is root:
        return f"Usage: {root.name} <COMMAND>"
    return " ".join(["Usage:", root.name, command.name, "[OPTIONS]", *(it.shown() for it in command.points())])


def aligned(rows):
    width = max(len(left) for left, _ in rows)
    return [f"  {left.ljust(width)}  {right}".rstrip() for left, right in rows]


HELP_OF = "Print this message or the help of the given subcommand(s)"


def help_of(root, command):
    """The help of the program, or of a command."""
    parts = [[command.about], [usage_of(root, command)]]
    if command.subcommands:
        parts.append(["Commands:", *aligned([*((it.name, it.about) for it in command.subcommands), ("help", HELP_OF)])])
    if command.points():
        parts.append(["Arguments:", *aligned([(it.shown(), it.help) for it in command.points()])])
    rows = [(f"    {it.shown()}", it.help) for it in command.options()] + [("-h, --help", "Print help")]
    parts.append(["Options:", *aligned(rows + [("-V, --version", "Print version")] * (command.version is not None))])
    parts += [[command.after_help]] * bool(command.after_help)
    return "\n\n".join("\n".join(it) for it in parts) + "\n"


class Answer(Exception):
    """What is answered: the text on standard output or standard error, and the status."""

    def __init__(self, text, status=0):
        super().__init__(text)
        self.text, self.status = text, status


def refuse(root, command, what, near=(), kind="argument"):
    """The words are no command."""
    tip = [f"  tip: a similar {kind} exists: '{near[0]}'"] if near else []
    raise Answer("\n\n".join([f"error: {what}", *tip, usage_of(root, command), "For more information, try '--help'."]) + "\n", USAGE)


# ---- the words


def answer(root, words):
    """Answers by an Answer what needs no program. Returns the values of a command's arguments."""
    if any(re.search("[\udc80-\udcff]", it) for it in words):
        raise Answer("error: an argument is not UTF-8\n", USAGE)
    word, rest = (words[0], words[1:]) if words else ("--", [])
    names = [it.name for it in root.subcommands] + ["help"]
    if root.named(word):
        return obey(root, root.named(word), rest)
    if word == "help":
        answer_help(root, rest)
    answer_common(root, root, word)
    if word == "--" and not rest:
        refuse(root, root, f"'{root.name}' requires a subcommand but one was not provided\n  [subcommands: {', '.join(names)}]")
    if is_dashed(word):
        refuse_option(root, root, rest[0] if word == "--" else word, ["help", "version"])
    refuse(root, root, f"unrecognized subcommand '{word}'", difflib.get_close_matches(word, names, 1), "subcommand")


def answer_help(root, words):
    if words == ["help"]:
        usage = f"Usage: {root.name} help [COMMAND]..."
        raise Answer(f"{HELP_OF}\n\n{usage}\n\nArguments:\n  [COMMAND]...  Print help for the subcommand(s)\n")
    command = root
    for word in words:
        if command is not root or not root.named(word):
            refuse(root, command, f"unrecognized subcommand '{word}'")
        command = root.named(word)
    raise Answer(help_of(root, command))


def is_dashed(word):
    """Whether a word is taken for an option."""
    return word.startswith("-") and word != "-"


def refuse_option(root, command, word, longs):
    """There is no such option. It is named without its value, and of several short ones the first."""
    is_long = word.startswith("--")
    near = difflib.get_close_matches(word[2:].partition("=")[0], longs, 1) if is_long else []
    shown = word.partition("=")[0] if is_long or not is_dashed(word) else word[:2]
    refuse(root, command, f"unexpected argument '{shown}' found", [f"--{it}" for it in near])


def answer_common(root, command, word):
    """Answers an option that the program has by itself, if this word is one."""
    for short, long, text in (("-h", "--help", help_of(root, command)), ("-V", "--version", f"{root.name} {root.version}\n")):
        if long == "--version" and command is not root:
            continue
        if word == long or not word.startswith("--") and word.startswith(short):
            raise Answer(text)
        if word.startswith(long + "="):
            refuse(root, command, f"unexpected value '{word[len(long) + 1 :]}' for '{long}' found; no more were expected")


def obey(root, command, words):
    """Looks at the words behind a command. Returns the values by argument if all is well."""
    found, points, pending, is_trailing = {}, command.points(), [], False

    def judge():
        # clap looks at a value when the next argument that it knows begins
        for arg, text in pending:
            complaint = arg.value_parser.complaint(text) if arg.value_parser else None
            if complaint:
                refuse(root, command, f"invalid value '{text}' for '{arg.shown()}': {complaint}")
        pending.clear()

    def take(arg, text):
        if arg.name in found:
            refuse(root, command, f"the argument '{arg.shown()}' cannot be used multiple times")
        found[arg.name] = text
        if text is not None:
            pending.append((arg, text))

    left = list(words)
    while left:
        word = left.pop(0)
        if is_trailing or not is_dashed(word):
            if not points:
                refuse(root, command, f"unexpected argument '{word}' found")
            judge()
            take(points.pop(0), word)
        elif word == "--":
            is_trailing = True
        else:
            name, equals, text = word.partition("=")
            arg = next((it for it in command.options() if name == f"--{it.long}"), None)
            if not arg:
                if re.match(r"-h|--help(=|$)", word):
                    judge()
                    answer_common(root, command, word)
                refuse_option(root, command, word, [it.long for it in command.options()])
            judge()
            if not arg.takes_value():
                if equals:
                    refuse(root, command, f"unexpected value '{text}' for '{arg.shown()}' found; no more were expected")
                take(arg, None)
            elif equals:
                take(arg, text)
            elif left and not is_dashed(left[0]):
                take(arg, left.pop(0))
            else:
                refuse(root, command, f"a value is required for '{arg.shown()}' but none was supplied")
    judge()
    by_name = {it.name: it for it in command.args}
    for first, second in itertools.combinations([by_name[it] for it in found], 2):
        if second.name in first.conflicts_with or first.name in second.conflicts_with:
            refuse(root, command, f"the argument '{first.shown()}' cannot be used with '{second.shown()}'")
    missing = [it.shown() for it in command.args if it.required and it.name not in found]
    if missing:
        refuse(root, command, "\n  ".join(["the following required arguments were not provided:", *missing]))
    return found


# ---- the answer


def cannot_open(file):
    try:
        os.close(os.open(file, os.O_RDONLY))
    except (OSError, ValueError):
        return True
    return False


NOT_BUILT = """refrun: the program isn't built yet, so this is read from its sources; tools/build refrun builds it, in more than an hour
refrun: ./first-look COMMAND FILE runs a text within minutes, by a program of which nothing is proved
"""


def write(file, text):
    """Whether a text could be written."""
    try:
        file.write(text)
        file.flush()
    except (AttributeError, OSError, ValueError):
        return False
    return True


def main(words):
    try:
        found = answer(clap_source.command_of(SOURCE), words)
    except Answer as answered:
        is_written = write(sys.stderr if answered.status else sys.stdout, answered.text) or answered.status
        write(sys.stderr, NOT_BUILT if is_written else "refrun: write fault\n")
        return answered.status if is_written else WRITE
    except (clap_source.Unknown, OSError) as error:
        write(sys.stderr, f"error: {Path(__file__).name} doesn't know what {SOURCE.name} says: {error}\n")
        return 1
    if "names" in found and cannot_open(found["names"]):
        write(sys.stderr, f"error: the file {found['names']} cannot be opened\n")
        return USAGE
    return IS_COMMAND


if __name__ == "__main__":
    STATUS = main(sys.argv[1:])
    # what couldn't be written isn't tried again at the end
    os._exit(STATUS)
