#!/usr/bin/env python3
"""Runs the commands of Markdown files as a reader pastes them. Usage: tools/paste.py FILE..

A command is a line of a block fenced as `sh`, or of an indented block whose first word is one of PROGRAMS or a path under one of
FOLDERS; a line that ends with a backslash goes on in the next. Each runs in a shell of its own in the repository's root. A
block fenced as `text` directly behind a block of commands is what the last of them prints. A line on standard output tells of each
command `ok`, `failed`, `other output`, `as before` (the same command was ok) or `skipped` (the gate itself, SKIPPED), and its
seconds; what a command that is not ok wrote goes to standard error. The exit status is 0 only where every file has a command, and
none failed or had other output."""
import os, re, subprocess, sys, time

ROOT = os.path.join(os.path.dirname(os.path.abspath(__file__)), "..")
PROGRAMS = ("rt", "cargo", "cc", "c++", "bash", "sh", "python3", "pkg-config", "printf")
FOLDERS = ("target/", "tests/", "tools/")
SKIPPED = ("bash .ci/run",)


def language_of(line):
    """What an indented block is, told by its first line."""
    word = line.split()[0]
    return "sh" if word in PROGRAMS or word.startswith(FOLDERS) else ""


def fenced(lines, i):
    """The fenced block that begins at a line: its language, its lines, and the place behind it."""
    indent, language = re.match(r"( *)```(.*)", lines[i]).groups()
    end = i + 1
    while end < len(lines) and lines[end].strip() != "```":
        end += 1
    return language, [line[len(indent):] for line in lines[i + 1:end]], end + 1


def indented(lines, i):
    """The indented block that begins at a line, likewise."""
    end = i
    while end < len(lines) and lines[end].startswith("    "):
        end += 1
    body = [line.strip() for line in lines[i:end]]
    return language_of(body[0]), body, end


def blocks(lines):
    """The blocks of a text: language, lines, and the language of the block directly before, with only blank lines between."""
    i, before = 0, ""
    while i < len(lines):
        line = lines[i]
        if line.lstrip().startswith("```"):
            language, body, i = fenced(lines, i)
        elif line.startswith("    ") and (i == 0 or not lines[i - 1].strip()):
            language, body, i = indented(lines, i)
        else:
            before = "" if line.strip() else before
            i += 1
            continue
        yield language, body, before
        before = language


def commands(body):
    """The commands of a block: lines put together where they go on, without blank ones and comments."""
    joined = "\n".join(body).replace("\\\n", " ").split("\n")
    return [line.strip() for line in joined if line.strip() and not line.strip().startswith("#")]


def runs(lines):
    """The commands of a text, each with what it must print, None where that is not shown."""
    found = []
    for language, body, before in blocks(lines):
        if language == "sh":
            found += [[command, None] for command in commands(body)]
        elif language == "text" and before == "sh" and found:
            found[-1][1] = "".join(line + "\n" for line in body)
    return found


def run(command, shown):
    """Runs one command; what came of it."""
    done = subprocess.run(["bash", "-e", "-o", "pipefail", "-c", command], cwd=ROOT, stdin=subprocess.DEVNULL, capture_output=True)
    if done.returncode == 0 and shown in (None, done.stdout.decode(errors="replace")):
        return "ok"
    sys.stderr.write((done.stdout + done.stderr).decode(errors="replace")[-4000:])
    return "failed" if done.returncode else "other output"


def answer(command, shown, well):
    """What is told of a command, by those that were ok before it, to which it is added."""
    if command.split(" #")[0].strip() in SKIPPED:
        return "skipped"
    if (command, shown) in well:
        return "as before"
    told = run(command, shown)
    if told == "ok":
        well.update([(command, None), (command, shown)])
    return told


def paste(path, well):
    """Runs the commands of a file; whether it has some, and none failed or had other output."""
    with open(path, encoding="utf-8") as file:
        found = runs(file.read().split("\n"))
    if not found:
        print(f"{path}: no command")
    wrong = 0
    for command, shown in found:
        start = time.monotonic()
        told = answer(command, shown, well)
        wrong += told in ("failed", "other output")
        print(f"{path}: {told}, {time.monotonic() - start:.1f} s: {command}", flush=True)
    return found and not wrong


if len(sys.argv) < 2:
    sys.exit(__doc__)
well = set()
sys.exit(0 if all([paste(path, well) for path in sys.argv[1:]]) else 1)
