"""Runs the program that was built by the lines of docs/cases/runs.md, and looks what it says, opens, writes and serves.

    python3 -m scripts.cases.program_runs --program PROGRAM [--longest SECONDS]

Each line has an empty folder of its own, which is removed afterwards, but for those that go on in the one before; four run side
by side. A line is one case, and so is each place at which a session is cut.
"""

import socket
import subprocess
import sys
import tempfile
from contextlib import ExitStack
from pathlib import Path

from scripts.cases.case_sessions import wait_until_read
from scripts.cases.program_lines import KNOWN, Bytes, page, text_of
from scripts.cases.program_serving import at_once, in_turn, one_by_one
from scripts.cases.runs import finish, lost, options, program_of, side_by_side

FULL = "/dev/full"
# Runs a program whose files can't have a byte: writing one fails, where it would end the program otherwise.
FULL_DISK = ["sh", "-c", "trap '' XFSZ; ulimit -f 0; exec \"$@\"", "sh"]
FOLDER = "(folder)"


class Different(Exception):
    """The program does something else than its line says."""


def same(what, found, wanted):
    if found != wanted:
        raise Different(f"{what} {found!r}, wanted {wanted!r}"[:800])


def write_folders(folder, indexes, bytes_of):
    """Makes the folders of indexes; gives their names."""
    names = []
    for index in filter(None, indexes.split(" + ")):
        name, *files = index.lstrip("-").split(" ")
        names.append(name)
        if index.startswith("-"):
            (folder / name).write_bytes(b"")
        for number, _, written in (file.partition("=") for file in files):
            (folder / name).mkdir(exist_ok=True)
            if written == FOLDER:
                (folder / name / number).mkdir()
            else:
                (folder / name / number).write_bytes(bytes_of.all(written))
    return names


def address_taken(stack):
    """The address of a listener."""
    listener = stack.enter_context(socket.create_server(("127.0.0.1", 0)))
    return f"127.0.0.1:{listener.getsockname()[1]}"


def told(status, opened, out, errors):
    """What a run came to, as a line writes it."""
    printed = [f" {line};" for line in out.splitlines()] + [f" ! {line};" for line in errors.splitlines()]
    return f"{status}; opens {', '.join(sorted(opened)) or 'none'};" + "".join(printed)


def opened_by(wanted):
    """The folders that a line says are opened."""
    opened = wanted.split("; ", 2)[1].rstrip(";").removeprefix("opens ")
    return [] if opened == "none" else opened.split(", ")


def ordered(wanted):
    """A line's words with the folders in the order of their names."""
    status, _, *printed = wanted.split("; ", 2)
    return f"{status}; opens {', '.join(sorted(opened_by(wanted))) or 'none'};" + "".join(f" {line}" for line in printed)


def opened_in(folder):
    """The folders of indexes that were opened."""
    return {str(lock.parent.relative_to(folder)) for lock in folder.rglob("lock")}


def of_run(program, folder, line, bytes_of):
    """Runs the program by a line."""
    _, words, text, indexes, streams, session = line.parts
    names = write_folders(folder, indexes, bytes_of)
    for name in opened_by(line.wanted):
        (folder / name).parent.mkdir(exist_ok=True)
    if text == FOLDER:
        (folder / "searchd.conf").mkdir()
    elif text != "(none)":
        (folder / "searchd.conf").write_bytes(text_of(text, names))
    sent, written = bytes_of.line(session)
    with ExitStack() as stack:
        full = stack.enter_context(open(FULL, "wb"))
        out, errors = (full if f"full {name}" in streams else subprocess.PIPE for name in ("output", "errors"))
        address = address_taken(stack) if "TAKEN" in words else "TAKEN"
        command = [program.path, *words.replace("TAKEN", address).split()]
        command = FULL_DISK + command if "full disk" in streams else command
        ran = subprocess.run(command, cwd=folder, input=sent, stdout=out, stderr=errors, timeout=program.patience())
    if session:
        same("written", (ran.stdout or b"").hex(" "), written.hex(" "))
    printed = "" if session else (ran.stdout or b"").decode()
    said = (ran.stderr or b"").decode().replace(address, "TAKEN")
    same("", told(ran.returncode, opened_in(folder), printed, said), ordered(line.wanted))


def of_cut(program, folder, line, bytes_of, sizes):
    """Sends a session in pieces of these sizes, each of which is read before the next one."""
    sent, written = bytes_of.line(line.parts[0])
    (folder / "searchd.conf").write_bytes(text_of("PLAIN", []))
    command = [program.path, "session", "--config", "searchd.conf"]
    pipes = dict.fromkeys(("stdin", "stdout", "stderr"), subprocess.PIPE)
    with subprocess.Popen(command, cwd=folder, bufsize=0, **pipes) as process:
        at = 0
        for size in sizes:
            process.stdin.write(sent[at : at + size])
            wait_until_read(process)
            at += size
        out, errors = process.communicate(sent[at:], program.patience())
    same("written", (out.hex(" "), errors, process.returncode), (written.hex(" "), b"", 0))


def of_folders(program, folder, line):
    """Looks which folders a check makes."""
    what, there, paths = line.parts
    for path in filter(None, there.split(", ")):
        (folder / path).mkdir()
    names = zip("abcd", paths.split(", "))
    text = "".join(f"index {name} {{\ntype = rt\npath = {path}\nrt_field = title\n}}\n" for name, path in names)
    (folder / "searchd.conf").write_text(text)
    with ExitStack() as stack:
        if what == "beside a session":
            command = [program.path, "session", "--config", "searchd.conf"]
            pipes = {"stdin": subprocess.PIPE, "stdout": subprocess.PIPE}
            session = stack.enter_context(subprocess.Popen(command, cwd=folder, **pipes))
            session.stdout.read(1)
        command = [program.path, "check", "--config", "searchd.conf"]
        ran = subprocess.run(command, cwd=folder, capture_output=True, timeout=program.patience())
    made = ", ".join(sorted(str(path.relative_to(folder)) for path in folder.rglob("*") if path.is_dir())) or "none"
    same("", f"{ran.returncode}; {made}", line.wanted)
    said, _, cause = ran.stderr.decode().partition("\n")
    same("", said, "searchd: host fault" if ran.returncode else "")
    same("", cause.startswith("searchd: opening the folder "), ran.returncode != 0)


def run(program, part, lines, bytes_of):
    """What is wrong with some lines, each of which goes on in the folders of the one before."""
    with tempfile.TemporaryDirectory(prefix="program_runs.") as folder:
        folder = Path(folder)
        for line in lines:
            try:
                if part.startswith("Runs"):
                    of_run(program, folder, line, bytes_of)
                elif part == "Folders":
                    of_folders(program, folder, line)
                elif part == "Serving: how many at once":
                    same("", at_once(program, folder, line), line.wanted)
                else:
                    serve = in_turn if part == "Serving: two connections at once" else one_by_one
                    same("", serve(program, folder, line, bytes_of), f"0 {line.wanted}\n")
            except Exception as why:  # whatever it is, it is told with its line
                return f"{line.place}: {line.parts[0]}: {type(why).__name__} {why}"
    return None


def run_cut(program, line, bytes_of, sizes):
    """What is wrong with a session that is cut so."""
    with tempfile.TemporaryDirectory(prefix="program_runs.") as folder:
        try:
            of_cut(program, Path(folder), line, bytes_of, sizes)
        except Exception as why:  # whatever it is, it is told with its cut
            return f"{line.place}, cut behind {sizes[:2]}: {type(why).__name__} {why}"
    return None


def joined(lines):
    """Lines, each with those behind it that go on in its folders."""
    found = []
    for line in lines:
        if line.parts[0].startswith("then "):
            found[-1].append(line)
        else:
            found.append([line])
    return found


def jobs_of(program, lines, bytes_of):
    """The calls that give what is wrong, each with how many cases it has."""
    for part, some in lines.items():
        if part != "Cuts":
            for group in joined(some):
                yield len(group), lambda part=part, group=group: run(program, part, group, bytes_of)
            continue
        for line in some:
            length = len(bytes_of.line(line.parts[0])[0])
            for sizes in [*([cut] for cut in range(1, length)), [1] * length]:
                yield 1, lambda line=line, sizes=sizes: run_cut(program, line, bytes_of, sizes)


def main():
    program = program_of(options(__doc__).parse_args())
    lines, names = page()
    jobs = list(jobs_of(program, lines, Bytes(names)))
    wrong = list(filter(None, side_by_side(lambda job: job[1](), jobs)))
    cases = sum(count for count, _ in jobs)
    return finish("program_runs", cases, wrong, lost(KNOWN, {part: len(some) for part, some in lines.items()}))


if __name__ == "__main__":
    sys.exit(main())
