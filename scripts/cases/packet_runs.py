"""Sends the program what clients send byte by byte, and compares what it writes.

    python3 -m scripts.cases.packet_runs --program PROGRAM [--longest SECONDS]

The cases and what is wanted stand in docs/cases/packets.md: responses to the greeting, a line that is cut at each of its
bytes, headers and what stands behind them, the bytes of result sets and the numbers of their packets, and clients of one
listener. Each runs over new indexes in an empty folder (`case_sessions`), four side by side; the clients of a listener
(`listeners`) come one case after the other.
"""

import sys
from itertools import accumulate

from scripts.cases import listeners
from scripts.cases.case_pages import USUAL_CONFIGURATION, Line, Page, text, written_out
from scripts.cases.case_sessions import Bytes, Wrong, conversed, run_line, run_script, taken, told_by_case, whole_packet
from scripts.cases.replies import split
from scripts.cases.runs import finish, lost, options, program_of, side_by_side

KNOWN = {"docs/cases/packets.md": 110}
OK_PAYLOAD = bytes(3) + b"\x02" + bytes(3)
PING, PONG, ACCEPTED = whole_packet(0, b"\x0e"), whole_packet(1, OK_PAYLOAD), whole_packet(2, OK_PAYLOAD)


class Packets(Page):
    """What is read of the page. Beside its scripts and lines: the responses, each with its place, its payload and where it is
    bad, none of one that is good; and the packets of the line that is cut, each with what is written to it."""

    def __init__(self):
        self.responses, self.parts = [], []
        super().__init__("packets")
        self.greeting = split(Bytes(written_out(self.lines[0].written)).take)[2]
        self.lines += [self.line_of(*response) for response in self.responses]

    def take_cases(self, some):
        others = []
        for block in some:
            if block.columns == ("from", "response"):
                self.responses += [(place, code(row[1]), None) for place, row in block.rows]
            elif block.columns == ("response", "bad at"):
                self.responses += [(place, code(row[0]), int(row[1])) for place, row in block.rows]
            elif block.columns == ("sent in two", "written at once"):
                self.parts += [(place, code(row[0]), code(row[1])) for place, row in block.rows]
            else:
                others.append(block)
        super().take_cases(others)

    def line_of(self, place, payload, bad):
        """The line of a response, with a COM_PING behind it."""
        sent, written = whole_packet(1, payload) + PING, ACCEPTED + PONG
        if bad is not None:
            written = whole_packet(2, b"\xff" + (1043).to_bytes(2, "little") + b"#08S01bad handshake at %d" % bad)
        return Line(place, spelled(sent), "end" if bad is None else "bad", spelled(self.greeting + written), False)


def code(cell):
    """The bytes that a cell spells."""
    return written_out(text(cell))


def spelled(data):
    """Bytes as a page spells them."""
    return f"⟨{data.hex(' ')}⟩"


def run_cut(program, page, cut):
    """What is wrong with the line of packets whose first bytes come by themselves."""
    sent = b"".join(packet for _, packet, _ in page.parts)
    ends = accumulate(len(packet) for _, packet, _ in page.parts)
    due = page.greeting + b"".join(reply for (_, _, reply), end in zip(page.parts, ends) if end <= cut)

    def talk(process):
        process.stdin.write(sent[:cut])
        written = taken(process.stdout.read, len(due))
        process.stdin.write(sent[cut:])
        process.stdin.close()
        return written + process.stdout.read()

    found = conversed(program, page.configurations[USUAL_CONFIGURATION], talk)
    whole = page.greeting + b"".join(reply for _, _, reply in page.parts)
    wanted = f"{whole.hex(' ')}, status 0 "
    place = page.parts[0][0]
    return [] if found == wanted else [Wrong(place, f"{place}, {cut}", f"the first {cut} bytes, then the rest", found, wanted)]


def jobs_of(page, program):
    """The cases of each run, and the call that gives what is wrong."""
    usual = page.configurations[USUAL_CONFIGURATION]
    for script in page.scripts:
        yield {step.case for step in script.steps}, lambda script=script: run_script(program, script)
    for line in page.lines:
        yield {line.place}, lambda line=line: run_line(program, usual, line, 0)
    for cut in range(sum(len(packet) for _, packet, _ in page.parts) + 1):
        yield {f"{page.parts[0][0]}, {cut}"}, lambda cut=cut: run_cut(program, page, cut)


def main():
    program, page = program_of(options(__doc__).parse_args()), Packets()
    jobs = list(jobs_of(page, program))
    wrong = [some for found in side_by_side(lambda job: job[1](), jobs) for some in found]
    wrong += [some for case in listeners.CASES for some in listeners.run(program, page, case)]
    cases = sum(len(places) for places, _ in jobs) + len(listeners.CASES)
    return finish("packet_runs", cases, told_by_case(wrong), lost(KNOWN, {page.path: cases}))


if __name__ == "__main__":
    sys.exit(main())
