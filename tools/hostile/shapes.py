"""Large inputs of several shapes, which are made while they are read, and what the program does with one of them."""

import os
import subprocess

MEGABYTE = 1 << 20
# The megabytes that the program may have in use beside three times its input.
SPARE = 64
NULL = b'{"id":%d,"t":0,"op":"null","to":%d}\n'


def lines_until(size, line_of):
    """Pieces of so many bytes in all."""
    left, number = size, 0
    while left > 0:
        piece = b"".join(line_of(number + at) for at in range(10_000))[:left]
        number += 10_000
        left -= len(piece)
        yield piece


def whole_lines(size, line_of):
    """Lines of so many bytes at most."""
    number = 0
    while size > 0:
        lines = []
        for at in range(number, number + 10_000):
            line = line_of(at)
            size -= len(line)
            if size < 0:
                break
            lines.append(line)
        number += 10_000
        yield b"".join(lines)


def shapes(size):
    """Names each large input, with its pieces and the first line that `replay` writes for it."""
    operations = 1_000_000
    yield "one line", lines_until(size, lambda _: b"x" * 100), b"fault line 1 LineTooLong"
    yield "empty lines", lines_until(size, lambda _: b"\n"), b"total 0 ops"
    yield "blank lines", lines_until(size, lambda _: b" \t\r\n"), b"total 0 ops"
    yield "brackets", lines_until(size, lambda _: b"[" * 4_000 + b"\n"), b"fault line 1 NotJson"
    yield "bytes of nothing", lines_until(size, lambda _: b"\0" * 64 + b"\n"), b"fault line 1 NotJson"
    yield "a text without an end", lines_until(size, lambda _: b'"' + b"\\" * 3_001 + b"\n"), b"fault line 1 NotJson"
    full = size > 33 * operations + 10 * MEGABYTE
    first = b"fault line 1000001 TooMany" if full else b"1 null done"
    yield "one operation after another", whole_lines(size, lambda at: NULL % (at + 1, at % 1_000_000)), first
    yield "one operation again and again", lines_until(size, lambda _: NULL % (1, 0)), b"fault line 2 IdTaken"


def feed(sink, pieces):
    """Writes the pieces, as long as somebody reads them."""
    try:
        for piece in pieces:
            sink.write(piece)
        sink.close()
    except BrokenPipeError:
        pass


def large_input(tally, program, words, name, pieces, first, size):
    """Gives the program a large input: its first line, its status and the memory that it had in use are judged.

    Only of a fault is it known what a command other than `replay` writes."""
    with subprocess.Popen([program, *words], stdin=subprocess.PIPE, stdout=subprocess.PIPE) as run:
        feed(run.stdin, pieces)
        line = run.stdout.readline()
        while run.stdout.read(MEGABYTE):
            pass
        _, ended, used = os.wait4(run.pid, 0)
        run.returncode = os.waitstatus_to_exitcode(ended)
    resident, seconds, megabytes = used.ru_maxrss / 1024, used.ru_utime + used.ru_stime, size / MEGABYTE
    is_fault = first.startswith(b"fault")
    is_due = line.startswith(first) and run.returncode == (1 if is_fault else 0)
    if not is_fault and words != ["replay"]:
        is_due = run.returncode in (0, 1)
    print(f"{' '.join(words)}, {name}: {megabytes:.0f} MB, {resident:.0f} MB in use, {seconds:.2f} s of a processor, status {run.returncode}", flush=True)
    tally.judge(f"{' '.join(words)}, {name}", is_due and resident <= 3 * megabytes + SPARE)
