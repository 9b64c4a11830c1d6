"""long_input.py BYTES NAME COMMAND..: so many bytes, of zeros and then of random ones, through a program.

Counts the answers of one that answers requests, and their codes; looks at the listing of the one that is named `tally`. Measures
the peak of the program's memory, which must not be larger than after ten million bytes but for a margin. Where the program runs
under an emulator, the memory is that of both.
"""
import collections
import os
import random
import subprocess
import sys
import tempfile
import threading
import time

REQUEST, ANSWER, CODE_AT = 104, 176, 5
SEED = 6
PIECE = 1 << 20
SHORT = 10_000_000
MARGIN = 4096  # kB: an emulator goes on translating code that it meets late
PIPE = 1 << 16

NAME, COMMAND = sys.argv[2], sys.argv[3:]


def zeros():
    piece = bytes(PIECE)
    while True:
        yield piece


def random_bytes():
    rng = random.Random(SEED)
    while True:
        yield rng.randbytes(PIECE)


def feed(pieces, count, file):
    """Writes so many bytes, and leaves the pipe open. If the program ends before that, its answers are too few."""
    while count > 0:
        view = memoryview(next(pieces))[:count]
        count -= len(view)
        while view:
            try:
                view = view[os.write(file, view):]
            except BrokenPipeError:
                return


def take(file, count, codes, at):
    """Takes so many bytes of answers, or all to their end, adds the codes among them, and says how many bytes there were."""
    taken = 0
    while taken < count:
        piece = os.read(file, min(PIPE, count - taken))
        if not piece:
            break
        codes.update(piece[(CODE_AT - at - taken) % ANSWER::ANSWER])
        taken += len(piece)
    return taken


def peak_memory(process):
    with open(f'/proc/{process.pid}/status') as status:
        for line in status:
            if line.startswith('VmHWM:'):
                return int(line.split()[1])
    return 0


def answered(process, feeder, count):
    """Whether the answers are right in number, what there is to say of them, and the peak of memory when all that is due has come,
    and the program waits for more."""
    codes = collections.Counter()
    taken = take(process.stdout.fileno(), count // REQUEST * ANSWER, codes, 0)
    memory = peak_memory(process)
    feeder.join(timeout=60)
    process.stdin.close()
    taken += take(process.stdout.fileno(), 1 << 62, codes, taken)
    due = -(-count // REQUEST)
    right = taken == due * ANSWER and codes[1] == (1 if count % REQUEST else 0)
    said = ', '.join(f'{code}: {codes[code]}' for code in sorted(codes))
    return right, f'{taken / ANSWER:.10g} answers, {due} due; codes {said}', memory


def tallied(process, feeder, count):
    """The same of a listing, which comes at the end: the memory is looked at when all but what a pipe holds is read."""
    feeder.join()
    memory = peak_memory(process)
    process.stdin.close()
    listing = process.stdout.read().decode().splitlines()
    due = [f'records\t{count // ANSWER}', f'left over\t{count % ANSWER}']
    return all(line in listing for line in due), f'{len(listing)} lines, and due are {due}', memory


def through(name, pieces, count):
    """Gives whether what is written is right, and the peak of memory in kB."""
    began = time.monotonic()
    errors = tempfile.TemporaryFile()
    process = subprocess.Popen(COMMAND, stdin=subprocess.PIPE, stdout=subprocess.PIPE, stderr=errors, bufsize=0)
    feeder = threading.Thread(target=feed, args=(pieces, count, process.stdin.fileno()), daemon=True)
    feeder.start()
    right, said, memory = (tallied if NAME == 'tally' else answered)(process, feeder, count)
    status = process.wait()
    right = right and status == 0
    print(f'{count} bytes, {name}: {said}; status {status}; peak memory {memory} kB; {time.monotonic() - began:.0f} s; '
          f'{"ok" if right else "WRONG"}', flush=True)
    if not right:
        errors.seek(0)
        print(errors.read().decode(), end='')
    return right, memory


def main():
    count, wrong = int(sys.argv[1]), False
    for name, pieces in (('zeros', zeros), ('random', random_bytes)):
        short_right, short = through(name, pieces(), min(SHORT, count))
        long_right, memory = through(name, pieces(), count)
        bounded = memory <= short + MARGIN
        if not bounded:
            print(f'{name}: WRONG: the memory grew by {memory - short} kB')
        wrong = wrong or not (short_right and long_right and bounded)
    return 1 if wrong else 0


if __name__ == '__main__':
    sys.exit(main())
