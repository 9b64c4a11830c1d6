"""program_faults.py KIND NAME PRELOAD COMMAND..: faults of files and pipes, for a program that answers requests or tallies answers.

KIND is `proved` or `host`: a proved program has no status and says nothing when all went well; the C program ends with 1 when
a read or a write failed, and prints its tally when none did. NAME is what it calls itself, and `tally` is the one that tallies.
PRELOAD is VARIABLE=LIBRARY, which makes it run with the library of tests/lib/interrupted.c, which has variables of its own. The
variable CLOSED_PIPE has the words that start the program of tests/lib/closed_pipe.c in the same way. Prints a line for each case,
and ends with 1 if any is wrong.
"""
import fcntl
import os
import random
import re
import resource
import signal
import socket
import struct
import subprocess
import sys
import tempfile
import threading
import time

REQUEST, ANSWER = 104, 176
LIMIT = 60  # seconds, after which a program that hangs is ended
SEED = 6
NINE_USED = {1: 3, 2: 6, 3: 4, 4: 9, 5: 3, 6: 6, 7: 3, 8: 6}
THREE_USED = {7: 2, 8: 3}
TALLY = re.compile(r'(code \d  .+  \d+\n){9}')

KIND, NAME, PRELOAD = sys.argv[1:4]
COMMAND = sys.argv[4:]


class Wrong(Exception):
    """What is wrong with a case."""


def expect(condition, message):
    if not condition:
        raise Wrong(message)


# ---- a run of the program

class Run:
    """The program at work; `said` is its standard error once it has ended. A case has one at a time."""

    last = None

    def __init__(self, stdin=subprocess.PIPE, stdout=subprocess.PIPE, closed=(), environment=None, signals_kept=True,
                 file_size=None):
        def prepare():
            if file_size is not None:
                resource.setrlimit(resource.RLIMIT_FSIZE, (file_size, file_size))
            for file in closed:
                os.close(file)

        self.errors = tempfile.TemporaryFile()
        # Python ignores SIGPIPE and SIGXFSZ, and so does what it starts unless they are restored
        self.process = subprocess.Popen(COMMAND, stdin=stdin, stdout=stdout, stderr=self.errors, bufsize=0,
                                        env={**os.environ, **(environment or {})}, preexec_fn=prepare,
                                        restore_signals=not signals_kept)
        self.timer = threading.Timer(LIMIT, self.process.kill)
        self.timer.daemon = True
        self.timer.start()
        self.feeder = None
        Run.last = self

    def feed(self, chunks, pause=lambda: 0):
        """Writes the chunks beside what else goes on, and closes the pipe."""
        def work():
            try:
                for chunk in chunks:
                    write_all(self.process.stdin.fileno(), chunk)
                    time.sleep(pause())
            except BrokenPipeError:
                pass  # the program has ended, as it may after a write that failed
            self.process.stdin.close()

        self.feeder = threading.Thread(target=work)
        self.feeder.start()

    def take(self, length=None, most=lambda: 1 << 16):
        """So many bytes of the answers, or all to their end."""
        taken = bytearray()
        while length is None or len(taken) < length:
            piece = os.read(self.process.stdout.fileno(), min(most(), (length or 1 << 30) - len(taken)))
            if not piece:
                break
            taken += piece
        return bytes(taken)

    def end(self):
        """Waits for the end, and gives the status."""
        status = self.process.wait()
        hung = not self.timer.is_alive()
        self.timer.cancel()
        if self.feeder:
            self.feeder.join()
        for pipe in (self.process.stdin, self.process.stdout):
            if pipe:
                pipe.close()
        self.errors.seek(0)
        self.said = self.errors.read().decode()
        self.errors.close()
        expect(not hung, f'did not end in {LIMIT} s')
        return status

    def end_well(self):
        status = self.end()
        expect(status == 0, f'status {status}, and said {self.said!r}')
        expect(TALLY.fullmatch(self.said) if KIND == 'host' else self.said == '', f'said {self.said!r}')

    def end_failed(self, what, gone=None):
        """It said in one line that it could not read or write, and, if it is one that says so, how many answers are among the so
        many bytes that it wrote. Gives that number."""
        status = self.end()
        line = re.fullmatch(rf'{NAME}: cannot {what}{WORK.told}\n', self.said)
        expect(line, f'said {self.said!r} where it could not {what}')
        expect(status == (1 if KIND == 'host' else 0), f'status {status}')
        if not line.groups():
            return 0
        expect(gone is None or gone // ANSWER == int(line[1]), f'said {self.said!r} where {gone} bytes were written')
        return int(line[1])


def write_all(file, piece):
    while piece:
        piece = piece[os.write(file, piece):]


def same(got, expected):
    expect(got == expected, f'{len(got)} bytes that differ from the {len(expected)} that are due')


def file_with(content):
    file = tempfile.TemporaryFile()
    file.write(content)
    file.seek(0)
    return file


def written_for(content, **settings):
    """What the program writes where a file has this content."""
    with file_with(content) as file:
        run = Run(stdin=file, **settings)
        written = run.take()
        run.end_well()
    return written


# ---- the two sorts of program

RECORDS, REST = 300, 50


class Answering:
    """Answers requests, each as soon as it is there, and tells how many answers went out when something fails."""

    size = REQUEST
    told = r': (\d+) answers written'

    def __init__(self):
        rng = random.Random(SEED)
        whole = b''.join(self.request(rng, event) for event in range(RECORDS + 1))
        self.data = whole[:RECORDS * REQUEST + REST]
        self.answers = b''

    @staticmethod
    def request(rng, event):
        """One of any kind with numbers that may be answered, and of every eighth one byte changed to any other."""
        kind = rng.randint(1, 8)
        nine, three = ([rng.uniform(-2, 2) for _ in range(used.get(kind, 0))] for used in (NINE_USED, THREE_USED))
        nine, three = nine + [0.0] * (9 - len(nine)), three + [0.0] * (3 - len(three))
        r = bytearray(struct.pack('<IB3x9d3d', event, kind, *nine, *three))
        if event % 8 == 0:
            r[rng.randrange(REQUEST)] = rng.randrange(256)
        return bytes(r)

    def look_at_whole(self):
        """What the other cases are held against."""
        answers = written_for(self.data)
        expect(len(answers) == (RECORDS + 1) * ANSWER, f'{len(answers)} bytes of answers to {RECORDS} requests and a part')
        for i in range(RECORDS):
            head = answers[ANSWER * i:ANSWER * i + 5]
            expect(head == self.data[REQUEST * i:REQUEST * i + 5], f'answer {i} has another number or kind')
        expect(answers[-ANSWER:] == bytes([0, 0, 0, 0, 0, 1]) + bytes(ANSWER - 6), 'the part has not the answer of code 1')
        self.answers = answers

    def due(self, length):
        """What is written in all where the input is the first so many bytes of the data."""
        return self.answers[:-(-length // REQUEST) * ANSWER]

    def due_before_the_end(self, records):
        """What of it is written once so many records are there."""
        return self.answers[:records * ANSWER]

    def due_of_whole(self, times):
        """The same for the whole records of the data, so many times."""
        return times * self.answers[:RECORDS * ANSWER]

    def sizes(self):
        """Sizes of a file that end within an answer, or behind whole ones. The answers to whole requests are one write, and that
        to a last part is another."""
        for whole in (10, RECORDS - 1):
            yield from (whole * ANSWER, whole * ANSWER + REST, whole * ANSWER + ANSWER - 1)


class Tallying:
    """Lists what a file of answers has, once it is read to its end."""

    size = ANSWER
    told = ''
    # in the order of the listing's columns
    codes = (0, 1, 3, 4, 5, 6, 7, 9)

    def __init__(self):
        rng = random.Random(SEED)
        self.data = b''.join(self.answer(rng, event) for event in range(RECORDS)) + bytes(REST)

    def answer(self, rng, event):
        """One of any kind and code with a mark and some rotations, and of every eighth one byte of these changed to any other."""
        kind, code = rng.randint(0, 9), rng.choice((0, 0) + self.codes)
        a = bytearray(struct.pack('<IBBBB', event, kind, code, rng.randint(0, 25), rng.randint(0, 1)))
        if event % 8 == 0:
            a[rng.randrange(4, 8)] = rng.randrange(256)
        return bytes(a) + rng.randbytes(ANSWER - len(a))

    @staticmethod
    def named(listing):
        """The numbers of each line of the first part, by its name."""
        lines = [line.split('\t') for line in listing.decode().splitlines()]
        return {name: [int(field) for field in fields] for name, *fields in lines[1:lines.index(['turns', 'kind 2', 'kind 4'])]}

    def look_at_whole(self):
        numbers = self.named(written_for(self.data))
        [records], [foreign], codes = numbers['records'], numbers['foreign'], numbers['total'][:len(self.codes)]
        expect(records == RECORDS == foreign + sum(codes), f'{records} records, {foreign} foreign, codes {codes}')
        expect(numbers['left over'] == [REST], f'{numbers["left over"]} bytes left over')

    def due(self, length):
        return written_for(self.data[:length])

    def due_before_the_end(self, records):
        return b''

    def due_of_whole(self, times):
        return written_for(times * self.data[:RECORDS * ANSWER])

    def sizes(self):
        """Standard error is a file here too, and has room for a line."""
        whole = len(self.due(len(self.data)))
        return (REST, whole // 2, whole - 1)


WORK = Tallying() if NAME == 'tally' else Answering()
DATA, SIZE = WORK.data, WORK.size


# ---- cases: input in pieces

def whole_file():
    WORK.look_at_whole()


def empty():
    same(written_for(b''), b'')


def empty_listing():
    numbers = WORK.named(written_for(b''))
    expect(not any(map(any, numbers.values())), f'counted in an empty file: {numbers}')


def chunked(data, sizes):
    while data:
        size = sizes()
        yield data[:size]
        data = data[size:]


def short_reads():
    rng = random.Random(SEED)
    run = Run()
    run.feed(chunked(DATA, lambda: rng.randint(1, 300)), pause=lambda: rng.choice([0, 0, 0.001]))
    written = run.take()
    run.end_well()
    same(written, WORK.due(len(DATA)))


def single_bytes():
    run = Run()
    run.feed(chunked(DATA[:3 * SIZE], lambda: 1), pause=lambda: 0.001)
    written = run.take()
    run.end_well()
    same(written, WORK.due(3 * SIZE))


def preloaded(**variables):
    """The environment in which reads and writes are those of the library."""
    variable, library = PRELOAD.split('=')
    return {variable: library, **variables}


def one_byte_reads():
    """More than 30,000 reads: a program that counts its rounds, and gives up after some thousands, shows it."""
    same(written_for(DATA, environment=preloaded(READ_AT_MOST='1')), WORK.due(len(DATA)))


def million_requests():
    """The same requests over and over, most of no kind, so that they take little time: a program that counts its answers, and
    gives up after a million, shows it."""
    few = b''.join(struct.pack('<I100x', event) for event in range(1000)) + DATA[:20 * REQUEST]
    due = 2 * written_for(few)
    times = 1_100_000 * REQUEST // len(few)
    run = Run()
    run.feed([few] * times)
    taken = 0
    while piece := run.take(1 << 16):
        at = taken % (len(due) // 2)
        expect(piece == due[at:at + len(piece)], f'wrong in the {len(piece)} bytes of answers behind the first {taken}')
        taken += len(piece)
    run.end_well()
    expect(taken == times * len(due) // 2, f'{taken} bytes of answers, and {times * len(due) // 2} are due')


def million_answers():
    """The same answers over and over: a program that gives up after a million shows it."""
    few = DATA[:RECORDS * SIZE]
    times = 1_100_000 // RECORDS
    run = Run()
    run.feed([few] * times)
    numbers = WORK.named(run.take())
    run.end_well()
    for name, counts in WORK.named(written_for(few)).items():
        due = [times * n for n in counts]
        expect(numbers[name] == due, f'{name}: {numbers[name]}, and {due} are due')


def served():
    """Each answer comes before the next request is given; then the same with half of the next one there already."""
    run = Run()
    given = 0
    for ahead in (0, SIZE // 2):
        for i in range(10):
            upto = SIZE * (i + 1) + (ahead if i < 9 else 0)
            write_all(run.process.stdin.fileno(), DATA[given:upto])
            take_due(run, i, i + 1)
            given = upto
        given = 0
    run.feed([])
    same(run.take(), b'')
    run.end_well()


def take_due(run, records, more):
    """Takes what is due when more records are there than were."""
    before, after = (WORK.due_before_the_end(n) for n in (records, more))
    same(run.take(len(after) - len(before)), after[len(before):])


# ---- cases: slow readers, signals

def narrow_pipe():
    rng = random.Random(SEED)
    run = Run()
    fcntl.fcntl(run.process.stdout, fcntl.F_SETPIPE_SZ, 4096)
    run.feed([DATA])
    written = run.take(most=lambda: rng.randint(1, 500))
    run.end_well()
    same(written, WORK.due(len(DATA)))


def one_byte_writes():
    """For answers more than 60,000 writes for what one read brought: a program that gives up after some thousands shows it."""
    same(written_for(4 * DATA[:RECORDS * SIZE], environment=preloaded(WRITE_AT_MOST='1')), WORK.due_of_whole(4))


def interrupted():
    for start in range(1, 9):
        run = Run(environment=preloaded(INTERRUPTED=str(start)))
        run.feed([DATA])
        written = run.take()
        run.end_well()
        same(written, WORK.due(len(DATA)))


def stopped():
    run = Run()
    for i in range(5):
        run.process.send_signal(signal.SIGSTOP)
        write_all(run.process.stdin.fileno(), DATA[SIZE * i:SIZE * (i + 1)])
        time.sleep(0.02)
        run.process.send_signal(signal.SIGCONT)
        take_due(run, i, i + 1)
    run.feed([])
    written = run.take()
    run.end_well()
    same(WORK.due_before_the_end(5) + written, WORK.due(5 * SIZE))


# ---- cases: failed writes

def full_device():
    with open('/dev/full', 'wb') as full:
        run = Run(stdout=full)
        run.feed([DATA])
        run.end_failed('write', 0)


def into_file(length, size):
    """What is written for so many bytes, into a file of so many at most: what does not go into it is told."""
    due = WORK.due(length)
    with file_with(DATA[:length]) as file, tempfile.TemporaryFile() as out:
        run = Run(stdin=file, stdout=out, file_size=size)
        if size < len(due):
            run.end_failed('write', size)
        else:
            run.end_well()
        out.seek(0)
        same(out.read(), due[:size])


def file_too_large():
    """The last write that succeeds is short, or whole if the next has no room."""
    for size in WORK.sizes():
        into_file(RECORDS * SIZE, size)
        into_file(len(DATA), size)


def file_too_large_for_last():
    for size in (RECORDS * ANSWER, RECORDS * ANSWER + 1, RECORDS * ANSWER + REST, (RECORDS + 1) * ANSWER - 1):
        into_file(len(DATA), size)


def file_just_right():
    for length in (RECORDS * SIZE, len(DATA)):
        into_file(length, len(WORK.due(length)))


def until_closed(**settings):
    """Far more than a pipe has room for, of which the reader takes what is due to three records, and is gone before the end."""
    gone = threading.Event()

    def pieces():
        for _ in range(39):
            yield DATA[:RECORDS * SIZE]
        gone.wait()
        yield DATA[:RECORDS * SIZE]

    run = Run(**settings)
    run.feed(pieces())
    take_due(run, 0, 3)
    run.process.stdout.close()
    gone.set()
    return run


def tells_of_closed_pipe(run):
    written = run.end_failed('write')
    expect(WORK.told == '' or 3 <= written < RECORDS * 40, f'{written} answers written')


def closed_pipe():
    tells_of_closed_pipe(until_closed())


def closed_pipe_signal():
    run = until_closed(signals_kept=False)
    if KIND == 'proved':
        # the start of a proved program takes the signal away before its main, so the write fails, and that is told
        tells_of_closed_pipe(run)
        return
    status = run.end()
    expect(status == -signal.SIGPIPE and run.said == '', f'status {status}, and said {run.said!r}')


# ---- cases: failed reads

def directory():
    folder = os.open('tests', os.O_RDONLY)
    run = Run(stdin=folder)
    os.close(folder)
    same(run.take(), b'')
    run.end_failed('read', 0)


def reset():
    """The socket is reset after five records and a part, which is no last part: the input has no end."""
    ours, theirs = socket.socketpair()
    theirs.send(b'not read by us when we close')
    run = Run(stdin=theirs)
    theirs.close()
    ours.sendall(DATA[:5 * SIZE + REST])
    due = WORK.due_before_the_end(5)
    written = run.take(len(due))
    ours.close()
    same(written + run.take(), due)
    run.end_failed('read', len(due))


# ---- cases: closed files

def input_closed():
    run = Run(stdin=None, closed=[0])
    same(run.take(), b'')
    run.end_failed('read', 0)


def output_closed():
    with file_with(DATA) as file:
        run = Run(stdin=file, stdout=None, closed=[1])
        run.end_failed('write', 0)


def errors_closed():
    """Nothing can be said: it ends, and that is all."""
    for closed in ([0, 2], [1, 2], [0, 1, 2]):
        with file_with(DATA) as file:
            run = Run(stdin=file, closed=closed)
            same(run.take(), b'')
            status = run.end()
        expect(run.said == '' and status == (1 if KIND == 'host' else 0), f'status {status}, and said {run.said!r}')


ANSWERS_ALONE, TALLY_ALONE, BOTH = (Answering,), (Tallying,), (Answering, Tallying)

CASES = [
    ('a whole file', whole_file, BOTH),
    ('an empty one', empty, ANSWERS_ALONE),
    ('an empty one', empty_listing, TALLY_ALONE),
    ('input in pieces of random length', short_reads, BOTH),
    ('input byte by byte', single_bytes, BOTH),
    ('reads of one byte each', one_byte_reads, BOTH),
    ('more than a million requests', million_requests, ANSWERS_ALONE),
    ('more than a million answers', million_answers, TALLY_ALONE),
    ('a slow pipe is served', served, ANSWERS_ALONE),
    ('a narrow pipe, read in pieces of random length', narrow_pipe, BOTH),
    ('writes of one byte each', one_byte_writes, BOTH),
    ('reads and writes interrupted or short', interrupted, BOTH),
    ('stopped and continued', stopped, BOTH),
    ('a full device', full_device, BOTH),
    ('a file that may not grow', file_too_large, BOTH),
    ('a file with no room for the last answer', file_too_large_for_last, ANSWERS_ALONE),
    ('a file with just enough room', file_just_right, BOTH),
    ('a closed pipe', closed_pipe, BOTH),
    ('a closed pipe, by its signal', closed_pipe_signal, BOTH),
    ('a directory as input', directory, BOTH),
    ('a socket that is reset', reset, BOTH),
    ('standard input closed', input_closed, BOTH),
    ('standard output closed', output_closed, BOTH),
    ('standard error closed too', errors_closed, BOTH),
]


# They start the program with a signal ignored, and have shown nothing where that does not reach it.
WITH_IGNORED = (file_too_large, file_too_large_for_last, closed_pipe)


def drops_ignored():
    """Whether the signal of a closed pipe ends another program that is started in the same way, with that signal ignored."""
    reader, writer = os.pipe()
    os.close(reader)
    status = subprocess.call(os.environ['CLOSED_PIPE'].split(), stdout=writer, restore_signals=False)
    os.close(writer)
    return status in (-signal.SIGPIPE, 128 + signal.SIGPIPE)


def main():
    wrong = 0
    for name, case, works in CASES:
        if not isinstance(WORK, works):
            continue
        began = time.monotonic()
        try:
            case()
            verdict = 'ok'
        except (Wrong, OSError) as reason:
            Run.last.process.kill()
            if case in WITH_IGNORED and drops_ignored():
                verdict = f'passed over, since a signal that is ignored does not stay so here: {reason}'
            else:
                verdict, wrong = f'WRONG: {reason}', wrong + 1
        print(f'{NAME}: {name}: {verdict} ({time.monotonic() - began:.1f} s)', flush=True)
    return 1 if wrong else 0


if __name__ == '__main__':
    sys.exit(main())
