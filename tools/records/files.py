"""Files in and out: what cannot be read is one line, and what is written is whole or not there."""
import contextlib
import os
import stat
import sys


class Trouble(Exception):
    """Something outside stops the work; its text is the line to show."""


def name_of(path):
    return 'standard input' if path in (None, '-') else path


class Input:
    """A file's bytes, or standard input's where the path is None or '-'."""

    def __init__(self, path):
        self.name = name_of(path)
        self.stream = self.guarded(lambda: sys.stdin.buffer if path in (None, '-') else open(path, 'rb'))

    def read(self, count=-1):
        """So many bytes, fewer only at the end; all that are left where no count is given."""
        return self.guarded(lambda: self.stream.read(count))

    def readline(self, most):
        """The next line with its end, or as much of it; nothing behind the last one."""
        return self.guarded(lambda: self.stream.readline(most))

    def guarded(self, action):
        try:
            return action()
        except OSError as e:
            raise Trouble(f'{self.name}: cannot be read: {e.strerror}') from e


def target_of(path):
    """The place to write to: a link's target is replaced and not the link, and no device ever is."""
    target = os.path.realpath(path)
    if os.path.exists(target) and not stat.S_ISREG(os.stat(target).st_mode):
        raise Trouble(f'{path}: is not a plain file: name another')
    return target


@contextlib.contextmanager
def writing_whole(path):
    """A stream of bytes that becomes the file when all went well, and leaves nothing when not."""
    target = target_of(path)
    beside = f'{target}.part-{os.getpid()}'
    try:
        with open(beside, 'xb') as stream:
            yield stream
        os.replace(beside, target)
    except OSError as e:
        raise Trouble(f'{path}: cannot be written: {e.strerror}') from e
    finally:
        with contextlib.suppress(OSError):
            os.remove(beside)


def silence_output():
    """What is left in standard output's buffer has nowhere to go, and Python would complain of it."""
    os.dup2(os.open(os.devnull, os.O_WRONLY), sys.stdout.fileno())


def run(name, main):
    """Runs a tool's main, which gives the status, and turns what stops it into a line or silence."""
    try:
        status = main(sys.argv[1:])
        sys.stdout.flush()
    except Trouble as trouble:
        print(f'{name}: {trouble}', file=sys.stderr)
        status = 1
    except BrokenPipeError:
        # The reader has seen enough: that is no fault.
        silence_output()
        status = 0
    except OSError as e:
        print(f'{name}: standard output: cannot be written: {e.strerror}', file=sys.stderr)
        silence_output()
        status = 1
    except KeyboardInterrupt:
        silence_output()
        status = 130
    sys.exit(status)
