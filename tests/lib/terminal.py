"""terminal.py [--interrupt-at WORD] COMMAND..: runs a command on a terminal of its own, and prints what it writes there.

With a word, Ctrl-C is typed once the command has written it. The status is the command's, or 128 and the signal that ended it."""
import os
import pty
import sys

CTRL_C = b'\x03'


def main(words):
    word = None
    if words[0] == '--interrupt-at':
        word, words = words[1].encode(), words[2:]
    child, terminal = pty.fork()
    if child == 0:
        os.execvp(words[0], words)
    written = b''
    while True:
        try:
            piece = os.read(terminal, 1024)
        except OSError:  # so a terminal says that nobody has it open any longer
            piece = b''
        if not piece:
            break
        written += piece
        if word and word in written:
            os.write(terminal, CTRL_C)
            word = None
    sys.stdout.write(written.decode('utf-8', 'replace').replace('\r\n', '\n'))
    status = os.waitstatus_to_exitcode(os.waitpid(child, 0)[1])
    return status if status >= 0 else 128 - status


if __name__ == '__main__':
    sys.exit(main(sys.argv[1:]))
