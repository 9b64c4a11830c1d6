"""golden_jobs.py INPUT OUTPUT: the operations of a golden list of the probe, one to a line, in the order of their jobs.

Where the list is not as it should be, prints the first fault instead, and ends with 1: a list or a job is cut off, an operation has
too few cases or comes twice, or there are more or fewer answers than cases.
"""
import struct
import sys

HEADER = struct.Struct('<BBBBI')
WORD = 8
LEAST = 40  # cases of an operation


def read(path):
    with open(path, 'rb') as file:
        return file.read()


def jobs(data):
    """Each job's operation, its number of cases, and the bytes of its answers. One without a count has the items to the end."""
    at = 0
    while at < len(data):
        if len(data) - at < HEADER.size:
            sys.exit(fault('the input ends within a header'))
        operation, words_in, words_out, _, count = HEADER.unpack_from(data, at)
        at += HEADER.size
        size = WORD * words_in
        left = (len(data) - at) // size
        if count > left:
            sys.exit(fault(f'operation {operation} has {left} cases, and its header says {count}'))
        yield operation, count or left, (count or left) * WORD * words_out
        at = at + count * size if count else len(data)


def fault(text):
    print(text)
    return 1


def main():
    given, answers = map(read, sys.argv[1:3])
    found = list(jobs(given))
    operations = [operation for operation, _, _ in found]
    for operation, count, _ in found:
        if count < LEAST:
            return fault(f'operation {operation} has {count} cases, and {LEAST} are asked for')
        if operations.count(operation) > 1:
            return fault(f'operation {operation} has more than one job')
    if not found or not answers:
        return fault('a golden list is empty')
    if sum(size for _, _, size in found) != len(answers):
        return fault(f'the answers have {len(answers)} bytes, and the cases ask for {sum(size for _, _, size in found)}')
    print(*operations, sep='\n')
    return 0


if __name__ == '__main__':
    sys.exit(main())
