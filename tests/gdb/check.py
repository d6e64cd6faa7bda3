"""Whether the lines of a file stand in what gdb printed, in their order.

    check.py EXPECTED OUTPUT

Other lines may stand between them. A line that begins with `!` must not stand
there at all. Spaces at the end of a line do not count."""
import sys


def judge(expected, output):
    """What is wrong, or None."""
    lines = [line.rstrip() for line in output.split('\n')]
    at = 0
    for line in expected.split('\n'):
        line = line.rstrip()
        if line.startswith('!'):
            if line[1:] in lines:
                return 'must not be there: ' + line[1:]
        elif line and line in lines[at:]:
            at += lines[at:].index(line) + 1
        elif line:
            return 'not there, or not in this place: ' + line
    return None


def self_test(expected, output):
    """Each line matters: without it in the output the judgement is another."""
    lines = output.split('\n')
    for line in expected.split('\n'):
        line = line.rstrip()
        if line.startswith('!'):
            cut = output + '\n' + line[1:]
        else:
            cut = '\n'.join(l for l in lines if l.rstrip() != line)
        if line and judge(expected, cut) is None:
            return 'is not looked at: ' + line
    return None


def main():
    expected, output = (open(name, errors='replace').read() for name in sys.argv[1:3])
    wrong = judge(expected, output) or self_test(expected, output)
    if wrong:
        print(f'{sys.argv[1]}: {wrong}', file=sys.stderr)
        sys.exit(1)


if __name__ == '__main__':
    main()
