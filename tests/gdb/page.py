"""The recorded session of a page, to be run again.

    page.py shell PAGE             the lines of its first block with `$ `
    page.py script PAGE            the commands of its session, each said before it is done
    page.py session PAGE           the session as the page has it
    page.py said OUTPUT            the session as gdb just said it

A command of the session stands behind `(gdb) `."""
import sys

MARK = '(gdb) '


def blocks(page):
    """The lines of each block that is indented by four spaces."""
    block = []
    for line in page.split('\n') + ['.']:
        if line.startswith('    ') or (block and not line):
            block.append(line[4:])
        elif block:
            yield [l.rstrip() for l in block]
            block = []


def session(page):
    for block in blocks(page):
        if any(line.startswith(MARK) for line in block):
            while block and not block[-1]:
                block.pop()
            return block


def main():
    what, text = sys.argv[1], open(sys.argv[2], errors='replace').read()
    if what == 'shell':
        lines = [l[2:] for b in blocks(text) for l in b if l.startswith('$ ')]
    elif what == 'session':
        lines = session(text)
    elif what == 'script':
        lines = []
        for line in session(text):
            if line.startswith(MARK):
                command = line[len(MARK):]
                lines += ['echo ' + line.replace('\\', '\\\\') + '\\n', command]
    else:
        lines = [l.rstrip() for l in text.split('\n')]
        while lines and not lines[0].startswith(MARK):
            lines.pop(0)
        while lines and not lines[-1]:
            lines.pop()
    print('\n'.join(lines))


main()
