#!/usr/bin/env python3
"""Runs the commands of docs/GUIDE.md as they stand there, one after another in an empty folder, and compares what each prints with the lines under
it. A line '..' stands for any lines. `python3` takes the lines that begin with '>>>' from there on. A block after a line '<!-- not run -->' is
passed over, and so is one without '$ '. The last line is 'N passed, M failed'."""
import os
import re
import subprocess
import sys
import tempfile

TOP = os.path.abspath(sys.argv[1])
GUIDE = sys.argv[2] if len(sys.argv) > 2 else os.path.join(TOP, 'docs/GUIDE.md')
END = '-- the command has ended --'


def blocks(text):
    """Indented lines that belong together, without their indent."""
    for part in re.finditer(r'(?m)(^.*\n)?\n((?:    .*\n|\n(?=    ))+)', text):
        if (part.group(1) or '').strip() != '<!-- not run -->':
            yield [line[4:] for line in part.group(2).split('\n')]


def commands(text):
    """Each command with the lines under it."""
    for block in blocks(text):
        found = None
        for line in block:
            if line.startswith('$ '):
                if found:
                    yield found
                found = (line[2:], [])
            elif found:
                found[1].append(line)
        if found:
            while found[1] and not found[1][-1].strip():
                found[1].pop()
            yield found


class Shell:
    """One shell for all commands, so that a folder and a variable stay. Both outputs come in one."""

    def __init__(self, folder, home):
        path = f'{TOP}/target/shell:{os.environ["PATH"]}'
        self.shell = subprocess.Popen(['bash'], stdin=subprocess.PIPE, stdout=subprocess.PIPE, stderr=subprocess.STDOUT, text=True, cwd=folder,
                                      env={**os.environ, 'HOME': home, 'PATH': path, 'PYTHONDONTWRITEBYTECODE': '1'})

    def run(self, command):
        self.shell.stdin.write(f'{{ {command}\n}} </dev/null\necho; echo "{END}"\n')
        self.shell.stdin.flush()
        lines = []
        while (line := self.shell.stdout.readline()) != f'{END}\n':
            if line == '':
                sys.exit(f'the shell ended at: {command}')
            lines.append(line)
        return ''.join(lines)[:-1]


def wanted(lines):
    return re.compile(''.join(r'(?:.*\n)*?' if line.strip() == '..' else re.escape(line.rstrip()) + r'[ \t]*\n' for line in lines))


def session(folder, lines):
    """What python3 prints otherwise than under its lines; the command for it."""
    with open(os.path.join(folder, 'session.txt'), 'w', encoding='utf-8') as f:
        f.write('\n'.join(lines) + '\n')
    return 'python3 -m doctest session.txt'


def main():
    passed = failed = 0
    with open(GUIDE, encoding='utf-8') as f:
        text = f.read()
    with tempfile.TemporaryDirectory() as home:
        folder = os.path.join(home, 'work')
        os.mkdir(folder)
        os.symlink(TOP, os.path.join(home, 'juzhilam'))
        shell = Shell(folder, home)
        for command, lines in commands(text):
            if command == 'python3':
                printed, lines = shell.run(session(folder, lines)), []
            else:
                printed = shell.run(command)
            if wanted(lines).fullmatch(printed):
                passed += 1
            else:
                failed += 1
                print(f'FAILED: $ {command}\n-- the guide has\n' + '\n'.join(lines) + f'\n-- printed\n{printed}')
        shell.shell.stdin.close()
        shell.shell.wait()
    if passed + failed < 20:
        failed += 1
        print(f'FAILED: only {passed} commands were found in {GUIDE}')
    print(f'{passed} passed, {failed} failed')
    sys.exit(1 if failed else 0)


main()
