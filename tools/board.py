#!/usr/bin/env python3
"""board.py [ARCHIVE]: the memory that libplt.a needs on a board: the size of its code and tables, and an upper bound on the stack of each exported function.

The stack is read off the machine code (objdump, x86-64): a function's own pushes and frame, plus its deepest call or, if it makes none, the red zone: the 128 bytes
below the frame that the calling convention lets it use. memcpy and memset belong to the host, and only their return address is counted. Anything that cannot be
counted in this way (a call through a pointer, a frame of no fixed size) ends the run with an error."""
import re
import subprocess
import sys

HOST = {'memcpy', 'memset'}
BELOW = 128


class Function:
    def __init__(self):
        self.frame = 0
        self.calls = set()
        self.jumps = set()


def read(line, before, function, name):
    """Counts one instruction; `before` holds the three before it."""
    if re.search(r'\tpush\b', line):
        function.frame += 8
    frame = re.search(r'\tsub\s+\$0x([0-9a-f]+),%rsp', line)
    if frame:
        function.frame += int(frame.group(1), 16)
    elif re.search(r'\t(sub|and|lea|mov)\b.*,%rsp$', line) and not re.search(r'\tlea\s+-?0x[0-9a-f]+\(%rsp\),%rsp', line):
        raise SystemExit(f'{name} has a frame of no fixed size: {line.strip()}')
    if re.search(r'\tcall\s+\*', line):
        raise SystemExit(f'{name} calls through a pointer: {line.strip()}')
    # a jump through a register is a jump table within the function if the table's address was just added to that register
    jump = re.search(r'\tjmp\s+\*(%\w+)', line)
    if jump and not any(re.search(r'\tadd\s+%\w+,' + jump.group(1) + '$', last) for last in before):
        raise SystemExit(f'{name} jumps through a pointer: {line.strip()}')


def functions(archive):
    text = subprocess.run(['objdump', '-dr', '--no-show-raw-insn', archive], capture_output=True, text=True, check=True).stdout
    found, name, before = {}, None, ['']
    for line in text.split('\n'):
        head = re.match(r'[0-9a-f]+ <(.+)>:$', line)
        moved = re.search(r'R_X86_64_(?:PLT32|PC32)\s+(\S+?)(?:-0x[0-9a-f]+)?$', line)
        if head:
            name = head.group(1)
            found[name], before = Function(), ['']
        elif moved and re.search(r'\t(call|jmp)\b', before[-1]):
            kind = found[name].calls if '\tcall' in before[-1] else found[name].jumps
            kind.add(moved.group(1).removeprefix('.text.'))
        elif '\t' in line and not moved:
            read(line, before, found[name], name)
            before = before[-2:] + [line]
    return found


def depth(found, name, above=()):
    """The bytes below its return address that a function needs."""
    if name in HOST:
        return 0
    if name in above:
        raise SystemExit(f'{name} calls itself')
    function = found[name]
    within = [function.frame + 8 + depth(found, callee, above + (name,)) for callee in function.calls]
    instead = [depth(found, callee, above + (name,)) for callee in function.jumps]
    return max(within + instead + [function.frame + (0 if function.calls else BELOW)])


def main():
    archive = sys.argv[1] if len(sys.argv) > 1 else 'crates/plt/out/libplt.a'
    found = functions(archive)
    sizes = [line.split() for line in subprocess.run(['size', archive], capture_output=True, text=True, check=True).stdout.strip().split('\n')[1:]]
    print(f'code and tables: {sum(int(row[0]) for row in sizes)} bytes; variables: {sum(int(row[1]) + int(row[2]) for row in sizes)} bytes')
    needs = sorted({callee for function in found.values() for callee in function.calls | function.jumps if callee in HOST})
    print(f'needs of the host: {", ".join(needs)}')
    for name in sorted(found):
        if name.startswith('plt_'):
            print(f'stack of {name}: {depth(found, name) + 8} bytes')


main()
