"""Counts the places in src/ that an older design left, at a commit or in the work tree.

    python3 scripts/places.py [COMMIT] [--wide] [--list]

Each point is counted by patterns over the lines of crates/*/src/*.rt, tests left out, and twins by comparing functions
whose types, constants and numbers are taken out. --wide counts by patterns that hit old and new forms alike, whatever
their names. docs/DESIGN-PASS.md says what the points are.
"""
import re
import subprocess
import sys


def sources(commit):
    if commit:
        names = subprocess.run(['git', 'ls-tree', '-r', '--name-only', commit], capture_output=True, text=True, check=True).stdout.split('\n')
    else:
        names = subprocess.run(['git', 'ls-files', '-co', '--exclude-standard'], capture_output=True, text=True, check=True).stdout.split('\n')
    for name in sorted(set(names)):
        if re.fullmatch(r'crates/[^/]+/src/.*\.rt', name) and not name.endswith('/tests.rt'):
            if commit:
                text = subprocess.run(['git', 'show', f'{commit}:{name}'], capture_output=True, text=True, check=True).stdout
            else:
                try:
                    text = open(name).read()
                except FileNotFoundError:
                    continue
            yield name, text.split('#[cfg(test)]\nmod tests {')[0]


PATTERNS = {
    '1 a flag or a fault beside a value': r'^\s*pub (found|fault): (bool|Option<\w*Fault>)|^\s*fault: Option<',
    '1 an Option or a Result taken apart to be passed on': r'None => (return )?None\b|None => (return )?Err\(|Err\((\w+)\) => (return )?Err\(|Some\((\w+)\) => Some\(|Ok\(x\) => Ok\(x\)|return Err\(fault\)',
    '1 a number for none': r'=> \{ if .* \{ 0 \}|^\s*_ => 0,',
    '3 a counter by hand': r'^\s*\w+(\.\w+)? [-+]= 1;|^\s*left -= 2;',
    '3 a while over what a for or a method does': r'^\s*while \w+(\.len\(\))? (>|<|\+)|^\s*while from \+ n|^\s*while here\.left',
    '3 an index by enumerate': r'\.enumerate\(\)',
    '3 a for that folds or searches': r'^\s*for b in ',
    '4 values compared by hand': r'\.at == \w+\.at|=> x == y|is_same\(line, b"',
    '4 an exit that writes out reason and place': r'WireFault \{$|WireFault \{ reason, place',
    '5 bytes and a place as parameters': r'bytes: &\[u8\], (at|from): usize|^\s*at: usize,$',
    '5 the fact of such a place in a clause': r'(requires|ensures).*(at < length bytes|wholly(_row)? bytes\.now)',
    '6 a buffer with its length beside it, or an array of a set length': r': \[\w+; [0-9]+\]|^\s*pub len: usize',
    '7 a mode that says which step runs': r'Mode::\w+ =>|Mode::\w+ \| Mode|mode: ',
}

WIDE = {
    '1 arms of None, Some, Ok and Err': r'^\s*(None|Some\(.*\)|Ok\(.*\)|Err\(.*\)) =>',
    '3 while and loop': r'^\s*(while|loop)\b',
    '3 for': r'^\s*for .* in ',
    '3 a search that returns true': r'^\s*return true;',
    '5 a bool as a field or a parameter': r'\b\w+: bool\b',
    '5 a reply and its text or line as parameters': r'reply: Reply<.*, (text|line): &\[u8\]',
    '5 a power of two as a bound in a clause': r'(requires|ensures).*2 \^ (32|64)',
    '5 a clause of more than 300 characters': r'^.{301}',
    '6 saturating sums of places and lengths': r'\.saturating_(add|sub)\(',
    "7 a kind's byte written out": r"b'[-+:$*~>%|=!,_#(]'",
}


def blocks(text):
    """The functions and impls of a file, from the first line to the closing brace in the same column."""
    lines = text.split('\n')
    for i, line in enumerate(lines):
        head = re.match(r'(\s*)(pub(\(crate\))? )?(fn|impl)\b', line)
        if head:
            for j in range(i, len(lines)):
                if lines[j] == head.group(1) + '}':
                    yield i + 1, '\n'.join(lines[i:j + 1])
                    break


def bare(block):
    """A block without its names, contracts, types, constants and numbers."""
    body = []
    for line in block.split('\n'):
        line = re.sub(r'//.*', '', line).strip()
        if line and not re.match(r'(requires|ensures|ghost)\b', line):
            body.append(line)
    text = ' '.join(body)
    text = re.sub(r'^(pub(\(crate\))? )?fn \w+', 'fn', text)
    text = re.sub(r'\b(u8|u16|u32|u64|i8|i16|i32|i64|i128|usize|f64|bool)\b', 'T', text)
    text = re.sub(r"b'[^']*'|b\"[^\"]*\"|'\\?.'", '0', text)
    text = re.sub(r'\b[A-Z]\w*(::\w+)*', 'N', text)
    text = re.sub(r'\b\d[\d_]*\b', '0', text)
    return re.sub(r'\s+', ' ', text)


def twins(files):
    groups = {}
    for name, text in files:
        for at, block in blocks(text):
            key = bare(block)
            if len(key) > 80:
                groups.setdefault(key, []).append(f'{name}:{at}')
    return [g for g in groups.values() if len(g) > 1]


def main():
    commit = next((a for a in sys.argv[1:] if not a.startswith('-')), None)
    files = list(sources(commit))
    for point, pattern in (WIDE if '--wide' in sys.argv else PATTERNS).items():
        found = [f'{name}:{i + 1}: {line.strip()}' for name, text in files for i, line in enumerate(text.split('\n')) if re.search(pattern, line)]
        print(f'{len(found):4} {point}')
        if '--list' in sys.argv:
            print(''.join(f'       {f}\n' for f in found), end='')
    if '--wide' in sys.argv:
        return
    found = twins(files)
    print(f'{len(found):4} 2 groups of functions and impls that differ only in names, types and constants, {sum(map(len, found))} in all')
    if '--list' in sys.argv:
        print(''.join(f'       {" ".join(g)}\n' for g in found), end='')
    kept = sum(len(re.findall(r'// kept:', text)) for _, text in files)
    print(f'{kept:4} lines that say why a place is kept')


main()
