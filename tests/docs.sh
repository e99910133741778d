#!/usr/bin/env bash
# The edits, paths, links, pictures and counts that the pages name are there, and docs/PROMISES.md lists every public function as it is.
set -u
python3 - <<'P' || exit 1
import glob, os, re, sys
wrong = []
for crate, label in re.findall(r'`([a-z_]+)/([a-z0-9_]+)`', open('docs/PROMISES.md', encoding='utf-8').read()):
    places = f'crates/{crate}/must-fail/{label}.edit', f'wrong/functions/{crate}/{label}.edit'
    if crate not in ('tools', 'wrong') and not any(map(os.path.exists, places)):
        wrong.append(f'docs/PROMISES.md: no edit {crate}/{label}')
for page in ['README.md', *glob.glob('docs/*.md')]:
    for path in re.findall(r'`((?:crates|docs|tools|tests|second|wrong|benchmark|examples|include)/[\w./*-]+)`', open(page, encoding='utf-8').read()):
        if not glob.glob(path):
            wrong.append(f'{page}: no {path}')
# what a page shows as a part of a file is one
for page in glob.glob('docs/*.md'):
    for path, block in re.findall(r'`([\w./-]+)`:\n\n```\n(.*?)^```$', open(page, encoding='utf-8').read(), re.S | re.M):
        if block not in open(path, encoding='utf-8').read():
            wrong.append(f'{page}: {path} has no such lines')
# the identifiers of docs/LIN.md are those that are proved, and its sums are right
page = open('docs/LIN.md', encoding='utf-8').read()
rows = [re.search(rf'^\| {name} \| (.*) \|$', page, re.M)[1].split(' | ') for name in ('ID', 'protected identifier')]
proved = re.findall(r'protected_of 0x(\w\w) ≡ 0x(\w\w)', open('crates/lin/specs/Statements.antt', encoding='utf-8').read())
if list(zip(*rows)) != [tuple(map(str.upper, pair)) for pair in proved]:
    wrong.append('docs/LIN.md: the protected identifiers are not those of KnownIdentifiers')
sums = re.findall(r'^\| ((?:[0-9A-F]{2},? ?)+).*? \| (.*) \| FF − (..) = (..) \|$', page, re.M)
for row in sums:
    total, steps = 0, []
    for byte in bytes.fromhex(row[0].replace(',', '')):
        plain, total = total + byte, (total + byte) % 256 + (total + byte) // 256
        steps.append(f'{plain:02X}' + f' → {total:02X}' * (plain > 255))
    if row[1:] != (', '.join(steps), f'{total:02X}', f'{255 - total:02X}'):
        wrong.append(f'docs/LIN.md: {row} should be {", ".join(steps)}, {255 - total:02X}')
if len(sums) != 3:
    wrong.append(f'docs/LIN.md: {len(sums)} worked checksums, and not 3')
def headings(page):
    """the anchors of a page, as they are made of its headings"""
    found = re.findall(r'^#+ (.*)$', open(page, encoding='utf-8').read(), re.M)
    return {re.sub(r'[^\w -]', '', heading).lower().replace(' ', '-') for heading in found}
for page in ['README.md', *glob.glob('docs/*.md')]:
    for path, anchor in re.findall(r'\]\(([^)#\s]*)#?([^)\s]*)\)', open(page, encoding='utf-8').read()):
        target = os.path.normpath(os.path.join(os.path.dirname(page), path)) if path else page
        if not path.startswith('http') and not os.path.exists(target):
            wrong.append(f'{page}: a link to {path}, which is not there')
        elif anchor and target.endswith('.md') and not re.fullmatch(r'L\d+', anchor) and anchor not in headings(target):
            wrong.append(f'{page}: {path} has no heading {anchor}')
print('\n'.join(wrong) or 'ok')
sys.exit(bool(wrong))
P
tools/promises --check || exit 1
tools/believe --check || exit 1
tools/area-picture --check
