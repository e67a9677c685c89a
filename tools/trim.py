#!/usr/bin/env python3
"""trim.py CRATE: takes out of the proofs of CRATE what the check says no `simp` applied.

Run in the repository once the crate is proved: `rt check` notes each entry that a `simp` never applied. `rt tidy` in the crate's
folder then drops the imports left without a use.
"""
import os, re, subprocess, sys

def split(text):
    """the entries of a list, at its commas outside parentheses"""
    parts, depth, part = [], 0, ''
    for ch in text:
        depth += (ch in '({') - (ch in ')}')
        if ch == ',' and depth == 0:
            parts.append(part.strip()); part = ''
        else:
            part += ch
    return parts + [part.strip()] if part.strip() else parts

def without(line, col, names):
    """the line with these entries gone from the `simp (..)` that starts at the column"""
    at = line.index('(', col)
    depth, end = 0, at
    for end in range(at, len(line)):
        depth += (line[end] == '(') - (line[end] == ')')
        if depth == 0:
            break
    entries = split(line[at + 1:end])
    kept = [e for e in entries if not any(e in named(n, entries) for n in names)]
    return line[:at + 1] + ', '.join(kept) + line[end:] if kept else line

def named(name, entries):
    """the entries that a note means; it cuts a long one short, and where that fits two of them neither is meant"""
    if not name.endswith('…'):
        return [name]
    fit = [e for e in entries if e.startswith(name[:-1])]
    return fit if len(fit) == 1 else []

def main():
    crate = sys.argv[1]
    folder = os.path.join('crates', crate)
    said = subprocess.run(['rt', 'check'], cwd=folder, stdout=subprocess.PIPE, stderr=subprocess.STDOUT, text=True).stdout
    edits = {}
    for path, line, col, names in re.findall(r'^(\S+):(\d+):(\d+): note: `simp` made \d+ round\(s\) on the goal and never applied (.*?) \(in', said, re.M):
        edits.setdefault(path, []).append((int(line), int(col), re.findall(r'`([^`]+)`', names)))
    for path, places in edits.items():
        if re.search(rf'^{re.escape(path)}:\d+:\d+: error', said, re.M):
            continue  # what is not proved keeps all its entries
        file = os.path.join(folder, path)
        lines = open(file, encoding='utf-8').read().split('\n')
        for line, col, names in sorted(places, reverse=True):
            lines[line - 1] = without(lines[line - 1], col - 1, names)
        open(file, 'w', encoding='utf-8').write('\n'.join(lines))
        print('trimmed', os.path.normpath(file))

main()
