#!/usr/bin/env python3
"""Lists what two trees of this repository say differently, as Markdown: public functions with their clauses, types with their
invariants, and the definitions of specs/.

    python3 tools/changes.py OLD_ROOT [NEW_ROOT]
"""
import pathlib
import re
import sys


def squeeze(s):
    return re.sub(r'\s+', ' ', s).strip()


def sources(root):
    functions, types = {}, {}
    for path in sorted(root.glob('crates/*/src/*.rt')):
        crate = path.parts[-3]
        text = re.sub(r'^\s*//.*\n', '', path.read_text(), flags=re.M)
        where = ''
        for m in re.finditer(r'^(?:impl[^\n]*|pub trait[^\n]*) \{$|^ *(?:pub )?(?:final )?fn \w+|^\}', text, re.M):
            line = m.group(0)
            if line.startswith(('impl', 'pub trait')):
                where = re.sub(r'^impl(<.*?>)? |^pub trait | \{$', '', line).split(' where')[0]
                continue
            if line == '}':
                where = ''
                continue
            in_trait = where and re.search(r'^(pub trait|impl.* for )' + '', text[text.rfind('\n\n', 0, m.start()):m.start()], re.M)
            if not line.lstrip().startswith('pub ') and ' for ' not in where and not in_trait:
                continue
            pad = re.match(r' *', line).group(0)
            end = re.compile(r'^' + pad + r'\{|;$| \{$| \{\}$|^' + pad + r'\{\}', re.M).search(text, m.end())
            name = re.search(r'fn (\w+)', line).group(1)
            functions[crate, squeeze(re.sub(r"<'_>|<'a>", '', where)), name] = squeeze(text[m.start():end.start()] if end else text[m.start():])
        for m in re.finditer(r'^(?:#\[[^\n]*\]\n)*(?:pub(?:\(crate\))? )?(?:struct|enum|trait) (\w+)', text, re.M):
            end = re.compile(r'^\}|;$', re.M).search(text, m.end())
            types[crate, m.group(1)] = squeeze(text[m.start():end.end()])
        for m in re.finditer(r'^    ghost (\w+) = \{.*\};$', text, re.M):
            head = text[:m.start()].rfind('\nimpl')
            types[crate, squeeze(text[head + 1:text.index('{', head)]) + ' ' + m.group(1)] = squeeze(m.group(0))
    return functions, types


def definitions(root):
    """By crate and name; where two files of a crate have one name, by the file too."""
    every = {}
    for (crate, stem, name), text in named(root).items():
        every.setdefault((crate, name), []).append((stem, text))
    found = {}
    for (crate, name), places in every.items():
        for stem, text in places:
            found[(crate, name) if len(places) == 1 else (crate, name, f'({stem})')] = text
    return found


def named(root):
    found = {}
    for path in sorted(root.glob('crates/*/specs/*.antt')):
        crate = path.parts[-3]
        for block in re.split(r'\n\s*\n', path.read_text()):
            lines = [l for l in block.splitlines() if not re.match(r'\s*--|use |pub mod', l)]
            m = re.match(r'\s*(?:unfoldable |abbrev |pub |mutual)*(?:record |data )?([^\s:]+)', '\n'.join(lines))
            if lines and m:
                found[crate, path.stem, m.group(1)] = squeeze('\n'.join(lines))
    return found


def cell(s):
    return '`' + s.replace('|', '\\|') + '`' if s else '(none)'


def table(title, old, new):
    keys = [k for k in sorted(set(old) | set(new)) if old.get(k) != new.get(k)]
    print(f'\n### {title}\n\n| Where | Old | New |\n|---|---|---|')
    for k in keys:
        print(f'| {" ".join(x for x in k if x)} | {cell(old.get(k))} | {cell(new.get(k))} |')


old_root, new_root = pathlib.Path(sys.argv[1]), pathlib.Path(sys.argv[2] if len(sys.argv) > 2 else '.')
old_functions, old_types = sources(old_root)
new_functions, new_types = sources(new_root)
table('Public functions and the calls of traits, with their clauses', old_functions, new_functions)
table('Types, with their invariants, and what implementations say of their traits', old_types, new_types)
table('Definitions and theorems of specs/', definitions(old_root), definitions(new_root))
