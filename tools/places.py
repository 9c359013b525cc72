#!/usr/bin/env python3
"""The places in crates/*/src that the points of docs/DESIGN-PASS.md count: places.py [POINT]

Without a point a line for each: how many places are found, how many of them are kept with a reason beside them, how many
are left. With a point its places, a line each, with the reason. A reason is a comment line that begins `By WORDS: `, as
`// By index: ..`, on one of the three lines above the place or among the comments at the head of its file.
Run at the top of the repository, or as places.py --at FOLDER for another tree."""
import collections
import glob
import os
import re
import sys


def files():
    for path in sorted(glob.glob('crates/*/src/**/*.rt', recursive=True)):
        yield path, open(path, encoding='utf-8').read()


def line_of(text, at):
    return text.count('\n', 0, at) + 1


def functions(text):
    """name, parameters, clauses, body and place of each function"""
    for m in re.finditer(r'^( *)(?:pub(?:\([a-z]+\))? )?(?:unsafe )?(?:extern "C" )?fn (\w+)', text, re.M):
        at = m.end()
        depth, i = 0, text.index('(', at)
        start = i
        while True:
            c = text[i]
            depth += c == '('
            depth -= c == ')'
            i += 1
            if depth == 0:
                break
        parameters = text[start + 1:i - 1]
        open_at = re.compile(r'^' + m.group(1) + r'\{$|\{$', re.M).search(text, i)
        body_at = None
        for b in re.finditer(r'^' + m.group(1) + r'\{\n|\{\n', text[i:], re.M):
            line = text[:i + b.start()].rsplit('\n', 1)[-1]
            if not re.match(r'\s*(ensures|requires|×|≡)', line):
                body_at = i + b.start()
                break
        if body_at is None:
            continue
        clauses = text[i:body_at]
        depth, j = 0, body_at
        while True:
            c = text[j]
            depth += c == '{'
            depth -= c == '}'
            j += 1
            if depth == 0:
                break
        yield m.group(2), parameters, clauses, text[body_at:j], m.start()


def reason(path, line):
    """the reason beside a place, or at the head of its file"""
    lines = open(path, encoding='utf-8').read().split('\n')
    head = next((i for i, l in enumerate(lines) if not l.startswith('//')), 0)
    for l in lines[max(line - 4, 0):line - 1][::-1] + lines[:head]:
        found = re.match(r' *// (By [\w ,]+: .*)', l)
        if found:
            return found.group(1)


def strip(text):
    return re.sub(r'//[^\n]*', lambda m: ' ' * len(m.group(0)), text)


def point_1():
    """enums of the shape of Option or Result; fields that say whether the others hold; numbers for kinds"""
    for path, text in files():
        bare = strip(text)
        for m in re.finditer(r'^( *)(?:pub )?enum (\w+)[^{]*\{(.*?)^\1\}', bare, re.M | re.S):
            body = re.sub(r'\{[^}]*\}|\([^)]*\)', '', m.group(3))
            arms = [a.strip() for a in body.split(',') if a.strip()]
            carries = len(re.findall(r'\w+\s*[({]', m.group(3)))
            if len(arms) <= 4 and 0 < carries <= len(arms) and (
                    carries == 1 or re.search(r'Refused|Stopped|Err', m.group(3))):
                yield path, line_of(text, m.start()), 'enum ' + m.group(2)
        for m in re.finditer(r'^ *(?:pub )?struct (\w+)[^{;]*\{(.*?)^\s*\}', bare, re.M | re.S):
            if re.search(r'\b(reply|fits|refused|began|stopped): ', m.group(2)):
                yield path, line_of(text, m.start()), 'struct ' + m.group(1)
        for m in re.finditer(r'\b(side|kind|number|reply|entry): (u8|u64|usize)\b', bare):
            yield path, line_of(text, m.start()), m.group(0)


def point_2():
    """functions whose texts are the same but for names, types, sizes and constants"""
    seen = collections.defaultdict(list)
    for path, text in files():
        for name, parameters, clauses, body, at in functions(strip(text)):
            norm = re.sub(r'"[^"]*"', 'S', parameters + '|' + body)
            norm = re.sub(r'\b[a-z_0-9]+::', '', norm)
            norm = re.sub(r'\b(0x[0-9a-f_]+|-?\d[\d_.]*(?:[uf]\d+|usize)?)\b', 'N', norm)
            norm = re.sub(r'\b[A-Z][A-Z0-9_]+\b', 'N', norm)
            norm = re.sub(r'\b(?:f64|u8|u16|u32|u64|usize|bool|[A-Z]\w+)\b', 'T', norm)
            names = {}
            norm = re.sub(r'\b[a-z_]\w*\b', lambda m: m.group(0) if m.group(0) in (
                'if', 'else', 'for', 'in', 'while', 'let', 'mut', 'match', 'return', 'loop', 'self', 'as', 'true', 'false')
                else names.setdefault(m.group(0), 'v%d' % len(names)), norm)
            norm = re.sub(r'\s+', ' ', norm)
            if len(body) > 60:
                seen[norm].append((path, line_of(text, at), name))
    for group in seen.values():
        if len(group) > 1:
            for g in group:
                yield g[0], g[1], g[2] + ' (one of %d)' % len(group)


def point_3():
    """loops that count an index"""
    for path, text in files():
        for m in re.finditer(r'^ *(?:while [^\n]*|for \w+ in [^\[\n]*\.\.[^\n]*) \{$', strip(text), re.M):
            yield path, line_of(text, m.start()), m.group(0).strip()


def point_4():
    """equality, order, copies, conversions and printing by hand"""
    for path, text in files():
        for name, parameters, clauses, body, at in functions(strip(text)):
            if re.search(r'^(same|equal|total_le|min|max|key|flag|bit|of_bits|bits|digit|byte|half|word|lay|put_row|row_writer'
                         r'|number|side_code|code|event_from|words_of|reals_of|absorption_of|hexadecimal|decimal'
                         r'|\w*_agrees|clear_\w+|copied|from_\w+|to_\w+)$', name):
                yield path, line_of(text, at), 'fn ' + name


def point_5():
    """facts that stand in the contracts of three or more functions, and parameters that travel together in three or more"""
    facts, groups = collections.defaultdict(list), collections.defaultdict(list)
    for path, text in files():
        for name, parameters, clauses, body, at in functions(strip(text)):
            for clause in re.findall(r'requires\s*\w*\s*\{(.*?)\}\s*(?=requires|ensures|$)', clauses, re.S):
                for fact in re.split(r'\)\s*×\s*\(|\s×\s', clause):
                    fact = re.sub(r'\s+', ' ', fact).strip(' ()')
                    facts[fact].append((path, line_of(text, at), name))
            flat = [re.sub(r'\s+', ' ', p).strip() for p in re.split(r',(?![^\[<(]*[\])>])', parameters) if p.strip()]
            for a, b, c in zip(flat, flat[1:], flat[2:]):
                groups[(a, b, c)].append((path, line_of(text, at), name))
    for fact, where in sorted(facts.items()):
        if len(where) >= 3:
            yield where[0][0], where[0][1], 'fact of %d: %s' % (len(where), fact)
    for group, where in sorted(groups.items()):
        if len(where) >= 3:
            yield where[0][0], where[0][1], 'parameters of %d: %s' % (len(where), ', '.join(group))


def point_6():
    """buffers with a length beside them, parallel arrays"""
    for path, text in files():
        for name, parameters, clauses, body, at in functions(strip(text)):
            if re.search(r'\b(count|at|n|m|room|length): usize', parameters) and re.search(r'\[|Reals|Words', parameters):
                yield path, line_of(text, at), 'fn ' + name


def point_7():
    """switches on which step to run"""
    for path, text in files():
        for m in re.finditer(r'^ *match (\w+) \{(.*?)^ *\}', strip(text), re.M | re.S):
            arms = re.findall(r'=> ([\w:]+)\(', m.group(2))
            if len(arms) >= 2 and not re.search(r'\b(Ok|Err|Some|None)\b', m.group(2)):
                yield path, line_of(text, m.start()), 'match ' + m.group(1)
        for m in re.finditer(r'&dyn |Box<dyn|: fn\(', text):
            yield path, line_of(text, m.start()), m.group(0)


def point_8():
    """answers in the proofs"""
    for path in sorted(glob.glob('crates/*/proofs/**/Answers.antt', recursive=True)):
        text = open(path, encoding='utf-8').read()
        for m in re.finditer(r'^pub (\S+) : goal', text, re.M):
            yield path, line_of(text, m.start()), m.group(1)


POINTS = [point_1, point_2, point_3, point_4, point_5, point_6, point_7, point_8]


def main(words):
    if words[:1] == ['--at']:
        os.chdir(words[1])
        words = words[2:]
    for number, point in enumerate(POINTS, 1):
        places = [(*place, reason(*place[:2])) for place in point()]
        if not words:
            kept = sum(place[3] is not None for place in places)
            print('%d found %d, kept %d, left %d: %s' % (number, len(places), kept, len(places) - kept, point.__doc__))
        elif words[0] == str(number):
            for path, line, what, why in places:
                print('%s:%d: %s%s' % (path, line, what, ' -- ' + why if why else ''))


main(sys.argv[1:])
