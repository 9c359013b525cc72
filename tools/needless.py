#!/usr/bin/env python3
"""Takes out the answers that the check finds alone: needless.py CRATE.., at the top of the repository.

All answers of a crate go; those whose goals the check then leaves open come back, until it passes. Prints how many there
were and are. A crate that does not pass in the end is put back as it was."""
import glob
import os
import re
import subprocess
import sys

ANSWER = re.compile(r'(?m)^pub ([\w-]+) : goal\.\1\n(?:(?!pub |[\w-]+ : |-- |module |record |abbrev ).*\n?)*')
# What a check says of a goal without an answer: one line for a function with its goals, or one for a goal.
OPEN = [re.compile(r'expected answers in \./(?P<file>proofs/\S+?/Answers\.antt)(?P<goals>[^\n]*)'),
        re.compile(r'(?P<goals>`[\w-]+`) of (?P<file>proofs/\S+?/Answers\.antt) must prove')]


def answers(text):
    """the answers of a file: goal to text"""
    return {m.group(1): m.group(0) for m in ANSWER.finditer(text)}


def write(path, text, gone):
    """the file without the answers that go, or no file where nothing else stands in it"""
    for answer in gone:
        text = text.replace(answer, '', 1)
    if re.search(r'(?m)^(?!use |--|\s*$)\S', text):
        os.makedirs(os.path.dirname(path), exist_ok=True)
        with open(path, 'w', encoding='utf-8') as file:
            file.write(re.sub(r'\n{3,}', '\n\n', text).rstrip('\n') + '\n')
    elif os.path.exists(path):
        os.remove(path)


def check(crate):
    how = {'stdin': subprocess.DEVNULL, 'stdout': subprocess.PIPE, 'stderr': subprocess.STDOUT, 'text': True}
    ran = subprocess.run(['rt', 'check'], cwd=crate, check=False, **how)
    return ran.returncode == 0, ran.stdout


def pass_over(name):
    """takes out what it can of a crate"""
    crate = f'crates/{name}'
    whole = {}
    for path in glob.glob(f'{crate}/proofs/**/Answers.antt', recursive=True):
        with open(path, encoding='utf-8') as file:
            whole[path] = file.read()
    found = {path: answers(text) for path, text in whole.items()}
    needed = {path: set() for path in whole}
    passes, more = False, True
    while not passes and more:
        for path, text in whole.items():
            write(path, text, [answer for goal, answer in found[path].items() if goal not in needed[path]])
        passes, said = check(crate)
        more = False
        for m in (m for pattern in OPEN for m in pattern.finditer(said)):
            path = f'{crate}/{m.group("file")}'
            goals = set(re.findall(r'`([\w-]+)`', m.group('goals'))) & set(found.get(path, ())) - needed.get(path, set())
            if goals:
                needed[path] |= goals
                more = True
    if not passes:
        for path, text in whole.items():
            write(path, text, [])
    total = sum(map(len, found.values()))
    left = sum(map(len, needed.values())) if passes else total
    print(f'{name}: {total} answers, {left} left{"" if passes else ": put back"}', flush=True)


for crate_name in sys.argv[1:]:
    pass_over(crate_name)
