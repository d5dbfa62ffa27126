#!/usr/bin/env python3
"""Tests of the walk generator, without the prover: the proofs that it writes from recorded sources and MIR, what it
says of mistaken descriptions and of forms that it has no rule for, and how it reads contracts and types.

  test_walkgen.py            run the tests
  test_walkgen.py --accept   write the expected proofs anew, after a rule was changed on purpose (then read the diff)
  test_walkgen.py --record REPOSITORY
                             take the sources, MIR and descriptions of the fixtures anew, of a repository's crates

A fixture is a crate in tools/walk_fixtures: its sources (FILE.rt.txt), the MIR of the functions that the walks meet
(mir.txt), descriptions (FN.toml) and the proofs expected of them (FN.proof.txt). The imports that all proofs share
stand once, in head.txt. The checker has proved what is recorded there; `--accept` proves nothing."""
import sys

sys.dont_write_bytecode = True

import contextlib
import difflib
import glob
import io
import os
import re
import shutil
import tempfile
import unittest
import unittest.mock

import walkgen
from walks.contract import Contract
from walks.imports import USES
from walks.mir import read_program
from walks.source import Repository
from walks.types import Types
from walks.words import Stop, conjuncts, field_name, parens, split_top, unwrapped

FIXTURES = os.path.dirname(os.path.abspath(__file__)) + '/walk_fixtures'
SHARED = '[the imports of head.txt]'


def read(path):
    with open(path) as file:
        return file.read()


def write(path, text):
    os.makedirs(os.path.dirname(path), exist_ok=True)
    with open(path, 'w') as file:
        file.write(text)


def fixtures():
    """The crate and the function of each fixture."""
    return sorted((path.split('/')[-2], path.split('/')[-1][:-len('.toml')].replace('.', '::'))
                  for path in glob.glob(FIXTURES + '/*/*.toml'))


def proof_path(crate, function):
    return '%s/%s/%s.proof.txt' % (FIXTURES, crate, function.replace('::', '.'))


class Recorded(Repository):
    """A repository of the fixtures in a folder of its own. `mir` changes the recorded MIR, by replacements."""

    def __init__(self, mir=()):
        super().__init__(tempfile.mkdtemp(), self.recorded_mir)
        self.replacements = mir
        for path in glob.glob(FIXTURES + '/*/*.rt.txt'):
            crate, name = path.split('/')[-2:]
            write('%s/crates/%s/src/%s' % (self.root, crate, name[:-len('.txt')]), read(path))
        for crate, function in fixtures():
            name = function.replace('::', '.') + '.toml'
            write('%s/crates/%s/walks/%s' % (self.root, crate, name), read('%s/%s/%s' % (FIXTURES, crate, name)))

    def recorded_mir(self, crate):
        text = read('%s/%s/mir.txt' % (FIXTURES, crate))
        for old, new in self.replacements:
            assert old in text, old
            text = text.replace(old, new)
        return text

    def describe(self, crate, function, text):
        write('%s/crates/%s/walks/%s.toml' % (self.root, crate, function.replace('::', '.')), text)

    def remove(self):
        shutil.rmtree(self.root)


class RecordedCase(unittest.TestCase):
    def repository(self, mir=()):
        repository = Recorded(mir)
        self.addCleanup(repository.remove)
        return repository

    def run_command(self, repository, *arguments):
        """What the command prints and says, and its status."""
        out, said = io.StringIO(), io.StringIO()
        with contextlib.redirect_stdout(out), contextlib.redirect_stderr(said):
            status = walkgen.main(list(arguments), repository)
        return out.getvalue(), said.getvalue(), status


class WrittenProofs(RecordedCase):
    """Each fixture's proof, byte for byte."""

    def test_head(self):
        self.assertEqual(read(FIXTURES + '/head.txt').splitlines(), USES)

    def test_proofs(self):
        repository = self.repository()
        self.assertGreater(len(fixtures()), 8)
        for crate, function in fixtures():
            with self.subTest(function=crate + '::' + function):
                written = shortened(walkgen.proof_text(repository, crate, function))
                expected = read(proof_path(crate, function))
                if written != expected:
                    self.fail(first_difference(expected, written))

    def test_same_bytes_again(self):
        first, second = (walkgen.proof_text(self.repository(), 'shapes', 'put') for _ in range(2))
        self.assertEqual(first, second)

    def test_cut(self):
        """A description may ask for shorter lemmas; each has the rest of the walk."""
        repository = self.repository()
        repository.describe('shapes', 'put', 'cut = 1\n' + read(FIXTURES + '/shapes/put.toml'))
        text = walkgen.proof_text(repository, 'shapes', 'put')
        self.assertEqual(re.findall(r'^    (part-\S+) :', text, re.M),
                         ['part-5·At·5-0', 'part-5·Nothing·4-1', 'part-5-0'])

    def test_end_once(self):
        """A description may ask for one lemma that frees the locals; every `return` cites it."""
        repository = self.repository()
        repository.describe('shapes', 'put', 'cut = 1\nend = "once"\n' + read(FIXTURES + '/shapes/put.toml'))
        text = walkgen.proof_text(repository, 'shapes', 'put')
        self.assertEqual(len(re.findall(r'^    frees-all :', text, re.M)), 1)
        self.assertEqual(len(re.findall(r'^ +frees-all .*\(exits ', text, re.M)), 2)
        self.assertEqual(text.count('free0 ! $'), 1)

    def test_arms_apart(self):
        """Where the arms of a `match` lend many slices, each is a lemma that its clause cites."""
        with unittest.mock.patch('walks.branches.SLICES_IN_CLAUSES', 1):
            text = walkgen.proof_text(self.repository(), 'shapes', 'put')
        self.assertEqual(re.findall(r'^    (matched-\S+) :', text, re.M),
                         ['matched-5-At-0', 'matched-5-Nothing-1', 'matched-5-0'])
        self.assertRegex(text, r'\(Found-At i\) e-5 good-5 =\n +matched-5-At-0 asks-4 is-4 i e-5 good-5\n')

    def test_forgets_at_a_loop(self):
        """What the loop assigns before anything reads it holds nothing at the head of a turn."""
        start, loop = '(seq (assign (place 4 lnil) (rvOpd (int 64 0))) ', '(seq (block (loop (seq (assign (place 7 '
        test = '(seq (assign (place 7 lnil) (op2 (lt unsigned) (copy (place 4 lnil)) (copy (place 2 lnil)))) '
        end = '(seq (assign (place 0 lnil) (rvOpd (copy (place 2 lnil)))) return)'
        repository = self.repository(mir=[(start + loop, start + test + loop), (end, end + ')')])
        repository.describe('cells', 'lowest', '[loop."3"]\nmeasure = "used - v4"\ninv = "v4 ≤ used"\n')
        text = walkgen.proof_text(repository, 'cells', 'lowest')
        body = text[text.index('    begins :'):]
        self.assertIn('forget ! ', body[:body.index('blocks !')])


class Mistakes(RecordedCase):
    """What is said of a description or a function that no walk can be written for."""

    def refused(self, message, crate, function, description=None, mir=()):
        repository = self.repository(mir)
        if description is not None:
            repository.describe(crate, function, description)
        _, said, status = self.run_command(repository, crate, function)
        self.assertEqual(status, 1)
        self.assertIn(message, said)
        self.assertTrue(said.startswith('walkgen: %s::%s: ' % (crate, function)), said)

    def test_loop_without_invariant(self):
        self.refused('statement 2 is a loop: the description needs\n  [loop."2"]', 'cells', 'lowest', '')

    def test_proof_that_nothing_asks_for(self):
        loop = '[loop."2"]\nmeasure = "used - v4"\ninv = "v4 ≤ used"\n'
        self.refused('nothing asks for the proof "9 asks". The walk asks for: "2 start", ', 'cells', 'lowest',
                     loop + '[prove]\n"9 asks" = "auto"\n')

    def test_unknown_entry(self):
        self.refused('crates/cells/walks/lowest.toml: unknown entry `loops` (known: uses, ', 'cells', 'lowest',
                     '[loops]\n')

    def test_another_end(self):
        self.refused('crates/cells/walks/cell_at.toml: `end` is "once", or left out', 'cells', 'cell_at', 'end = "twice"\n')

    def test_key_of_another_form(self):
        self.refused('the key "index of 3" of [prove] is not "STATEMENT WHAT"', 'cells', 'cell_at',
                     '[prove]\n"index of 3" = "auto"\n')

    def test_description_that_is_no_toml(self):
        self.refused('crates/cells/walks/cell_at.toml: ', 'cells', 'cell_at', 'prove = \n')

    def test_no_description(self):
        self.refused('no crates/shapes/walks/swap.toml', 'shapes', 'swap')

    def test_no_such_function(self):
        self.refused('no function `cells::nowhere` in the MIR of its crate', 'cells', 'nowhere', '')

    def test_crate_without_descriptions(self):
        _, said, status = self.run_command(self.repository(), 'codec')
        self.assertEqual((status, said), (2, 'walkgen: no descriptions in crates/codec/walks\n'))

    # ---- forms with no rule: the recorded MIR, with one form in place of another

    def test_field_of_an_element_in_place(self):
        element = '(copy (place 4 (lcons (deref (tyNamed (pair "cells::Cell" lnil))) %s)))'
        self.refused('reads a field of an element in place: write `let o = row[i];` first', 'cells', 'cell_at',
                     mir=[(element % 'lnil', element % '(lcons (field 0) lnil)')])

    def test_division(self):
        self.refused('statement 1: the operation `div`. Compute it in a function by value', 'cells', 'cell_at',
                     mir=[('(mul unsigned)', '(div unsigned)')])

    def test_signed_arithmetic(self):
        self.refused('statement 1: signed arithmetic', 'cells', 'cell_at', mir=[('(mul unsigned)', '(mul signed)')])

    def test_shared_lifetime(self):
        self.refused('the slice `row` shares a lifetime with another', 'cells', 'cell_at',
                     mir=[('(tyRef (named 0) imm', '(tyRef (named 1) imm')])

    def test_end_without_return(self):
        self.refused('the end of cells::cell_at is reached with no `return`', 'cells', 'cell_at',
                     mir=[('return', 'skip')])

    def test_local_array_of_bools(self):
        self.refused('a local array of bool that is lent: only arrays of numbers, structs and enums', 'shapes', 'numbers',
                     mir=[('(repeat (int 8 0) 2)', '(repeat opdTrue 2)')])

    def test_store_that_ends_a_turn(self):
        store = ('(assign (place 7 (lcons (deref (tyNamed (pair "cells::Cell" lnil))) lnil))'
                 ' (rvOpd (copy (place 3 lnil))))')
        count = '(assign (place 4 lnil) (op2 (add unsigned) (copy (place 4 lnil)) (int 64 1)))'
        self.refused('is the last statement of a loop\'s turn: let another follow', 'cells', 'clear',
                     mir=[('(seq %s %s)' % (store, count), store)])


class Commands(RecordedCase):
    def test_check(self):
        """--check is content with what was just written, and names what was altered."""
        repository = self.repository()
        _, _, status = self.run_command(repository, 'cells')
        self.assertEqual(status, 0)
        self.assertEqual(self.run_command(repository, '--check', 'cells'), ('', '', 0))
        path = repository.root + '/crates/cells/proofs/clear/Proof.antt'
        write(path, read(path).replace('puts-elem', 'puts-elem '))
        self.assertEqual(self.run_command(repository, '--check', 'cells'),
                         ('', 'walkgen: cells::clear: its Proof.antt is not what the description gives\n', 1))

    def test_explain(self):
        """--explain numbers the statements and says what may be proved; with no description too."""
        repository = self.repository()
        os.remove(repository.root + '/crates/cells/walks/lowest.toml')
        text, _, status = self.run_command(repository, '--explain', 'cells', 'lowest')
        self.assertEqual(status, 0)
        for line in ('fn cells::lowest\n', '  requires: `within : used ≤ length (now row)`\n', '\n  2         loop\n',
                     '  "2 start"   default: auto\n', '\n[loop."2"]\nnames = { _4 = "v4" }\n',
                     '\n# "4 said" = "auto"'):
            self.assertIn(line, text)


class Reading(RecordedCase):
    """How facts and contracts are taken apart."""

    def test_words(self):
        self.assertEqual(split_top('a, f (b, c), [d, e]', ','), ['a', 'f (b, c)', '[d, e]'])
        self.assertEqual(unwrapped('((a) × (b))'), '(a) × (b)')
        self.assertEqual((parens('x .y'), parens('n₁')), ('(x .y)', 'n₁'))
        self.assertEqual([field_name(name) for name in ('0', 'used', 'max_len', 'data')],
                         ['0', 'used', '«max_len»', '«data»'])

    def test_conjuncts(self):
        self.assertEqual(conjuncts('(a ≡ b) × ((c < d) × (e ≤ f))'),
                         [('a ≡ b', ' .0'), ('c < d', ' .1 .0'), ('e ≤ f', ' .1 .1')])
        self.assertEqual(conjuncts('(n : ℕ) → (a ≡ b) × (c ≡ d)'), [('(n : ℕ) → (a ≡ b) × (c ≡ d)', '')])

    def test_contract_at_values(self):
        """Parameters at entry are values, lists at exit the last ones; the result has its name; fields are none."""
        contract = Contract(self.repository(), 'shapes::put')
        self.assertEqual(contract.params, ['row', 'used', 'o'])
        self.assertEqual(contract.at(contract.requires, dict(row='xs', used='n + 1', o='o'), {}, ''),
                         '(n + 1) < length (xs)')
        text = '(r ≡ f (now (row .entry)) o) × (now (row .exit) ≡ g used (o .used))'
        self.assertEqual(contract.at(text, dict(row='set xs i o', used='used′', o='z'), dict(row='ws .0'), 'r-3'),
                         '(r-3 ≡ f ((set xs i o)) z) × ((ws .0) ≡ g used′ (z .used))')
        self.assertEqual(contract.at('«used» ≡ o .«used»', dict(row='xs', used='n', o='z'), {}, ''), 'n ≡ z .«used»')

    def test_types(self):
        """Sizes and alignments, which elements' addresses are computed with, and what stands past a list's end."""
        types = Types(self.repository(), 'shapes')
        wide, object_, found = (types.of_source(name, 'shapes') for name in ('Wide', 'Object', 'Found'))
        self.assertEqual([types.layout(type_) for type_ in (wide, object_, found)], [(24, 8), (8, 4), (16, 8)])
        self.assertEqual(types.blank(object_), '(Object-of (ObjectNumber-of 0) 0 (Handle-of 0))')
        self.assertEqual(types.blank(found), '(Found-At 0)')
        with self.assertRaisesRegex(Stop, 'the type `i32` .in shapes.: the kit knows u8 to u64'):
            types.of_source('i32', 'shapes')

    def test_contract_that_no_walk_can_cite(self):
        repository = self.repository()
        path = repository.root + '/crates/cells/src/lib.rt'
        write(path, read(path).replace('requires { ⌜', 'requires { ⌜ a ⌝ × ⌜', 1))
        with self.assertRaisesRegex(Stop, 'is not one fact'):
            Contract(repository, 'cells::cell_at')


# ---- texts

def shortened(text):
    """A proof with the shared imports left out."""
    return text.replace('\n'.join(USES), SHARED, 1)


def first_difference(expected, written):
    lines = difflib.unified_diff(expected.splitlines(), written.splitlines(), 'expected', 'written', lineterm='', n=0)
    return '\n'.join(line[:400] for line in list(lines)[:8])


def accept():
    repository = Recorded()
    write(FIXTURES + '/head.txt', '\n'.join(USES) + '\n')
    for crate, function in fixtures():
        write(proof_path(crate, function), shortened(walkgen.proof_text(repository, crate, function)))
    repository.remove()


def record(root):
    """Takes what the fixtures of a repository's crates are made of; of the MIR, the functions that the walks meet."""
    repository = Repository(root)
    printed = {}
    repository.print_mir = lambda crate: printed.setdefault(crate, repository.ask_rt(crate))
    met = set()
    find = repository.function
    repository.function = lambda path: met.add(path) or find(path)
    for crate, function in fixtures():
        if not os.path.isdir('%s/crates/%s' % (root, crate)):
            continue
        name = function.replace('::', '.') + '.toml'
        shutil.copyfile('%s/crates/%s/walks/%s' % (root, crate, name), '%s/%s/%s' % (FIXTURES, crate, name))
        walkgen.proof_text(repository, crate, function)
    for crate, text in printed.items():
        for path in glob.glob('%s/crates/%s/src/*.rt' % (root, crate)):
            shutil.copyfile(path, '%s/%s/%s.txt' % (FIXTURES, crate, os.path.basename(path)))
        functions = {path: body for path, body in read_program(text).items() if path in met}
        write('%s/%s/mir.txt' % (FIXTURES, crate), program_text(functions))
    accept()


def program_text(functions):
    """A printed program of these functions, one a line."""
    def show(expression):
        return expression if isinstance(expression, str) else '(' + ' '.join(map(show, expression)) + ')'

    lines = ['(lcons (fn-def "%s" %s)' % (path, show(body)) for path, body in functions.items()]
    return 'program ' + '\n'.join(lines) + '\nlnil' + ')' * len(lines) + '\n'


if __name__ == '__main__':
    if sys.argv[1:] == ['--accept']:
        accept()
    elif len(sys.argv) == 3 and sys.argv[1] == '--record':
        record(os.path.abspath(sys.argv[2]))
    else:
        unittest.main()
