#!/usr/bin/env python3
"""The definition of the addition of routes, computed and held against the published Rust.

    scripts/additions.py [--oracle DIR] [--most NUMBER] [SEED:COUNT ..]

Scripts (an image, then route images one after another) come from the oracle, which answers them by the published Rust. For each
addition the script writes one line of antt into a scratch crate outside the repository: what `add_routes` gives for the graph
before and the bytes of the route image, as numbers, is what the Rust gave. `rt` computes the lines and those that do not
hold are printed.
"""
import argparse, glob, os, re, shutil, struct, subprocess, sys, tempfile, time
from definitions import ROOT, copy_crates, literal

PER_FILE = 30
STANDARD = '1:150 2:150'
EDGE = 'source target kind role number key source_address target_address'.split()

DUMP = '''
-- An addition's answer as numbers: a refusal, or blocks, edges and hops.
use Rattle.std.specs.Prelude.{Bool, true, false, cond, ◌&&◌, List, [], ◌∷◌, ◌++◌, map, length, ℕ, suc, eqb}
use Rattle.graph.specs.declared.record.TableEntry.{TableEntry}
use Rattle.graph.specs.declared.record.Block.{Block}
use Rattle.graph.specs.declared.record.Edge.{Edge}
use Rattle.graph.specs.Graph.{held}
use Rattle.addition.specs.Ways.{HopEnd, block, leave}
use Rattle.addition.specs.Add.{Outcome, added, refused, add_routes}

unfoldable pub join : List (List ℕ) → List ℕ
join [] = []
join (l ∷ ls) = l ++ join ls

unfoldable pub end_of : HopEnd → ℕ
end_of (block b) = suc b
end_of leave = 0

unfoldable pub dump : Outcome → List ℕ
dump (refused r) = r.number ∷ r.first ∷ r.second ∷ []
dump (added a) =
    (length a.graph.blocks ∷ length a.graph.edges ∷ length a.hops ∷ [])
    ++ join (map (λ b. b.first ∷ b.count ∷ []) a.graph.blocks)
    ++ join (map (λ e. e.source ∷ e.target ∷ e.kind ∷ e.role ∷ e.number ∷ e.key ∷ e.source_address ∷ e.target_address ∷ []) a.graph.edges)
    ++ join (map (λ h. h.source ∷ end_of h.end ∷ length h.calls ∷ join (map (λ c. length c ∷ c) h.calls)) a.hops)

unfoldable pub same : List ℕ → List ℕ → Bool
same [] [] = true
same [] (b ∷ t) = false
same (a ∷ s) [] = false
same (a ∷ s) (b ∷ t) = eqb a b && same s t

unfoldable pub holds : List TableEntry → List Block → List Edge → List ℕ → List ℕ → Bool
unfolding UNFOLD join end_of dump same
holds t b e l n =
    same (dump (add_routes (held (record { entry = 0; table = t; blocks = b; edges = e; regions = []; handlers = []; unresolved = []; calls = [] })) l)) n
'''


def unfoldable():
    """Every definition that opens only where it is named."""
    names = ['mathlib.Core.List.zip_with']
    for file in sorted(sum((glob.glob(f'crates/{c}/specs/*.antt', root_dir=ROOT) for c in ('image', 'graph', 'addition')), [])):
        _, crate, _, module = file[:-5].split('/')
        text = open(os.path.join(ROOT, file), encoding='utf-8').read()
        names += [f'Rattle.{crate}.specs.{module}.{name}' for name in re.findall(r'^ *unfoldable pub (?!use )(\S+)', text, re.M)]
    return ' '.join(names)


def strings(data):
    """The strings of a stream."""
    out, at = [], 0
    while at < len(data):
        (size,), at = struct.unpack_from('<I', data, at), at + 4
        out, at = out + [data[at:at + size]], at + size
    return out


def table(image):
    return [struct.unpack_from('<QQBBB', image, 16 + 31 * i) for i in range(struct.unpack_from('<I', image, 12)[0])]


class Answer:
    """The Rust's answer: a refusal, or the blocks, edges and hops of the graph as it is then."""
    def __init__(self, lines, code):
        words = [line.split() for line in lines]
        of = lambda kind: [w[1:] for w in words if w[0] == kind]
        self.refused = [int(w) for w in of('refused')[0]] if of('refused') else None
        place = {entry[0]: i for i, entry in enumerate(code)}
        self.blocks = [(place.get(int(first), 0) if first != '-' else 0, int(count)) for _, first, count in of('block')]
        self.edges = [[int(w) for w in e[1:] + p[1:]] for e, p in zip(of('edge'), of('payload'))]
        self.hops = {}
        for source, end, *tags in of('hop'):
            lists = self.hops.setdefault((int(source), 0 if end == 'leave' else int(end) + 1), [])
            lists.append([] if tags == ['-'] else [int(t) for t in tags])

    def numbers(self):
        if self.refused:
            return self.refused
        out = [len(self.blocks), len(self.edges), len(self.hops)] + [n for b in self.blocks for n in b] + [n for e in self.edges for n in e]
        for (source, end), lists in self.hops.items():
            out += [source, end, len(lists)] + [n for l in lists for n in [len(l)] + l]
        return out


def rows(run, seed, count, most):
    """Each addition: the table, the graph before it, the route image, and what the Rust answers."""
    made = run('images', 'scripts', seed, count)
    for script, told in zip(strings(made), run('answers', '--script', '--lines', input=made).decode().splitlines()):
        image, *additions = strings(script)
        parts = re.split(r';?addition \d+;', told)
        before = Answer(parts[0].split(';'), table(image)) if not parts[0].startswith('refused 1 ') else None
        for routes, part in zip(additions, parts[1:]):
            after = Answer(part.split(';'), table(image))
            if before and not before.refused and len(before.blocks) * len(before.edges) + 10 * len(after.edges) <= most:
                yield table(image), before, routes, after
            before = before if after.refused else after


def main():
    options = argparse.ArgumentParser(description=__doc__, formatter_class=argparse.RawDescriptionHelpFormatter)
    options.add_argument('--oracle', default=os.path.join(ROOT, 'oracle'))
    options.add_argument('--most', type=int, default=1500, help='leave out greater graphs')
    options.add_argument('seeds', nargs='*', default=STANDARD.split())
    given = options.parse_args()
    run = lambda name, *words, **more: subprocess.run(
        [os.path.join(given.oracle, 'target/release', name), *words], capture_output=True, check=True, **more).stdout
    found = sum((list(rows(run, *seed.split(':'), given.most)) for seed in given.seeds), [])
    folder = tempfile.mkdtemp(prefix='additions-')

    def write(path, text):
        os.makedirs(os.path.dirname(os.path.join(folder, path)), exist_ok=True)
        open(os.path.join(folder, path), 'w', encoding='utf-8').write(text)

    copy_crates(folder, 'image', 'graph', 'addition')
    write('crates.txt', 'image:\ngraph: image\naddition: graph image\nrows: addition graph image\n')
    write('crates/rows/src/lib.rt', '// Rows to compute.\n#![tactic(auto)]\n')
    write('crates/rows/specs/Dump.antt', DUMP.replace('UNFOLD', unfoldable()))
    many = lambda items: '(' + ' ∷ '.join([str(i) for i in items] + ['[]']) + ')'
    files = [found[i:i + PER_FILE] for i in range(0, len(found), PER_FILE)]
    for number, part in enumerate(files):
        text = ['-- Rows.', 'use Rattle.std.specs.Prelude.{◌≡◌, refl, true, [], ◌∷◌}', 'use Rattle.rows.specs.Dump.{holds}', '']
        for row, (code, before, routes, after) in enumerate(part, number * PER_FILE):
            # the words of a table's entry are numbers, and its flags too
            entries = many('record { address = %d; end = %d; has_end = %d; keeps = %d; flow = %d }' % entry for entry in code)
            blocks = many(literal(['first', 'count'], block) for block in before.blocks)
            edges = many(literal(EDGE, edge) for edge in before.edges)
            text += [f'row_{row} : holds {entries} {blocks} {edges} {many(routes)} {many(after.numbers())} ≡ true', 'unfolding holds', f'row_{row} = refl', '']
        write(f'crates/rows/specs/Rows{number}.antt', '\n'.join(text))
    write('crates/rows/specs/Lib.antt', 'pub mod Dump\n' + ''.join(f'pub mod Rows{n}\n' for n in range(len(files))))

    began = time.time()
    checked = subprocess.run(['rt', 'check'], cwd=os.path.join(folder, 'crates/rows'), capture_output=True)
    told = (checked.stdout + checked.stderr).decode()
    bad = sorted({int(n) for n in re.findall(r'`row_(\d+)`', told)})
    slow = {int(n) for n in re.findall(r'`row_(\d+)`: .*step limit', told)}
    for row in bad:
        print(f'row {row} ' + ('was not computed: the step limit' if row in slow else f'differs: {found[row][2].hex()} gives {found[row][3].numbers()}'))
    if checked.returncode and not bad:
        sys.exit(told[-4000:] + f'\nthe rows were not computed: {folder}')
    refusals = sorted({after.refused[0] for *_, after in found if after.refused})
    print(f'{len(found)} additions ({sum(not a.refused for *_, a in found)} accepted, refusals {refusals}), '
          f'{len(bad) - len(slow)} differ, {len(slow)} not computed, {time.time() - began:.0f} s')
    shutil.rmtree(folder)
    sys.exit(1 if set(bad) - slow else 0)


if __name__ == '__main__':
    main()
