#!/usr/bin/env python3
"""The definitions of the graph crate, computed and held against the published Rust.

    scripts/definitions.py [--oracle DIR] [--most BYTES] [FAMILY:SEED:COUNT ..]

Images of the families come from the oracle, which answers them by the published Rust (build alone). For each image the script
writes one line of antt into a scratch crate outside the repository: what `build_of` gives, as numbers, is what the Rust
gave, and a built graph meets rule 21. `rt` computes the lines; those that do not hold are printed with their images.
"""
import argparse, glob, os, re, shutil, struct, subprocess, sys, tempfile, time

ROOT = os.path.dirname(os.path.dirname(os.path.abspath(__file__)))
SECTIONS = [  # record of each section, with the struct format of its fields
    ('instructions', 'address end has_end keeps flow target cases', '<QQBBBQI'),
    ('cases', 'key target', '<IQ'),
    ('sources', 'address edges', '<QI'),
    ('edges', 'target kind payload', '<QBI'),
    ('handlers', 'start end entry kind filter', '<QQQBI'),
    ('routes', 'start end paths', '<QQI'),
    ('paths', 'end handler steps', '<BQI'),
    ('steps', 'code value', '<BQ'),
]
BOOLEANS = {'has_entry', 'has_end', 'keeps'}
COMPUTED = '0139'  # the unresolved roles without a target
PER_FILE = 40
STANDARD = 'small:1:200 handlers:2:100 given:3:100 mistakes:4:200 routes:5:60 wide:6:60 funclets:7:40 typical:8:30 exhaustive:1:150'


def literal(names, values):
    shown = [('true' if v else 'false') if n in BOOLEANS else v for n, v in zip(names, values)]
    return 'record { ' + '; '.join(f'{n} = {v}' for n, v in zip(names, shown)) + ' }'


def image(data):
    """The image as a literal, its bytes being of good form."""
    header = literal(['mode', 'calls', 'has_entry', 'entry'], struct.unpack_from('<BBBQ', data, 1))
    lists, at = {}, 12
    for name, fields, form in SECTIONS:
        (count,), at = struct.unpack_from('<I', data, at), at + 4
        records = [struct.unpack_from(form, data, at + i * struct.calcsize(form)) for i in range(count)]
        at += count * struct.calcsize(form)
        lists[name] = ' ∷ '.join([literal(fields.split(), r) for r in records] + ['[]'])
    routes = '; '.join(f'{name} = {lists.pop(name)}' for name in ('routes', 'paths', 'steps'))
    rest = '; '.join(f'{name} = {value}' for name, value in lists.items())
    return f'record {{ header = {header}; {rest}; routes = record {{ {routes} }} }}'


def expected(answer):
    """The Rust's answer as numbers: a refusal, or the graph kind by kind. What may be absent is 0, else one more."""
    maybe = lambda word: 0 if word == '-' else int(word) + 1
    lines = [line.split() for line in answer.split(';')]
    of = lambda kind: [line[1:] for line in lines if line[0] == kind]
    if of('refused'):
        return [int(word) for word in of('refused')[0]]
    out = [int(w) for w in of('built')[0]] + [int(of('entry')[0][0]), int(of('reached')[0][0]), 1]
    for _, first, count in of('block'):
        out += [maybe(first), int(count)]
    for edge, payload in zip(of('edge'), of('payload')):
        out += [int(w) for w in edge[1:] + payload[1:]]
    for (_, parent, start, end), protects in zip(of('region'), of('protects')):
        words = [0] * 16
        for block in map(int, protects[1:]):
            words[block // 64] |= 1 << block % 64
        out += [maybe(parent), int(start), int(end)] + words
    for _, region, place, entry, kind, filter_ in of('handler'):
        out += [int(region), int(place), int(entry), int(kind), maybe(filter_)]
    for source, target, role, case in of('unresolved'):
        out += [int(source), maybe(target), int(role), maybe(case)]
    return out + sum(([int(source), maybe(target)] for source, target in of('call')), [])


DUMP = '''
-- The same numbers from the definitions.
use Rattle.std.specs.Prelude.{Bool, true, false, cond, ◌&&◌, ◌||◌, List, [], ◌∷◌, ◌++◌, map, length, ℕ, suc, eqb}
use Rattle.image.specs.Image.{Image}
use Rattle.graph.specs.Graph.{Graph, held}
use Rattle.graph.specs.Build.{Outcome, built, refused, build_of}
use Rattle.graph.specs.Table.{entry_at}
use Rattle.graph.specs.WellFormed.{well_formed}
use Rattle.graph.specs.Reached.{reached_blocks}

unfoldable pub join : List (List ℕ) → List ℕ
join [] = []
join (l ∷ ls) = l ++ join ls

unfoldable pub maybe : Bool → ℕ → ℕ
maybe there n = cond there (suc n) 0

unfoldable pub dump : Outcome → List ℕ
dump (refused r) = r.number ∷ r.first ∷ r.second ∷ []
dump (built g) =
    (length g.blocks ∷ length g.edges ∷ length g.regions ∷ length g.unresolved ∷ length g.calls ∷
    g.entry ∷ length (reached_blocks g) ∷ cond (well_formed (held g)) 1 0 ∷ [])
    ++ join (map (λ b. cond (eqb b.count 0) 0 (suc (entry_at g.table b.first).address) ∷ b.count ∷ []) g.blocks)
    ++ join (map (λ e. e.source ∷ e.target ∷ e.kind ∷ e.role ∷ e.number ∷ e.key ∷ e.source_address ∷ e.target_address ∷ []) g.edges)
    ++ join (map (λ r. maybe (eqb r.has_parent 1) r.parent ∷ r.start ∷ r.end ∷ r.protected) g.regions)
    ++ join (map (λ h. h.region ∷ h.place ∷ h.entry ∷ h.kind ∷ maybe (eqb h.kind 4) h.filter ∷ []) g.handlers)
    ++ join (map (λ u. u.source ∷ cond (COMPUTED) 0 (suc u.target) ∷ u.role ∷ maybe (eqb u.role 6) u.case_index ∷ []) g.unresolved)
    ++ join (map (λ c. c.source ∷ maybe (eqb c.has_target 1) c.target ∷ []) g.calls)

unfoldable pub same : List ℕ → List ℕ → Bool
same [] [] = true
same [] (b ∷ t) = false
same (a ∷ s) [] = false
same (a ∷ s) (b ∷ t) = eqb a b && same s t

unfoldable pub holds : Image → List ℕ → Bool
unfolding UNFOLD join maybe dump same
holds m l = same (dump (build_of m)) l
'''.replace('COMPUTED', ' || '.join(f'eqb u.role {role}' for role in COMPUTED))


def copy_crates(folder, *crates):
    """The crates as they stand, with their proofs: what a check of them kept elsewhere serves again."""
    for crate in crates:
        for part in ('src', 'specs', 'proofs'):
            shutil.copytree(os.path.join(ROOT, 'crates', crate, part), os.path.join(folder, 'crates', crate, part))


def unfoldable():
    """Every definition that opens only where it is named."""
    names = ['mathlib.Core.List.zip_with']
    for file in sorted(glob.glob('crates/image/specs/*.antt', root_dir=ROOT) + glob.glob('crates/graph/specs/*.antt', root_dir=ROOT)):
        _, crate, _, module = file[:-5].split('/')
        text = open(os.path.join(ROOT, file), encoding='utf-8').read()
        names += [f'Rattle.{crate}.specs.{module}.{name}' for name in re.findall(r'^unfoldable pub (?!use )(\S+)', text, re.M)]
    return ' '.join(names)


def tally(rows):
    """What the images have in them."""
    runs = lambda data: [struct.unpack_from('<QQ', data, 16 + 31 * i) for i in range(struct.unpack_from('<I', data, 12)[0])]
    uneven = sum(any(a[1] != b[0] for a, b in zip(runs(data), runs(data)[1:])) for _, data, _ in rows)
    modes = [sum(data[1] == mode for _, data, _ in rows) for mode in range(3)]
    refusals = sorted({int(answer.split()[1]) for _, _, answer in rows if answer.startswith('refused')})
    print(f'modes {modes}, flattened {sum(data[2] for _, data, _ in rows)}, with a gap or overlap {uneven}, refusals {refusals}')


def main():
    options = argparse.ArgumentParser(description=__doc__, formatter_class=argparse.RawDescriptionHelpFormatter)
    options.add_argument('--oracle', default=os.path.join(ROOT, 'oracle'))
    options.add_argument('--most', type=int, default=2000, help='leave out longer images')
    options.add_argument('families', nargs='*', default=STANDARD.split())
    given = options.parse_args()
    run = lambda name, *words, **more: subprocess.run(
        [os.path.join(given.oracle, 'target/release', name), *words], capture_output=True, check=True, **more).stdout.decode().splitlines()
    rows = []
    for family, seed, count in (f.split(':') for f in given.families):
        images = [bytes.fromhex(line) for line in run('images', family, seed, count, '--hex')]
        images = [i for i in images if len(i) <= given.most]
        answers = run('answers', '--build', '--lines', input=b''.join(struct.pack('<I', len(i)) + i for i in images))
        rows += [(family, i, a) for i, a in zip(images, answers) if a.split()[:2] not in (['refused', '1'], ['refused', '2'])]

    folder = tempfile.mkdtemp(prefix='definitions-')

    def write(path, text):
        os.makedirs(os.path.dirname(os.path.join(folder, path)), exist_ok=True)
        open(os.path.join(folder, path), 'w', encoding='utf-8').write(text)

    copy_crates(folder, 'image', 'graph')
    write('crates.txt', 'image:\ngraph: image\nrows: graph image\n')
    write('crates/rows/src/lib.rt', '// Rows to compute.\n#![tactic(auto)]\n')
    write('crates/rows/specs/Dump.antt', DUMP.replace('UNFOLD', unfoldable()))
    files = [rows[i:i + PER_FILE] for i in range(0, len(rows), PER_FILE)]
    for number, part in enumerate(files):
        text = ['-- Rows.', 'use Rattle.std.specs.Prelude.{◌≡◌, refl, true, false, [], ◌∷◌}', 'use Rattle.rows.specs.Dump.{holds}', '']
        for row, (_, data, answer) in enumerate(part, number * PER_FILE):
            numbers = ' ∷ '.join([str(n) for n in expected(answer)] + ['[]'])
            text += [f'row_{row} : holds ({image(data)}) ({numbers}) ≡ true', 'unfolding holds', f'row_{row} = refl', '']
        write(f'crates/rows/specs/Rows{number}.antt', '\n'.join(text))
    write('crates/rows/specs/Lib.antt', 'pub mod Dump\n' + ''.join(f'pub mod Rows{n}\n' for n in range(len(files))))

    began = time.time()
    checked = subprocess.run(['rt', 'check'], cwd=os.path.join(folder, 'crates/rows'), capture_output=True)
    told = (checked.stdout + checked.stderr).decode()
    bad = sorted({int(n) for n in re.findall(r'`row_(\d+)`', told)})
    for row in bad:
        family, data, answer = rows[row]
        print(f'row {row} ({family}) differs: {data.hex()}\n    the Rust: {answer}')
    if checked.returncode and not bad:
        sys.exit(told[-4000:] + f'\nthe rows were not computed: {folder}')
    tally(rows)
    print(f'{len(rows)} images, {len(bad)} differ, {time.time() - began:.0f} s')
    shutil.rmtree(folder)
    sys.exit(1 if bad else 0)


if __name__ == '__main__':
    main()
