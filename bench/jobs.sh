#!/usr/bin/env bash
# Times the proved program over job files: 65,536 bytes of posts, 60,000 generated posts, 60,000 posts with falling
# and with mixed ids, and inputs of 16 MiB. Prints for each the wall time, the resident memory and the status.
# The figures go to docs/SPEED.md with date and machine.
set -eu
cd "$(dirname "$0")/.."
MOORINGAKEE_BUILD=here ./mooringakee </dev/null >/dev/null
work=$(mktemp -d)
trap 'rm -rf "$work"' EXIT
python3 - "$work" <<'PY'
import random, sys
work = sys.argv[1]

def write(name, text):
    with open(work + '/' + name, 'w') as file:
        file.write(text)

def generated(seed, lines):
    mask, state, out = (1 << 64) - 1, seed, []
    def draw():
        nonlocal state
        state ^= (state << 13) & mask
        state ^= state >> 7
        state ^= (state << 17) & mask
        return state
    for place in range(lines):
        op = ('bytes', 'words', 'sum')[draw() % 3]
        count = draw() % 8
        if op == 'bytes':
            text = 'x' * count
        elif op == 'words':
            text = ' '.join(['ab'] * count)
        else:
            text = ' '.join(str(draw() % 1000) for _ in range(count))
        out.append('post,%d,%s,%s\n' % (place, op, text))
    return ''.join(out)

posts, size = [], 0
while True:
    line = 'post,%d,bytes,x\n' % len(posts)
    if size + len(line) > 65536:
        break
    posts.append(line)
    size += len(line)
write('posts_64_KiB', ''.join(posts))
write('posts_60000_generated', generated(1, 60000))
write('posts_60000_falling', ''.join('post,%d,bytes,x\n' % place for place in range(60000, 0, -1)))
ids = list(range(60000))
random.Random(1).shuffle(ids)
write('posts_60000_mixed', ''.join('post,%d,bytes,x\n' % place for place in ids))
write('one_field_16_MiB', 'x' * 16777216)
write('one_sum_16_MiB', 'post,1,sum,' + '1 ' * 8388601 + '1\n')
write('one_words_16_MiB', 'post,1,words,' + 'a ' * 8388601)
write('empty_lines_16_MiB', '\n' * 16777216)
write('one_byte_more', '\n' * 16777217)
PY
for input in "$work"/*; do
  status=0
  /usr/bin/time -f '%e s, %M KB resident' -o "$work.time" crates/mooringakee/out/mooringakee <"$input" >/dev/null || status=$?
  printf '%-24s %s, status %s\n' "$(basename "$input")" "$(tail -n 1 "$work.time")" "$status"
done
rm -f "$work.time"
