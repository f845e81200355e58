#!/usr/bin/env bash
# check.sh [PROGRAM]   runs the built program as a user does, and each script once: the words of its command, its exit status, and both
# its streams, byte for byte. Prints a line for each case, and succeeds where all passed. It takes less than a minute.
set -u
export PYTHONDONTWRITEBYTECODE=1
here=$(cd "$(dirname "${BASH_SOURCE[0]}")" && pwd)
program=${1:-$here/../crates/fusion_cli/out/fusion_cli}
[ -x "$program" ] && [ -f "$program" ] || { echo "check.sh: $program is no program: build it by 'rt ci', or by 'rt run' in crates/fusion_cli" >&2; exit 2; }
program=$(cd "$(dirname "$program")" && pwd)/$(basename "$program")
t=$(mktemp -d) && trap 'rm -rf "$t"' EXIT
passed=0 failed=0

# verdict NAME STATUS   counts a case, which passed where the status is 0.
verdict() {
  if [ "$2" = 0 ]; then passed=$((passed + 1)); echo "ok      $1"; else failed=$((failed + 1)); echo "FAILED  $1"; fi
}

# compare NAME STATUS WANTED   a case whose run left its status, $t/out and $t/err; $t/want is what standard output has to be.
compare() {
  local bad=0
  [ "$2" = "$3" ] || { bad=1; echo "        status $2, and $3 is wanted"; }
  cmp -s "$t/out" "$t/want" || { bad=1; echo "        standard output: $(cmp "$t/out" "$t/want" 2>&1 | head -n 1)"; }
  cmp -s "$t/err" "$t/wanterr" || { bad=1; echo "        standard error: $(head -c 200 "$t/err" | head -n 1)"; }
  verdict "$1" "$bad"
}

# run NAME STATUS ERROR [WORD ..]   a run over standard input with these words; it has to write $t/want, and to end with the status and the line.
run() {
  local name=$1 status=$2 error=$3
  shift 3
  if [ -n "$error" ]; then printf '%s\n' "$error"; fi >"$t/wanterr"
  timeout 60 "$program" "$@" >"$t/out" 2>"$t/err"
  compare "$name" $? "$status"
}

# evaluated NAME SCAN   a run over a scan, which has to answer just what expected.py computes.
evaluated() {
  python3 "$here/expected.py" <"$2" >"$t/want" 2>"$t/wanterr"
  local status=$?
  timeout 60 "$program" fuse <"$2" >"$t/out" 2>"$t/err"
  compare "$1" $? "$status"
}

# refuses NAME WORD ..   a script that has to end with status 2, with a sentence and no traceback.
refuses() {
  local name=$1 bad=0
  shift
  python3 "$@" >"$t/out" 2>"$t/err" </dev/null
  [ $? = 2 ] && [ -s "$t/err" ] && ! grep -q Traceback "$t/err" || bad=1
  verdict "$name" "$bad"
}

# The words of the command.
: >"$t/want"
usage='fusion: usage: fuse [--workers N] | demo SEED FRAMES [--workers N]'
run 'no words' 2 "$usage" <"$here/typed.scan"
run 'an empty word' 2 "$usage" '' <"$here/typed.scan"
run 'a word that is no UTF-8' 2 "$usage" $'fuse\xff' <"$here/typed.scan"
run 'a second word that is no UTF-8' 2 "$usage" fuse $'\xff' <"$here/typed.scan"
while IFS= read -r line; do
  run "$line" 2 "$usage" $line <"$here/typed.scan"
done <<'END'
fuze
frobnicate
Fuse
fus
fuse fuse
fuse --workers 0
fuse --workers=65
fuse --workers 4294967297
fuse --workers
fuse --workers=
fuse --workers +4
fuse --workers=-4
fuse --workers 4 --workers 4
fuse --work 4
fuse --keep chunks
--workers 4 fuse
help
--help
fuse -h
demo --help
--version
demo
demo 7
demo 7 0
demo 7 1001
demo 4294967296 3
demo 00000000007 3
demo 7 0x3
demo 7 -3
demo 7 3 4
END
cp "$here/typed.out" "$t/want"
run 'fuse --workers=1' 0 '' fuse --workers=1 <"$here/typed.scan"
run 'fuse --workers 007' 0 '' fuse --workers 007 <"$here/typed.scan"
run 'as many workers as there may be' 0 '' fuse --workers 64 <"$here/typed.scan"

# Demos. Their replies were computed by two evaluators that share nothing with the program.
cat >"$t/want" <<'END'
frame 1 blocks 9736 resident 9736
frame 2 blocks 9817 resident 9817
frame 3 blocks 9934 resident 9934
sum blocks 9934 known 2849268 weight 8281776 distance 19061253821
end
END
run 'a demo' 0 '' demo 7 3 </dev/null
run 'a demo with one worker' 0 '' demo --workers 1 7 3 </dev/null
run 'a demo with its workers in between' 0 '' demo 0000000007 --workers=2 3 </dev/null
run 'a demo whose numbers stand behind --' 0 '' demo --workers 2 -- 7 3 </dev/null
run 'a demo over a directory as input' 0 '' demo 7 3 <"$t"
while read -r seed blocks known distance; do
  printf 'frame 1 blocks %s resident %s\nsum blocks %s known %s weight %s distance %s\nend\n' "$blocks" "$blocks" "$blocks" "$known" "$known" "$distance" >"$t/want"
  run "a demo of seed $seed" 0 '' demo "$seed" 1 </dev/null
done <<'END'
0 10141 2878493 15730758520
1 9963 2845383 20164930974
4294967295 9819 2793389 17906195384
END
printf 'frame 20 blocks 11114 resident 11114\nsum blocks 11114 known 3252774 weight 50967842 distance 24045657119\nend\n' >"$t/want"
timeout 60 "$program" demo 7 20 </dev/null 2>"$t/err" >"$t/all"
code=$?
tail -n 3 "$t/all" >"$t/out"; : >"$t/wanterr"
compare 'the end of a demo of 20 frames' "$code" 0
: >"$t/want"

# The ways in which a run ends early.
run 'an empty scan' 3 'fusion: scan refused at byte 0: short' fuse </dev/null
run 'no configuration' 3 'fusion: scan refused at byte 0: config json' fuse <<<'frame'
run 'a directory as input' 4 'fusion: read fault' fuse <"$t"
if [ -e /dev/full ]; then
  timeout 60 "$program" fuse <"$here/typed.scan" 2>"$t/err" >/dev/full
  code=$?
  : >"$t/out"; echo 'fusion: write fault' >"$t/wanterr"
  compare 'a full device as output' "$code" 5
fi
head -c 600 "$here/typed.scan" >"$t/cut.scan"
evaluated 'a scan that is cut off' "$t/cut.scan"
{ head -n 5 "$here/typed.scan"; echo 'summ'; } >"$t/line.scan"
evaluated 'a record that is none' "$t/line.scan"

# A scan of more than 2 MB: a depth map in which only the last pixel shows a depth, then two records after it.
{
  python3 "$here/make_config.py" --size 1050 1000 --focal 1000 1000 --axis 525 500 --range 0.5 2 --voxel 0.05
  printf 'frame 1 0 0 0 0 1 0 0 0 0 1 0\nP5 1050 1000 65535\n'
  head -c 2099998 /dev/zero
  printf '\003\350sum\nvoxels\nend\n'
} >"$t/large.scan"
evaluated 'a scan of more than 2 MB' "$t/large.scan"

# The examples.
for scan in "$here"/*.scan; do
  cp "${scan%.scan}.out" "$t/want"
  run "the example $(basename "$scan")" 0 '' fuse <"$scan"
done
for name in typed wall turned place render points; do
  python3 "$here/expected.py" <"$here/$name.scan" | cmp -s - "$here/$name.out"
  verdict "expected.py computes $name.out" $?
done
# The sums that the kernel's test expects, row by row in its table; `unmet` there names those of a block that stays new.
python3 "$here/expected.py" --blocks >"$t/want" && python3 - "$here/../crates/fuse_kernel/src/tests.rt" >"$t/out" <<'END'
import re, sys
table = open(sys.argv[1], encoding="utf-8").read().split("fn whole_blocks")[1]
numbers = r"\((\d+), (-?\d+), (\d+)\)"
unmet = re.search("let unmet = " + numbers, table)
for row in re.finditer(r'"([^"]+)",\s*[A-Z]+,\s*\w+,\s*\([-0-9, ]+\),\s*(?:unmet|' + numbers + ")", table):
    print("%s: %s %s %s" % (row[1], *(row.groups()[1:] if row[2] else unmet.groups())))
END
cmp "$t/out" "$t/want"
verdict 'expected.py --blocks computes the sums of the test of fuse_kernel' $?
refuses 'expected.py asks for its words' "$here/expected.py" --block

# Each script.
python3 "$here/corner.py" | cmp -s - "$here/corner.scan"
verdict 'corner.py prints corner.scan' $?
base=(--size 1 1 --focal 1 1 --axis 0 0 --range 0.5 2 --voxel 0.01 --mu 0.04)
python3 "$here/make_config.py" "${base[@]}" | grep -q '"radius":2016109,"centre":1020000,'
verdict 'make_config.py finds the least radius' $?
for radius in 2016108 2016109; do
  python3 "$here/make_config.py" "${base[@]}" | sed "s/\"radius\":[0-9]*/\"radius\":$radius/" >"$t/radius.scan"
  echo end >>"$t/radius.scan"
  evaluated "the opening test at radius $radius" "$t/radius.scan"
done
refuses 'make_config.py refuses a radius that is too small' "$here/make_config.py" "${base[@]}" --radius 2.016108
refuses 'make_config.py refuses a camera that reaches too far' "$here/make_config.py" "${base[@]}" --focal 0.01 1
refuses 'make_config.py asks for its words' "$here/make_config.py"

mkdir -p "$t/recording/depth"
python3 - "$t" <<'END'
import struct, sys, zlib
for n in range(3):
    # four by five pixels, each row under another one of the five filters of PNG
    rows = [b"".join((5000 + 200 * u + 300 * v + 10 * n).to_bytes(2, "big") for u in range(4)) for v in range(5)]
    packed, above = b"", bytes(8)
    for kind, row in enumerate(rows):
        packed += bytes([kind])
        for i in range(8):
            left, corner = (row[i - 2], above[i - 2]) if i > 1 else (0, 0)
            by = lambda p: abs(left + above[i] - corner - p)
            packed += bytes([row[i] - (0, left, above[i], (left + above[i]) // 2, min((left, above[i], corner), key=by))[kind] & 255])
        above = row
    def chunk(name, body):
        return struct.pack(">I", len(body)) + name + body + struct.pack(">I", zlib.crc32(name + body))
    with open("%s/recording/depth/%d.png" % (sys.argv[1], n), "wb") as file:
        file.write(b"\x89PNG\r\n\x1a\n" + chunk(b"IHDR", struct.pack(">IIBBBBB", 4, 5, 16, 0, 0, 0, 0))
                   + chunk(b"IDAT", zlib.compress(packed)) + chunk(b"IEND", b""))
    if n == 0:
        with open(sys.argv[1] + "/raster", "wb") as file:
            file.write(b"".join(rows))
END
printf '# time file\n%s depth/0.png\n%s depth/1.png\n%s depth/2.png\n' 1.00 1.03 9.00 >"$t/recording/depth.txt"
printf '# time tx ty tz qx qy qz qw\n%s 0 0 0 0 0 0 1\n%s 0.01 0 0 0.01 0.17 0.01 0.98\n' 1.001 1.025 >"$t/recording/groundtruth.txt"
python3 "$here/make_config.py" --size 4 5 --focal 20 20 --axis 1.5 2 --range 0.5 2 --voxel 0.02 --unit 200 >"$t/config"
python3 "$here/tum.py" "$t/recording" --config "$t/config" --ask voxels >"$t/tum.scan"
evaluated 'tum.py makes a scan' "$t/tum.scan"
grep -q '^frame 2 ' "$t/out" && ! grep -q -e refused -e '^frame 3 ' "$t/out"
verdict 'a depth map without a pose is left out, and the others are fused' $?
python3 "$here/tum.py" "$t/recording" --config "$t/config" --frames 1 >"$t/one.scan"
[ "$(grep -ac '^frame' "$t/one.scan")" = 1 ] && tail -c 48 "$t/one.scan" | head -c 40 | cmp -s - "$t/raster"
verdict 'tum.py gives as many frames as are asked for, and the samples of the PNG' $?
python3 "$here/tum.py" "$t/recording" --config "$t/config" --ask render >"$t/render.scan"
evaluated 'a picture of a recording' "$t/render.scan"
python3 "$here/tum.py" "$t/recording" --config "$t/config" --collect 1 --ask points >"$t/points.scan"
evaluated 'points of a recording, with a collection after each frame' "$t/points.scan"
[ "$(grep -c '^collect' "$t/out")" = 2 ] && grep -q '^points [1-9]' "$t/out"
verdict 'tum.py asks for collections and points' $?
refuses 'tum.py refuses a folder that is none' "$here/tum.py" "$t/nothing"
refuses 'tum.py refuses depth maps of another size' "$here/tum.py" "$t/recording"
head -c 60 "$t/recording/depth/0.png" >"$t/recording/depth/1.png"
refuses 'tum.py refuses a PNG that is cut off' "$here/tum.py" "$t/recording" --config "$t/config"

{ head -c -11 "$here/corner.scan"; printf 'render\nsum\nend\n'; } >"$t/render.scan"
evaluated 'a render of the corner' "$t/render.scan"
python3 "$here/view.py" "$t/out" --split "$t/split" && grep -q '^render 3$' "$t/split/replies.txt" && grep -q '^end$' "$t/split/replies.txt"
verdict 'view.py takes an output apart' $?
tail -c 6144 "$t/split/render-1.pgm" | cmp -s - <(tail -c +"$(($(grep -abo '^render 3$' "$t/out" | cut -d: -f1) + 25))" "$t/out" | head -c 6144)
verdict 'the PGM has the samples that the program wrote' $?
if command -v pamfile >/dev/null; then
  pamfile "$t/split/render-1.pgm" | grep -q 'PGM raw, 64 by 48  *maxval 65535'
  verdict 'Netpbm reads the PGM' $?
fi
head -c -2000 "$t/out" >"$t/cut.out"
refuses 'view.py refuses a render that is cut off' "$here/view.py" "$t/cut.out" --split "$t/split"
{ head -n 1 "$here/typed.scan"; printf 'render\nend\n'; } >"$t/render.scan"
evaluated 'a render before the first frame' "$t/render.scan"

# The surface's points, and collections.
{ head -n 1 "$here/typed.scan"; printf 'points\ncollect\nsum\nend\n'; } >"$t/points.scan"
evaluated 'points and a collection before the first frame' "$t/points.scan"
python3 "$here/view.py" "$t/out" --split "$t/split" && python3 "$here/read_ply.py" "$t/split/points-1.ply" | cmp -s - <(echo '0 points')
verdict 'a PLY without a point is read' $?
refuses 'view.py refuses to show no points' "$here/view.py" "$t/out" --cloud "$t/a.png"
{ head -c -11 "$here/corner.scan"; printf 'points\nrender\ncollect\npoints\nsum\nend\n'; } >"$t/points.scan"
evaluated 'points of the corner, before and after a collection' "$t/points.scan"
python3 "$here/view.py" "$t/out" --split "$t/split" --cloud "$t/a.png" --width 64
verdict 'view.py takes points out of an output, and shows them' $?
grep -v '^frame' "$t/split/replies.txt" | cmp -s - <(printf 'points 1138\nrender 3\ncollect 4\n'; grep -a -e '^points' -e '^sum' -e '^end$' "$t/out" | tail -n 3)
verdict 'a collection removes some blocks, and the replies have each line but those of a PLY' $?
{ head -n 3 "$t/split/replies.txt"; echo 'points 1138'; cat "$t/split/points-1.ply"; echo 'render 3'; cat "$t/split/render-1.pgm"
  sed -n '/^collect/,/^points/p' "$t/split/replies.txt"; cat "$t/split/points-2.ply"; tail -n 2 "$t/split/replies.txt"; } | cmp -s - "$t/out"
verdict 'the parts, put together again, are the output' $?
for n in 1 2; do
  [ "$(python3 "$here/read_ply.py" "$t/split/points-$n.ply" | sed -n 1p)" = "$(sed -n 's/^points //p' "$t/split/replies.txt" | sed -n "${n}p") points" ]
  verdict "read_ply.py finds as many points in PLY $n as the reply says" $?
done
if command -v assimp >/dev/null; then
  assimp info "$t/split/points-1.ply" --raw | grep -q '^Vertices: *1138$'
  verdict 'assimp reads the PLY' $?
fi
head -n 50 "$t/out" >"$t/cut.out"
sed 's/^property int y/property int w/' "$t/out" >"$t/bad.out"
refuses 'view.py refuses points that are cut off' "$here/view.py" "$t/cut.out" --split "$t/split"
refuses 'view.py refuses points of another form' "$here/view.py" "$t/bad.out" --split "$t/split"
head -n 50 "$t/split/points-1.ply" >"$t/cut.ply"
refuses 'read_ply.py refuses a file that is cut off' "$here/read_ply.py" "$t/cut.ply"
sed '9s/$/ 1/' "$t/split/points-1.ply" >"$t/bad.ply"
refuses 'read_ply.py refuses a row with a number too many' "$here/read_ply.py" "$t/bad.ply"
sed '9s/^[-0-9]*/1.5/' "$t/split/points-1.ply" >"$t/bad.ply"
refuses 'read_ply.py refuses a number that is not of its type' "$here/read_ply.py" "$t/bad.ply"
sed 's/^property int y/property whole y/' "$t/split/points-1.ply" >"$t/bad.ply"
refuses 'read_ply.py refuses an unknown type' "$here/read_ply.py" "$t/bad.ply"
refuses 'read_ply.py refuses a picture' "$here/read_ply.py" "$t/split/render-1.pgm"
refuses 'read_ply.py asks for its words' "$here/read_ply.py"

python3 "$here/view.py" "$here/corner.out" --ply "$t/a.ply" --slice "$t/a.png" --surface "$t/b.png" --width 64
verdict 'view.py shows a surface' $?
[ "$(python3 "$here/read_ply.py" "$t/a.ply" | sed -n 1p)" = "$(sed -n 's/^element vertex //p' "$t/a.ply") points" ]
verdict 'read_ply.py reads the PLY of the voxels next to a surface' $?
python3 "$here/view.py" --slice "$t/a.png" --axis z --at 100 <"$here/wall.out"
verdict 'view.py shows a slice of standard input' $?
cat "$here/render.out" "$here/points.out" "$here/wall.out" | python3 "$here/view.py" --slice "$t/a.png" --axis z --at 100
verdict 'view.py passes over pictures and points' $?
refuses 'view.py refuses an output without voxels' "$here/view.py" "$here/typed.out" --ply "$t/a.ply"
refuses 'view.py refuses an output without points' "$here/view.py" "$here/typed.out" --cloud "$t/a.png"
head -n 40 "$here/wall.out" >"$t/cut.out"
refuses 'view.py refuses a reply that is cut off' "$here/view.py" "$t/cut.out" --ply "$t/a.ply"

python3 "$here/compare.py" 1 12 --program "$program" >"$t/out"
verdict "compare.py: $(tail -n 1 "$t/out")" $?

# Each function that docs/LIBRARY.md shows stands in the tests, word for word but for its comment, so that the gate proves it.
python3 - "$here/.." <<'END'
import pathlib, re, sys
top = pathlib.Path(sys.argv[1])
tests = "\n".join(path.read_text(encoding="utf-8") for path in sorted(top.glob("crates/*/src/tests.rt")))
shown = re.findall("```rust\n(.*?)```", (top / "docs/LIBRARY.md").read_text(encoding="utf-8"), re.S)
parts = [part for block in shown for part in re.split("\n\n(?=///)", block.strip()) if part.startswith("///")]
missing = [part.split("\n")[0] for part in parts if part.split("\n", 1)[1] not in tests]
print("\n".join("        " + line for line in missing), end="\n" if missing else "")
sys.exit(0 if parts and not missing else 1)
END
verdict 'docs/LIBRARY.md shows what is proved' $?

echo "$passed passed, $failed failed"
[ "$failed" = 0 ]
