#!/bin/sh
# Draws scripts with the built program, and compares the pictures of docs/ byte by byte. Each picture has to be
# well-formed XML, and that of a run of 200 events below 400 KB. Then the faults of the command.
# Prints a line for each case that differs, and ends with status 1 where there is one.
set -u
cd "$(dirname "$0")/.." || exit 1
. tests/judge.sh

# is_picture FILE: whether it is an SVG element that XML's rules admit, with a title, a description, and its size.
is_picture() {
    python3 - "$1" << 'END'
import sys
from xml.etree import ElementTree
root = ElementTree.parse(sys.argv[1]).getroot()
svg = "{http://www.w3.org/2000/svg}"
assert root.tag == svg + "svg"
assert root.find(svg + "title").text and root.find(svg + "desc").text
width, height = int(root.get("width")), int(root.get("height"))
assert root.get("viewBox") == f"0 0 {width} {height}"
for text in root.iter(svg + "text"):
    assert 0 <= int(text.get("x")) <= width and 0 <= int(text.get("y")) <= height
END
}

# The pictures of the documents, and the scripts that they are of.
while read -r picture script; do
    "$program" draw "$script" > "$work/out" 2> "$work/err"
    code=$?
    cp "docs/$picture" "$work/want-out"
    : > "$work/want-err"
    is_picture "$work/out" 2>> "$work/err"
    judge "$picture" "$code" 0
done << END
late-copy.svg tests/rows/refused-copy-gives-count-back.script
interrupt.svg tests/draw/interrupt.script
END

# Each row: a text stands for each call and each answer, an arrow for each message, which may have been lost or be on its
# way, and a dashed one for each copy of a reply that was refused and for its result.
arrow='d="M[0-9]+ [0-9]+H[0-9]+V[0-9]+(H[0-9]+" marker-end="url\(#head\)"|m-3 -3l6 6m-6 0l6 -6"|")/>$'
for script in tests/rows/*.script tests/draw/*.script; do
    "$program" draw "$script" > "$work/picture" 2> "$work/err"
    code=$?
    is_picture "$work/picture" 2>> "$work/err"
    {
        grep -c -E '>(call [0-9]+ .*|answer [0-9]+ .*)</text>' "$work/picture"
        grep -c -E "^<path (stroke-dasharray=\"4 3\" )?$arrow" "$work/picture"
        grep -E "^<path stroke-dasharray=\"4 3\" $arrow" "$work/picture" | wc -l
    } > "$work/out"
    "$program" run "$script" > "$work/lines"
    {
        grep -c -E '^(call|answer) ' "$work/lines"
        grep -c -E '^(read|written) |^done [0-9]+ [0-9]+ [0-9]+$|^again |^taken [0-9]+ again$' "$work/lines"
        grep -E '^written [0-9]+ (2|22)$' "$work/lines" | sed p | wc -l
    } > "$work/want-out"
    : > "$work/want-err"
    judge "drawing of $(basename "$script" .script)" "$code" 0
done

# A run of 200 events.
{
    printf 'mount 1000 0\nread p 0\ntake 0\ndo 2\nwrite 0\nsettle 0\ncall mkdir /a\nread p 0\ntake 0\ndo 4\nwrite 0\nsettle 0\n'
    for unique in $(seq 6 2 58); do
        printf 'tick 1000\ncall unlink /a/b\nread p 0\ntake 0\ndo %s\nwrite 0\nsettle 0\n' "$unique"
    done
} | head -n 200 > "$work/script"
"$program" draw "$work/script" > "$work/picture" 2> "$work/err"
code=$?
is_picture "$work/picture" 2>> "$work/err"
{ wc -l < "$work/script"; [ "$(wc -c < "$work/picture")" -lt 400000 ] && echo below; } > "$work/out"
printf '200\nbelow\n' > "$work/want-out"
: > "$work/want-err"
judge "a run of 200 events" "$code" 0

# A script on standard input, of which only the name differs.
cp tests/draw/interrupt.script "$work/in"
"$program" draw - < "$work/in" > "$work/out" 2> "$work/err"
code=$?
sed 's,^<title>.*</title>$,<title>The run of -</title>,' docs/interrupt.svg > "$work/want-out"
judge "a script on standard input" "$code" 0

# A text that XML would read otherwise, and one that is too long.
printf 'mount 1000 0\nread p 0\ntake 0\ndo 2\nwrite 0\ncall stat /<a>&"b"\ncall stat /%s\n' "$(printf '%0100d' 0)" > "$work/script"
"$program" draw "$work/script" > "$work/picture" 2> "$work/err"
code=$?
is_picture "$work/picture" 2>> "$work/err"
sed -n -E 's/^<text[^>]*>(call .*)<\/text>$/\1/p' "$work/picture" > "$work/out"
printf 'call 1 stat /&lt;a&gt;&amp;&quot;b&quot;\ncall 2 stat /%033d..\n' 0 > "$work/want-out"
judge "texts that are escaped and cut" "$code" 0

# Bad input, of which nothing is drawn.
newline='
'
: > "$work/in"
printf 'mount 1000 0\nread p 0\ntake one\nfoo\n' > "$work/script"
expect "a mistake on the third line" 1 "" "line 3: bad number$newline" draw "$work/script"
printf '# a comment\n\nfoo\n' > "$work/script"
expect "an unknown event" 1 "" "line 3: unknown event$newline" draw "$work/script"
printf 'call stat' > "$work/script"
expect "no path" 1 "" "line 1: wrong words$newline" draw "$work/script"
printf 'call write 1 0 6G\n' > "$work/script"
expect "no hex" 1 "" "line 1: bad text$newline" draw "$work/script"
expect "a missing file" 1 "" "cannot read $work/none$newline" draw "$work/none"
expect "a directory as file" 1 "" "cannot read $work$newline" draw "$work"
"$program" draw tests/draw/interrupt.script > /dev/full 2> "$work/err"
code=$?
: > "$work/out"
: > "$work/want-out"
: > "$work/want-err"
judge "a full device" "$code" 5

# The frames around the eighteenth line of a capture: those from twelve lines before it to the end.
forgets=tests/sessions/forgets.capture
"$program" draw --around 18 $forgets > "$work/picture" 2> "$work/err"
code=$?
is_picture "$work/picture" 2>> "$work/err"
{
    sed -n -E 's/^<text x="10" [^>]*>(line [0-9]+)<\/text>$/\1/p' "$work/picture"
    grep -c -F 'marker-end="url(#head)"/>' "$work/picture"
    sed -n -E 's/^<text [^>]*fill="#c00">(kernel: .*)<\/text>$/\1/p' "$work/picture"
} > "$work/out"
{
    sed -n -E '/^[<>]/{=}' $forgets | sed -n -E '/^([6-9]|[12][0-9])$/s/^/line /p'
    sed -n '6,$p' $forgets | grep -c '^[<>]'
    "$program" check $forgets | sed -n -E 's/^line ([6-9]|[12][0-9]): (kernel: [^:]*)(: .*)?$/\2/p'
} > "$work/want-out"
: > "$work/want-err"
judge "the frames around a line" "$code" 0

# How often nodes are counted, worked out by hand: an entry that gives node 7, and a FORGET of it.
{
    printf '> 380000001a0000000200000000000000000000000000000000000000000000000000000000000000070000002d0000000000000000000000\n'
    printf '< 18000000000000000200000000000000070000002d000000\n'
    printf '> 2a0000000100000004000000000000000100000000000000e8030000e80300004d000000000000006100\n'
    printf '< %s\n' 9000000000000000040000000000000007000000000000000000000000000000000000000000000000000000000000000000000000000000090000000000000000000000000000000000000000000000000000000000000000000000000000000000000000000000000000000000000000000000a4810000010000000000000000000000000000000000000000000000
    printf '> 300000000200000006000000000000000700000000000000e8030000e80300004d000000000000000100000000000000\n'
} > "$work/in"
"$program" draw --around 4 - < "$work/in" > "$work/picture" 2> "$work/err"
code=$?
is_picture "$work/picture" 2>> "$work/err"
sed -n -E 's/^<text x="710" [^>]*fill="#000">(.+)<\/text>$/\1/p' "$work/picture" > "$work/out"
printf '7:1\n7:0\n' > "$work/want-out"
judge "nodes where their counts change" "$code" 0

# Of a bad line that stands near, or before, nothing is drawn; one that comes later is not read.
{ cat $forgets; printf '> 6G\n'; } > "$work/script"
last=$(wc -l < "$work/script")
: > "$work/in"
expect "a bad line near" 1 "" "line $last: bad hex$newline" draw --around "$((last - 3))" "$work/script"
"$program" draw --around "$((last - 13))" "$work/script" > /dev/null 2> "$work/err"
code=$?
: > "$work/out"
: > "$work/want-out"
: > "$work/want-err"
judge "a bad line that comes later" "$code" 0

# The command line. Its help goes to standard error.
for words in "draw" "draw --help" "draw a b" "draw --hex a" "draw --around x a"; do
    # shellcheck disable=SC2086
    "$program" $words < /dev/null > "$work/out" 2> "$work/err"
    code=$?
    cp "$work/err" "$work/want-err"
    [ -s "$work/err" ] || echo "help" > "$work/want-err"
    judge "command line: $words" "$code" 2
done

[ "$failed" = 0 ] || echo "$failed drawings failed"
echo "$passed drawings passed"
[ "$failed" = 0 ]
