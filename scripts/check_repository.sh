#!/bin/sh
# Checks of our own, after the gate's: the committed objects are what their script makes, no text names a path of the machine that it
# was written on, the documents say what the code does (the examples, the tables of faults and statuses, the picture of the crates), and
# the built program ends with the status and the text of each case.
cd "$(dirname "$0")/.." || exit 1
failed=0

complain() {
    echo "$1" >&2
    failed=1
}

# the program, with these words in this folder, ends with this status and prints this text: ends FOLDER STATUS TEXT WORDS..
stabs=$(pwd)/stabs
ends() {
    folder=$1 status=$2 text=$3
    shift 3
    printed=$(cd "$folder" && "$stabs" "$@" 2>/dev/null)
    answered=$?
    [ "$answered" = "$status" ] || complain "stabs $*: status $answered, not $status"
    [ "$printed" = "$text" ] || complain "stabs $*: printed '$printed', not '$text'"
}

made=$(mktemp -d)
scripts/make_objects.py "$made"
for name in a.o a_big.o; do
    cmp -s "$made/$name" "crates/stabs_tool/data/$name" ||
        complain "crates/stabs_tool/data/$name is not what scripts/make_objects.py makes"
done
rm -r "$made"

if git grep -nIE '/(work|tmp|opt|root|home)/' -- . ':!scripts/check_repository.sh' >&2; then
    complain "a committed file names a path of a machine"
fi

# ---- the program is built here, where it is missing or old
./stabs >/dev/null

# ---- the documents
scripts/check_examples.py || complain "the documents have other examples"
scripts/check_tables.py || complain "the manual has other faults or statuses"
scripts/crates_picture.py --check || complain "the documents have other crates"
if command -v mandoc >/dev/null; then
    # a page that is named and not on this machine is no fault of ours
    wrong=$(mandoc -Tlint docs/stabs_tool.1 2>&1 | grep -v -e 'referenced manual not found' -e 'outdated mandoc.db')
    [ -z "$wrong" ] || complain "$wrong"
else
    echo "note: docs/stabs_tool.1 is not checked: there is no mandoc" >&2
fi

# ---- many of anything, and limits
scripts/check_limits.py || complain "the program is wrong on many, or at a limit"

# ---- no memory, and failing calls of the system
scripts/each_failure.py >/dev/null || complain "the program is wrong where memory or the system fails"

# ---- the edge of the program: what its tests in memory cannot see
ends . 2 'usage: word 0'
ends . 2 'usage: word 0' aks a.o
ends . 2 'usage: word 2' ask a.o
ends . 2 'usage: word 3' query a.o tag 01 list
ends . 5 'absent missing.o' query missing.o tag 0 list
ends . 6 'read fault docs' query docs tag 0 list
ends . 3 'refused README.md 1 0 0' query README.md tag 0 list
ends crates/stabs_tool/data 0 none query a.o tag 0 lost

# each question, on the object in either byte order
for name in a.o a_big.o; do
    asked() {
        text=$1
        shift
        ends crates/stabs_tool/data 0 "$text" query "$name" "$@"
    }
    asked '0 00000000 00000008 /w/a.c' units
    asked '0 /w/a.c
1 stdio.h
2 list.h' files 0
    asked '3
0 T list s8val:#1,0,32;next:#2,32,32;;
1 t int r#1;-2147483648;2147483647;
2 - - *#0' tag 0 list
    asked '2
0 t size_t #1
1 t int r#1;-2147483648;2147483647;' type 0 size_t
    asked '1
0 - - undefined' number 0 2 9
    asked 'unit 0 /w/a.c
function main 00000000
var p argc (0,1) 00000008
block 00000000 00000008
var - head (0,2)=*(2,1) fffffffc
var G total (0,1) -' scope 0x5
    asked '/w/a.c 5 00000004' line 0x6
    asked '0 00000004' addresses /w/a.c 5
done

ends crates/stabs_tool/data 5 'absent b.o' dump b.o
[ "$(./stabs dump crates/stabs_tool/data/a_big.o | sed -n '1p;6p;28p')" = 'order big machine 0000 entry 00000000
reloc text 0 00000004 21 0 2 1
21 01 00 0000 00000000 _f' ] || complain "stabs dump: other lines"

# the source of both objects, what is listed of them, and sources that are refused
folder=$(mktemp -d)
cp crates/stabs_tool/data/a.s "$folder"
for name in a.o a_big.o; do
    order=little
    [ "$name" = a.o ] || order=big
    ends "$folder" 0 '' as "$order" a.s made.o
    cmp -s "$folder/made.o" "crates/stabs_tool/data/$name" || complain "stabs as $order a.s: not $name"
    "$stabs" list "crates/stabs_tool/data/$name" >"$folder/again.s"
    ends "$folder" 0 '' as "$order" again.s again.o
    cmp -s "$folder/again.o" "crates/stabs_tool/data/$name" || complain "stabs list $name: another object"
done
printf '.byte 1\n.bite 1\n' >"$folder/wrong.s"
ends "$folder" 3 'refused wrong.s 70 2 0' as little wrong.s wrong.o
[ -e "$folder/wrong.o" ] && complain "stabs as wrong.s: stored an object"
ends "$folder" 7 'write fault' as little a.s .
ends "$folder" 3 'refused a.s 1 0 0' list a.s

# two objects are linked, in either byte order, and the image is asked
cp crates/stabs_tool/data/b.s "$folder"
for order in little big; do
    ends "$folder" 0 '' as "$order" a.s one.o
    ends "$folder" 0 '' as "$order" b.s two.o
    ends "$folder" 0 'ranges 4 kept 4 entries 34' link keep 0x1000 image one.o two.o
    ends "$folder" 0 '0 00001000 00001008 /w/a.c
1 00001008 0000100c b.c' query image units
    ends "$folder" 0 '/w/a.c 5 00001004' query image line 0x1006
    ends "$folder" 0 'ranges 4 kept 2 entries 30' link merge 0x1000 merged one.o two.o
    ends "$folder" 0 'units 2 headers 4 excluded 2 symbols 11' check merged
    ends "$folder" 0 "$("$stabs" query "$folder/image" tag 1 list)" query merged tag 1 list
    ends "$folder" 0 'ranges 4 kept 2 entries 30
/w/a.c 5 00000004' ask one.o two.o -- line 0x6
done
ends "$folder" 4 'list 92 0 21 _f' link keep 0x1000 image one.o
ends "$folder" 5 'absent none.o' link keep 0x1000 image one.o none.o
ends "$folder" 2 'usage: word 4' link keep 0x0 image

rm -r "$folder"

# a sink that takes nothing
if [ -c /dev/full ]; then
    "$stabs" query missing.o tag 0 list >/dev/full 2>/dev/null
    answered=$?
    [ "$answered" = 7 ] || complain "stabs on a full device: status $answered, not 7"
fi

exit $failed
