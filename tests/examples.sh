# Runs the example callers, built in folder $1, on copies of the sample files, and compares what they print and leave.
set -e
build=$(cd "$1" && pwd)
examples=$(cd "$(dirname "$0")/../examples" && pwd)
work=$(mktemp -d)
trap 'rm -rf "$work"' EXIT
cp "$examples"/*.nrrd "$examples"/*.nhdr "$examples"/*.txt "$work"
cd "$work"
passed=0

# expect NAME WANTED GOT
expect() {
    if [ "$2" != "$3" ]; then
        printf '%s: expected\n%s\ngot\n%s\n' "$1" "$2" "$3"
        exit 1
    fi
    passed=$((passed + 1))
}

expect "offsets differ" \
    'sweep.nrrd has `utc offset` 37, head2.nhdr has 36: correct one of them first' \
    "$("$build/merge" sweep.nrrd head2.nhdr 2>&1 || true)"

expect "corrected" "head2.nhdr: utc offset is 37" "$("$build/correct" head2.nhdr 37)"

expect "merged" \
'head 1 at 0 0: 1
head 1 at 1 0: 2
head 1 at 0 1: 256
head 1 at 1 1: 65535
head 2 at 0 0: -2
head 2 at 1 0: -1
head 2 at 0 1: 0
head 2 at 1 1: 1
head 2 at 0 2: 2
head 2 at 1 2: 300' \
    "$("$build/merge" sweep.nrrd head2.nhdr)"

# the corrected line alone has changed
sed 's/utc offset:=36/utc offset:=37/' "$examples/head2.nhdr" > wanted
expect "other lines stay" "$(od -c wanted)" "$(od -c head2.nhdr)"

# the last of two lines with the key is set, the data stays, and the file is replaced by one that is a byte shorter
"$build/correct" sweep.nrrd 5 > /dev/null
sed 's/utc offset:=37/utc offset:=5/' "$examples/sweep.nrrd" > wanted
expect "last line set" "$(od -c wanted)" "$(od -c sweep.nrrd)"

# a refusal names the line and leaves the file as it was
printf 'NRRD0004\ntype: uint8\nsizes: 1\n' > bad.nrrd
cp bad.nrrd wanted
expect "line named" \
    "bad.nrrd:3: the field comes before the one that it needs (dimension; space or space dimension)" \
    "$("$build/correct" bad.nrrd 5 2>&1 || true)"
expect "file left" "$(od -c wanted)" "$(od -c bad.nrrd)"
expect "nothing beside it" "bad.nrrd" "$(ls | grep '^bad')"

# the mode stays
chmod 640 sweep.nrrd
"$build/correct" sweep.nrrd 37 > /dev/null
expect "mode kept" "-rw-r-----" "$(ls -l sweep.nrrd | cut -c1-10)"

# data in slices, named by a pattern and by a list; in the header's folder, wherever the program runs
slices='head 1 at 0 0 0: 1
head 1 at 1 0 0: 2
head 1 at 0 1 0: 3
head 1 at 1 1 0: 4
head 1 at 0 2 0: 5
head 1 at 1 2 0: 6
head 1 at 0 0 1: 7
head 1 at 1 0 1: 8
head 1 at 0 1 1: 9
head 1 at 1 1 1: 10
head 1 at 0 2 1: 11
head 1 at 1 2 1: 12
head 2 at 0 0 0: 7
head 2 at 1 0 0: 8
head 2 at 0 1 0: 9
head 2 at 1 1 0: 10
head 2 at 0 2 0: 11
head 2 at 1 2 0: 12
head 2 at 0 0 1: 1
head 2 at 1 0 1: 2
head 2 at 0 1 1: 3
head 2 at 1 1 1: 4
head 2 at 0 2 1: 5
head 2 at 1 2 1: 6'
expect "slices" "$slices" "$("$build/merge" head3.nhdr head4.nhdr)"
expect "slices from another folder" "$slices" "$(cd / && "$build/merge" "$work/head3.nhdr" "$work/head4.nhdr")"

# numbers that fall: the last slice first, as the list has them
sed 's/ 1 2 1$/ 2 1 -1/' head3.nhdr > down.nhdr
second=$(printf '%s\n' "$slices" | grep '^head 2')
expect "slices, the last one first" "$(printf '%s\n' "$second" | sed 's/^head 2/head 1/')
$second" "$("$build/merge" down.nhdr head4.nhdr)"

# names that start with a slash, in a header elsewhere
mkdir elsewhere
sed "s|^slice|$work/slice|" head4.nhdr > elsewhere/head4.nhdr
sed "s|: slice|: $work/slice|" head3.nhdr > elsewhere/head3.nhdr
expect "slices by whole paths" "$slices" "$("$build/merge" elsewhere/head3.nhdr elsewhere/head4.nhdr)"

# a header with a list of one file, and one with a pattern of one
sed 's/^dimension: 3/dimension: 2/; s/^sizes: .*/sizes: 2 3/; s/LIST/LIST 2/; /^slice02/d' head4.nhdr > one.nhdr
sed 's/^dimension: 3/dimension: 2/; s/^sizes: .*/sizes: 2 3/; s/ 1 2 1$/ 1 1 1 2/' head3.nhdr > two.nhdr
expect "one slice" \
'head 1 at 0 0: 1
head 1 at 1 0: 2
head 1 at 0 1: 3
head 1 at 1 1: 4
head 1 at 0 2: 5
head 1 at 1 2: 6
head 2 at 0 0: 1
head 2 at 1 0: 2
head 2 at 0 1: 3
head 2 at 1 1: 4
head 2 at 0 2: 5
head 2 at 1 2: 6' \
    "$("$build/merge" one.nhdr two.nhdr)"

# slices in raw, at the end of their files, and in hex
printf 'foreign\001\000\000\002' > raw1
printf '\003\000\004\000' > raw2
printf '0100 0002' > hex1
printf '0300\n0400' > hex2
printf 'NRRD0005\ntype: int16\ndimension: 2\nsizes: 2 2\nencoding: raw\nendian: little\nbyte skip: -1\nutc offset:=37\ndata file: raw%%d 1 2 1\n' > raw.nhdr
printf 'NRRD0005\ntype: int16\ndimension: 2\nsizes: 2 2\nencoding: hex\nendian: little\nutc offset:=37\ndata file: LIST 2\nhex1\nhex2' > hex.nhdr
expect "slices in raw and hex" \
'head 1 at 0 0: 1
head 1 at 1 0: 512
head 1 at 0 1: 3
head 1 at 1 1: 4
head 2 at 0 0: 1
head 2 at 1 0: 512
head 2 at 0 1: 3
head 2 at 1 1: 4' \
    "$("$build/merge" raw.nhdr hex.nhdr)"

# a slice that is not there, and one that is too short
sed 's/ 1 2 1$/ 2 3 1/' head3.nhdr > bad.nhdr
expect "slice missing" "slice03.txt: cannot be opened" "$("$build/merge" bad.nhdr head4.nhdr 2>&1 || true)"
printf '\003\000\004' > raw2
expect "slice too short" "raw2: the file has fewer bytes than its sizes ask for" "$("$build/merge" raw.nhdr hex.nhdr 2>&1 || true)"
sed '/^slice01/d' head4.nhdr > bad.nhdr
bad="the field cannot have this value, no name follows LIST, a byte skip of -1 stands with text or hex, or the number of data files does not fit the sizes"
expect "name missing" "bad.nhdr: $bad" "$("$build/merge" bad.nhdr head4.nhdr 2>&1 || true)"
rm bad.nhdr

# names under LIST stay where a key is set
"$build/correct" head4.nhdr 5 > /dev/null
sed 's/utc offset:=37/utc offset:=5/' "$examples/head4.nhdr" > wanted
expect "names stay" "$(od -c wanted)" "$(od -c head4.nhdr)"

# section 4's own example
expect "poses" \
'origin: 0 1 0.29999999999999999
axis 0: none
axis 1: 1 0 0
axis 2: 0 1 0
axis 3: 0 0 3
last sample: 1 2 3.2999999999999998' \
    "$("$build/poses" poses.nrrd)"
expect "no pose" "sweep.nrrd: has no space origin, or no space directions" "$("$build/poses" sweep.nrrd 2>&1 || true)"

# all four fields, a quote inside a label, and an empty one
expect "axes" \
'axis       size centring kind     label             unit
   0          3 unknown  3-vector "velocity"        "mm/s"
   1          2 cell     space    "x"               "mm"
   2          2 cell     space    "y of head \"b\"" "mm"
   3          2 node     time     ""                "s"' \
    "$("$build/axes" axes.nrrd)"
expect "axes without the fields" \
'axis       size centring kind    label unit
   0          2 unknown  unknown -     -
   1          2 unknown  unknown -     -' \
    "$("$build/axes" sweep.nrrd)"
expect "a key set before the labels" "$("$build/axes" axes.nrrd)" "$("$build/correct" axes.nrrd 37 > /dev/null && "$build/axes" axes.nrrd)"
sed 's/ time$/ times/' axes.nrrd > bad.nrrd
expect "unknown kind" "bad.nrrd:9: $bad" "$("$build/axes" bad.nrrd 2>&1 || true)"
sed '/^labels/s/ ""$//' axes.nrrd > bad.nrrd
expect "label missing" "bad.nrrd:10: $bad" "$("$build/axes" bad.nrrd 2>&1 || true)"
sed '/^units/s/"$//' axes.nrrd > bad.nrrd
expect "quote open" "bad.nrrd:11: $bad" "$("$build/axes" bad.nrrd 2>&1 || true)"
sed '/^centers/d; s/^#.*/centers: ??? cell cell node/' axes.nrrd > bad.nrrd
expect "centers before dimension" \
    "bad.nrrd:3: the field comes before the one that it needs (dimension; space or space dimension)" \
    "$("$build/axes" bad.nrrd 2>&1 || true)"
sed '/^encoding/d' axes.nrrd > bad.nrrd
expect "a field missing" \
    "bad.nrrd: a needed field is missing (dimension, type, encoding, sizes, endian)" \
    "$("$build/axes" bad.nrrd 2>&1 || true)"

# the counter of the sample file runs through its end; one step is 500
expect "steps right" \
'utc offset: 37
no row has a wrong step' \
    "$("$build/roof" roof.nrrd 500)"
expect "wrong row" \
'utc offset: 37
row 4 has a wrong step: 504 after 4, a step of 500' \
    "$("$build/roof" roof.nrrd 499)"
refused="the file is not a sweep (attached, uint32, two axes), its key 'utc offset' is missing or is not 0 to 255 in digits alone, or the largest step is not 1 to 2,147,483,647"
expect "largest step refused" "roof.nrrd: $refused" "$("$build/roof" roof.nrrd 2147483648 2>&1 || true)"
expect "no sweep" "sweep.nrrd: $refused" "$("$build/roof" sweep.nrrd 500 2>&1 || true)"
sed 's/^504 /504. /' roof.nrrd > bad.nrrd
expect "bad sample" \
    "bad.nrrd: a sample is not a number, is outside its type, or is above 9,223,372,036,854,775,807" \
    "$("$build/roof" bad.nrrd 500 2>&1 || true)"
sed 's/^type: /typ: /' roof.nrrd > bad.nrrd
expect "line of a sweep named" "bad.nrrd:3: no field has this name" "$("$build/roof" bad.nrrd 500 2>&1 || true)"

echo "examples: $passed passed, 0 failed"
