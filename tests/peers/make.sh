# Makes the files of this folder with teem-unu, and in said/ what that tool says of each: the file read by it and saved as text.
#
#     sh tests/peers/make.sh [folder]
set -e
cd "${1:-$(dirname "$0")}"
export NRRD_STATE_VERBOSE_IO=0

# make NAME TYPE SIZES NUMBERS [option..]: a file in raw, with the numbers given as text
make() {
    name=$1 type=$2 sizes=$3 numbers=$4
    shift 4
    printf '%s\n' $numbers | teem-unu make -t "$type" -s $sizes -e ascii -i - "$@" -o "$name.nrrd"
}

# save FROM TO ENCODING ENDIAN
save() {
    teem-unu save -f nrrd -i "$1" -o "$2" -e "$3" -en "$4"
}

# given NAME LINE..: 2 by 2 samples, with what the tool takes from these lines of a header; its options split texts at spaces
given() {
    name=$1
    shift
    printf '%s\n' NRRD0005 'type: uchar' 'dimension: 2' 'sizes: 2 2' 'encoding: raw' "$@" '' abcd |
        teem-unu save -f nrrd -o "$name.nrrd"
}

# header NAME [option..]: a detached header for data that is there
header() {
    name=$1
    shift
    teem-unu make -h -t short -s 2 2 -en big "$@" -o "$name.nhdr"
}

# in_encodings TYPE NUMBERS ENDIANS: the numbers as 4 by 3 samples, in each encoding and endian
in_encodings() {
    make whole "$1" "4 3" "$2"
    for endian in $3; do
        for encoding in raw hex ascii; do
            save whole.nrrd "$1-$encoding-$endian.nrrd" $encoding $endian
        done
    done
    rm whole.nrrd
}

# ---- Types, encodings, endians: the least and the greatest, bytes that tell their order, blanks as bytes

both="little big"
in_encodings int8 "-128 127 0 -1 1 -127 126 9 10 32 85 -86" little
in_encodings uint8 "0 255 1 254 127 128 9 10 13 32 85 170" little
in_encodings int16 "-32768 32767 0 -1 1 -32767 32766 258 -258 256 2570 8224" "$both"
in_encodings uint16 "0 65535 1 65534 32767 32768 258 513 256 255 2570 8224" "$both"
in_encodings int32 "-2147483648 2147483647 0 -1 1 -2147483647 2147483646 16909060 -16909060 65536 168430090 538976288" "$both"
in_encodings uint32 "0 4294967295 1 4294967294 2147483647 2147483648 16909060 67305985 65536 255 168430090 538976288" "$both"
in_encodings int64 "-9223372036854775808 9223372036854775807 0 -1 1 -9223372036854775807 9223372036854775806 72623859790382856
    -72623859790382856 9007199254740993 -9007199254740993 2314885530818453536" "$both"
in_encodings uint64 "0 9223372036854775807 1 9223372036854775806 4294967295 4294967296 72623859790382856 578437695752307201
    9007199254740993 255 723401728380766730 2314885530818453536" "$both"

# above the greatest sample that is read; in text the token is too great, in raw and hex the bytes
make high uint64 4 "0 9223372036854775807 9223372036854775808 18446744073709551615"
save high.nrrd high-hex.nrrd hex little
save high.nrrd high-ascii.nrrd ascii little

in_encodings float "0 -0 1.5 -2.25 0.1 1e30 -1e-30 3 inf -inf nan 16777216" "$both"
in_encodings double "0 -0 1.5 -2.25 0.1 1e300 -1e-300 3 inf -inf nan 9007199254740992" "$both"

# ---- Shapes

make one int16 1 -2
make axes3 int16 "2 3 4" "$(seq -12 11)"
save axes3.nrrd axes3-ascii.nrrd ascii little
make axes16 uint16 "1 2 1 1 3 1 1 1 2 1 1 1 1 1 1 2" "$(seq 65512 65535)"
make long int32 200 "$(seq -1000000 10000 990000)"
save long.nrrd long-hex.nrrd hex big
save long.nrrd long-ascii.nrrd ascii little

# ---- Versions 2 to 5: keys, kinds, axes, space

given keys 'content: a test' 'rig:=7' 'utc offset:=36' 'utc offset:=37' 'empty:=' ' spaces :=  kept  ' 'back\\slash:=C:\\new\\\\' \
    'two\nlines:=one\ntwo\n' 'marks:=a:=b: c' 'letter:=\\n is a backslash and an n' '=:==' 'tab	key:=a	b'
given comments '#of an input' '#  kept: by the tool' 'old min: 3' 'old max: 1e3' 'sample units: "V"' 'content: was here'
given kinds 'kinds: complex space'
given axes 'spacings: 1 2.5' 'thicknesses: 0.5 nan' 'axis mins: -1 nan' 'axis maxs: 1e-3 nan' 'centers: cell node' \
    'labels: "x" "two words"' 'units: "mm" ""' 'kinds: space list'
make space int16 "3 2 2" "1 2 3 4 5 6 7 8 9 10 11 12" -spc RAS -orig '(1,-2.5,3e-05)' -dirs 'none (0,1.5,0) (0,0,-2)' \
    -spu mm mm mm -k 3-vector space space
make space2 uint8 "2 2" "1 2 3 4" -spc 2 -orig '(0,0.5)' -dirs '(1,0) (0.5,1)'
make frame int16 "3 2" "1 2 3 4 5 6" -spc LPS -dirs 'none (0,1.5,0)' -mf '(1,0,0) (0,0,1) (0,-1,0)' -cn none cell
save frame.nrrd frame-hex.nrrd hex big

# ---- Detached headers

make whole int32 "3 2" "-2147483648 2147483647 -1 0 1 16909060" -kv 'rig:=7'
save whole.nrrd apart-raw.nhdr raw big
save whole.nrrd apart-hex.nhdr hex little
save whole.nrrd apart-ascii.nhdr ascii little
rm whole.nrrd
printf 'a line\r\nanother\n\377\n\377abcdefgh' > skips.data
header skips -ls 2 -bs 3 -i skips.data
header skip-back -bs -1 -i skips.data
printf abcd > part.1
printf efgh > part.2
header list -i part.1 part.2
header pattern -i part.%d 1 2 1

# ---- What only the tool takes

make whole int16 "2 2" "1 2 3 4"
save whole.nrrd gzip.nrrd gzip little
save whole.nrrd bzip2.nrrd bzip2 little
rm whole.nrrd
given micro 'labels: "x" "y"' "units: \"$(printf '\302\265m')\" \"s\""

# ---- What the tool says of them

mkdir -p said
rm -f mark.nrrd
for file in *.nrrd *.nhdr; do
    teem-unu save -f nrrd -e ascii -i "$file" > "said/$file.txt"
done

# the tool writes this one, and refuses it as we do
make mark int16 "2 2" "1 2 3 4" -kv 'a: b:=c'
