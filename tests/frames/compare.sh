# Makes the input of every program again, and what it must print, and compares them with the files that are committed.
#
#     sh tests/frames/compare.sh build
build=$1
for input in crates/*/stdin; do
    mkdir -p "$build/made/$(basename "$(dirname "$input")")"
done
"$build/inputs" tests/vectors tests/frames "$build/made" || exit 1
for input in crates/*/stdin; do
    program=$(basename "$(dirname "$input")")
    for file in stdin stdout; do
        if ! cmp "crates/$program/$file" "$build/made/$program/$file"; then
            echo "crates/$program/$file is not what the vectors make: run make inputs" >&2
            exit 1
        fi
    done
done
