# archive.sh CRATE: makes out/libCRATE.a in the crate's folder over the libraries that `rt ci`, which has just ended, left in the folders out of the
# crates below it. It proves the crate itself once more, and not those. It is for the gate: elsewhere `make` calls `rt lib`, which proves what has
# changed since.
crate=$1
kit=$(dirname "$(dirname "$(readlink -f "$(command -v rt)")")")
below=$(awk -v wanted="$crate" '
    function reach(name, list, i, n) {
        if (name in reached || !(name in uses))
            return
        reached[name]
        n = split(uses[name], list, " ")
        for (i = 1; i <= n; i++) {
            if (name == wanted)
                print "--extern " list[i] "=../" list[i] "/out/rlib/" list[i] ".rlib"
            reach(list[i])
        }
        if (name != wanted)
            print "-L dependency=../" name "/out/rlib"
    }
    /^[a-z_0-9]+( staticlib)?:/ { name = $1; sub(":", "", name); sub("^[^:]*:", ""); uses[name] = $0 }
    END { reach(wanted) }' crates.txt) || exit 2
cd "crates/$crate" || exit 2
# shellcheck disable=SC2086
"$kit/bin/rattle" build --crate-name "$crate" src/lib.rt --crate-type staticlib --toolchain "$kit/toolchain" \
    --antt-project "$kit/rattle/logic/antt-project.json" --logic-built "$kit/logic_built" \
    --extern "std=$kit/rlibs/std.rlib" -L "dependency=$kit/rlibs" $below -o "out/lib$crate.a"
