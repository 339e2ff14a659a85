# prove.sh FOLDER COMMAND CRATE: runs `rt COMMAND` in the crate's folder, with an empty standard input. It tells on stderr each crate that is proved;
# one whose proof is kept from before is not named. What rt says goes to FOLDER/CRATE.log, and is shown where rt fails.
mkdir -p "$1" || exit 2
log=$(cd "$1" && pwd)/$3.log
total=$(awk -v wanted="$3" '
    function reach(name, list, i, n) {
        if (name in reached || !(name in uses))
            return
        reached[name] = ++count
        n = split(uses[name], list, " ")
        for (i = 1; i <= n; i++)
            reach(list[i])
    }
    /^[a-z_0-9]+( staticlib)?:/ { name = $1; sub(":", "", name); sub("^[^:]*:", ""); uses[name] = $0 }
    END { reach(wanted); print count }' crates.txt) || exit 2
echo "proving $3 and what it depends on, $total crates: minutes the first time" >&2
cd "crates/$3" || exit 2
# the last line carries the exit status of rt over the pipe
{ rt "$2" < /dev/null 2>&1; echo "rt ended with $?"; } | {
    name=
    while IFS= read -r line; do
        last=$line
        printf '%s\n' "$line" >&3
        case $line in
        "crate "*": modules "*) name=${line#crate } name=${name%%:*} ;;
        "logic=proved "*) echo "proved $name" >&2 ;;
        esac
    done
    test "$last" = "rt ended with 0"
} 3> "$log" || { cat "$log" >&2; exit 1; }
