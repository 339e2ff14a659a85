# size.sh ARCHIVE: the bytes of the archive's code and read-only data, by the crate that each section is named after. What is inlined counts where it
# is inlined, so that a crate without a line is part of those that call it; constants that several functions load are in no crate.
size -A "$1" | awk '
    $1 ~ /^\.(text|rodata)/ && $2 > 0 {
        kind = $1 ~ /^\.text/ ? "code" : "data"
        name = $1
        sub(/^\.(text|rodata)\.?/, "", name)
        if (name ~ /::/)
            sub(/::.*/, "", name)
        else if (name ~ /^craneholt_/)
            name = "craneholt"
        else
            name = "(constants)"
        bytes[kind, name] += $2
        total[kind] += $2
        seen[name] = 1
    }
    END {
        printf "%-16s %8s %10s\n", "crate", "code", "read-only"
        for (name in seen)
            printf "%-16s %8d %10d\n", name, bytes["code", name], bytes["data", name] | "sort -k2,2nr -k1,1"
        close("sort -k2,2nr -k1,1")
        printf "%-16s %8d %10d\n", "all", total["code"], total["data"]
    }'
