# Installs to a folder of its own, and builds a program from there by pkg-config, as C99 and as C++17, without a warning.
set -e
root=$(mktemp -d)
trap 'rm -rf "$root"' EXIT
make -s install PREFIX="$root/usr"
cat > "$root/program.c" <<'C'
#include <craneholt.h>
#include <stdio.h>
int main(void)
{
    craneholt_read_answer a = craneholt_read_header(NULL, 0);
    craneholt_sweep_answer b = craneholt_sweep(NULL, 0, NULL, 0, 1);
    return puts(craneholt_sentence(a.refusal.number)) < 0 || a.refusal.number != CRANEHOLT_NO_MAGIC || a.refusal.line != 1
           || b.refusal.number != CRANEHOLT_NO_MAGIC || b.refusal.line != 1;
}
C
cp "$root/program.c" "$root/program.cc"
flags="-I$root/usr/include -L$root/usr/lib -lcraneholt_roof -lcraneholt"
if command -v pkg-config > /dev/null; then
    flags=$(PKG_CONFIG_PATH="$root/usr/lib/pkgconfig" pkg-config --cflags --libs craneholt)
fi
${CC:-cc} -std=c99 -Wall -Wextra -pedantic -Werror "$root/program.c" -o "$root/c" $flags
${CXX:-c++} -std=c++17 -Wall -Wextra -pedantic -Werror "$root/program.cc" -o "$root/cc" $flags
"$root/c" > /dev/null
"$root/cc" > /dev/null
echo "install: 2 passed, 0 failed"
