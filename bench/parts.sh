# Sourced by bench/run and bench/peers after scripts/machine.sh: builds the archive and, by the compiler back end that the archive came through, the plain C
# that it is measured against. Sets out, a folder that goes away at the end; archive; plain, the objects; flags, how the harness is compiled.
[ "$(uname -m)" = x86_64 ] || {
    echo "figures are taken on x86-64 only" >&2
    exit 3
}
out=$(mktemp -d)
trap 'rm -rf "$out"' EXIT
. scripts/archive.sh
clang=$(dirname "$(readlink -f "$(command -v rt)")")/../toolchain/bin/clang
for source in bench/plain_*.c; do
    $clang -std=c11 -Wall -Wextra -Werror -O3 -c -isystem "$($CC -print-file-name=include)" -isystem /usr/include/x86_64-linux-gnu -Iinclude -Ibench \
        -o "$out/$(basename "$source" .c).o" "$source"
done
plain="$out/plain_*.o"
flags='-std=c11 -Wall -Wextra -Werror -O2 -Iinclude -Itests -Ibench -Iexamples'
