# Sourced by the scripts that build C for the archive, which is x86-64 as the toolchain is: sets CC, the compiler, RUN, what runs a program built by it (empty here), and LOAD,
# what runs a program of target/bin: it is linked to the toolchain's own C library. Installs the compiler where the machine has none.
install_package() {
    echo "installing $1" >&2
    { apt-get install -y -qq "$1" || { apt-get update -qq && apt-get install -y -qq "$1"; }; } >/dev/null 2>&1 || {
        echo "$1 is needed and could not be installed" >&2
        exit 3
    }
}

[ "$(uname -m)" = x86_64 ] || {
    echo "no toolchain is known on $(uname -m)" >&2
    exit 3
}
command -v gcc >/dev/null || install_package gcc
[ -e /usr/include/stdio.h ] || install_package libc6-dev
CC=gcc RUN=
tools=$(dirname "$(readlink -f "$(command -v rt)")")/../toolchain/lib
LOAD="$RUN $tools/ld-linux-x86-64.so.2 --library-path $tools"
