#!/usr/bin/env bash
# Leaves each program in five builds in a folder: builds.sh FOLDER makes NAME.proved, NAME.O0, NAME.rattle, NAME.checked and NAME.guided.
#
# `rt` runs with a kit that is links to the toolchain's own, but for a compiler and a linker that keep what passes through them. So what
# `rt run` compiled can be compiled once more at -O0, and the program that `rt try` makes and removes stays. NAME.guided is the proved module
# once more, with counted edges, in a process that answers input after input. PROGRAMS names other programs than the four that are fuzzed.
set -euo pipefail

here=$(cd "$(dirname "${BASH_SOURCE[0]}")" && pwd)
top=${TOP:-$(cd "$here/../.." && pwd)}
mkdir -p "$1"
builds=$(cd "$1" && pwd)
own=$(dirname "$(rt doc)")
read -ra programs <<<"${PROGRAMS:-page large_page replay search_replay}"

# A tool of the toolchain that leaves its words, and the files of the folder where it was called, in a folder of their own: kept/TOOL.N.
keeping() { # TOOL
    cat >"$work/kit/toolchain/bin/$1" <<TOOL
#!/bin/sh
'$own/toolchain/bin/$1' "\$@" || exit
to='$work/kept/$1.'\$(ls '$work/kept' | grep -c '^$1[.]')
mkdir "\$to"
cp ./* "\$to"
printf '%s\n' "\$@" >"\$to/words"
TOOL
    chmod +x "$work/kit/toolchain/bin/$1"
}

make_kit() {
    mkdir -p "$work/kit/bin" "$work/kit/toolchain/bin"
    ln -s "$own"/* "$work/kit" 2>/dev/null || true
    ln -s "$own"/bin/* "$work/kit/bin"
    # these find the kit by where they stand
    rm "$work"/kit/bin/{rt,rtlib.py}
    cp "$own"/bin/{rt,rtlib.py} "$work/kit/bin"
    ln -s "$own/toolchain/lib" "$work/kit/toolchain"
    ln -s "$own"/toolchain/bin/* "$work/kit/toolchain/bin"
    rm "$work"/kit/toolchain/bin/{clang,ld.lld}
    keeping clang
    keeping ld.lld
}

# The crates, with libraries that are built already, and with a job for large_page that a slow build answers within the time that `rt try` allows: page's.
make_copy() {
    mkdir "$work/copy"
    cp "$top/crates.txt" "$work/copy"
    (cd "$top" && tar --exclude=out/incremental --exclude=must-fail -cf - crates) | tar -xf - -C "$work/copy"
    for name in "${programs[@]}"; do rm -rf "$work/copy/crates/$name/out"; done
    [ -d "$work/copy/crates/large_page" ] || return 0
    for part in data args stdout; do
        rm -r "$work/copy/crates/large_page/$part"
        cp -R "$work/copy/crates/page/$part" "$work/copy/crates/large_page"
    done
}

# `rt` in a program's folder; what its compiler and linker got is then in kept.
rt_keeps() { # NAME WORD..
    local name=$1
    shift
    rm -rf "$work/kept"
    mkdir "$work/kept"
    (cd "$work/copy/crates/$name" && "$work/kit/bin/rt" "$@" </dev/null) >"$work/said" 2>&1 || { cat "$work/said"; return 1; }
}

newest() { # TOOL: the folder of its last call
    ls -d "$work/kept/$1."* | sort -V | tail -1
}

# The module that was kept, compiled with other words: -O0 in the place of what goes for speed, and those given.
recompile() { # OBJECT WORD..
    local object=$1 words
    shift
    mapfile -t words < <(sed -e 's/^-O3$/-O0/' "$(newest clang)/words")
    (cd "$(newest clang)" && "$own/toolchain/bin/clang" "${words[@]}" "$@" && cp module.o "$object")
}

relink() { # OBJECT PROGRAM: the program with that object in the place of the one that was linked
    local words
    mapfile -t words <"$(newest ld.lld)/words"
    (cd "$(newest ld.lld)" && cp "$1" input-0 && "$own/toolchain/bin/ld.lld" "${words[@]}" && cp program "$2")
}

build() { # NAME
    rt_keeps "$1" run
    cp "$work/copy/crates/$1/out/$1" "$builds/$1.proved"
    cmp -s "$builds/$1.proved" "$(newest ld.lld)/program"
    recompile "$work/O0.o"
    relink "$work/O0.o" "$builds/$1.O0"
    recompile "$work/guided.o" -fsanitize-coverage=inline-8bit-counters
    objcopy --redefine-sym main=program_main --redefine-sym read=program_read --redefine-sym write=program_write "$work/guided.o"
    cc -O2 -Wall -o "$builds/$1.guided" "$here/guided.c" "$work/guided.o" "$own/c/libos_c.a" "$own/c/liblibc_c.a"
    rt_keeps "$1" try
    cp "$(newest ld.lld)/program" "$builds/$1.checked"
    rt_keeps "$1" run --backend rattle
    cp "$work/copy/crates/$1/out/$1" "$builds/$1.rattle"
}

main() {
    work=$(mktemp -d)
    trap 'rm -rf "$work"' EXIT
    make_kit
    make_copy
    for name in "${programs[@]}"; do build "$name"; done
}

main
