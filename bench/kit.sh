# Read by bench/run, bench/header, examples/build, .ci/script and .ci/compare, which set `here` to the repository's folder: where the kit's C tools are, and how a program is built over the archive and started.
# The archive is for x86-64 Linux.
kit=$(dirname "$(rt doc)")/toolchain
lib=$here/target/staticlib

# The archive, proved and written where a crate changed since. What rt says is printed where it fails.
archive() {
    stamp=$lib/written
    if [ ! -f "$lib/libc_export.a" ] || [ ! -f "$stamp" ] || [ -n "$(find "$here/crates" "$here/crates.txt" -type f -newer "$stamp" -not -path '*/out/*' -print -quit)" ]; then
        mkdir -p "$lib"
        touch "$stamp.begun"
        said=$(cd "$here/crates/c_export_c" && rt lib 2>&1) || { echo "$said"; echo "rt lib failed in crates/c_export_c"; exit 1; }
        cp "$here/crates/c_export_c/out/libc_export_c.a" "$lib/libc_export.a"
        mv "$stamp.begun" "$stamp"
    fi
}

# compile SOURCE OBJECT OPTION ..
compile() {
    source=$1 object=$2
    shift 2
    "$kit/bin/clang" --target=x86_64-linux-gnu -Wall -Wextra "$@" -I"$here/include" -c "$here/$source" -o "$lib/$object"
}

# link PROGRAM OBJECT .. OPTION ..
link() {
    program=$1
    shift
    (cd "$lib" && "$kit/bin/ld.lld" -pie -dynamic-linker /lib64/ld-linux-x86-64.so.2 -o "$program" "$kit/lib/Scrt1.o" "$kit/lib/crti.o" "$kit/lib/crtbeginS.o" \
        "$@" libc_export.a "$kit/lib/libc.so.6" "$kit/lib/libc_nonshared.a" "$kit/lib/libgcc.a" "$kit/lib/crtendS.o" "$kit/lib/crtn.o")
}

# start PROGRAM WORD ..
start() {
    program=$1
    shift
    "$lib/$program" "$@"
}
