# For the tests in C, which set $root and source this file: the tools they need, and the archive in $archive.
# CHZ_ARCHIVE names another archive than the repository's.
out=$root/target/host
mkdir -p "$out"

# What stops before any test ran is one failure: the last line is always there.
counted=no
trap '[ $counted = yes ] || echo "0 passed, 1 failed"' EXIT

need() { # COMMAND PACKAGES
    command -v "$1" >/dev/null && return
    { apt-get update && apt-get install -y --no-install-recommends $2; } >"$out/install.log" 2>&1 ||
        { echo "no $1, and $2 can't be installed (see target/host/install.log)" >&2; exit 2; }
}
case $(uname -m) in
x86_64) need cc 'gcc libc6-dev' ;;
*)
    need x86_64-linux-gnu-gcc 'gcc-x86-64-linux-gnu libc6-dev-amd64-cross'
    need qemu-x86_64 qemu-user
    ;;
esac

archive=${CHZ_ARCHIVE:-$root/target/staticlib/libchozukpima.a}
[ -n "${CHZ_ARCHIVE:-}" ] || "$root/tools/build" chozukpima >"$out/build.log" 2>&1 || { cat "$out/build.log" >&2; exit 2; }

compile() { # FILE.c, relative to the repository; the object is named after it
    sh "$root/tools/x86.sh" cc "$out/$(basename "$1" .c).o" "$root/$1" -std=c11 -Werror -I "$root/include"
}
