# What compiles C for x86-64 and runs it on this machine, and the archive of the C forms. Sourced from the top folder.
# After 'find_tools', $compiler makes programs for x86-64 and $emulator (empty on x86-64) stands before a program to run it.
. scripts/rattle.sh

# The first of these commands that is there.
first_of() {
    for name in "$@"; do command -v "$name" && return 0; done
    return 1
}

look_for_tools() {
    case $(uname -m) in
    x86_64) compiler=$(first_of cc gcc clang) emulator='' ;;
    *)
        # nothing of an x86-64 system need be here to run a static program
        compiler=$(first_of x86_64-linux-gnu-gcc) && compiler="$compiler -static" &&
            emulator=$(first_of qemu-x86_64-static qemu-x86_64)
        ;;
    esac
}

# The packages that have them.
packages() {
    case $(uname -m) in
    x86_64) echo gcc libc6-dev ;;
    *) echo gcc-x86-64-linux-gnu libc6-dev-amd64-cross qemu-user ;;
    esac
}

# Whether they are there and a program that is compiled so runs; if not, $missing says what is not.
tools_work() {
    look_for_tools
    missing='a C compiler for x86-64'
    [ -n "$compiler" ] || return 1
    missing='an emulator for x86-64, qemu-x86_64'
    [ -n "$emulator" ] || [ "$(uname -m)" = x86_64 ] || return 1
    missing='a C library for x86-64, or an emulator that runs what the compiler makes'
    # another script may be asking the same at this moment
    nothing=target/c/nothing.$$
    mkdir -p target/c && echo 'int main(void) { return 0; }' >"$nothing.c" &&
        $compiler "$nothing.c" -o "$nothing" >/dev/null 2>&1 && $emulator "$nothing" >/dev/null 2>&1
    works=$?
    rm -f "$nothing.c" "$nothing"
    return $works
}

# Ends the script that sourced this, with a line that says what is missing, where C for x86-64 cannot be compiled or run.
find_tools() {
    # shellcheck disable=SC2046
    tools_work || { install_packages $(packages) && tools_work; } || {
        echo "skipped: $1, since this machine lacks $missing (packages: $(packages))"
        echo '0 passed, 0 failed'
        exit 0
    }
}

# Where rt puts the archives of the C forms and of what the bench calls besides.
library=crates/cerantuh/out/libcerantuh.a
bench_calls=crates/bench_calls/out/libbench_calls.a

# Proves and builds the archive of a crate, unless it is newer than every crate.
build_library() {
    archive=crates/$1/out/lib$1.a log=target/lib$1.log
    is_new "$archive" && return 0
    alone && { is_new "$archive" || (cd "crates/$1" && rt lib) >"$log" 2>&1; } || cat "$log"
    exec 9>&-
    is_new "$archive"
}

flags='-std=c11 -O2 -Wall -Wextra -Iinclude -Itests/c'
