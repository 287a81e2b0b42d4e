# For scripts that build C programs; they read it from the repository's top folder. The archives are x86-64: on another machine the programs are
# cross-compiled and run under an emulator (Debian's gcc-x86-64-linux-gnu, g++-x86-64-linux-gnu and qemu-user).

there() { command -v "$1" >/dev/null 2>&1; }

# Ends a script that cannot run here. tests/run reads the status and the line.
skip() {
    echo "skipped: $*"
    exit 77
}

if [ "$(uname -m)" = x86_64 ]; then
    emulate="" linked="" known="gcc clang g++ clang++"
    there gcc || there clang || known="cc c++"
else
    emulate="qemu-x86_64" linked="-static" known="x86_64-linux-gnu-gcc x86_64-linux-gnu-g++"
    there "$emulate" || skip "no $emulate, and the archives are x86-64"
fi

# The compilers of C and of C++ that are here, and those that are not.
compilers="" missing=""
for compiler in $known; do if there "$compiler"; then compilers="$compilers $compiler"; else missing="$missing $compiler"; fi; done

# The last line of a script that tries them all.
tried() { echo "tried with$compilers${missing:+; not here:$missing}"; }

# The first of them for C.
one=""
for compiler in $compilers; do case $compiler in *++) ;; *) one=${one:-$compiler} ;; esac; done
[ -n "$one" ] || skip "no C compiler (looked for: $known)"

# The language that a compiler is asked for.
language_of() { case $1 in *++) echo C++17 ;; *) echo C11 ;; esac; }

# compile COMPILER OUT SOURCE WORDS..: a C source, as C11 or as C++17, without a warning.
compile() {
    compiler=$1 made=$2 source=$3
    shift 3
    case $compiler in
    *++) "$compiler" -std=c++17 -Wall -Wextra -pedantic -Werror -O2 $linked -Iinclude -o "$made" -x c++ "$source" -x none "$@" ;;
    *) "$compiler" -std=c11 -Wall -Wextra -pedantic -Werror -O2 $linked -Iinclude -o "$made" "$source" "$@" ;;
    esac
}
