# For the scripts here: compiles a C source as `rt` compiles the proved code, with the kit's clang and the same words. The words that turn off passes of LLVM do
# the same to both.
# by_kit SOURCE OUT
by_kit() {
    "$(dirname "$(dirname "$(readlink -f "$(command -v rt)")")")/toolchain/bin/clang" --no-default-config --target=x86_64-unknown-linux-gnu -march=x86-64 \
        -mllvm -no-trap-after-noreturn -mllvm -trap-unreachable -mllvm -no-x86-call-frame-opt -mllvm -disable-machine-licm \
        -mllvm -disable-postra-machine-licm -mllvm -sink-common-insts=false -ffunction-sections -fdata-sections -fPIC -O3 \
        -std=c99 -Wall -Wextra -c "$1" -o "$2"
}
