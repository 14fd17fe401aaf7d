# How the fuzzer and the replayer are built; read by the scripts beside it, from the top of the repository.
sources=$(for name in input guard calls mutate trial harness; do echo tests/fuzz/$name.c; done)
strict='-std=c11 -Wall -Wextra -Wpedantic -Werror -Iinclude -O2 -g'

# Compiles sources to target/fuzz/FOLDER, and prints the objects' names.
compile() { # FOLDER COMPILER-AND-WORDS SOURCE..
    folder=target/fuzz/$1 compiler=$2
    shift 2
    mkdir -p "$folder"
    for source; do
        object=$folder/$(basename "$source" .c).o
        # shellcheck disable=SC2086
        $compiler $strict -c "$source" -o "$object" || return
        echo "$object"
    done
}

# Installs Debian's clang with its libFuzzer if the machine has none.
need_clang() {
    mkdir -p target/fuzz
    echo 'int LLVMFuzzerTestOneInput(const void *d, unsigned long n) { (void)d; (void)n; return 0; }' >target/fuzz/try.c
    clang -fsanitize=fuzzer,address target/fuzz/try.c -o target/fuzz/try 2>/dev/null && return
    apt-get update && apt-get install -y --no-install-recommends clang libclang-rt-14-dev
}

build_fuzzer() {
    need_clang
    tools/build
    # shellcheck disable=SC2086
    objects=$(compile fuzzer-objects 'clang -fsanitize=address' $sources)
    # shellcheck disable=SC2086
    clang -fsanitize=fuzzer,address $objects target/staticlib/libplanreader.a -o target/fuzz/fuzzer
}
