# Sourced after needs.sh: link_c NAME compiles face/NAME.c and links it with the proved libraries into target/face/NAME;
# link_c NAME c++ compiles it as C++ and links it into target/face/NAME-c++. Either puts the path into $linked.
# The kit's own compiler and linker do it; the libraries are those that scripts/build has left.
need gcc gcc

link_c() {
    # The compiler's own headers are used, without a C library's. As C++ only the headers are told so: the main of a
    # free-standing C++ program is no C function, and nothing would call it.
    local alone=(-ffreestanding)
    linked=target/face/$1
    if [ "${2:-c}" != c ]; then
        alone=(-U__STDC_HOSTED__ -D__STDC_HOSTED__=0 -Wno-builtin-macro-redefined)
        linked=$linked-$2
    fi
    mkdir -p target/face || return 1
    local name libraries=()
    for name in "${exports[@]}"; do
        libraries+=("$(library_of "$name")")
    done
    built "${libraries[@]}"
    "$toolchain/bin/clang" --target=x86_64-unknown-linux-gnu -O2 -fPIC "${alone[@]}" -Wall -Wextra \
        -isystem "$(gcc -print-file-name=include)" -Iinclude -x "${2:-c}" -c "face/$1.c" -o "$linked.o" || return 1
    "$kit/bin/rattle-link" --target x86_64-unknown-linux-gnu --toolchain "$toolchain" \
        -o "$linked" "$linked.o" "${libraries[@]}"
}
