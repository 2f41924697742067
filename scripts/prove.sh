# Sourced after needs.sh: prove NAME.. proves and builds these crates and what they depend on, the lowest first, with one line for each
# as it is done; all that the prover says is in target/proving.log. A program stays as crates/NAME/out/NAME, the archive of a static
# library NAME_c as target/staticlib/libNAME.a.

# crates_under NAME..: these crates of the repository and all that they depend on, each after those that it depends on.
crates_under() {
    awk -F: -v wanted="$*" '
        { sub(/#.*/, ""); split($1, words, " "); if (words[1] != "") deps[words[1]] = $2 }
        function take(name,    list, n, i) {
            if (!(name in deps) || (name in taken)) return
            taken[name] = 1
            n = split(deps[name], list, " ")
            for (i = 1; i <= n; i++) take(list[i])
            print name
        }
        END {
            n = split(wanted, names, " ")
            for (i = 1; i <= n; i++) take(names[i])
        }' crates.txt
}

# build NAME: one crate. A program is run on an empty input, since rt builds it so.
build() {
    if [ -e "crates/$1/src/main.rt" ]; then
        rm -f "crates/$1/out/$1"
        (cd "crates/$1" && rt run < /dev/null) && [ -x "crates/$1/out/$1" ]
    else
        (cd "crates/$1" && rt lib) || return 1
        [ ! -e "crates/$1/out/lib$1.a" ] || { mkdir -p target/staticlib && cp "crates/$1/out/lib$1.a" "$(library_of "$1")"; }
    fi
}

prove() {
    mkdir -p target || return 1
    : > target/proving.log || return 1
    local name all done=0 began
    mapfile -t all < <(crates_under "$@")
    for name in "${all[@]}"; do
        began=$SECONDS
        printf '== %s\n' "$name" >> target/proving.log
        if ! build "$name" >> target/proving.log 2>&1; then
            printf '  %s: NOT PROVED\n' "$name"
            return 1
        fi
        done=$((done + 1))
        printf '  %2d of %d  %-15s %d s\n' "$done" "${#all[@]}" "$name" $((SECONDS - began))
    done
}
