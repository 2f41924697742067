# Sourced: cargo_tests ARGUMENT.. runs cargo test, shows a line a test, and puts into $passed and $failed how
# many did; a run that ends badly or has no test has failed at least once.
cargo_tests() {
    local out status
    out=$(cargo test --release --offline "$@" 2>&1)
    status=$?
    printf '%s\n' "$out" | grep -E '^(test |test result)'
    passed=$(printf '%s\n' "$out" | sed -n 's/^test result: .* \([0-9]*\) passed; .*/\1/p' | awk '{n += $1} END {print n + 0}')
    failed=$(printf '%s\n' "$out" | sed -n 's/^test result: .* passed; \([0-9]*\) failed; .*/\1/p' | awk '{n += $1} END {print n + 0}')
    if [ "$status" -ne 0 ] && [ "$failed" -eq 0 ]; then
        printf '%s\n' "$out" | tail -n 20
        failed=1
    fi
    if [ "$passed" -eq 0 ] && [ "$failed" -eq 0 ]; then
        failed=1
    fi
}
