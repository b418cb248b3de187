# For .ci/run, which is at the top of the repository: its steps that are more than one command.
set -m
here=$PWD
. tools/program.sh
log=$(mktemp)
told=$(mktemp)
tries=
trap '[ -z "$tries" ] || kill -INT -- -$tries 2>/dev/null || true; rm -f "$log" "$told"' EXIT

# Fails where a file of a crate is not in the layout of rt fmt, and puts it there.
check_layout() {
    local crate changed
    for crate in crates/*/; do
        changed=$(cd "$crate" && rt fmt)
        [ -z "$changed" ] || { echo "$crate was not in the layout: $changed" >&2; return 1; }
    done
}

# Tells after each line of rt how many minutes of this run have passed.
timed() {
    local line
    while IFS= read -r line; do
        case $line in
        'rt: '*) printf '%s (%d min)\n' "$line" $((SECONDS / 60)) ;;
        *) printf '%s\n' "$line" ;;
        esac
    done
}

# Runs rt ci. Beside it, on processors that it leaves idle, the mutants of the crates that .ci/promises names are tried, from nothing, after the
# proof of their crate. Then it writes the record of what the proved jpath was made of, for ./jpath.
prove_all() {
    local sum refused=0
    (exec nice -n 19 tools/check mutants --promises --after "$log") >"$told" 2>&1 </dev/null &
    tries=$!
    sum=$(sum_of_sources)
    rt ci | timed | tee "$log"
    [ "$(sum_of_sources)" != "$sum" ] || write_record
    wait $tries || refused=$?
    tries=
    cat "$told"
    return $refused
}
