# For ./jpath, ./prove, ./install and the gate, which set `here` to the folder of the repository: what the program is made of, whether the
# proved one is made of that, and how long its proof takes.

program=$here/crates/jpath/out/jpath
# What ./prove or the gate made the proved program of: the checksum of the sources, and that of the program.
record=$here/crates/jpath/out/jpath.sources

# The crates that jpath stands on, lowest first, and jpath itself.
needed() {
    awk -F: '
        !/^#/ && NF == 2 { split($1, word, " "); name[++count] = word[1]; below[count] = $2 }
        END {
            wanted["jpath"] = 1
            for (i = count; i > 0; i--)
                if (name[i] in wanted) {
                    parts = split(below[i], part, " ")
                    for (k = 1; k <= parts; k++) wanted[part[k]] = 1
                }
            for (i = 1; i <= count; i++) if (name[i] in wanted) print name[i]
        }' <"$here/crates.txt"
}

# Their lines of crates.txt.
lines_of_crates() {
    needed | awk -F: 'NR == FNR { wanted[$1] = 1; next } !/^#/ { split($1, word, " ") } !/^#/ && word[1] in wanted' - "$here/crates.txt"
}

# Where their sources lie, as paths from the top of the repository.
sources() {
    for crate in $(needed); do
        for part in src specs proofs; do
            [ ! -d "$here/crates/$crate/$part" ] || echo "crates/$crate/$part"
        done
    done
}

# The checksum of all sources, and of their crates' lines.
sum_of_sources() {
    (cd "$here" && { find $(sources) -type f -exec sha256sum {} + | LC_ALL=C sort && lines_of_crates; } | sha256sum | cut -c 1-64)
}

# What the record has to hold of the sources and the program as they are.
record_now() {
    sum_of_sources
    sha256sum <"$program"
}

# Whether the proved program is there and is made of the sources as they are, as the record tells, or where there is none that no
# source has changed since.
is_proved() {
    [ -f "$program" ] && [ -x "$program" ] || return 1
    if [ -f "$record" ]; then
        [ "$(cat <"$record")" = "$(record_now)" ]
    else
        changed=$(cd "$here" && find crates.txt $(sources) -cnewer "$program" -print 2>/dev/null) && [ -z "$changed" ]
    fi
}

# Writes the record.
write_record() {
    record_now >"$record.new" && mv "$record.new" "$record"
}

# Whether a file can be opened as a lock: it is a file, for a pipe would wait until somebody reads it, or there is none yet. It is made so that
# not all may write to it.
is_lock() {
    { [ ! -e "$1" ] || [ -f "$1" ]; } && (umask o-w && : >>"$1") 2>/dev/null
}

# How long the proof of a crate takes from nothing, in processor seconds.
weight() {
    case $1 in
    jsonpath_parser) echo 1360 ;;
    jsonpath_build) echo 102 ;;
    jsonpath_base) echo 900 ;;
    jsonpath_rust) echo 2500 ;;
    jpath) echo 425 ;;
    *) echo 100 ;;
    esac
}

# The same of all of them.
weight_of_all() {
    all=0
    for crate in $(needed); do all=$((all + $(weight "$crate"))); done
    echo "$all"
}

# How many processors the proof of one crate keeps busy here, taken low.
busy() {
    cores=$(nproc 2>/dev/null || echo 1)
    [ "$cores" -lt 2 ] && echo 1 || echo 2
}
