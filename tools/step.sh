# Sourced by the scripts of the gate, at the top of the repository.

# Runs one step, says how long it took, and ends the gate where it fails.
step() {
    local began=$SECONDS
    echo "gate: $*"
    "$@" || {
        echo "gate: FAILED: $*"
        exit 1
    }
    echo "gate: passed in $((SECONDS - began)) s"
}

# Whether the Rust's sources are at hand. With CI=true the gate ends where they are not.
rust_at_hand() {
    local folder=${CHRONICLE_RUST_SRC:-$(grep -v '^#' host/oracle/rust_sources)}
    [ ! -d "$folder" ] || return 0
    [ "${CI-}" = true ] || return 1
    echo "gate: FAILED: the Rust's sources are not in $folder, and with CI=true nothing is left out"
    exit 1
}

# A step that needs the Rust's sources: it is run, or said not to be.
step_with_rust() {
    if rust_at_hand; then
        step "$@"
    else
        echo "gate: NOT run, for the Rust's sources are not at hand: $*"
    fi
}
