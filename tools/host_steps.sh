#!/usr/bin/env bash
# The gate's steps on the host's packages, with the archive and the program that tools/build.sh built. It ends at the first step that fails.
# Steps that need the Rust's sources are said to be NOT run where those are not at hand; what is stored of the Rust's answers is tried all the same.
set -u
cd "$(dirname "$0")/.." || exit 1
. tools/step.sh

at=(--manifest-path host/Cargo.toml)
archive=${CHRONICLE_LIB_DIR:-target/staticlib}/libpage.a
if ! command -v cargo > /dev/null || ! [ -f "$archive" ]; then
    echo "gate: FAILED: the host's tests need cargo, and $archive from tools/build.sh; they were NOT run"
    exit 1
fi

# With CI=true it ends here, before anything is built.
rust_at_hand || echo "gate: nothing will be compared with the Rust, whose sources are not at hand"
step cargo fmt "${at[@]}" --all --check
if cargo clippy --version > /dev/null 2>&1; then
    step cargo clippy "${at[@]}" --release --workspace --all-targets -- -D warnings
else
    echo "gate: cargo clippy is not at hand, so its lints were NOT run"
fi
step env RUSTDOCFLAGS=-Dwarnings cargo doc "${at[@]}" --release --no-deps
step cargo test "${at[@]}" --release --workspace
rust_at_hand || echo "gate: NOT run, for the Rust's sources are not at hand: the tests of host/oracle"
step cargo run "${at[@]}" --release --bin differential -- 200000 1
step cargo run "${at[@]}" --release --bin vectors -- --check crates/record_vectors/data/vectors.bin
step cargo run "${at[@]}" --release --bin chronicle -- check samples/worked.atl
step cargo run "${at[@]}" --release --bin chronicle -- nations samples/worked.atl
# The Rust itself, built unchanged from where it lies.
step_with_rust cargo run "${at[@]}" --release -p chronicle_oracle --bin compare -- 40000 2 4
step_with_rust cargo run "${at[@]}" --release -p chronicle_oracle --bin compare -- samples
step_with_rust cargo run "${at[@]}" --release -p chronicle_oracle --bin answer_vectors -- --check crates/answer_vectors/data/answers.bin
step_with_rust cargo run "${at[@]}" --release -p chronicle_oracle --bin lent_vectors -- --check crates/lent_vectors/data/lent.bin
