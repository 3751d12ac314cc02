#!/usr/bin/env bash
# The quick check, for the minutes between gates: what changed since BASE (origin/main if there is one, else main), and what is not committed,
# is proved, laid out, and tested in the host, behind the gate's checks of texts. It tries no must-fail edit and compares nothing with the Rust: .ci/run does.
# usage: tools/check.sh [BASE]
set -u
cd "$(dirname "$0")/.." || exit 1

base=${1:-}
if [ -z "$base" ]; then
    base=main
    git rev-parse --verify --quiet origin/main > /dev/null && base=origin/main
fi
since=$(git merge-base "$base" HEAD) || exit 1
changed=$(git diff --name-only "$since"; git ls-files --others --exclude-standard)

failed=0
step() {
    local began=$SECONDS
    echo "check: $*"
    if "$@"; then
        echo "check: passed in $((SECONDS - began)) s"
    else
        echo "check: FAILED: $*"
        failed=$((failed + 1))
    fi
}
in_folder() { (cd "$1" && shift && "$@"); }

# In the order of crates.txt, lowest first: a crate is built from those below it.
crates=$(echo "$changed" | sed -n 's,^crates/\([^/]*\)/.*,\1,p' | sort -u)
prove() { (cd "crates/$1" && rt check > ../../target/check.log 2>&1) || { tail -n 40 target/check.log; false; }; }
text_of() { find "crates/$1" -path "crates/$1/out" -prune -o -type f \( -name '*.rt' -o -name '*.antt' \) -print | sort | xargs cat | cksum; }
laid_out() {
    local before
    before=$(text_of "$1")
    (cd "crates/$1" && rt fmt) || return 1
    [ "$before" = "$(text_of "$1")" ] || { echo "check: rt fmt laid out files of $1 anew"; false; }
}
step python3 tools/check_text.py
step python3 tools/check_rules.py
step python3 tools/check_exports.py
mkdir -p target
for crate in $(sed -n 's/^\([a-z_]*\)[ :].*/\1/p' crates.txt); do
    if echo "$crates" | grep -qx "$crate" && [ -d "crates/$crate" ]; then
        step laid_out "$crate"
        step prove "$crate"
    fi
done

left=
archive=${CHRONICLE_LIB_DIR:-target/staticlib}/libpage.a
if echo "$changed" | grep -qE '^(host|include|samples|tools)/|^Makefile|^README.md|^docs/(CALLS|FORMAT).md|^crates/[^/]*/src/'; then
    step in_folder host cargo fmt --all --check
    if ! [ -f "$archive" ]; then
        left="the host was NOT linted and tested: there is no $archive; run tools/build.sh first"
    else
        if cargo clippy --version > /dev/null 2>&1; then
            step in_folder host cargo clippy --release --all-targets -- -D warnings
        else
            left="cargo clippy is not at hand, so its lints were NOT run"
        fi
        step in_folder host cargo test --release
        if [ -n "$(find crates -name '*.rt' -newer "$archive" -print -quit)" ]; then
            left="the host was tested with an archive older than the crates; run tools/build.sh, then this again"
        fi
    fi
fi

[ -z "$left" ] || echo "check: $left"
if [ "$failed" -eq 0 ]; then
    echo "check: all passed that was run (not the gate: that is .ci/run)"
else
    echo "check: $failed failed"
    exit 1
fi
