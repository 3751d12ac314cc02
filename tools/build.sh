#!/usr/bin/env bash
# Builds what is delivered: target/staticlib/libpage.a, the library with the C functions, and target/bin/page_main, the program that prints the page.
# Every crate that these stand on is proved first, crates that don't wait for each other at the same time; what earlier checks kept is not proved again.
# A line a crate is printed, and what the prover said of each stands in target/build/CRATE.log.
set -eu
cd "$(dirname "$0")/.."
mkdir -p target/staticlib target/bin target/build

# A rule of make for each line of crates.txt: a crate waits for those of the repository that it uses.
rules() {
    awk '
        { sub(/#.*/, "") }
        NF && match($0, /:/) { split(substr($0, 1, RSTART - 1), words, " "); name[++n] = words[1]; uses[words[1]] = substr($0, RSTART + 1) }
        END {
            for (i = 1; i <= n; i++) {
                line = name[i] ":"
                m = split(uses[name[i]], below, " ")
                for (k = 1; k <= m; k++) if (below[k] in uses) line = line " " below[k]
                printf ".PHONY: %s\n%s\n\t@bash tools/build.sh --crate %s\n", name[i], line, name[i]
            }
        }' crates.txt
}

# Proves and builds one crate.
build_crate() {
    local began=$SECONDS log="target/build/$1.log" step=lib
    [ "$1" = page_main ] && step=run
    if (cd "crates/$1" && if [ -e stdin ]; then rt $step < stdin; else rt $step; fi) > "$log" 2>&1; then
        echo "build: $1 in $((SECONDS - began)) s"
    else
        tail -n 20 "$log"
        echo "build: FAILED: $1; all of it stands in $log"
        return 1
    fi
}

if [ "${1-}" = --crate ]; then
    build_crate "$2"
    exit
fi
rules | make --silent --no-print-directory -f - -j "$(nproc)" page_c page_main
cp crates/page_c/out/libpage_c.a target/staticlib/libpage.a
cp crates/page_main/out/page_main target/bin/
echo "build: target/staticlib/libpage.a and target/bin/page_main in $SECONDS s"
