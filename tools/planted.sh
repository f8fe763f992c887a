#!/usr/bin/env bash
# Tries the bugs in planted/CRATE, each an edit as in crates/CRATE/must-fail, in a copy of the repository: of all crates, or of those named. It
# takes long and is no part of the gate, which tries the most telling ones only. A bug that is not refused is a contract that says too
# little, or a change that no caller can see.
set -euo pipefail
cd "$(dirname "${BASH_SOURCE[0]}")/.."
copy=$(mktemp -d)
trap 'rm -rf "$copy"' EXIT
tar --exclude=out --exclude=target --exclude=.git -cf - . | tar -C "$copy" -xf -
if [ $# -eq 0 ]; then
    set -- planted/*
fi
for crate in "$@"; do
    crate=$(basename "$crate")
    rm -rf "$copy/crates/$crate/must-fail"
    cp -r "planted/$crate" "$copy/crates/$crate/must-fail"
    (cd "$copy/crates/$crate" && rt must-fail "$crate") || true
done
