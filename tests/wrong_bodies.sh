#!/usr/bin/env bash
# Tries the wrong bodies that the gate leaves out for their time: those of the crates named, or all under wrong-bodies/.
# The prover must refuse each. It takes about as long for a crate as its proof, and a minute more for each body.
set -u
cd "$(dirname "$0")/.." || exit 1
[ $# -gt 0 ] || set -- $(ls wrong-bodies)

status=0
for crate in "$@"; do
  tried="crates/$crate/must-fail"
  mkdir -p "$tried"
  cp "wrong-bodies/$crate/"*.edit "$tried/"
  rt must-fail "$crate" || status=1
  for edit in "wrong-bodies/$crate/"*.edit; do
    rm -f "$tried/$(basename "$edit")"
  done
  rmdir --ignore-fail-on-non-empty "$tried"
done
exit $status
