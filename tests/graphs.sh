#!/usr/bin/env bash
# usage: tests/graphs.sh BINARY
#
# Lists the call graphs of each program in tests/graphs: NAME.cha, NAME.rta and NAME.vta are what comes for NAME.go. They were
# worked out by hand from what the graphs are, so that each program has one form of flow by which alone a call is found.
set -u
binary=$(realpath "$1") || exit 1
cd "$(dirname "$0")/graphs" || exit 1

listed=$(mktemp)
count=0
bad=0
for source in *.go; do
  for graph in cha rta vta; do
    "$binary" -callgraph=$graph "$source" >"$listed" 2>/dev/null
    status=$?
    count=$((count + 1))
    if [ $status -ne 0 ] || ! cmp -s "$listed" "${source%.go}.$graph"; then
      echo "$source: the graph of -callgraph=$graph is another (status $status)"
      diff "${source%.go}.$graph" "$listed" | head -5
      bad=$((bad + 1))
    fi
  done
done
rm -f "$listed"
echo "graphs: $((count - bad)) passed, $bad failed"
[ $bad -eq 0 ]
