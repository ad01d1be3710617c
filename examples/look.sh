#!/bin/sh
# Runs the program before anything is proved: prints a file, and then the file as an edit would leave it.
set -eu
cd "$(dirname "$0")"

echo "server.yaml:"
cat server.yaml
echo
echo "yq '.server.port = 9090' server.yaml, by \`rt try\`, which takes some two minutes on one processor:"
cd ../crates/yq
${RT:-rt} try --data server.yaml=../../examples/server.yaml -- '.server.port = 9090' server.yaml
echo
echo "Nothing is proved of this run: its code was compiled with checks, and no contract was looked at. make demo proves all and"
echo "shows an edit in place and its undo."
