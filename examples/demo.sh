#!/bin/sh
# Edits a copy of a file, shows the difference, undoes it, and shows that the bytes are the first ones.
set -eu
yq=$(realpath "$1")
first=$(realpath "$2")
folder=$(mktemp -d)
trap 'rm -rf "$folder"' EXIT
cp "$first" "$folder/server.yaml"
cd "$folder"

echo "server.yaml:"
cat server.yaml
echo
echo "yq -i '.server.port = 9090' server.yaml"
"$yq" -i '.server.port = 9090' server.yaml
if diff "$first" server.yaml; then
    echo "the file did not change" >&2
    exit 1
fi
echo
echo "yq undo server.yaml"
"$yq" undo server.yaml
cmp "$first" server.yaml
echo "server.yaml has its first bytes again"
