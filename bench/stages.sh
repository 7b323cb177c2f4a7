#!/bin/sh
# Tells how long each stage of the plain Rust program of bench/plain/ takes on generated documents, at full size and at a
# tenth: reading, the document with its checks, the replay with the numbers of the transactions, the normal order, the
# printed order, the text, and writing it.
#
# It needs rustc and python3.
cd "$(dirname -- "$0")/.." || exit 1
folder=$(mktemp -d) || exit 1
trap 'rm -r "$folder"' EXIT
. bench/plain/build.sh
build_plain "$folder" || exit 1
for document in 'rounds 100000' 'rounds 1000000' 'stores 100000' 'stores 1000000'; do
    # The document's kind and its size are two words.
    # shellcheck disable=SC2086
    python3 bench/make.py $document >"$folder/document" || exit 1
    printf '%s\n' "$document"
    "$folder/plain" group --times <"$folder/document" 2>&1 >/dev/null | sed 's/^/    /'
done
