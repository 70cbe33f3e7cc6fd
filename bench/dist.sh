#!/usr/bin/env bash
# Renews dist/x86_64-linux from what was built here, and proves nothing: the programs, as `rt ci` has just built them; the library
# for C, where bench/archive.sh has built it; SHA256SUMS; and built-from, which has for each file a sum of the sources that it was
# made of and the line of the kit that made it.
set -eu
cd "$(dirname "$0")/.."
top=$PWD
. crates/sources.sh
kit=$(rt version)
new=$(mktemp -d)
trap 'rm -rf "$new"' EXIT
take() {
  cp "$3" "$new/$1"
  printf '%s %s %s\n' "$1" "$(sources_of "$2")" "$kit" >>"$new/built-from"
}
while read -r file crate made; do
  if ! note_build "$crate" "$made"; then
    echo "dist: $made is not there, or not built of these sources; run rt ci first" >&2
    exit 1
  fi
  take "$file" "$crate" "$made"
done < <(made_files)
archive=crates/mooringakee_c/out/libmooringakee_c.a
if note_build mooringakee_c "$archive"; then
  take "${archive##*/}" mooringakee_c "$archive"
else
  echo 'dist: without the library for C, which bench/archive.sh builds' >&2
fi
(cd "$new" && cut -d ' ' -f 1 built-from | xargs sha256sum >SHA256SUMS)
dist=dist/x86_64-linux
rm -rf "$dist"
mkdir -p "$dist"
cp "$new"/* "$dist"
wc -c "$dist"/*
cat "$dist/built-from"
