#!/usr/bin/env bash
# Takes the unfinished crates back into crates/ and lists them: the definition that they need first, then their files.
set -e
cd "$(dirname "$0")/.."
git apply unfinished/all_fit.patch
while read -r line; do
  case "$line" in "#"*|"") continue ;; esac
  name=${line%%:*}
  (cd "unfinished/$name" && find . -type f) | while read -r file; do
    mkdir -p "crates/$name/$(dirname "$file")"
    mv "unfinished/$name/$file" "crates/$name/${file%.txt}"
  done
  echo "$line" >> crates.txt
done < unfinished/crates.list
