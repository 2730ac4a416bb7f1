#!/usr/bin/env bash
# Callers that the compiler must refuse, before any proof: each edit of checks/refused is made in a copy of the
# repository, and the check must end with the error that it names. (The must-fail edits of the crates are the ones
# that reach the prover.)
set -u
root=$(cd "$(dirname "$0")/.." && pwd)
copy=$(mktemp -d)
trap 'rm -rf "$copy"' EXIT
tar -C "$root" --exclude=out -cf - crates crates.txt | tar -C "$copy" -xf -
failed=0
for edit in "$root"/checks/refused/*.edit; do
  label=$(basename "$edit" .edit)
  error=$(sed -n 's/^error: //p' "$edit")
  crate=$(sed -n 's/^crate: //p' "$edit")
  file="crates/$crate/$(sed -n 's/^file: //p' "$edit")"
  if OLD=$(sed -n 's/^old: //p' "$edit") NEW=$(sed -n 's/^new: //p' "$edit") awk '
    { text = text $0 "\n" }
    END {
      old = ENVIRON["OLD"]
      at = index(text, old)
      rest = substr(text, at + length(old))
      if (!at || index(rest, old)) exit 1
      printf "%s%s%s", substr(text, 1, at - 1), ENVIRON["NEW"], rest
    }' "$root/$file" >"$copy/$file"
  then
    (cd "$copy/crates/$crate" && rt check) >"$copy/log" 2>&1
    if grep -q "${file#crates/"$crate"/}.*error\[$error\]" "$copy/log"; then
      echo "refused: $label ($error)"
    else
      echo "NOT REFUSED as it should be: $label"
      tail -n 5 "$copy/log"
      failed=1
    fi
    cp "$root/$file" "$copy/$file"
  else
    echo "BAD EDIT: $label: its text does not stand once in $file"
    failed=1
  fi
done
exit $failed
