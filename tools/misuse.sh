#!/usr/bin/env bash
# Tries the edits in misuse/, each of which uses a note as it must not be used: in a copy of the repository the check of crate misuse must
# refuse each with the error that the edit's line `error:` names. The other lines are those of a must-fail edit, `file:`, `old:` and `new:`.
set -euo pipefail
cd "$(dirname "${BASH_SOURCE[0]}")/.."
copy=$(mktemp -d)
said=$(mktemp)
trap 'rm -rf "$copy" "$said"' EXIT
tar --exclude=out --exclude=target --exclude=.git -cf - . | tar -C "$copy" -xf -
top=$PWD
edits=0
bad=0

checked() {
    (cd "$copy/crates/misuse" && rt check "$@") >"$said" 2>&1
}

if ! checked; then
    cat "$said" >&2
    echo "misuse: the crate is refused without an edit" >&2
    exit 1
fi
for edit in misuse/*.edit; do
    name=$(basename "$edit" .edit)
    file=
    error=
    old=
    edits=$((edits + 1))
    # In quotes no letter of the old text has a meaning of its own.
    while IFS= read -r line; do
        case $line in
            "file: "*)
                file=${line#file: }
                text=$(cat "$file")
                ;;
            "old: "*) old=${line#old: } ;;
            "new: "*)
                rest=${text#*"$old"}
                if [ "$rest" = "$text" ] || [ "${rest#*"$old"}" != "$rest" ]; then
                    echo "misuse: $edit: does not stand once in $file: $old" >&2
                    exit 1
                fi
                text=${text%%"$old"*}${line#new: }$rest
                ;;
            "error: "*) error=${line#error: } ;;
        esac
    done <"$edit"
    if [ -z "$file" ] || [ -z "$error" ]; then
        echo "misuse: $edit: has no file or no error" >&2
        exit 1
    fi
    printf '%s\n' "$text" >"$copy/$file"
    if checked; then
        echo "misuse: $name: NOT REFUSED"
        bad=$((bad + 1))
    elif grep -qF -- "$error" "$said"; then
        echo "misuse: $name: refused, as it must be: $error"
    else
        cat "$said" >&2
        echo "misuse: $name: refused, but not for $error"
        bad=$((bad + 1))
    fi
    cp "$top/$file" "$copy/$file"
done
echo "misuse: $edits edits, $bad bad"
[ "$edits" -gt 0 ] && [ "$bad" -eq 0 ]
