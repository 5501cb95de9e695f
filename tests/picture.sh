#!/bin/sh
# docs/states.svg and docs/settling.svg are the pictures of the .dot files beside them: the same boxes and edges, with the same labels. No graphviz
# is needed.
cd "$(dirname "$0")/../docs" || exit 2
dir=$(mktemp -d) || exit 2
trap 'rm -rf "$dir"' EXIT
bad=0

compare() { # NAME: of NAME.dot and NAME.svg
    # Both as lines `box: label` and `from->to: label`, one for each line of a label; `NAME: label` for the note below.
    awk -v graph="$1" '
        /\[label="/ {
            name = $2 == "->" ? $1 "->" $3 : $1 == "graph" ? graph : $1
            sub(/^.*\[label="/, ""); sub(/".*$/, "")
            n = split($0, label, /\\[nl]/)
            for (i = 1; i <= n; i++) if (label[i] != "") print name ": " label[i]
        }' "$1.dot" | sed 's/  */ /g; s/ *$//' | sort > "$dir/text"
    sed "s/&#45;/-/g; s/&#39;/'/g; s/&#160;/ /g" "$1.svg" | awk '
        /^<title>/ { name = $0; gsub(/<[^>]*>/, "", name); sub(/&gt;/, ">", name); gsub(/:[nsew]+/, "", name) }
        /^<text/ { gsub(/<[^>]*>/, ""); print name ": " $0 }' | sed 's/  */ /g; s/ *$//' | sort > "$dir/picture"

    if [ ! -s "$dir/text" ] || ! cmp -s "$dir/text" "$dir/picture"; then
        echo "docs/$1.svg is not the picture of docs/$1.dot; < text, > picture:"
        diff "$dir/text" "$dir/picture"
        bad=1
        return
    fi
    echo "picture: $(wc -l < "$dir/text") labels of $1, all in the picture"
}

compare states
compare settling
exit $bad
