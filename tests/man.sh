#!/usr/bin/env bash
# The manual pages say what the programs take: each option of the daemon with its value, its range and its default, each command of the page
# of commands with its options, in the same order and no other, and each event of the log. Where mandoc is there, it finds nothing to warn of.
# The page of the library for C is that of its header. The unit on the page of operating is the one that is installed, and the file for
# options has the unit's and the pages. The page of rpkirtrd-fetch has its variables with their defaults. The page of the commands is made of docs/COMMANDS.md.
set -u
top=$(cd "$(dirname "${BASH_SOURCE[0]}")/.." && pwd) || exit 1
folder=$(mktemp -d) || exit 1
trap 'rm -rf "$folder"' EXIT
cd "$folder" || exit 1
failed=0
source=$top/crates/rpkirtrd_cli/src/options.rt

# Both files have the same lines, which are told where they differ.
same() { # same WHAT WANTED FOUND
    [ -s "$2" ] && cmp -s "$2" "$3" && return
    echo "$1 differ:" >&2
    diff "$2" "$3" >&2
    failed=1
}

# The items of a page: `.It Fl -vrps Ar FILE` is `--vrps FILE`. Lists of other things have neither an option nor a word in capitals.
items() { # items PAGE
    sed -n -e 's/^\.It \(.*\)$/\1/p' "$1" | grep -E '(^| )(Fl|Ar) ' |
        sed -e 's/Fl h , -help/-h, --help/; s/Fl V , -version/-V, --version/' -e 's/Fl -/--/g' -e 's/\(Ar\|Cm\|Op\|Oo\|Oc\) //g' -e 's/ \.\.\.$/../'
}

# The ranges and defaults that are told of each option, from lines `NAME: TEXT`.
ranges() {
    awk -F : '{
        text = $0
        while (match(text, /from [0-9]+ to [0-9]+|[Tt]he default is [^ ;,]+/)) {
            told = tolower(substr(text, RSTART, RLENGTH))
            sub(/\.$/, "", told)
            print $1 ": " told
            text = substr(text, RSTART + RLENGTH)
        }
    }'
}

# The options of the source, as `--help` writes them, and the texts that stand with each.
awk -F '"' '
    /^ *name: "/ { name = $2; letter = "" }
    /^ *letter: Some/ { split($0, parts, "\047"); letter = "-" parts[2] ", " }
    /^ *value: "/ { print letter "--" name ($2 == "" ? "" : " " $2) >"wanted"; text = name ":"; on = 0 }
    /help: &\[/ { on = 1 }
    on { for (i = 2; i <= NF; i += 2) text = text " " $i }
    on && /\],$/ { print text >"texts"; on = 0 }' "$source"
items "$top/docs/man/rpkirtrd.8" >found
same "options of rpkirtrd.8 and of $source" wanted found
awk '
    function told() { if (name != "") print name ":" text; name = "" }
    /^\.It Fl / { told(); name = $NF; for (i = 2; i <= NF; i++) if ($i ~ /^-[a-z]/) { name = substr($i, 2); break } text = ""; next }
    /^\.(El|It|S[hs])/ { told(); next }
    { line = $0; sub(/^\.[A-Z][a-z] /, "", line); text = text " " line }' "$top/docs/man/rpkirtrd.8" >page
ranges <texts >wanted
ranges <page >found
same "ranges and defaults of rpkirtrd.8 and of $source" wanted found

program=$(bash "$top/tools/start.sh" --path rpkirtrd) || exit 1
"$program" --help | grep -E '^  (-[a-zA-Z], )?--' | sed 's/^  //' >wanted
items "$top/docs/man/rpkirtrd.8" >found
same 'options of rpkirtrd.8 and of rpkirtrd --help' wanted found

sed -n 's/^ *LogEvent::.* => "\([a-z-]*\)",$/\1/p' "$top/crates/event_log/src/entries.rt" | sort -u >wanted
sed -n '/^\.Ss Log/,/^\.S[hs] [^L]/s/^\.It Cm //p' "$top/docs/man/rpkirtrd.8" | sed 's/ , /\n/' | sort >found
same 'events of rpkirtrd.8 and of the log' wanted found

sed -n 's/^`\.\/run \([^`]*\)`:.*/\1/p' "$top/docs/COMMANDS.md" >wanted
items "$top/docs/man/rpkirtr.1" >found
same 'commands of rpkirtr.1 and of docs/COMMANDS.md' wanted found

awk '/^```ini$/ { on = 1; next } /^```$/ { on = 0 } on' "$top/docs/OPERATING.md" >wanted
same 'docs/OPERATING.md and tools/rpkirtrd.service' wanted "$top/tools/rpkirtrd.service"
sed -n 's/^Environment="\(OPTIONS=.*\)"$/\1/p' wanted >options
sed -n 's/^\(OPTIONS=\)"\(.*\) --status 127\.0\.0\.1:9323\( .*\)"$/\1\2\3/p' "$top/tools/rpkirtrd.default" >found
same 'options of tools/rpkirtrd.service and, but for --status, of tools/rpkirtrd.default' options found

grep -o '\${[A-Z_]*:-[0-9]*}' "$top/tools/rpkirtrd-fetch" | tr -d '${}' | sed 's/:-/ /' >wanted
awk '/^\.It Ev / { name = $3 } name != "" && /[Tt]he default is [0-9]/ { sub(/^.*he default is /, ""); sub(/[^0-9].*$/, ""); print name, $0; name = "" }' \
    "$top/docs/man/rpkirtrd-fetch.8" >found
same 'variables of rpkirtrd-fetch.8 and of tools/rpkirtrd-fetch' wanted found

python3 "$top/tools/library_page.py" --check || failed=1
python3 "$top/tools/commands_page.py" --check || failed=1

if command -v mandoc >/dev/null 2>&1; then
    mandoc -T lint -W warning "$top"/docs/man/*.[138] >&2 || failed=1
fi
exit "$failed"
