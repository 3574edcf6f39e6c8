#!/usr/bin/env bash
# Nothing stands unused: each imported name is used in its file; each definition and law is used by another one, or is a
# theorem that docs/ or the README names for the reader, or an example (Examples, Worked) or a refutation (Wrong*).
set -u
named=$(mktemp) || exit 2
trap 'rm -f "$named"' EXIT
grep -ohE '`[^` ]+`' docs/*.md README.md | tr -d '`' | sort -u >"$named"
# unused FOLDER: what stands unused in its crates
unused() (
cd "$1" && find crates -path '*/out' -prune -o \( -name '*.antt' -o -name '*.rt' \) -print | sort | xargs awk -v named="$named" '
    BEGIN { while ((getline name < named) > 0) told[name] = 1 }
    # a name stands in a text if it does as a whole, or all the words of an operator do
    function stands(name, text,    parts, n, i) {
        if ((text, name) in token || name == "[]") return 1
        n = split(name, parts, "◌")
        if (n < 2) return 0
        for (i = 1; i <= n; i++) if (parts[i] != "" && !((text, parts[i]) in token)) return 0
        return 1
    }
    FNR == 1 { inside = 0; joined = ""; code = FILENAME ~ /\.rt$/ }
    { line = $0 }
    code { sub(/\/\/.*/, "", line) }
    !code { sub(/(^| )--( .*)?$/, "", line) }
    # rt fmt sets a long list over several lines
    joined != "" { line = joined " " line; joined = "" }
    line ~ /^ *(ghost )?use [^}]*\{[^}]*$/ { joined = line; next }
    line ~ /^ *(ghost )?use / {
        sub(/;$/, "", line)
        sub(/, *\}/, "}", line)
        if (match(line, /\{.*\}/)) list = substr(line, RSTART + 1, RLENGTH - 2)
        else { list = line; sub(/.*( as |::|\.)/, "", list) }
        gsub(/^ +| +$/, "", list)
        n = split(list, names, /, */)
        for (i = 1; i <= n; i++) { sub(/.* as /, "", names[i]); if (names[i] != "_") imports[FILENAME] = imports[FILENAME] " " names[i] }
        next
    }
    line ~ /^ *$/ { inside = 0 }
    !code && line ~ /^[^ ]/ { inside = 0 }
    {
        own = ""
        if (!code) {
            text = line
            while (sub(/^ *(pub|abbrev|unfoldable|record|data) /, "", text)) ;
            split(text, words, " ")
            if (line ~ /^ *(pub )?(record|data) /) { own = words[1]; type = 1 }
            else if (words[2] == ":" || text ~ /^([^{=]|\{[^{}=]*\})* =( |$)/) { own = words[1]; type = 0 }
            # an answer or an invariant is what the prover asks for by its name
            if (FILENAME ~ /\/(Answers|Invariants)\.antt$/ && words[3] == "goal." own) own_goal = 1; else own_goal = 0
            if (own != "" && !own_goal && !inside && line ~ /^(  )?[^ ]/ && (type || words[2] == ":") && !(own in place)) place[own] = FILENAME
            if (line ~ /^ *(pub )?(record|data) /) inside = 1
        }
        gsub(/⌜|⌝/, " ", line)
        gsub(/[][(){};,.]/, " ", line)
        if (code) { text = line; gsub(/[:&*!<>|=]/, " ", text); line = line " " text }
        n = split(line, words, " ")
        for (i = 1; i <= n; i++) {
            token[FILENAME, words[i]] = 1
            if (words[i] != own) token["", words[i]] = 1
        }
    }
    END {
        for (file in imports) {
            n = split(imports[file], names, " ")
            for (i = 1; i <= n; i++) if (!stands(names[i], file)) printf "%s: %s is imported and not used\n", file, names[i]
        }
        for (name in place)
            if (!stands(name, "") && !(name in told) && name !~ /_spec$/ && place[name] !~ /(Examples|Worked|Wrong[A-Za-z]*)\.antt$/)
                printf "%s: %s is used nowhere\n", place[name], name
    }' | sort
)

# the look itself: a law is no use of itself, also by a clause with an argument in braces; `{page = ..}` defines nothing
made=$(mktemp -d) || exit 2
trap 'rm -rf "$named" "$made"' EXIT
mkdir -p "$made/crates/made/proofs"
printf '%s\n' 'pub nobody_asks : {n : ℕ} → n ≡ n' 'nobody_asks {n} = refl' '' 'pub asked : (n : ℕ) → n ≡ n' 'asked n = refl' '' \
    'made_spec : ℕ → Type 0' 'made_spec n =' '    asked _ {page = n}' >"$made/crates/made/proofs/Laws.antt"
told=$(unused "$made")
[ "$told" = 'crates/made/proofs/Laws.antt: nobody_asks is used nowhere' ] || { printf 'this test no longer sees what it is for: %s\n' "$told"; exit 1; }

found=$(unused .)
[ -z "$found" ] || { printf '%s\n' "$found"; exit 1; }
