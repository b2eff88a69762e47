#!/usr/bin/env bash
# Makes docs/CRATES.md of the groups and lines of crates.txt, of the first sentence at the head of each crate's root file, and of
# docs/crates.tsv, which tells what is proved of each crate (a line each: the crate, a tab, the text).
#   docs/crates.sh            writes the page
#   docs/crates.sh --check    says whether the page is what it would write
cd -- "$(dirname -- "$(readlink -f -- "${BASH_SOURCE[0]}")")/.." || exit 1
ours=" $(release/sources.sh --crates | cut -d : -f 1 | tr '\n' ' ')" || exit 1

head_of() { # the first sentence at the head of a crate's root file
    local root=crates/$1/src/lib.rt
    [ -f "$root" ] || root=crates/$1/src/main.rt
    sed -n '/^\/\/!/!q; s|^//! \{0,1\}||p' "$root" | tr '\n' ' ' | sed 's/\([^.]*\.[0-9]\)*[^.]*\./&\n/' | head -n 1
}
linked() { # names of crates, with links to those of the repository
    local name
    for name; do
        if [ -d "crates/$name" ]; then printf ', [`%s`](#%s)' "$name" "$name"; else printf ', *%s*' "$name"; fi
    done | sed 's/^, //'
}
page() {
    local line name needs proved
    cat <<'P'
# The crates

What each crate is, what it stands on, and what is proved of it. `docs/crates.sh` makes this page of `crates.txt`, of the heads of the crates and of `docs/crates.tsv`: change those. Names in `code` behind a call are clauses of its contract, or laws; [THEOREMS.md](THEOREMS.md) tells how to read one. Crates of the toolchain are in *italics*.

P
    sed -n 's/^# //p' crates.txt | while IFS= read -r line; do
        echo "- [$line](#$(echo "$line" | tr 'A-Z ' 'a-z-' | tr -cd 'a-z0-9_-'))"
    done
    while IFS= read -r line; do
        case $line in
        '# '*) printf '\n## %s\n' "${line#\# }" ;;
        *:*)
            name=${line%%:*} needs=${line#*:}
            proved=$(sed -n "s/^$name	//p" docs/crates.tsv)
            printf '\n### %s\n\n%s' "$name" "$(head_of "$name")"
            [[ $ours == *" $name "* ]] || printf ' No part of the program.'
            # shellcheck disable=SC2086
            [ -z "${needs// /}" ] || printf ' Stands on %s.' "$(linked $needs)"
            echo
            if [ -n "$proved" ]; then
                printf '\n%s%s.\n' "$(echo "${proved:0:1}" | tr 'a-z' 'A-Z')" "${proved:1}"
            else
                echo "docs/crates.tsv has no line of $name" >&2
            fi
            ;;
        esac
    done <crates.txt
}

if [ "$1" = --check ]; then
    made=$(mktemp) lacks=$(mktemp)
    trap 'rm -f "$made" "$lacks"' EXIT
    page >"$made" 2>"$lacks"
    cmp -s "$made" docs/CRATES.md || echo "docs/CRATES.md is not what docs/crates.sh makes: run it" >>"$lacks"
    cat "$lacks" >&2
    [ ! -s "$lacks" ]
    exit
else
    page >docs/CRATES.md.new && mv docs/CRATES.md.new docs/CRATES.md
fi
