#!/usr/bin/env bash
# Looks for lemmas of crates/*/proofs/ that no proof, definition, contract, edit or document cites: where an answer goes
# that the search finds by itself, what it alone cited is to go with it.
#
# A line that has a lemma's name cites it, unless it is part of the lemma; a name that two files have is one name here. Not
# looked for: what proves a statement of specs/ (its type is that statement), worked examples, and what contracts name by
# a file (answers, Proof.antt).
#
# usage: .ci/uncited.sh       (at the end 'N passed, M failed'; the status is 1 where one is not cited)
set -eu
cd "$(dirname "$0")/.."
export LC_ALL=C

mapfile -t files < <(find crates bench docs README.md CONTRIBUTING.md -type f \
    \( -name '*.antt' -o -name '*.rt' -o -name '*.edit' -o -name '*.md' \) -not -path '*/out/*')
awk '
    BEGIN { apart = "[][ \t(){}<>.,;:|\"`]+" }
    FNR == 1 {
        inside = ""
        lemmas = FILENAME ~ /\/proofs\/.*\.antt$/ && FILENAME !~ /\/(Answers|Proof|Worked[^\/]*)\.antt$|\/Worked/
    }
    lemmas && /^(pub )?[^ ]+ :( |$)/ {
        name = $1 == "pub" ? $2 : $1
        type = substr($0, index($0, " :") + 3)
        if (type !~ /^[A-Z][A-Za-z]*$/ && type !~ /^\(A : Type 0\) [^ ]+ [A-Z][A-Za-z]* A$/)
            where[name] = FILENAME ":" FNR
    }
    FILENAME ~ /antt$/ && /^[^ ]/ { inside = $1 == "pub" ? $2 : $1 }
    FILENAME ~ /antt$/ { sub(/(^| )--.*/, "") }
    {
        words = split($0, word, apart)
        for (i = 1; i <= words; i++) if (word[i] != inside) cited[word[i]] = 1
    }
    END {
        for (name in where) {
            if (name in cited) { passed++; continue }
            failed++
            print "FAILED: " where[name] ": " name ": nothing cites it"
        }
        print passed + 0 " passed, " failed + 0 " failed"
        exit failed > 0
    }
' "${files[@]}"
