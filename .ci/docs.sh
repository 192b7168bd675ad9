#!/usr/bin/env bash
# Checks what the documents say of the repository: each link leads somewhere, each path that is named exists, code that
# is said to come from a file stands in it, each command of ./waitq and chart/waitq_chart runs as written, each script
# has its line in examples/README.md, and each file of definitions has one of the marks of docs/READING.md. Of what the
# documents count and name: the paths of docs/READING.md have each file that is to be believed, and about as many lines
# as it says; a name that stands in several files of definitions is in .ci/doubled_names.txt; docs/ARCHITECTURE.md lets
# each crate stand on what crates.txt says; each clause that docs/PROVED.md names in brackets is one of that crate; each
# path of modules leads to something public, each call beside the kernel's names in docs/USING.md is there, and
# docs/GLOSSARY.md has one row a word. The numbers of calls are the same in C, in Rust and in the archive's sources.
#
# usage: .ci/docs.sh             (it needs what `rt ci` built)
#        .ci/docs.sh --quick     runs no command, and needs nothing
#        .ci/docs.sh --lines     counts the lines of the files of definitions by their marks
#        .ci/docs.sh --paths     counts those to be believed of each path of docs/READING.md
#        .ci/docs.sh --names     prints the names that stand in several files of definitions, and in how many each
#
# Prints a line for each case that fails, and at the end 'N passed, M failed'. The status is 1 where one failed.
set -u

root=$(dirname -- "$(dirname -- "$(readlink -f -- "${BASH_SOURCE[0]}")")")
cd -- "$root" || exit 1
work=$(mktemp -d)
trap 'rm -rf -- "$work"' EXIT
passed=0
failed=0
marks='To be believed.|Tied by laws to what is to be believed.|A check of the definitions.|For proofs alone.'
marks="$marks|For tests alone."
believed='-- To be believed.'
# How a definition begins, before its name.
defines='^(abbrev pub|unfoldable pub|pub record|pub data)'

pass() {
    passed=$((passed + 1))
}

fail() {
    failed=$((failed + 1))
    printf 'FAILED: %s\n' "$*"
}

# Passes where a command does, and else fails with the words before it.
judge() {
    local words=$1
    shift
    if "$@"; then
        pass
    else
        fail "$words"
    fi
}

# The files of definitions, without those that only name the others.
definitions() {
    find crates/*/specs -name '*.antt' ! -name Lib.antt | LC_ALL=C sort
}

# The pages of the repository.
pages() {
    find . -name out -prune -o -name .git -prune -o -name '*.md' -print | sed 's,^\./,,' | LC_ALL=C sort
}

# The lines of a page outside of its blocks of code.
prose() {
    awk '/^```/ { inside = !inside; next } !inside && !/^    [^ ]/' "$1"
}

# The headings of a page as links name them.
anchors() {
    prose "$1" | sed -n 's/^##* //p' | tr '[:upper:]' '[:lower:]' | sed 's/[^a-z0-9_ -]//g; s/ /-/g'
}

# Follows each link of a page that leads into the repository.
follow_links() {
    local page=$1 link path anchor
    while read -r link; do
        case $link in http://* | https://*) continue ;; esac
        path=${link%%#*}
        anchor=
        [ "$path" = "$link" ] || anchor=${link#*#}
        if [ -z "$path" ]; then
            path=$page
        else
            path=$(dirname -- "$page")/$path
        fi
        if [ ! -e "$path" ]; then
            fail "$page: $link leads nowhere"
        elif [ -n "$anchor" ] && ! anchors "$path" | grep -qxF -- "$anchor"; then
            fail "$page: $link names no heading"
        else
            pass
        fi
    done < <(prose "$page" | grep -oE '\]\([^) ]+\)' | sed 's/^](//; s/)$//')
}

# Looks for each path that a page names in code.
find_paths() {
    local page=$1 path
    while read -r path; do
        if [ -e "$path" ] || [ -e "crates/$path" ]; then
            pass
        else
            fail "$page: there is no $path"
        fi
    done < <(prose "$page" | grep -oE '`(crates|chart|docs|examples|bench|front|\.ci)/[A-Za-z0-9_./-]+`' | tr -d '`' | grep -v NAME | sort -u)
}

# Whether a file, or a folder, of a crate is there, by its name with the ending or without.
is_file() {
    [ -e "crates/$1" ] || [ -e "crates/$1.antt" ] || [ -e "crates/$1.rt" ] || [ -e "$1" ]
}

# Looks for each file that a page names from its crate on; docs/GLOSSARY.md has short names for some crates.
find_files() {
    local page=$1 path
    while read -r path; do
        judge "$page: there is no crates/$path" is_file "$path"
    done < <(prose "$page" |
        sed -E 's,`(model|rule|core|script)/([A-Z]),`wait_\1/specs/\2,g; s,`head/([A-Z]),`wq_head/specs/\1,g' |
        grep -oE '`[a-z_]+/(specs|src|proofs|must-fail)(/[A-Za-z0-9_.-]+)*`' | tr -d '`' | grep -v '/X' | sort -u)
}

# Compares each block of code that is said to come from a file with that file.
find_code() {
    local page=$1 file
    awk -v work="$work" -v page="$page" '
        match($0, /^<!-- from .* -->$/) { file = substr($0, 11, length($0) - 14); next }
        /^```/ && file != "" && !inside { inside = 1; block = ""; next }
        /^```/ && inside { inside = 0; name = work "/block" ++count; printf "%s", block >name; print file, name; file = "" }
        inside { block = block $0 "\n" }
    ' "$page" >"$work/blocks"
    while read -r file block; do
        if [ -f "$file" ] && BLOCK=$(cat -- "$block") awk '
            { text = text $0 "\n" }
            END { exit index(text, ENVIRON["BLOCK"] "\n") == 0 }
        ' "$file"; then
            pass
        else
            fail "$page: code that does not stand in $file"
        fi
    done <"$work/blocks"
}

# Runs each command of a page that begins with one of the programs, as it is written, in a folder that has what a
# reader's has. The words behind two spaces say what it does.
run_commands() {
    local page=$1 line
    rm -rf -- "$work/here"
    mkdir -- "$work/here"
    ln -s -- "$root/examples" "$work/here/examples"
    ln -s -- "$root/crates/waitq/out/waitq" "$work/here/waitq"
    ln -s -- "$root/chart" "$work/here/chart"
    while read -r line; do
        if (cd -- "$work/here" && timeout 60 bash -c "$line") >"$work/out" 2>&1; then
            pass
        else
            fail "$page: status $?: $line: $(head -n 1 -- "$work/out")"
        fi
    done < <(sed -nE 's/^    ((\.\/waitq|chart\/waitq_chart) .*)$/\1/p' "$page" | sed -E 's/  +.*$//')
}

# Looks for each script in the index, and for each line of the index among the scripts.
compare_index() {
    local script name
    for script in examples/*.waitq; do
        name=$(basename -- "$script")
        if [ "$(grep -cF -- "| [${name%.waitq}]($name) |" examples/README.md)" = 1 ]; then
            pass
        else
            fail "examples/README.md: $name has no line, or several"
        fi
    done
}

# Looks for the mark of each file of definitions.
find_marks() {
    local file
    for file in $(definitions); do
        if head -n 1 -- "$file" | grep -qxE -- "-- ($marks)"; then
            pass
        else
            fail "$file: its first line is no mark"
        fi
    done
}

# Counts the lines of the files of definitions by their marks.
count_lines() {
    local mark files
    while read -r mark; do
        mapfile -t files < <(definitions | xargs grep -lxF -- "-- $mark")
        printf '%6d lines of %3d files: %s\n' "$(cat -- "${files[@]}" /dev/null | wc -l)" "${#files[@]}" "$mark"
    done < <(tr '|' '\n' <<<"$marks")
}

# The files that each path of docs/READING.md names, one a line behind the path's number. A name is one of the crate
# that the path has named last, or of wait_model; what is no file of either stands there as it is.
path_files() {
    local number word file last=
    local crate=wait_model
    while read -r number word; do
        [ "$number" = "$last" ] || crate=wait_model
        last=$number
        if [ -d "crates/$word" ]; then
            crate=$word
            continue
        fi
        for file in "crates/$crate/specs/$word.antt" "crates/wait_model/specs/$word.antt" "$word"; do
            if [ -f "$file" ] || [ "$file" = "$word" ]; then
                printf '%s %s\n' "$number" "$file"
                break
            fi
        done
    done < <(awk '
        /^## / { inside = $0 == "## Promise by promise" }
        !inside { next }
        match($0, /^\*\*[0-9]+\./) { number = substr($0, 3, RLENGTH - 3) }
        number != "" {
            for (rest = $0; match(rest, /`[A-Za-z_]+`/); rest = substr(rest, RSTART + RLENGTH))
                print number, substr(rest, RSTART + 1, RLENGTH - 2)
        }
    ' docs/READING.md)
}

# The lines of the files to be believed of each path: its number and how many there are.
count_paths() {
    local number file
    while read -r number file; do
        if [ -f "$file" ] && head -n 1 -- "$file" | grep -qxF -- "$believed"; then
            printf '%s %s\n' "$number" "$(wc -l <"$file")"
        fi
    done < <(path_files) | awk '{ sum[$1] += $2 } END { for (number in sum) print number, sum[number] }' | sort -n
}

# Whether a number that is said is about another one: no more than a twentieth off.
is_about() {
    [ $((20 * ($1 > $2 ? $1 - $2 : $2 - $1))) -le "$2" ]
}

# Compares what docs/READING.md says of its paths with the files that they name.
compare_paths() {
    local number file lines said
    while read -r number file; do
        case $file in
            */*) ;;
            [A-Z]*) judge "docs/READING.md: path $number: there is no $file" \
                grep -qE "$defines $file( |\$)" crates/*/specs/*.antt ;;
        esac
    done < <(path_files)
    while read -r file; do
        judge "docs/READING.md: no path has $file" grep -qxF -- "$file" "$work/read"
    done < <(path_files | cut -d ' ' -f 2 >"$work/read"; definitions | xargs grep -lxF -- "$believed")
    while read -r number lines; do
        said=$(sed -nE "s/^\*\*$number\. .*\*\* \(([0-9,]+) lines.*/\1/p" docs/READING.md | tr -d ,)
        judge "docs/READING.md: path $number has $lines lines, not $said" is_about "${said:-0}" "$lines"
    done < <(count_paths)
    lines=$(definitions | xargs grep -lxF -- "$believed" | xargs cat | wc -l)
    said=$(sed -nE 's/.* had some ([0-9,]+) lines$/\1/p' docs/READING.md | tr -d ,)
    judge "docs/READING.md: $lines lines are to be believed, not $said" is_about "${said:-0}" "$lines"
}

# The names that stand in several files of definitions, each with the number of these files.
doubled_names() {
    definitions | xargs awk -v defines="$defines" '
        $0 ~ defines {
            split($0, words, " ")
            if (!seen[words[3], FILENAME]++) files[words[3]]++
        }
        END { for (name in files) if (files[name] > 1) print name, files[name] }
    ' | LC_ALL=C sort
}

# Compares these names with the list of them, which is to get no longer.
compare_names() {
    local name files
    doubled_names >"$work/names"
    while read -r name files; do
        fail "$name: stands in $files files of definitions (.ci/doubled_names.txt)"
    done < <(LC_ALL=C comm -13 .ci/doubled_names.txt "$work/names")
    while read -r name files; do
        fail ".ci/doubled_names.txt: $name stands in $files files no more (.ci/docs.sh --names)"
    done < <(LC_ALL=C comm -23 .ci/doubled_names.txt "$work/names")
    judge '.ci/doubled_names.txt: not the names that are doubled' cmp -s .ci/doubled_names.txt "$work/names"
}

# Compares what docs/ARCHITECTURE.md lets each crate stand on with its line of crates.txt.
compare_crates() {
    local name needs said
    while IFS=: read -r name needs; do
        name=${name%% *}
        needs=$(xargs -n 1 <<<"$needs" | LC_ALL=C sort | xargs)
        said=$(awk -F ' \\| ' -v row="| \`$name\`" '
            /^\| Crate \| What it is \| Stands on \|/ { inside = 1 }
            /^$/ { inside = 0 }
            inside && $1 == row { print $3 }
        ' docs/ARCHITECTURE.md)
        said=$(tr -d '`,' <<<"$said" | xargs -n 1 | LC_ALL=C sort | xargs)
        judge "docs/ARCHITECTURE.md: $name stands on: ${needs:-std}; not: $said" [ "$said" = "${needs:-std}" ]
    done <crates.txt
}

# What contracts and definitions of each crate have by a name, behind the crate's: clauses, ghosts, functions, fields.
clause_names() {
    find crates/*/src -name '*.rt' -exec awk '
        !/^ *\/\// {
            split(FILENAME, part, "/")
            for (rest = $0; match(rest, /(ensures|requires|ghost|fn)\*? [a-z_0-9]+/);) {
                split(substr(rest, RSTART, RLENGTH), words, " ")
                print part[2], words[2]
                rest = substr(rest, RSTART + RLENGTH)
            }
        }' {} +
    definitions | xargs awk '
        match($0, /^(abbrev pub|unfoldable pub|  pub) [a-z_0-9]+/) {
            split(FILENAME, part, "/")
            count = split(substr($0, RSTART, RLENGTH), words, " ")
            print part[2], words[count]
        }'
}

# Looks for each clause that docs/PROVED.md names in brackets, among those of the crate of which it speaks.
find_clauses() {
    local crate name
    clause_names | LC_ALL=C sort -u >"$work/clauses"
    while read -r crate name; do
        judge "docs/PROVED.md: $crate has no $name" grep -qxF -- "$crate $name" "$work/clauses"
    done < <(awk '
        /^## / { inside = $0 == "## What is proved, crate by crate" }
        match($0, /^\*\*[a-z_]+\*\* —/) { crate = substr($0, 3); sub(/\*.*/, "", crate) }
        inside && crate != "" { text[crate] = text[crate] " " $0 }
        END {
            for (crate in text)
                for (rest = text[crate]; match(rest, /\([^()]*\)/); rest = substr(rest, at + length(found))) {
                    at = RSTART
                    found = substr(rest, RSTART, RLENGTH)
                    for (left = found; match(left, /`[a-z_0-9]+`/); left = substr(left, RSTART + RLENGTH))
                        print crate, substr(left, RSTART + 1, RLENGTH - 2)
                }
        }' docs/PROVED.md | LC_ALL=C sort -u)
}

# Whether a file of a crate has something public of that name, of its own or handed on from another file.
has_public() {
    grep -sqE "^pub (mod|fn|struct|enum|const|trait) $2\b" "$1" ||
        tr '\n' ' ' <"$1" | grep -oE 'pub use [^;]*;' | grep -qw -- "$2"
}

# Whether something public stands at a path of modules that begins with a crate, or with `laws`.
is_public() {
    local crate=${1%%::*} rest=${1#*::} name=${1##*::} module
    if [ "$crate" = laws ]; then
        grep -qE "^pub fn $name[(<]" crates/*/src/laws.rt
        return
    fi
    module=${rest%"$name"}
    module=${module%::}
    case $module in
        specs*) grep -sqE "$defines $name( |\$)" "crates/$crate/${module//:://}.antt" ;;
        '') has_public "crates/$crate/src/lib.rt" "$name" ;;
        [A-Z]*) grep -qE "^ +pub fn $name\b" "crates/$crate"/src/*.rt && is_public "$crate::$module" ;;
        *) [ -f "crates/$crate/src/$module.rt" ] && has_public "crates/$crate/src/$module.rt" "$name" &&
            grep -qxF "pub mod $module;" "crates/$crate/src/lib.rt" ;;
    esac
}

# Looks for each path of modules that a page names in code.
find_public() {
    local page=$1 path
    while read -r path; do
        [ -d "crates/${path%%::*}" ] || [ "${path%%::*}" = laws ] || continue
        judge "$page: $path is nothing public" is_public "$path"
    done < <(prose "$page" | grep -oE '`[a-z_0-9]+(::[A-Za-z_0-9]+)+`' | tr -d '`' | sort -u)
}

# Looks for each call that the table of the kernel's names has, among those that a checked task begins.
find_calls() {
    local name
    while read -r name; do
        judge "docs/USING.md: no task begins $name" grep -qE "^    $name( \{|,)" crates/wq_checked/src/calls.rt
    done < <(awk -F ' \\| ' '
        /^\| Kernel \| Here \| Without proofs \|/ { inside = 1 }
        /^$/ { inside = 0 }
        inside { print $3 }
    ' docs/USING.md | grep -oE '`[A-Za-z]+`' | tr -d '`' | sort -u)
}

# Looks for words that have more than one row in docs/GLOSSARY.md.
find_doubled_words() {
    local word
    while read -r word; do
        fail "docs/GLOSSARY.md: two rows: $word"
    done < <(awk -F ' *\\| *' '/^\|/ && $2 != "Word" && $2 !~ /^-/ { print $2 }' docs/GLOSSARY.md | sort | uniq -d)
    pass
}

case ${1:-} in
    --lines) count_lines && exit ;;
    --paths) count_paths && exit ;;
    --names) doubled_names && exit ;;
esac
while read -r page; do
    follow_links "$page"
    find_paths "$page"
    find_files "$page"
    find_code "$page"
    find_public "$page"
    [ "${1:-}" = --quick ] || run_commands "$page"
done < <(pages)
compare_index
find_marks
compare_paths
compare_names
compare_crates
find_clauses
find_calls
judge 'C, Rust and the archive give a call other numbers' front/try --numbers
find_doubled_words
printf '%d passed, %d failed\n' "$passed" "$failed"
[ "$failed" = 0 ]
