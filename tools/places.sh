#!/usr/bin/env bash
# Lists the lines of src/ that may be places of a point of docs/DESIGN-PASS.md, at a commit.
#   tools/places.sh COMMIT         how many lines each point has
#   tools/places.sh COMMIT POINT   the lines of one point
# A line is where to look, not a verdict. Point 2 needs a finder of repeated lines: see the page.
set -u
commit=${1:-HEAD}
point=${2:-}

lines() {
    git grep -nE "$1" "$commit" -- 'crates/*/src/*.rt' | sed "s/^$commit://" | grep -vE '^[^:]*:[0-9]*:\s*//'
}

# 1: own enums, answers and fields that are true or false, numbers that stand for a kind.
kinds='\benum |-> bool|: bool,$|match (self\.number|attribute|node|step|value|index|code)\b|attribute: u8|\* 256'
# 3: loops with a condition, over a range of numbers or with a number beside, and counters.
loops='\b(while|loop)\b|\bfor .* in [^{]*\.\.|enumerate\(\)|\+= 1;|saturating_add\(1\)'
# 4: functions whose name says that they compare, copy, convert or print.
handmade='fn \w*(same|equal|copy|copied|named|number|numeric|word|words|of|plain|judged|is_allow|is_dash|is_marked|name|told|text)\w*[(<]'
# 6: a count, a length or a size as a parameter or a field.
counts='\b(\w*count|len|size)\b: (usize|u8|u16)'
# 7: kinds of bytes that pick a test, pointers to functions, values of open kinds.
switches='Class::|\bfn\(|\bdyn '

# 5: clauses that stand word for word in three contracts or more.
facts() {
    git grep -hE '^\s*(requires|ensures)' "$commit" -- 'crates/*/src/*.rt' |
        sed -E 's/^\s*(requires|ensures) [a-z_]* ?\{/\1 {/' | sort | uniq -c | sort -rn | awk '$1 > 2'
}

# 8: the answers of each crate's proofs.
answers() {
    git ls-tree -r --name-only "$commit" | grep -E '^crates/.*/Answers\.antt$' | while read -r file; do
        git show "$commit:$file" | grep -cE ':\s+goal\.' | sed "s|^|$(cut -d/ -f2 <<<"$file") |"
    done | awk '{ sum[$1] += $2 } END { for (name in sum) print name, sum[name] }' | sort
}

show() {
    case $1 in
        1) lines "$kinds" ;;
        3) lines "$loops" ;;
        4) lines "$handmade" ;;
        5) facts ;;
        6) lines "$counts" ;;
        7) lines "$switches" ;;
        8) answers ;;
    esac
}

if [ -n "$point" ]; then
    show "$point"
else
    for number in 1 3 4 5 6 7; do
        echo "point $number: $(show $number | wc -l)"
    done
    echo "point 8: $(show 8 | awk '{ sum += $2 } END { print sum }') answers"
fi
