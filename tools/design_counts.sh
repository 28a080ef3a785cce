#!/bin/bash
# Counts the places of the older forms in the sources at a commit, by text: design_counts.sh COMMIT [-v]
commit=${1:-HEAD}
show() {
    name=$1
    shift
    found=$(git grep -nE "$@" "$commit" -- 'crates/*.rt' | sed "s/^$commit://")
    echo "$name: $(printf '%s' "$found" | grep -c .)"
    [ "$verbose" ] && printf '%s\n' "$found"
}
verbose=$2
show '1 arms that hand an answer on' -e 'Err\((fault|_)\) => ' -e 'None => (return|Err|None|0|\{\})' -e 'Ok\((_|\(\))\) => (\{\}|0)'
show '1 bools and numbers for kinds and refusals' -e '[a-z]: bool' -e '-> bool' -e 'const NO_[A-Z]+' -e 'fn number<.*u8' -e 'fn number\(answer.*u8' -e 'answer\(text.*-> \(usize, u8\)' -e 'fn gap_place' -e 'fn kind_of\(word.*u8'
show '2 twins' -e 'fn is_[a-z]+\(posting' -e 'impl Figure for' -e 'const (MOST_POSTINGS|MOST_MEMBERS|HIGHEST_PRICE|HOURS)\b' -e 'fn check_(prices|limits|count)\b' -e 'fn (rounded_down|remainder|floors|sizes|alone_lines|sizes_of|saft_lines|ssft_lines|long_kwh|short_kwh|volume_of|unit_price_of|small|hours_of|kwh_of)\b' -e 'fn number[<(]' -e 'fn (shift|shift_by)\('
show '3 loops over places' -e 'for [a-z_]+ in [^{]*\.\.' -e '\bwhile ' -e 'for .*\.enumerate\(\)'
show '4 conversions, words and nils by hand' -e ' as (u8|u16|u32|u64|usize|i64)\b' -e 'fn of\(code' -e 'fn plain_words' -e 'impl fmt::Display' -e 'const (NIL|BLANK)\b' -e 'fn write_row'
show '5 facts that travel' -e 'requires (few|calm|cheap|fits|day|priced|closable|shareable)\b' -e 'requires \{ .*Bounds row' -e 'requires \{ \(?length prices.now ≡ 24'
show '6 fixed buffers and columns' -e '^ +(pub )?[a-z_]+: (pub )?(usize|\[[a-z0-9A-Z]+; [A-Z0-9_]+\]),$'
show '7 switches on a step' -e 'if up \{' -e 'up: bool' -e 'posting, (true|false)\)'
echo "8 answers in proofs/: $(git ls-tree -r --name-only "$commit" | grep -c 'crates/.*/proofs/.*/Answers.antt') files, $(git grep -h '' "$commit" -- 'crates/*Answers.antt' | wc -l) lines; all proofs/: $(git grep -h '' "$commit" -- 'crates/*/proofs/*.antt' | wc -l) lines"
