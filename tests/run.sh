#!/usr/bin/env bash
# All tests; whatever fails stops the script. The last line, 'N passed, 0 failed', counts the parts of rt ci and the runs of built programs behind it, and
# is written only where rt ci's own last line said so.
set -euo pipefail
cd "$(dirname "$0")/.."
command -v rustc >/dev/null || { apt-get update -qq && apt-get install -y -qq rustc; } >/dev/null
# An objdump that reads x86-64, which programs are compiled for on every machine.
reads() { [[ "$("$1" -i 2>/dev/null)" == *elf64-x86-64* ]]; }
objdump=x86_64-linux-gnu-objdump
reads "$objdump" || ! reads objdump || objdump=objdump
reads "$objdump" || { apt-get update -qq && apt-get install -y -qq binutils-x86-64-linux-gnu; } >/dev/null
made=$(mktemp -d)
trap 'rm -rf "$made"' EXIT

# No part is missing: tests/expected.txt says how many there are.
expected() { sed -n "s/^$1: *//p" tests/expected.txt; }
have() {
    want=$(expected "$1")
    [ -n "$want" ] && [ "$2" -ge "$want" ] && return
    echo "tests/run.sh: $2 $1, but tests/expected.txt has '$want'" >&2
    exit 1
}
have crates "$(grep -c '^[a-z]' crates.txt)"
have edits "$(find crates -path '*/must-fail/*.edit' | wc -l)"
have programs "$(find crates -path '*/src/main.rt' | wc -l)"
have calls "$(grep -cvE '^(state|unreadable)( |$)' crates/second_opinion/stdout)"
have lines "$(grep -cE '^(state|unreadable)( |$)' crates/second_opinion/stdout)"
have samples "$(find samples -name '*.log' | wc -l)"

# The second program meets the printed values, and what it made for the first one's runs is what is committed.
rustc -O --edition 2021 tests/second/main.rs -o "$made/second"
"$made/second" selftest | tee "$made/selftest"
have values "$(sed -n 's/^selftest: \([0-9]*\) values met$/\1/p' "$made/selftest")"
"$made/second" cases | cmp - crates/second_opinion/stdin
"$made/second" expect <crates/second_opinion/stdin | cmp - crates/second_opinion/stdout
{ "$made/second" printed; "$made/second" ruled; } | cmp - crates/printed_values/stdout
mapfile -t words <crates/shavite3sum/args
"$made/second" sum "${words[@]}" <crates/shavite3sum/stdin | cmp - crates/shavite3sum/stdout
"$made/second" image | cmp - crates/first_stage/stdin
"$made/second" stage <crates/first_stage/stdin | cmp - crates/first_stage/stdout

# The samples are those that the second program makes, no more and no fewer, here and where the first one's run finds them.
mkdir "$made/samples"
"$made/second" samples "$made/samples"
diff -r "$made/samples" samples
mkdir "$made/logs" "$made/agrees"
cp samples/*.log "$made/logs"
diff -r "$made/logs" crates/bootchecks/data
diff <(sort crates/bootchecks/args) <(ls "$made/logs" | sort)
cp samples/agrees.registers samples/agrees.events "$made/agrees"
diff -r "$made/agrees" crates/chimbersu/data
cmp samples/agrees.log crates/chimbersu/stdout
cmp samples/smallest.log crates/bootcheck/stdin
cmp samples/smallest.txt crates/bootcheck/stdout
while read -r name; do
    "$made/second" print <"samples/$name" | cmp - "samples/${name%.log}.txt"
    echo "$name"
    cat "samples/${name%.log}.txt"
done <crates/bootchecks/args | cmp - crates/bootchecks/stdout

# The layout is looked at by rt ci itself. An edit that is bad shows nothing, so it fails here.
status=0
rt ci 2>&1 | tee "$made/ci" || status=$?
passed=$(sed -n '$s/^\([0-9]*\) passed, 0 failed$/\1/p' "$made/ci")
have passed "${passed:-0}"
[ "$status" = 0 ]
grep '^rt: ok' "$made/ci" >"$made/ok"
if grep -qE ', [0-9]+ bad' "$made/ok"; then
    echo "tests/run.sh: rt ci found must-fail edits that are bad" >&2
    exit 1
fi
runs=0
one_more() { runs=$((runs + 1)); }

# The first stage hands over what the second program does, also where the input ends at a block or a read, before it or behind it.
for size in 0 1 63 64 65 4095 4096 4097; do
    head -c "$size" crates/first_stage/stdin >"$made/image"
    "$made/second" stage <"$made/image" >"$made/form"
    bin/run first_stage <"$made/image" | cmp - "$made/form"
    one_more
done

# A digest of any length is the second program's, whole bytes of it or not, and lengths past either end are refused.
for m in 0 1 7 8 9 255 256 257 263 264 511 512 513; do
    "$made/second" sum "$m" <crates/first_stage/stdin >"$made/sum"
    bin/run shavite3sum "$m" <crates/first_stage/stdin | cmp - "$made/sum"
    one_more
done

# A log is written, or refused, as the second program does it.
mkdir "$made/parts"
"$made/second" parts "$made/parts"
top=$PWD
while read -r -a words; do
    (cd "$made/parts" && "$made/second" write "${words[@]}" >"$made/log" 2>"$made/said") || [ -s "$made/said" ]
    (cd "$made/parts" && "$top/bin/run" chimbersu write "${words[@]}" >"$made/out" 2>"$made/err")
    cmp "$made/log" "$made/out"
    cmp "$made/said" "$made/err"
    one_more
done <"$made/parts/runs"

# A tag is made, checked or refused as the second program does it.
mkdir "$made/keys"
"$made/second" keys "$made/keys"
while read -r -a words; do
    message=${words[0]}
    words=("${words[@]:1}")
    (cd "$made/keys" && "$made/second" mac "${words[@]}" <"$message" >"$made/tag" 2>"$made/said") || [ -s "$made/said" ]
    (cd "$made/keys" && "$top/bin/run" chimbersu mac "${words[@]}" <"$message" >"$made/out" 2>"$made/err")
    cmp "$made/tag" "$made/out"
    cmp "$made/said" "$made/err"
    one_more
done <"$made/keys/runs"

# No words, or others, are answered by the help or a message on standard error, and by nothing on standard output; so are salts longer than any buffer.
said() {
    want=$1
    shift
    bin/run chimbersu "$@" >"$made/out" 2>"$made/err"
    [ ! -s "$made/out" ]
    grep -q "$want" "$made/err"
    one_more
}
parts=(samples/agrees.registers samples/agrees.events)
said '^usage: chimbersu write '
said '^usage: chimbersu write ' help
said '^usage: chimbersu write ' writes "${parts[@]}"
said '^usage: chimbersu write ' write
said '^usage: chimbersu write ' write "${parts[0]}"
said '^usage: chimbersu write ' write "${parts[@]}" "${parts[1]}"
said '^usage: chimbersu write ' write "${parts[@]}" --claim
said '^usage: chimbersu write ' write "${parts[@]}" --claims --claims
said '^usage: chimbersu write ' write "${parts[@]}" --salt
said '^usage: chimbersu write ' write --salt 00 "${parts[@]}" --salt 00
said '^chimbersu: the salt is not hex digits' write "${parts[@]}" --salt 0
said '^chimbersu: the salt is not hex digits' write "${parts[@]}" --salt --claims
said '^refused 2$' write "${parts[@]}" --salt "$(head -c 130 /dev/zero | tr '\0' 0)"
said '^refused 2$' write "${parts[@]}" --salt "$(head -c 5000 /dev/zero | tr '\0' 0)"
said '^samples/none: No such file' write "${parts[0]}" samples/none
said '^samples: Is a directory' write samples "${parts[1]}"
key=$made/keys/64.key
said '^usage: chimbersu mac '
said '^usage: chimbersu mac ' mac
said '^usage: chimbersu mac ' mac "$key" 256 256
said '^usage: chimbersu mac ' mac "$key" --claims
said '^usage: chimbersu mac ' mac "$key" --checks 00
said '^usage: chimbersu mac ' mac "$key" --check
said '^usage: chimbersu mac ' mac --check 00 "$key" --check 00
said '^chimbersu: the tag length is not a decimal number' mac "$key" x
said '^chimbersu: the tag is not hex digits' mac "$key" --check 0
said '^samples/none: No such file' mac samples/none
said '^samples: Is a directory' mac samples
said '^chimbersu: standard input cannot be read' mac "$key" <samples

# An empty word is the empty salt.
bin/run chimbersu write "${parts[@]}" --salt '' --claims | cmp - samples/agrees.log
one_more

# An empty word is the empty tag, which is never right; nor is a tag longer than any buffer.
for tag in '' "$(head -c 5000 /dev/zero | tr '\0' 0)"; do
    bin/run chimbersu mac "$key" --check "$tag" <"$key" | cmp - <(echo no)
    one_more
done

# README's line writes a log and checks it.
line=$(sed -n 's/^    \(bin\/run chimbersu write .* | bin\/run bootcheck\)$/\1/p' README.md)
[ -n "$line" ]
"$made/second" print <samples/agrees.log >"$made/print"
bash -euo pipefail -c "$line" | cmp - "$made/print"
one_more

# README's tag is the second program's for what is printed, and its check says yes. The key is the one that README makes.
eval "$(sed -nE "s/.*made by \`(printf '[^']*') > desk\.key\`.*/\1/p" README.md)" >"$made/desk.key"
tag() { sed -nE "s/^    (bin\/run bootcheck .* \| bin\/run chimbersu mac) desk\.key${1-}\$/\1/p" README.md; }
"$made/second" mac "$made/desk.key" <"$made/print" >"$made/tag"
sed -nE 's/^    ([0-9a-f]{64} [0-9]+)$/\1/p' README.md | cmp - "$made/tag"
[ -n "$(tag)" ]
bash -euo pipefail -c "$(tag) $made/desk.key" | cmp - "$made/tag"
one_more
right=$(cut -d ' ' -f 1 "$made/tag")
[ -n "$(tag " 256 --check $right")" ]
bash -euo pipefail -c "$(tag " 256 --check $right") $made/desk.key 256 --check $right" | cmp - <(echo yes)
one_more

# README's sample output is the front of what is printed.
sed -nE 's/^    (accepted [0-9]+ .*|[0-9]+ [0-9]+ [0-9a-f]{64})$/\1/p' README.md >"$made/shown"
[ "$(wc -l <"$made/shown")" = 3 ]
head -n 3 "$made/print" | cmp - "$made/shown"
one_more

# README's refusal is the one that is printed.
bin/run bootcheck <samples/register.log | cmp - samples/register.txt
sed -nE 's/^    (refused [0-9]+ at [0-9]+)$/\1/p' README.md | cmp - samples/register.txt
one_more

# Each program that hashes has the form of the round that it is to have, and no other: first_stage the byte form, the programs for people the tables, and
# second_opinion both. first_stage needs little stack down to a round: a compression there has neither all its words nor the large family's in a frame.
rustc -O --edition 2021 tests/stack.rs -o "$made/stack"
has() { grep -q "^[0-9a-f]* <$1>:$" "$made/functions"; }
needs() { has "$1" || { echo "tests/run.sh: $program has no $1" >&2 && exit 1; }; }
lacks() { ! has "$1" || { echo "tests/run.sh: $program has $1" >&2 && exit 1; }; }
for main in crates/*/src/main.rt; do
    program=$(basename "${main%/src/main.rt}")
    [ "$program" = fips_round ] && continue
    echo "$program"
    "$objdump" -d --no-show-raw-insn "crates/$program/out/$program" >"$made/functions"
    case $program in
        first_stage)
            lacks expanded::by_tables
            lacks expanded::run_by_tables
            lacks expanded::run_and_block_by_tables
            "$made/stack" main words::aes_round "$(expected stack)" <"$made/functions"
            ;;
        second_opinion)
            needs expanded::by_tables
            needs compress::cipher::small
            ;;
        *)
            needs expanded::by_tables
            lacks words::aes_round
            ;;
    esac
    one_more
done
have runs "$runs"
echo "$((passed + runs)) passed, 0 failed"
