#!/bin/bash
# Places in src/ of the points of docs/DESIGN-PASS.md, counted by grep: at the top, `tools/places.sh` prints a line for each search and a sum for each point,
# `tools/places.sh -l` also the places. A name in a search is that of a function or type when the pass began; a search that ends in no name finds the form itself.
cd "$(dirname "$0")/.." || exit 1
list=$1 point= sum=0
S=$(ls crates/*/src/*.rt)
section() { [ -z "$point" ] || echo "== $point: $sum"; point=$1 sum=0; }
find_() {
    local what=$1 found n
    shift
    found=$(grep -nHE "$@" $S | grep -vE ':[0-9]+:\s*//')
    n=$(printf '%s' "$found" | grep -c .)
    sum=$((sum + n))
    printf '%5d  %s\n' "$n" "$what"
    [ "$list" != -l ] || [ "$n" = 0 ] || printf '%s\n' "$found" | sed 's/^/         /'
}

section 1
find_ 'own enums of the shape of Option or Result' '^(pub(\(crate\))? )?enum (Step|Displacement|Operands|Decoded|Found|Answer|Added|Unwrapped)\b'
find_ 'structs with a flag, a number or an answer beside a value' '^(pub(\(crate\))? )?struct (UsedBlocks?|Line|Looked|Stepped|Random|Outcome|Identified|Slot|Tested|Effect)\b'
find_ 'functions that answer with the number of a refusal' 'fn [a-z_]*(refusal|refused|unidentified|not_canonical)\(.*-> (u8|u32|Tested|Looked|Outcome|Identified|Effect)'
find_ 'refusals made of a literal number' '(Refused|refused|unidentified)\(([a-z]+, )?[0-9]+\)|^\s+return [1-9][0-9]*;'
find_ 'a number tested against 0 in place of ?' 'if (number|record|n|string) != 0 \{'
find_ 'cases of the own answers taken apart or made' '\b(Answer|Added|Found|Unwrapped|Decoded|Step|Operands|Displacement)::[A-Z]'
find_ 'kinds of calls and examples as numbers' 'kind: u8|match a\[[01]\]|fn (kind_for|handle_size)\('

section 2
find_ 'functions that differ by a size of bytes' 'fn (bytes_16|bytes_32|put_16|put_32|zero_16|zero_32|eight_blocks|put_eight_blocks|random_of|quad_at|put_quad|word_at|put_word|byte[0-3]|pair|joined|join|used_blocks?)\('
find_ 'functions by key size' 'KeySize::Aes128 =>'
find_ 'functions by direction' 'Direction::Encrypt =>'
find_ 'ciphers, rounds and block loops that differ by a table' 'fn (table_cipher|cipher_one|table_inv_cipher|inv_cipher_by|encrypt_blocks_with|decrypt_blocks_by|mask_blocks|mask_groups|sub_shift_mix|inv_shift_sub_mix|inv_mix_by|table_round|tables_round|table_inv_round|inv_round_by)\('
find_ 'the same function in two places' 'fn (entry|xtime|byte_at|with|key_size|size_of|print|print_word|add_round_key|xor_block|zero_key|zero_processor|absent)\('

section 3
find_ 'while' '^\s*while '
find_ 'for over a range' '^\s*for [a-z_]+ in .*\.\.'
find_ 'loop' '\bloop \{'

section 4
find_ 'equality by hand' 'fn same\('
find_ 'a field copied into a local of its name' '^\s+let (mut )?([a-z_0-9]+) = ([a-z_0-9]+)\.\2;'
find_ 'conversion by hand' 'fn (from_bytes|to_bytes|key_from_bytes|key_to_bytes|handle_to_bytes|handle_from_bytes|key_bytes|size_of|direction_of|key_size|kind_for|type_of|wide|place|value_if|one_if|joined|join|pack|counter_of|block_of|from_block|to_block|first_half|last_half|code|bytes|four|word_32)\('
find_ 'printing by hand' 'fn print[a-z_0-9]*\('

section 5
find_ 'the length of what is lent asked' 'requires.*length [a-z]+\.(now|old) ≡'
find_ 'the rule of a table asked' 'requires.*(SboxTable|MixedTable|MixTable|Products|ByteTables|Turned|InvMixed)'
find_ 'tables and schedule as parameters' '^\s+(mixed|tables|low|high|w): &(mut )?\[u|fn [a-z_]+\(.*(mixed|tables|low|high|w): &(mut )?\[u'
find_ 'count and features as parameters' '^\s+features: u8,|fn [a-z_]+\(.*count: u8'

section 6
find_ 'a place or a length beside what it is of' '\b(at|n|half|digits): usize'
find_ 'a record of fixed size as an array' '\[u8; (960|65540|196608)\]'

section 7
find_ 'a switch on which step to run' '^\s+match (a\[0\]|what|direction)\b'

section 8
for f in Answers Invariants Proof; do
    n=$(find crates -path '*/out' -prune -o -name $f.antt -print | wc -l)
    printf '%5d  files %s.antt\n' "$n" $f
    sum=$((sum + n))
done
printf '%5d  lines of proofs/\n' "$(find crates -path '*/out' -prune -o -path '*/proofs/*' -name '*.antt' -print0 | xargs -0 cat | wc -l)"
section end
