#!/bin/sh
# Counts the places in crates/*/src that docs/DESIGN-PASS.md speaks of: `tools/design_places.sh`, at the top of a checkout.
set -eu

count() { # point, what, extended regular expression
    printf '%s  %4d  %s\n' "$1" "$(grep -rhE "$3" crates/*/src | grep -cvE '^\s*//' || true)" "$2"
}

count 1a 'own enums'                                    '^(pub )?enum '
count 1b 'a variant taken by let-else, or given back'   'let [A-Z]\w+::\w+(\(.*\))? = .* else'
count 1c 'a refusal made or taken in an own variant'    '\w+::(Against|Refused|Fault|Stopped)\('
count 1d 'a refusal by its number'                      'need\(.*, [123][0-9]\)|(Against|Refused|Fault|Stopped)\([123][0-9]\b|answer: 1[0-9],'
count 1e 'a kind of token by its number'                '\bcode\b|name_code|sign_code'
count 2a 'conversions of one kind, once for each type'  'fn (wide|index|low|product)\('
count 2b 'readers of one number, once for each test'    'fn (read_size|read_set|read_count|ruled)\('
count 2c 'a test of each value, once for each type'     'fn (sets_test|letters_test|room_test)\('
count 2d 'X+Y in the place of X'                        'let either = '
count 3a 'while and loop'                               '^\s*(while|loop)\b'
count 3b 'an index or a place counted on by one'        '\b(i|place|record|letter|read|left) (=|\+=) ((i|place|record|left) (\+|-) )?1;'
count 4  'conversions written as functions'             'fn (wide|index|low|stopped|crowded|counted|one_way|\w+_answer)\('
count 5a 'states, letters (finals, rows) as parameters' 'states: usize,$|\(states: usize, letters'
count 5b 'two sides of a list as parameters'            'rights: &'
count 5c 'the fact that they are equally long'          'length lefts\.now ≡ length rights\.now'
count 5d 'the fact that a pattern has its shape'        'states ≤ 64|rows_len'
count 5e 'two tables of a text as parameters'           'follow: &'
count 6a 'a buffer and a place in it'                   'out: &mut \[u8\], at: usize'
count 6b 'parallel arrays'                              '^const (NAMES|LENGTHS)'
count 6c 'bytes and a place in them'                    'bytes: &\[u8\], at: usize'
count 7  'steps chosen by a number'                     'code (<|==|>=|!=) [0-9]+'
printf '8   %5d  lines in proofs of functions\n' "$(cat crates/*/proofs/*/Answers.antt crates/*/proofs/*/*/Answers.antt crates/*/proofs/*/Invariants.antt crates/*/proofs/*/*/Invariants.antt | wc -l)"
