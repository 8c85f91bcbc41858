#!/bin/sh
# Lists the places of older forms in src/, a heading for each kind that docs/DESIGN-PASS.md tells of.
# Usage: tools/forms.sh [FOLDER OF CRATES]
cd "${1:-$(dirname "$0")/../crates}" || exit 1

# Lines of the sources that fit a pattern, with their count.
show() {
    found=$(grep -rnE "$2" --include='*.rt' */src)
    if [ -n "$found" ]; then count=$(printf '%s\n' "$found" | wc -l); else count=0; fi
    printf '\n%s: %s\n%s\n' "$1" "$count" "$found"
}

show 'enums: kinds by their numbers' '\.code\(\)|\b(ROWS|SHEET)_(LITERAL|CONSTANT|COMMAND|ASK|SENT|IS_FALSE|EQUAL)\b.*(=|\))|/ NUMBER_LIMIT'
show 'enums: a fault as Option, a flag or an own enum like Option or Result' 'Option<HostFault>|enum (Made|Pending|Expected)\b|-> \(Result<'
show 'enums: numbers of refusals' '^const (USED|TOO_LONG|WORKING_WORDS|LABELS|WORD_DUE|FORMAT|DEPTH|EXPRESSION|JUMP|WORDS_LEFT|NO_SUCH_PLACE|NO_ALTERNATE|HOST_REFUSAL)\b'
show 'enums: arms that ? or a method of Option or Result says' '(None => None|None => Err\(.*\)|Err\(_\) => Err\(.*\)|None => false|Some\(fault\) => (Err|Some)\(fault\)),?$'
printf '\ntwins: names of functions that stand more than once: %s\n' "$(grep -rhoE 'fn [a-z_0-9]+' --include='*.rt' */src | sort | uniq -d | wc -l)"
grep -rhoE 'fn [a-z_0-9]+' --include='*.rt' */src | sort | uniq -c | awk '$1 > 1 { print $1, $3 }'
show 'twins: constants that stand more than once' 'const (NUMBER_LIMIT|WORKING_SHARE|MARK|OPERANDS|OPERAND_LIMIT)\b'
show 'loops: loops that count or step by hand' 'for [a-z_0-9]+ in \(?[0-9]+(u32|usize)?\.\.(\w|\.)*(len\(\)|[0-9](usize|u32)?|length|count)[ )]|while |\b\w+ (\+=|-=) 1;|= \w+\.(saturating|wrapping)_add\(1\)'
show 'conversions: equality, conversion and printing by hand' 'impl PartialEq|fn (equals|code|of|read|write|decode|refusal|shown|shown_text|text|name|layer_name|truth_name|host_reason|call_reason|look_up|read_pending|read_value)\b'
show 'structs: clauses on what a stack is lent, its room, and depths' 'ensures (lenders?|rooms?) |requires \{? ?(room|spot|at|rooms|sound|labels|iterations)?'
show 'structs: parameters that travel together' '\(?(rows: &.*entries: &|rt: &HostRuntime, job: &Job|heap: Global, job: &Job|frames: &mut Stack<Frame>)'
show 'containers: lengths beside buffers, parallel lists, lists searched by hand' 'len: usize|_names: Vec|entries: Vec|rows: Vec|names: Vec|for (name|\(name, found\)|\(i, element\)) in|(first|second|third|fourth): Part,$'
show 'steps: switches on a step' 'enum (Item|Operand|Shape)\b|static [A-Z_]+: \[Item|static [A-Z_]+: \[\(&str'
show 'proofs: functions that only carry a proof' 'fn keep_'
printf '\nproofs: answers: %s in %s files\n' "$(cat */proofs/*/Answers.antt */proofs/*/*/Answers.antt */proofs/*/*/*/Answers.antt 2>/dev/null | grep -cE '^(pub )?[a-z_][A-Za-z0-9_-]* (g )?c .*=|^(pub )?[a-z_][A-Za-z0-9_-]* (g )?c =')" "$(find . -path '*/proofs/*' -name Answers.antt -not -path '*/out/*' | wc -l)"
