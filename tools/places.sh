#!/bin/sh
# Lists places in src/ where today's forms might serve, by kind: tools/places.sh KIND prints the lines, with no KIND the counts.
# A line is a place to read, not a verdict; docs/DESIGN-PASS.md says what was found.
cd "$(dirname "$0")/.." || exit 1
src() { grep -rnE --include=*.rt -e "$1" crates/*/src; }
comments() { grep -vE '^[^:]*:[0-9]+: *//'; }
places() {
    case $1 in
    enums) src '^ *(pub |pub\(crate\) )?enum ' ;;                                       # own enums, to compare with Option and Result
    flags) src '\(.*, ?bool\)|Result<bool|-> \(.*Result<|Option<Result|Result<Option|-> bool|: bool|kind: u32' | comments ;;
    functions) src '\bfn [a-z_]+' | comments ;;                                         # to find twins
    loops) src '\bwhile |\bloop \{|for .* in [^{]*\.\.|enumerate\(\)|_add\(1\)|[a-z]+ [+-]= ' | comments ;;
    conversions) src '^impl.*(PartialEq|Eq|Ord|Display|Debug|From<.*>|FromStr|Clone|Default) for |fn (of|of_[a-z]+|decode|number|show_[a-z_]+|numeral)\b| as u(8|16|32|64|size)' | comments ;;
    requires) src 'requires' | comments ;;
    buffers) src '\[[A-Za-z0-9_:& ]+; *[0-9A-Za-z_]+\]|&(.[a-z]+ )?(mut )?\[|(free|count|last|len): ' | comments ;;
    steps) src 'match (name|kind|words|self\.tables|draft\.tables|how\.|word|question)' | comments ;;
    answers) grep -rhoE --include=Answers.antt '^(abbrev )?pub [a-z][^ ]*' crates/*/proofs ;;
    lemmas) find crates/*/proofs -name '*.antt' ! -name Answers.antt ! -name Invariants.antt -exec grep -hoE '^(abbrev |record |unfoldable )?(pub )?[a-zA-Z][^ :]* :' {} + ;;
    esac
}
if [ -n "$1" ]; then places "$1"; exit; fi
for kind in enums flags functions loops conversions requires buffers steps answers lemmas; do
    echo "$kind $(places $kind | wc -l)"
done
