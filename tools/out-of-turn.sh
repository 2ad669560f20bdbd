#!/usr/bin/env bash
# Programs that go out of turn must not compile. A must-fail edit cannot say so: it has to reach the prover, and these end
# before. Each program stands in a repository of its own in a temporary folder, above copies of the crates, and is built by
# `rt try`, which proves nothing, so that each takes some seconds.
#   - every adding call of a description is unknown to a sealed sort;
#   - a description that was sealed is gone: it was moved;
#   - nobody outside makes a sort, or reaches into one;
#   - the same calls in turn compile.
set -euo pipefail
cd "$(dirname "$0")/.."

work=$(mktemp -d)
trap 'rm -rf "$work"' EXIT
turn=$work/crates/turn
mkdir -p "$turn/src"

# The crates that `sorts` stands on, each after those that it uses, and `sorts` itself.
crates=
reach() {
    local used
    grep -q "^$1:" crates.txt || return 0 # one of the kit's
    for used in $(sed -n "s/^$1://p" crates.txt); do reach "$used"; done
    case " $crates " in *" $1 "*) ;; *) crates="$crates $1" ;; esac
}
reach sorts
for crate in $crates; do
    mkdir "$work/crates/$crate"
    for part in src specs proofs; do
        [ ! -d "crates/$crate/$part" ] || cp -R "crates/$crate/$part" "$work/crates/$crate"
    done
    grep "^$crate:" crates.txt >>"$work/crates.txt"
done
echo "turn:$crates" >>"$work/crates.txt"

fail() {
    echo "out of turn: $1" >&2
    sed 's/^/    /' "$turn/src/main.rt" "$work/errors" >&2
    exit 1
}

# lower LINES...: a function with these lines, compiled; the errors are in $work/errors
lower() {
    {
        printf 'use %s;\n' conditions::Written sorts::Description sorts::NewColumn sorts::Sort std::alloc::Global
        printf '%s\n' '' "fn turn(heap: Global, title: NewColumn<'_>, condition: Written) {"
        printf '    %s\n' 'let mut table = Description::new(heap);' 'let left: [&[u8]; 1] = [b"title"];' 'let right: [&[u8]; 1] = [b"bank"];' "$@"
        printf '%s\n' '}' '' 'fn main() {}'
    } >"$turn/src/main.rt"
    (cd "$turn" && rt try </dev/null) >"$work/errors" 2>&1
}

compiles() { # NAME LINES...
    local name=$1
    shift
    lower "$@" || fail "$name: a program that keeps its turn does not compile"
}

refused() { # NAME ERROR LINES...: it does not compile, for that error and no other
    local name=$1 error=$2
    shift 2
    if lower "$@"; then fail "$name: a program that goes out of turn compiles"; fi
    grep -qF "error[$error" "$work/errors" || fail "$name: expected error[$error"
    if grep -F 'error[' "$work/errors" | grep -qvF "error[$error"; then fail "$name: expected error[$error and no other"; fi
    tried=$((tried + 1))
}

tried=0
arguments() {
    case $1 in
    add_column) echo '(heap, title)' ;;
    add_dependency) echo '(heap, &left, &right)' ;;
    add_condition) echo '(heap, condition)' ;;
    *) echo '()' ;;
    esac
}

compiles 'in turn' \
    'let _ = table.add_column(heap, title);' 'let _ = table.add_dependency(heap, &left, &right);' \
    'let _ = table.add_condition(heap, condition);' 'let sort = table.seal();' 'let _ = sort.columns();'

calls=$(grep -rhoE 'pub fn add_[a-z_]+' crates/sorts/src | sed 's/pub fn //' | sort -u)
for call in add_column add_dependency add_condition; do
    case " $(echo $calls) " in *" $call "*) ;; *) echo "out of turn: crate sorts has no $call" >&2; exit 1 ;; esac
done
for call in $calls; do
    # The description has the call, whatever its arguments are.
    lower "let _ = table.$call$(arguments "$call");" || true
    if grep -qF 'error[unknown-method]' "$work/errors"; then fail "$call: a description does not know the call"; fi
    refused "$call after sealing" "unknown-method]: no method named \`$call\` found for type \`Sort\`" \
        'let mut sort = table.seal();' "let _ = sort.$call$(arguments "$call");"
done
refused 'a description that was sealed' 'borrow-e0382]: borrow of moved value: `table`' \
    'let _sort = table.seal();' 'let _ = table.add_column(heap, title);'
refused 'a description sealed twice' 'borrow-e0382]: use of moved value: `table`' \
    'let _sort = table.seal();' 'let _other = table.seal();'
refused 'a sort that was never described' 'private-field]' \
    'let _sort = Sort { description: Description::new(heap) };'
refused 'a column pushed into a sort' 'private-field]' \
    'let mut sort = table.seal();' 'sort.description.columns.clear();'

echo "out of turn: $tried programs refused, each for its reason"
