#!/usr/bin/env bash
# Shows that three mistakes in the use of the server do not compile. Each is put into a test of crates/server_tests/src/uses.rt, in a copy of the
# sources, and the compiler must name it and nothing else. Without the mistakes these tests compile, are proved and run: `rt ci` does that.
# `rt try` refuses here what `rt check` would, before any proof, so that no library has to be built first.
set -euo pipefail
cd "$(dirname "$0")/.."

copy=$(mktemp -d)
trap 'rm -rf "$copy"' EXIT
tar -c --exclude=out crates crates.txt | tar -x -C "$copy"
file=crates/server_tests/src/uses.rt
status=0

# mistake WHAT TEST RIGHT WRONG ERROR
# In the test the text RIGHT, which it has once, becomes WRONG. ERROR is a pattern that the only error, or the first of one line, must match.
mistake() {
    local what=$1 error=$5
    if ! swapped "$2" "$3" "$4" <"$file" >"$copy/$file"; then
        echo "$what: NOT TRIED: the test $2 has not once: $3"
        status=1
        return
    fi
    local said first places
    said=$(cd "$copy/crates/server_tests" && rt try --test 2>&1 </dev/null) || true
    first=$(grep -m1 ': error' <<<"$said") || true
    places=$(grep ': error' <<<"$said" | cut -d: -f1,2 | sort -u | wc -l) || true
    if [[ $places == 1 && $first =~ ^src/uses\.rt:.*$error ]]; then
        echo "$what: refused, as it must be: ${first%%: note: *}"
    else
        echo "$what: NOT REFUSED for that; \`rt try\` said:"
        head -n 20 <<<"$said"
        status=1
    fi
}

# swapped TEST RIGHT WRONG: the text on standard input with WRONG for RIGHT in that function; fails unless RIGHT is there once.
swapped() {
    awk -v head="fn $1(" -v right="$2" -v wrong="$3" '
        index($0, head) == 1 { inside = 1 }
        /^}/ { inside = 0 }
        inside && (at = index($0, right)) {
            $0 = substr($0, 1, at - 1) wrong substr($0, at + length(right))
            found++
        }
        { print }
        END { exit found != 1 }'
}

mistake 'undo on a receipt of analysis' redo_before_undo \
    'let (_, receipt) = server.redo(receipt)?;' '' \
    'expected `RedoReceipt`, found `AnalysisReceipt`'
mistake 'a receipt made by hand' the_receipt_of_the_pass \
    'server.analysis()?;' '((1, 0, 0), server::AnalysisReceipt { found: (1, 0, 0) });' \
    'field `found` of struct `AnalysisReceipt` is private'
mistake 'a second commit on one handle' a_job_for_each_commit \
    'server.commit(second)' 'server.commit(first)' \
    'use of moved value: `first`'
exit "$status"
