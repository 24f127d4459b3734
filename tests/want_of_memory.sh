#!/bin/sh
# Runs the calls on whole files with each allocation refused in turn, in tests that `rt try` compiles with its checks of each
# access: a session that is fed a file in pieces, `canonical`, `rewrite` and `same_meaning`. Each has to answer what it does
# with memory enough, or refusal 90 at a statement, which a session answers again; and refusal 90 for each allocation before the
# last that it needs. Some of a session are for the place of a refusal of a header record or of a section's name, in bytes that
# pieces cut: it does without those (docs/ROBUSTNESS.md, "Refused allocations that nobody sees"), and the script says how many they are.
#
# `rt try` refuses one number alone, and compiles the tests each time. So a run has as many tests of each call as `each` says,
# which allocate nothing, one text, two texts and so on before they begin, and with one number refuses as many allocations.
# The script stops where the tests of the last twenty allocations of a run pass, which they do in the first one; it takes some
# three minutes. An argument says how many allocations to pass over at first. The tests stand in a copy of the crates, so that the
# gate has no part in them.

root=$(cd "$(dirname -- "$(readlink -f -- "$0")")/.." && pwd) || exit
if ! command -v rt > /dev/null; then
    echo 'skipped: there is no rt'
    exit 77
fi
here=$(mktemp -d) || exit
trap 'rm -rf "$here"' EXIT
before=${1:-0}
begun=$before
for_places=6
wanting=0
each=200

cp "$root/HANDLES" "$root/crates.txt" "$here" || exit
echo 'p21_memory: p21_express p21_express_outline p21_stream p21_stream_output p21_stream_kept p21_stream_io p21_schema p21_values' >> "$here/crates.txt"
(cd "$root" && tar -cf - --exclude=out crates) | tar -xf - -C "$here" || exit
mkdir -p "$here/crates/p21_memory/src" || exit
cd "$here/crates/p21_memory" || exit
cat > src/lib.rt <<'TEST'
#![tactic(auto)]

#[cfg(test)]
mod tests {
    use p21_express::read_schema;
    use p21_schema::Schema;
    use p21_stream::{At, Refusal, Session, Watched, canonical, rewrite, same_meaning};
    use p21_values::{Limits, NoMemory};
    use std::alloc::{AllocError, Global};
    use std::fmt;
    use std::test::Fail;

    const SCHEMA: &[u8] = b"SCHEMA demo; ENTITY a; r : OPTIONAL a; END_ENTITY; END_SCHEMA;";

    // Its own canonical file, of eleven statements.
    const FILE: &[u8] = b"ISO-10303-21;\nHEADER;\nFILE_DESCRIPTION((''),'2;1');\nFILE_NAME('','',(''),(''),'','','');\nFILE_SCHEMA(('DEMO'));\nENDSEC;\nDATA;\n#1=A(#2);\n#2=A($);\nENDSEC;\nEND-ISO-10303-21;\n";

    /// The schema, behind so many allocations.
    fn schema_behind(alloc: Global, texts: usize) -> Result<Schema, Fail> {
        for _ in 0..texts {
            let _text = Vec::from_slice(alloc, b"a")?;
        }
        Ok(read_schema(alloc, SCHEMA).map_err(|_| AllocError)?)
    }

    /// Want of memory, where a refusal is 90 at a statement of the file or behind these; else another fault.
    fn wanting(refusal: Refusal) -> Fail {
        let is_placed = (1..=12).any(|statement| refusal.at == At::Statement(statement));
        if refusal.number() == 90 && is_placed {
            Fail::from(NoMemory)
        } else {
            Fail::from(fmt::Error)
        }
    }

    fn holds(condition: bool) -> Result<(), Fail> {
        if condition {
            Ok(())
        } else {
            Err(Fail::from(fmt::Error))
        }
    }

    fn a_session(alloc: Global, texts: usize) -> Result<(), Fail> {
        let schema = schema_behind(alloc, texts)?;
        let mut session = Session::new(alloc, &schema, Limits::usual());
        for piece in FILE.chunks(7) {
            if let Err(refusal) = session.feed(piece) {
                holds(session.feed(b"X") == Err(refusal))?;
                holds(session.finish().err() == Some(refusal))?;
                return Err(wanting(refusal));
            }
        }
        match session.finish() {
            Ok(accepted) => holds(accepted.is_text(FILE))?,
            Err(refusal) => return Err(wanting(refusal)),
        }
        Ok(())
    }

    fn a_text(alloc: Global, texts: usize) -> Result<(), Fail> {
        let schema = schema_behind(alloc, texts)?;
        match canonical(alloc, &schema, Limits::usual(), FILE) {
            Ok(file) => holds(file.as_slice() == FILE)?,
            Err(refusal) => return Err(wanting(refusal)),
        }
        Ok(())
    }

    fn a_file_rewritten(alloc: Global, texts: usize) -> Result<(), Fail> {
        let schema = schema_behind(alloc, texts)?;
        let mut out = [0; 200];
        let mut reader = Watched::new(FILE);
        let mut writer = Watched::new(out.as_mut_slice());
        match rewrite(alloc, &schema, Limits::usual(), &mut reader, &mut writer) {
            Ok(size) => holds(size == FILE.len() as u64)?,
            Err(refusal) => {
                holds(writer.moved() == 0)?;
                return Err(wanting(refusal));
            }
        }
        Ok(())
    }

    fn two_files_compared(alloc: Global, texts: usize) -> Result<(), Fail> {
        let schema = schema_behind(alloc, texts)?;
        let mut first = Watched::new(FILE);
        let mut second = Watched::new(FILE);
        match same_meaning(alloc, &schema, Limits::usual(), &mut first, &mut second) {
            Ok(same) => holds(same)?,
            Err((_, refusal)) => return Err(wanting(refusal)),
        }
        Ok(())
    }
TEST
for call in a_session a_text a_file_rewritten two_files_compared; do
    texts=0
    while [ "$texts" -lt "$each" ]; do
        printf '\n    #[test]\n    fn %s_%s(rt: HostRuntime) -> Result<(), Fail> {\n        %s(rt.alloc(), %s)\n    }\n' \
            "$call" "$texts" "$call" "$texts"
        texts=$((texts + 1))
    done
done >> src/lib.rt
echo '}' >> src/lib.rt

# answers LAST: of each test in the log its call, the number of the allocation that was refused, and what came of it.
answers() {
    awk -v last="$1" '
        function tell() { if (call) print call ", allocation " last - texts ": " answer }
        /^test tests::/ {
            tell()
            call = texts = substr($2, 8)
            sub(/_[0-9]+$/, "", call)
            sub(/.*_/, "", texts)
            answer = $NF == "ok" ? "passes" : "a wrong answer"
        }
        /^    error: (NoMemory|AllocError)$/ { answer = $2 }
        END { tell() }' "$here/log"
}

# unseen: the answers of calls that pass, though they answer want of memory for a later allocation.
unseen() {
    awk '
        $NF == "NoMemory" && $3 + 0 > last[$1] { last[$1] = $3 + 0 }
        $NF == "passes" { passed[$0] = $1; number[$0] = $3 + 0 }
        END { for (answer in passed) if (number[answer] < last[passed[answer]]) print answer }' "$here/answers"
}

while true; do
    last=$((before + each))
    rt try --test --fail-alloc "$last" > "$here/log" 2>&1
    answers "$last" > "$here/answers"
    if [ "$(wc -l < "$here/answers")" -ne $((4 * each)) ]; then
        cat "$here/log"
        exit 1
    fi
    grep ': a wrong answer$' "$here/answers" && exit 1
    unseen >> "$here/unseen"
    grep -v '^a_session, ' "$here/unseen" && exit 1
    refused=$(grep -c ': NoMemory$' "$here/answers")
    early=$(grep -c ': AllocError$' "$here/answers")
    passed=$(grep -c ': passes$' "$here/answers")
    echo "allocations $((before + 1)) to $last: $refused calls answer refusal 90, $early end before the file, $passed pass"
    wanting=$((wanting + refused))
    behind=$(awk -v last="$last" '$3 + 0 > last - 20 && $NF == "passes"' "$here/answers" | wc -l)
    [ "$behind" -eq $((4 * 20)) ] && break
    before=$last
done
if [ "$begun" -eq 0 ] && [ "$(wc -l < "$here/unseen")" -ne "$for_places" ]; then
    cat "$here/unseen"
    echo "a session does without these allocations, and $for_places are for places" >&2
    exit 1
fi
echo "refusal 90 was answered $wanting times, and a session did without $for_places allocations, which are for places"
