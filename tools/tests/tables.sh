# A part of tools/test-tools: what an editor is told of a fault is what tools/explain says, word for word, and each fault has a
# repair of one short line.
# shellcheck shell=bash disable=SC2154

# The rows KIND TEXT of a table of the language server, by kind: its file has an arm "KIND" => Some("TEXT") a row.
rows_of() {
    awk 'match($0, /^ *"[A-Za-z]+" => Some\(/) {
        kind = substr($0, 1, RLENGTH); gsub(/^ *"|".*/, "", kind); $0 = substr($0, RLENGTH + 1)
    }
    kind != "" && match($0, /"([^"\\]|\\.)*"/) { print kind, substr($0, RSTART + 1, RLENGTH - 2); kind = "" }' "$1" | sort
}
# The same of tools/explain, which writes %1 for what is named and %2 for the state; without the faults that `check` doesn't tell.
elsewhere='NotMergeable|Unprojected|Unplayed|NoProtocol|OtherProtocol|OwnSession|MadeElsewhere|NotMade'
elsewhere="$elsewhere|NotAccepted|CodeTooLong|TooManyLocals|PoolFull|TextTooLong|BadLine"
sed -n 's/^    say\["\([A-Za-z]*\)"\] = "\(.*\)"$/\1 \2/p' tools/explain.awk | sed 's/%1/@/g; s/%2/#/g' | grep -vE "^($elsewhere) " |
    sort >"$room/explained"
sentences=crates/lsp_sentences/src
rows_of $sentences/table.rt >"$room/told"
[ -s "$room/told" ] && diff "$room/explained" "$room/told"
count "tables: an editor is told the sentences of explain" $?
rows_of $sentences/repairs.rt >"$room/repairs"
diff <(cut -d ' ' -f 1 "$room/told") <(cut -d ' ' -f 1 "$room/repairs")
count "tables: each fault has a repair" $?
awk '{ text = substr($0, length($1) + 2) } length(text) >= 120 || text !~ /^[a-z]/ || text ~ /\.$/ { print; bad = 1 } END { exit bad }' "$room/repairs"
count "tables: a repair is one short line" $?
# A word that differs is seen.
sed 's/a role does not send to itself/a role never sends to itself/' $sentences/table.rt >"$room/other.rt"
! diff "$room/explained" <(rows_of "$room/other.rt") >"$room/got"
count "tables: another sentence is seen" $?
