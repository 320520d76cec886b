# A part of tools/test-tools: the table of opcodes of crates/jcf_effects is that of the JVM, as far as javap tells of some classes of the JDK.
# shellcheck shell=bash disable=SC2154

opcodes=crates/jcf_effects/specs
if command -v javap >/dev/null && command -v python3 >/dev/null; then
    holds() {
        python3 "$top/tools/tests/opcodes.py" "$1" $opcodes/Words.antt java.lang.String java.util.HashMap java.math.BigInteger >"$room/got" 2>&1
    }
    holds $opcodes/Table.antt || { cat "$room/got"; false; }
    count "opcodes: lengths and words of operands are those of javap" $?
    # A row that takes a word less is seen, and one that is a byte longer.
    sed 's/(codes "lcmp") forms.Nothing (effects.Plain 4 1)/(codes "lcmp") forms.Nothing (effects.Plain 3 1)/' $opcodes/Table.antt >"$room/less.antt"
    ! cmp -s $opcodes/Table.antt "$room/less.antt" && ! holds "$room/less.antt" && grep -q ' words ' "$room/got"
    count "opcodes: a word less is seen" $?
    sed 's/(codes "bipush") forms.Byte/(codes "bipush") forms.Short/' $opcodes/Table.antt >"$room/more.antt"
    ! cmp -s $opcodes/Table.antt "$room/more.antt" && ! holds "$room/more.antt" && grep -q '^bipush takes 2 bytes$' "$room/got"
    count "opcodes: a byte more is seen" $?
else
    echo "opcodes skipped: there is no javap, or no python3"
fi
