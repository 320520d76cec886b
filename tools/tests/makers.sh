# A part of tools/test-tools: what those who change mungo run, beside commands that stand for others.
# shellcheck shell=bash disable=SC2154

# tools/test, beside tools that end in several ways: counts are added, what fails is run twice, and what ends badly or isn't there is
# told.
tried=$room/tried
mkdir -p "$tried/tools" && cp tools/test "$tried/tools"
printf '#!/bin/sh\nexit 2\n' >"$tried/mungo"
printf '#!/bin/sh\necho "3 passed, 1 failed, 5 blocks not run"\nexit 1\n' >"$tried/tools/documents"
printf '#!/bin/sh\necho "2 passed, 0 failed"\n' >"$tried/tools/java-roles"
printf '#!/bin/sh\nexit 3\n' >"$tried/tools/test-page"
chmod +x "$tried/mungo" "$tried"/tools/*
said=$(env -u MUNGO "$tried/tools/test" 2>&1)
[ $? -eq 1 ] && [ "$(grep -E '^[^ :]+ (passed|skipped|FAILED)' <<<"$said")" = "3 passed, 1 failed, 5 blocks not run
3 passed, 1 failed, 5 blocks not run
test-tools skipped: there is no tools/test-tools
clients skipped: there is no tools/clients
2 passed, 0 failed
java-wires skipped: there is no tools/java-wires
test-page FAILED: it ended with 3
5 passed, 2 failed" ]
count "test: counts" $?
printf '#!/bin/sh\n[ -e once ] && { echo "2 passed, 0 failed"; exit 0; }\ntouch once\necho "1 passed, 1 failed"\nexit 1\n' >"$tried/tools/documents"
said=$(env -u MUNGO "$tried/tools/test" documents 2>&1)
[ $? -eq 0 ] && [ "$(tail -n 1 <<<"$said")" = "2 passed, 0 failed" ] && grep -qx 'documents is run a second time' <<<"$said"
count "test: what fails is run a second time, which decides" $?
env -u MUNGO "$tried/tools/test" java-roles >/dev/null
count "test: one that passes" $?
! env -u MUNGO "$tried/tools/test" java-wires >/dev/null
count "test: nothing tried" $?
printf '#!/bin/sh\nexit 70\n' >"$tried/mungo"
! env -u MUNGO "$tried/tools/test" java-roles >/dev/null
count "test: no program" $?

# tools/prove-change, with a command rattle that makes a library of what a source says: a kind, an entry and a text a line.
if command -v python3 >/dev/null; then
    proved=$room/proved
    mkdir -p "$proved"/{kit/bin,here/tools,here/crates/{low,high,top}/src} && cp tools/prove-change "$proved/here/tools"
    cat >"$proved/kit/bin/rattle" <<'TEXT'
#!/usr/bin/env python3
import hashlib, json, os, sys
words = sys.argv[1:]
name, to = words[words.index("--crate-name") + 1], words[words.index("-o") + 1]
print("over", *[it for it in words if it.startswith("low=")])
entries = [line.split() for line in open("src/lib.rt")]
if ["Wrong"] in entries:
    sys.exit("logic=not-proved")
os.makedirs(f"{to}/toolchain")
os.makedirs(f"{to}/lang/antt")
with open(f"{to}/toolchain/made.json", "w") as rows, open(f"{to}/lang/antt/made.json", "w") as texts:
    for kind, entry, text in entries:
        if kind == "File":
            os.makedirs(os.path.dirname(f"{to}/{entry}"), exist_ok=True)
            open(f"{to}/{entry}", "w").write(text)
            continue
        said = json.dumps({kind: text})
        rows.write(json.dumps([entry, texts.tell(), len(said), hashlib.sha256(said.encode()).hexdigest()]) + "\n")
        texts.write(said)
print(f"crate {name}: modules loaded=2 checked=1\nlogic=proved functions=1")
TEXT
    chmod +x "$proved/kit/bin/rattle"
    printf 'low:\nhigh: low\ntop: low high\n' >"$proved/here/crates.txt"
    for name in low high top; do
        cat >"$proved/here/crates/$name/src/lib.rt" <<'TEXT'
StandsFor facade/specs/f f
Contract specs/f one
Contract specs/own one
Lts proofs/f/Lts one
StandsFor facade/proofs/Shown g
File lang/antt/proofs/Shown.antt one
File lang/antt/proofs/Own.antt one
TEXT
    done
    cp -r "$proved/here" "$proved/gate"
    for name in low high top; do
        (cd "$proved/gate/crates/$name" && "$proved/kit/bin/rattle" --crate-name $name -o "out/rlib/$name.rlib" >/dev/null)
    done
    # Puts TEXT in the place of a line of the lowest crate's source, and wants this status, and these lines but for seconds.
    proves() {
        local name=$1 status=$2 got
        shift 2
        cat >"$room/wanted"
        PATH=$proved/kit/bin:$PATH timeout 60 "$proved/here/tools/prove-change" --gate "$proved/gate" "$@" >"$room/said" 2>&1
        got=$?
        sed 's/ in [0-9]* s,/,/; /^This is a help/d; /^    /d; s/ (all .*//' "$room/said" >"$room/got"
        [ $got -eq "$status" ] && diff "$room/wanted" "$room/got"
        count "prove-change: $name (status $got)" $?
    }
    source=$proved/here/crates/low/src/lib.rt
    proves "nothing" 0 <<'TEXT'
changed: nothing
nothing above needs to be proved
TEXT
    sed -i 's/Lts one/Lts two/; s/own one/own two/; s/Own.antt one/Own.antt two/' "$source"
    proves "a body, a clause and a lemma of its own" 0 <<'TEXT'
changed: low
low: proved, 1 of 3 modules anew
low: its library says what the gate's says, but for bodies
nothing above needs to be proved
TEXT
    sed -i 's/f one/f two/' "$source"
    proves "a clause" 3 <<'TEXT'
changed: low
low: proved, 1 of 3 modules anew
low: its library says something else in 1 places: specs/f
high: stands on low
high: proved, 1 of 3 modules anew
high: its library says what the gate's says, but for bodies
left: top name what changed, and 0 others stand on it: --up all proves them too
TEXT
    proves "a clause, all above" 0 --up all <<'TEXT'
changed: low
low: proved, 1 of 3 modules anew
low: its library says something else in 1 places: specs/f
high: stands on low
high: proved, 1 of 3 modules anew
high: its library says what the gate's says, but for bodies
top: stands on low
top: proved, 1 of 3 modules anew
top: its library says what the gate's says, but for bodies
TEXT
    [ "$(cat "$proved/here/.build/prove-change/top.log" | head -n 1)" = "over low=$proved/here/.build/prove-change/made/low/low.rlib" ]
    count "prove-change: over the new library" $?
    sed -i 's/f two/f one/; s/Shown.antt one/Shown.antt two/' "$source"
    proves "a lemma, none above" 3 --up 0 <<'TEXT'
changed: low
low: proved, 1 of 3 modules anew
low: its library says something else in 1 places: lang/antt/proofs/Shown.antt
left: high top name what changed, and 0 others stand on it: --up all proves them too
TEXT
    echo Wrong >>"$source"
    proves "a wrong body" 1 <<'TEXT'
changed: low
low: NOT PROVED
TEXT
    # A library that the gate should have isn't taken for an empty one; a crate that the gate hasn't is new.
    sed -i '/^Wrong$/d; s/Shown.antt two/Shown.antt one/' "$source"
    mv "$proved/gate/crates/low/out" "$proved/gate/crates/low/away"
    proves "a library that the gate lacks" 2 <<TEXT
changed: low
prove-change: the gate has no library $proved/gate/crates/low/out/rlib/low.rlib: \`rt ci\` there makes it, or --gate names another checkout
TEXT
    mv "$proved/gate/crates/low/away" "$proved/gate/crates/low/out"
    cp -r "$proved/here/crates/high" "$proved/here/crates/added" && echo 'added: low' >>"$proved/here/crates.txt"
    proves "a crate that the gate hasn't" 0 added <<'TEXT'
changed: added
added: proved, 1 of 3 modules anew
added: its library says something else in 4 places: facade/proofs/Shown, facade/specs/f, lang/antt/proofs/Shown.antt, specs/f
TEXT
fi

# tools/documents holds the diagram of the crates to crates.txt.
mkdir -p "$room/drawn/tools" "$room/drawn/docs" && cp tools/documents "$room/drawn/tools"
printf 'low:\nside: low\nhigh: low side std\nlost: low\ntop staticlib: high\n' >"$room/drawn/crates.txt"
printf '# A\n\n## The crates\n\n    top          the top\n    high  side   two\n      |\n    low          the lowest\n\n| a |\n\n    lost\n' >"$room/drawn/docs/ARCHITECTURE.md"
gives "documents: a crate that the diagram lacks" 1 "$room/drawn/tools/documents" /bin/true docs/ARCHITECTURE.md <<'TEXT'
docs/ARCHITECTURE.md: 0 passed, not run: line 5 (indented) line 12 (indented)
docs/ARCHITECTURE.md: in the diagram lost stands nowhere
4 passed, 1 failed, 2 blocks not run
TEXT
printf '# A\n\n## The crates\n\n    low   lost\n    top   lost\n    side  high  two\n' >"$room/drawn/docs/ARCHITECTURE.md"
gives "documents: crates that stand wrong in the diagram" 1 "$room/drawn/tools/documents" /bin/true docs/ARCHITECTURE.md <<'TEXT'
docs/ARCHITECTURE.md: 0 passed, not run: line 5 (indented)
docs/ARCHITECTURE.md: in the diagram high stands below low, which it uses
docs/ARCHITECTURE.md: in the diagram lost stands below low, which it uses
docs/ARCHITECTURE.md: in the diagram lost stands twice
docs/ARCHITECTURE.md: in the diagram side stands below low, which it uses
2 passed, 4 failed, 1 blocks not run
TEXT

# tools/reading-list and tools/stale-names, in a repository of three crates and a page.
if command -v python3 >/dev/null; then
    listed=$room/listed
    mkdir -p "$listed"/{tools,docs,crates/{mg_top,high,low}/specs} && cp tools/reading-list tools/stale-names "$listed/tools"
    cat >"$listed/crates/mg_top/specs/Promises.antt" <<'TEXT'
use Rattle.std.specs.Prelude.{ℕ, codes}
use Rattle.high.specs.High.{Run,
  passed_on as given}
use Rattle.low.specs.Low as low

-- not_this is named in a comment alone
abbrev pub not_this : ℕ
not_this = 1

pub record Promises (n : ℕ) : Type 0 where
  pub run : Run (given n)
  pub small : low.small n
  pub text : codes "unused"
TEXT
    cat >"$listed/crates/high/specs/High.antt" <<'TEXT'
pub use Rattle.low.specs.Low.{passed_on}
use Rattle.low.specs.Low.{Made}

abbrev pub unused : ℕ → ℕ
unused Made = Made

pub data Run : ℕ → Type 0 where
  made : (unused : ℕ) → Made unused → Run unused
TEXT
    cat >"$listed/crates/low/specs/Low.antt" <<'TEXT'
module _ (of : Shape) where
  abbrev pub small : ℕ → Type 0
  small n = even n

mutual
  pub data Shape : Type 0 where
    Made : ℕ → Shape
  even : ℕ → Type 0
  even zero = ⊤
  even (suc n) = odd n

abbrev pub passed_on : ℕ → ℕ
passed_on unseen = unseen

abbrev pub unseen : ℕ
unseen = 0
TEXT
    gives "reading-list" 0 "$listed/tools/reading-list" <<'TEXT'
low/specs/Low.antt 4 10 Shape even passed_on small
high/specs/High.antt 1 2 Run
mg_top/specs/Promises.antt 1 4 Promises
TEXT
    cat >"$listed/docs/P.md" <<'TEXT'
A path `low/specs/Low.antt`, a module `specs/High`, a folder `crates/low/`, and none: `low/specs/High.antt`, `crates/NAME/out`.
Names: `Promises`, `high::Run`, `Shape.Made`, `low`, and two of nothing: `Promised`, `high::Running_on`.

```
`Blocks` aren't looked at.
```
TEXT
    gives "stale-names" 1 "$listed/tools/stale-names" docs/P.md <<'TEXT'
docs/P.md:1: low/specs/High.antt is nothing that is there
docs/P.md:2: Promised is nothing that is there
docs/P.md:2: high::Running_on is nothing that is there
10 names, 3 stale
TEXT
fi
