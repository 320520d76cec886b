# A part of tools/test-tools: how tools/try-body makes stubs of functions, and what tools/dragged reads in a log.
# shellcheck shell=bash disable=SC2154
if command -v python3 >/dev/null; then
    mkdir -p "$room/bodies"
    cat >"$room/bodies/lib.rt" <<'TEXT'
/// A set.
pub struct Set { items: u32 }

impl Set {
    #[inline(always)]
    #[cycle(sets)]
    pub fn grow(&mut self, by: u32) -> char
        // { no brace of a body
        requires { (n : N) × IfOk { by } }
    {
        if by > 1 { return '{'; }
        "}\"".first()
    }
}

impl Drop for Set {
    fn drop(self) {}
}

fn each(f: impl Fn(u32) -> u32) -> u32 {
    f(1)
}

const MOST: u32 = 2;

fn last() -> u32 {
    MOST
}
TEXT
    cat >"$room/bodies/wanted" <<'TEXT'
Set::grow lib.rt sets
SetDrop::drop None
last None
/// A set.
pub struct Set { items: u32 }

impl Set {
    #[inline(always)]
    pub fn grow(&mut self, by: u32) -> char
        // { no brace of a body
        requires { (n : N) × IfOk { by } }
    {
    unreachable!()
}
}

impl Drop for Set {
    fn drop(self) {}
}

fn each(f: impl Fn(u32) -> u32) -> u32 {
    f(1)
}

const MOST: u32 = 2;

fn last() -> u32 {
    MOST
}
last last
TEXT
    LC_ALL=C.UTF-8 python3 - "$top/tools/try-body" "$room/bodies/lib.rt" >"$room/bodies/got" <<'TEXT'
import importlib.machinery, importlib.util, sys
sys.dont_write_bytecode = True
loader = importlib.machinery.SourceFileLoader("try_body", sys.argv[1])
tool = importlib.util.module_from_spec(importlib.util.spec_from_loader("try_body", loader))
loader.exec_module(tool)
text = open(sys.argv[2], encoding="utf-8").read()
found = tool.functions_of({"lib.rt": text})["lib.rt"]
for one in found:
    print(one.path, one.cycle)
print(tool.stubbed(text, [one for one in found if one.path == "Set::grow"]), end="")
print(*(path for at in ("MOST\n}", "MOST: ") for path in tool.paths_of({"lib.rt": found}, "lib.rt", text, text.index(at))))
TEXT
    diff "$room/bodies/wanted" "$room/bodies/got"
    count "try-body: stubs" $?

    printf '%s\n' '== mg_sets' 'statements indexmap: modules loaded=3' '== use_flow' 'statements indexmap: modules loaded=9' >"$room/log"
    [ "$(tools/dragged "$room/log")" = 'mg_sets 3
1 of 2 crates drag indexmap' ]
    count "dragged: one that names it, one that doesn't" $?
fi
