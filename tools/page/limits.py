"""What the page does with what is too large, takes long, is damaged, or would be lost; and how it is told aloud. All of it
is done as users do: by links, keys and buttons, and by what is seen."""
import base64
import json
import time
import zlib

import drive
from trial import PAGE, READY, act, add_probe, count, open_example, open_page, same

# Within how many seconds of a processor, which hardly depend on what else the machine does, a page is there, and answers; and
# within how many milliseconds a change is judged.
MEBI, FROZEN, SOON, TYPED_MS = 1 << 20, 20, 5, 200


def packed(text):
    """The part of an address that is a link of some text, packed by another program than the page's."""
    deflate = zlib.compressobj(9, zlib.DEFLATED, -15)
    return "#p=" + base64.urlsafe_b64encode(deflate.compress(text.encode()) + deflate.flush()).decode().rstrip("=")


def link(files, at=None):
    """The link of a program."""
    return packed(json.dumps({"files": files, "at": at or next(iter(files)), "words": None}))


def seen(browser, name):
    """The text of an element, as it is seen: of one that is hidden none."""
    return browser.eval(f"document.getElementById('{name}')?.innerText.trim() ?? null")


def press(browser, name):
    """Presses a button, where there is one that can be pressed."""
    return browser.eval(f"(() => {{ const it = document.getElementById('{name}'); it?.click(); return !!it; }})()")


def type_at(browser, text):
    """Types before the text of the file that is open, key by key."""
    browser.eval("document.getElementById('text').focus(), document.getElementById('text').setSelectionRange(0, 0)")
    browser.type(text)
    browser.wait(f"document.getElementById('text').value.startsWith({json.dumps(text)})")


def written(browser):
    return browser.eval("document.getElementById('text').value")


# ---- what is too large ----

def nested(depth):
    """A program with so many blocks behind `if` inside one another, and as many parentheses."""
    head = "class Main {\n    public static void main(String[] args) {\n"
    return f"{head}{'if (true) {' * depth} System.out.println({'(' * depth}1{')' * depth}); {'}' * depth}\n    }}\n}}\n"


# Links of some hundred to some thousand letters, by what their program is like, and what is told of each: that it is
# refused, by the limits in LANGUAGE.md, or that it isn't opened.
LARGE = {
    "600,000 lines": (lambda: link({"Main.java": "x\n" * 600000}), "say", "Main.java:1:1: TooLarge"),
    "524,288 lines": (lambda: link({"Main.java": "x\n" * 524288}), "say", "Main.java:1:1: Syntax"),
    "a line of 1 MiB": (lambda: link({"Main.java": "x" * MEBI}), "say", "Main.java:1:1: Syntax"),
    "1 MiB of braces": (lambda: link({"Main.java": "{" * MEBI}), "say", "Main.java:1:1: Syntax"),
    "190 statements inside one another": (lambda: link({"Main.java": nested(95)}), "say", "Accepted."),
    "open comments": (lambda: link({"Main.java": "/* " * (MEBI // 3)}), "say", "Main.java:1:1: OpenComment"),
    "a state of 10,000 calls": (
        lambda: link({"P.protocol": f"typestate P {{ S = {{ {', '.join(f'void m{it}(): end' for it in range(10000))} }} }}"}),
        "drawn", "too many to be drawn"),
    "50,000 files": (lambda: link({f"F{it}.java": "" for it in range(50000)}), "notice", "more than 500 files"),
    "64 MiB of blanks": (lambda: packed(" " * (64 * MEBI)), "notice", "more than 2 MiB"),
}


def try_large(browser):
    """A link to what is too large is opened in time, and what is wrong with it is told; the page doesn't freeze."""
    for name, (made, where, wanted) in LARGE.items():
        hash_part, began = made(), browser.spent()
        open_page(browser, hash_part)
        browser.wait(f"document.getElementById('{where}').innerText.includes({json.dumps(wanted)})")
        said = seen(browser, where) or ""
        count(f"{name} in a link: what is told", wanted in said, said[:200])
        took = browser.spent() - began
        count(f"{name} in a link: in time", took < FROZEN, f"after {took:.1f} s of a processor")


def try_parts(browser):
    """A file of 20,000 lines is shown, its lines in sight with their numbers and colours; longer lines have no colours."""
    lines = [f"// line {it}" if it % 2 else "class" for it in range(1, 20000)]
    open_page(browser, link({"Main.java": "\n".join(lines) + "\n"}))
    browser.eval("document.getElementById('text').scrollTop = 19 * 9000, document.getElementById('text').scrollTop")
    browser.wait("document.getElementById('numbers').innerText.includes('9001')")
    numbers = browser.eval("document.getElementById('numbers').innerText.split('\\n').map(Number)")
    shown = browser.eval("document.getElementById('shown').innerText.split('\\n')")
    same("the lines that are drawn", shown[:len(numbers)], [lines[it - 1] for it in numbers])
    count("how many lines are drawn", len(numbers) < 300 and 9001 in numbers and 9010 in numbers, str(numbers))
    tops = browser.eval("""(() => { const top = it => document.getElementById(it).getBoundingClientRect().top;
        return [top('shown') - top('text'), top('numbers') - top('text')] })()""")
    same("where they stand", tops, [19 * (numbers[0] - 9001)] * 2)
    open_page(browser, link({"Main.java": "class Main { /* " + "long " * 2000 + "*/ }\n"}))
    same("a long line is the text area's own", seen(browser, "shown"), "")
    browser.eval("document.getElementById('text').focus()")
    browser.call("Input.insertText", text="y\n" * 30000)
    same("a text that would be too large stays", [written(browser)[:12], "more than" in (seen(browser, "notice") or "")],
         ["class Main {", True])


# ---- what takes long ----

# A program that goes on without end, and the words of its run, whose bound is the largest that there is.
ENDLESS = {"Main.java": """class Main {
    public static void main(String[] args) {
        int i = 0;
        while (true) { i = i + 1; System.out.println(i); }
    }
}
"""}
LONG_RUN = "--main Main --steps 20000000"
# While it runs what is of an earlier run is pale. A page that it keeps from all else shows that to nobody: by the time that
# it answers again the run is over.
RUNS = "getComputedStyle(document.getElementById('view')).opacity < 1 && document.getElementById('stop')?.disabled === false"


def try_stop(browser):
    """A run of 20,000,000 steps doesn't keep the page from what the user does, and is ended by a button, and by a key."""
    open_page(browser, packed(json.dumps({"files": ENDLESS, "at": "Main.java", "words": "--main Main --steps 9"})))

    def begin():
        browser.eval(f"""(() => {{ const it = document.getElementById('words'); it.value = '{LONG_RUN}';
            setTimeout(() => it.dispatchEvent(new Event('change', {{ bubbles: true }})), 20); }})()""")

    begin()
    count("what is of an earlier run is pale while a program runs, and there is a button to stop", browser.wait(RUNS))
    began = browser.spent()
    press(browser, "stop")
    took = browser.spent() - began
    count("the page answers while a program runs", took < SOON, f"after {took:.1f} s of a processor")
    count("that it was stopped is told", browser.wait("document.getElementById('view').innerText.includes('Stopped')"))
    same("it is told aloud", seen(browser, "told"), "Stopped.")
    begin()
    count("a program runs again", browser.wait(RUNS))
    began = browser.spent()
    type_at(browser, "}")
    told = browser.wait("document.getElementById('say').innerText.includes('Main.java:1:1: Syntax')")
    took = browser.spent() - began
    count("a change is judged while a program runs", told and took < SOON, f"after {took:.1f} s of a processor")
    try_stopped_judgement(browser)


def try_stopped_judgement(browser):
    """A judgement that is stopped says nothing of the files, and is asked for again by a button."""
    open_page(browser, link({"Main.java": "class Main { }\n"}))
    # At once, since else it may have been judged before.
    browser.eval("""(() => { const it = document.getElementById('text'); it.focus(); it.setRangeText('}', 0, 0);
        it.dispatchEvent(new Event('input', { bubbles: true })); document.getElementById('stop').click(); })()""")
    same("a judgement that is stopped", (seen(browser, "say") or "").split("\n")[0], "Stopped.")
    browser.eval("document.querySelector('#say button')?.click(), 0")
    count("it is asked for again", browser.wait("document.getElementById('say').innerText.includes('Main.java:1:1: Syntax')"))


def client(count_of_lines):
    """A client of the adder of some thousand lines."""
    body = "        c.send_addIntToS(1); System.out.println(c.receive_totalIntFromS());\n" * (count_of_lines - 7)
    return ("class CMain {\n    public static void main(String[] args) {\n        CRole c = new CRole();\n" + body
            + "        c.send_byeToS();\n    }\n}\n")


# Keeps for each frame in which a verdict is seen whether the text is the one that is refused, and what is told of it. A
# verdict that was made quickly goes by a transition, some frames behind a change: while that is under way it doesn't count.
RECORDER = """(() => {
    const text = document.getElementById('text'), say = document.getElementById('say'), seen = globalThis.seenFrames = [];
    const frame = () => {
        const verdict = say.firstElementChild, style = verdict && getComputedStyle(verdict);
        const isSeen = verdict && style.visibility === 'visible' && style.opacity === '1' && !verdict.getAnimations().length;
        if (isSeen) seen.push(text.value.startsWith('}') === !!say.querySelector('.no'));
        requestAnimationFrame(frame);
    };
    requestAnimationFrame(frame);
})()"""


def try_typing(browser, adder):
    """In a program of 3,000 lines a change is judged 200 ms behind the last key, and a verdict of an earlier text goes."""
    open_page(browser, link({**adder, "CMain.java": client(3000)}, "CMain.java"))
    browser.wait("document.querySelector('#say .yes') !== null")
    browser.eval(RECORDER)
    took = []
    # The quickest of many counts, since machines have other work.
    while len(took) < 10 or (min(took) > TYPED_MS and len(took) < 400):
        browser.eval("document.getElementById('text').focus(), document.getElementById('text').setSelectionRange(0, 0)")
        browser.type("}")
        took.append(until_told(browser, ".no"))
        time.sleep(0.15)
        browser.eval("document.getElementById('text').setSelectionRange(0, 0)")
        browser.press("Delete")
        took.append(until_told(browser, ".yes"))
        time.sleep(0.15)
    said = f"in {min(took):.0f} to {max(took):.0f} ms"
    print(f"a change of a program of 3,000 lines is judged {said} behind its key")
    count(f"a change of a program of 3,000 lines is judged within {TYPED_MS} ms", min(took) <= TYPED_MS, said)
    frames = browser.eval("seenFrames")
    count("frames with a verdict that isn't of the text", frames and frames.count(False) == 0,
          f"{frames.count(False)} of {len(frames)}")


def until_told(browser, kind):
    """How long after the last key, in milliseconds by the page's own clock, a verdict of a kind is seen."""
    return browser.eval(f"""new Promise(then => {{
        const began = performance.now(), say = document.getElementById('say');
        const look = () => {{
            const it = say.querySelector('{kind}');
            if (it && getComputedStyle(it).visibility === 'visible' || performance.now() - began > 120000)
                then(performance.now() - began);
            else setTimeout(look, 2);
        }};
        look();
    }})""")


# ---- what would be lost ----


def reload(browser):
    browser.eval("globalThis.isBefore = true")
    browser.call("Page.reload")
    if not browser.wait(f"globalThis.isBefore === undefined && {READY}"):
        raise drive.Fault("the page doesn't become ready again")
    add_probe(browser)
    browser.eval("probe.settled?.()")


def settle(browser):
    """Waits until what a deed of the user leads to has been shown."""
    browser.eval("new Promise(then => setTimeout(then, 50))")
    browser.eval("probe.settled()")


def pick(browser, name):
    """Picks an example as a user does."""
    browser.eval(f"""(() => {{ const it = document.getElementById('pick');
        it.selectedIndex = [...it.options].findIndex(one => one.textContent === {json.dumps(name)});
        it.dispatchEvent(new Event('change', {{ bubbles: true }})); }})()""")
    settle(browser)


PICKED = "document.getElementById('pick').selectedOptions[0]?.textContent ?? ''"


def try_reload(browser):
    """What was written outlives a reload, and is replaced by an example or a link only where the user says so."""
    open_page(browser)
    pick(browser, "two_buyer")
    same("what wasn't written is replaced without a question", browser.eval("document.getElementById('question')?.open"), False)
    pick(browser, "adder")
    type_at(browser, "// mine")
    reload(browser)
    same("what was written, behind a reload", written(browser)[:8], "// mine/")
    same("the example that it was made of", browser.eval(PICKED), "adder")
    reload(browser)
    same("what was written, behind another reload", written(browser)[:8], "// mine/")
    pick(browser, "two_buyer")
    count("there is a question", browser.eval("document.getElementById('question')?.open === true"))
    press(browser, "leave")
    settle(browser)
    same("what the user keeps", [written(browser)[:7], browser.eval(PICKED)], ["// mine", "adder"])
    hash_part = link({"Other.java": "class Other { }\n"})
    browser.eval(f"location.hash = {json.dumps(hash_part)}, 0")
    count("there is a question before a link", browser.wait("document.getElementById('question')?.open === true"))
    press(browser, "leave")
    settle(browser)
    same("what the user keeps, and the address", [written(browser)[:7], browser.eval("location.hash")], ["// mine", ""])
    pick(browser, "two_buyer")
    press(browser, "replace")
    settle(browser)
    same("what the user gives up", [written(browser)[:7] != "// mine", browser.eval(PICKED)], [True, "two_buyer"])
    try_linked_reload(browser, hash_part)


def try_linked_reload(browser, hash_part):
    """Behind a link no example is picked, also when the page is loaded again; what was written in it stays."""
    open_page(browser, hash_part)
    same("what is picked behind a link", [browser.eval(PICKED), written(browser)], ["", "class Other { }\n"])
    type_at(browser, "// mine")
    reload(browser)
    same("what was written in a linked program", [browser.eval(PICKED), written(browser)], ["", "// mineclass Other { }\n"])
    browser.call("Page.navigate", url="about:blank")
    browser.go(f"file://{PAGE}{link({'New.java': 'class New { }'})}", "document.getElementById('question')?.open === true")
    same("what stands there until the user answers", written(browser)[:7], "// mine")
    press(browser, "replace")
    browser.wait(f"{READY} && document.getElementById('text').value !== '' && document.getElementById('question')?.open === false")
    same("the link that the user opens", written(browser), "class New { }")


def try_damaged(browser):
    """A damaged link says so."""
    whole = link({"Main.java": "class Main { }"})
    damaged = {
        "letters that are none": "#p=%%%", "letters alone": "#p=" + "A" * 40, "one that is cut": whole[:-9], "an empty one": "#p=",
        "no files": packed('{"files": {}}'), "a file that is no text": packed('{"files": {"Main.java": 7}}'),
        "no JSON": packed("class Main { }"), "a list": packed("[]"), "an option as a file": link({"--main": ""}),
    }
    for name, hash_part in damaged.items():
        open_page(browser, hash_part)
        same(f"a damaged link, {name}", [seen(browser, "noted"), browser.eval(PICKED)],
             ["The link is damaged: no program can be read in it.", "adder"])
    open_page(browser, whole)
    same("a link that isn't damaged", [seen(browser, "noted"), written(browser)], ["", "class Main { }"])


# ---- who doesn't see the page ----

ADDER_WORDS = [
    "State0: send_addIntToS(int) leads to State1; send_byeToS() leads to the end.",
    "State1: receive_totalIntFromS() leads to State0.",
]
ADDER_RUN = ["C makes CRole#0.", "S makes SRole#0.", "C calls send_addIntToS of CRole#0.", "C sends add(1) to S."]


def try_aloud(browser):
    """What is drawn stands there in words too; the verdict is told in a sentence; a fault is explained for its file."""
    open_page(browser)
    words = "[...document.querySelectorAll('{} details li')].map(it => it.textContent)"
    same("the adder's client in words", browser.eval(words.format("#drawn")), ADDER_WORDS)
    run = browser.eval(words.format("#view"))
    count("the adder's run in words", len(run) == 56 and [it for it in run if it in ADDER_RUN][:4] == ADDER_RUN, str(run[:6]))
    act(browser, "goToStep(3)")
    same("the step in words", browser.eval("document.querySelector('#view li[aria-current]')?.textContent"), run[2])
    live = browser.eval("[...document.querySelectorAll('[role=status], [role=alert], [aria-live]')].map(it => it.id).sort()")
    same("what is read aloud when it changes", live, ["notice", "told"])
    same("the verdict in a sentence", seen(browser, "told"), "Accepted.")
    open_example(browser, "file: Forgetful.java")
    same("a refusal in a sentence", seen(browser, "told"), "Refused: LeftOpen in line 20 of Forgetful.java.")
    open_example(browser, "global_adder")
    same("that roles fit in a sentence", seen(browser, "told"), "Accepted, and the roles fit.")


# What of a section is about files of other kinds, and isn't told of this one's.
OTHER_KINDS = [
    ("UnknownClass", "Main.java", "or the class behind", "that a class file names"),
    ("UnknownClass", "A.class", "that a class file names", "or the class behind"),
    ("TooLarge", "calls", "A file of calls has over", "A source has over"),
    ("TooLarge", "P.protocol", "A typestate has over", "A protocol has over"),
    ("Syntax", "P.scr", "text of a protocol", "text of a source"),
    ("Unsupported", "Main.java", "belongs to Java", "belongs to Scribble"),
    ("DuplicateName", "P.protocol", "Two classes or enums", "lists a role twice"),
    ("NotOffered", "Main.java", "in a state of the object", "### "),
]


def try_explained(browser):
    """An explanation is that of the file's kind."""
    open_page(browser)
    for kind, file, mine, other in OTHER_KINDS:
        said = browser.eval(f"explanation(sections.{kind}, {json.dumps(file)})")
        count(f"{kind} of {file}: what is told", mine in said, said[:300])
        count(f"{kind} of {file}: what is of another kind", other not in said, said[:300])


def try_policy(browser):
    """A script that isn't the page's own doesn't run in it."""
    open_page(browser)
    before = len(browser.errors())
    browser.eval("""(() => { const it = document.createElement('script'); it.textContent = 'globalThis.foreign = 1';
        document.body.append(it); it.remove(); document.body.insertAdjacentHTML('beforeend', '<i style="color: red" id="dyed">'); })()""")
    same("a script that isn't the page's own", browser.eval("globalThis.foreign ?? null"), None)
    same("a style that isn't", browser.eval("document.getElementById('dyed').style.color"), "")
    refused = browser.errors()[before:]
    count("the policy refuses them", len(refused) > 1 and all("Content Security Policy" in it for it in refused), str(refused))
    browser.eval("document.getElementById('dyed').remove()")
    browser.events.clear()


def try_limits(browser, adder):
    """All of it."""
    for part in (try_large, try_parts, try_stop, try_reload, try_damaged, try_aloud, try_explained, try_policy):
        part(browser)
    try_typing(browser, adder)
