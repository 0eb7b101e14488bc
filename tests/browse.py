#!/usr/bin/env python3
"""Opens pages of run texts in a real browser, moves through them as a person does, and compares what they show with the proved program.

After each move the panel's benches are those of the report of the text up to that line, its answer is that line's, and whom each running bench
has heard, excuses, misses and awaits, and what waits on its lines, are the model's. A page of 65,536 bytes of text has to load and step quickly.
"""

import random
import re
import subprocess
import sys
import tempfile
import time
from pathlib import Path

import chromium
import generate
import programs

sys.path.insert(0, str(programs.TOP / "draw"))
import colours  # noqa: E402
import page  # noqa: E402
import reading  # noqa: E402
import rounds  # noqa: E402
import shown  # noqa: E402

RUN = programs.proved("run")
LOAD_MOST = 20.0  # seconds
STEP_MOST = 0.5  # seconds on average, the drawing of the page included, on a machine that does other things too

PANEL = """(() => ({
  where: document.getElementById("where").textContent,
  slider: Number(document.getElementById("slider").value),
  line: (document.querySelector("#step .line") || {}).textContent,
  answer: (document.querySelector("#step .answer") || {}).textContent,
  words: [...document.querySelectorAll("#step p")].map((p) => p.textContent),
  benches: [...document.querySelectorAll(".bench")].map((card) => ({
    bench: Number(card.dataset.bench),
    state: card.querySelector(".state").textContent,
    round: (card.querySelector(".disc") || {textContent: "0"}).textContent,
    decided: (card.querySelector(".decided") || {textContent: "none"}).textContent,
    now: (card.querySelector("p.quiet") || {textContent: ""}).textContent,
    here: card.classList.contains("here"),
    members: [...card.querySelectorAll(".member")].map((m) => [Number(m.textContent), m.className.split(" ")[1]]),
    reasons: [...card.querySelectorAll(".reasons li")].map((li) => li.textContent),
    waiting: [...card.querySelectorAll(".waiting li")].map((li) => li.textContent),
  })),
}))()"""


def must(held, words):
    if not held:
        programs.stop(words)


def proved(text):
    return subprocess.run(RUN, input=text, capture_output=True, check=True).stdout.decode()


def alike(pairs):
    """Numbers with the same words together, as the page groups them."""
    found = {}
    for number, words in pairs:
        found.setdefault(words, []).append(number)
    return [(shown.world_text(numbers), words) for words, numbers in found.items()]


def expected_card(run, number):
    """What the page has to show of a bench, from the model."""
    bench = run.benches[number]
    own, running = bench.own(), bench.state == "running"
    view = run.view(number) if running else rounds.View({}, [], [], [])
    waiting = []
    for sender in reading.BENCHES:
        if sender in bench.noticed:
            waiting.append((sender, "closed by a notice"))
        elif bench.state in rounds.TAKING and run.waiting(number, sender):
            waiting.append((sender, ", ".join(map(shown.message_text, run.waiting(number, sender)))))
    views = (("heard", view.heard), ("excused", view.excused), ("missed", view.missed), ("awaited", view.awaited))
    return {
        "now": f"round {own.round}, value {own.value}, world {shown.world_text(own.world)}" if own else "",
        "members": sorted([member, word] for word, members in views for member in members),
        "reasons": [f"awaits {whom}: {reason}" for whom, reason in alike(run.awaits(number).items() if running else ())],
        "waiting": [f"from {whom}: {words}" for whom, words in alike(waiting)],
    }


class Visit:
    """A page opened in the browser, and the text that it is of."""

    def __init__(self, browser, folder, name, text):
        self.browser, self.name, self.text = browser, name, text
        self.lines = reading.split(text)
        self.path = Path(folder) / f"{name}.html"
        self.path.write_text(page.page(text, f"{name}.txt"), encoding="utf-8")
        self.loaded = browser.open(self.path)
        self.moved = 0

    def compare(self, line):
        """The panel against the report of the text up to this line, and against the model."""
        seen = self.browser.value(PANEL)
        prefix = generate.cut(self.text, line) if line else b""
        report, run = proved(prefix), rounds.play(prefix)
        place = f"{self.name}, line {line}"
        must(seen["slider"] == line and (line == 0 or seen["where"] == f"line {line} of {len(self.lines)}"), f"{place}: it is at {seen['where']}")
        told = [f"bench={b['bench']} state={b['state']} round={b['round']} value={b['decided']}" for b in seen["benches"] if b["state"] != "fresh"]
        must(told == re.findall("^bench=.*", report, re.M), f"{place}: the panel shows {told}, the report is\n{report[-1500:]}")
        if line:
            answer = int(re.findall(r"^line=\d+ answer=(\d+)$", report, re.M)[-1])
            shown_answer = 0 if seen["answer"] == "done" else int(re.search(r"\d+", seen["answer"])[0])
            must(shown_answer == answer, f"{place}: the page says {seen['answer']}, the report {answer}")
            must(seen["words"], f"{place}: the answer is not explained")
            step = run.lines[-1].step
            must([b["bench"] for b in seen["benches"] if b["here"]] == [b["bench"] for b in seen["benches"] if step and b["bench"] == step.bench],
                 f"{place}: another bench is marked")
        for card in seen["benches"]:
            for what, value in expected_card(run, card["bench"]).items():
                must(card[what] == value, f"{place}, bench {card['bench']}: {what} is {card[what]}, and should be {value}")
        self.moved += 1

    def slide(self, line):
        self.browser.value(f"(() => {{ const s = document.getElementById('slider'); s.value = {line}; s.dispatchEvent(new Event('input')); }})()")

    def line(self):
        return self.browser.value("Number(document.getElementById('slider').value)")

    def wait_for(self, reached):
        """Waits until the page is at such a line."""
        until = time.time() + chromium.WAIT
        while not reached(self.line()):
            must(time.time() < until, f"{self.name}: the page stays at line {self.line()}")

    def ended(self):
        wrongs = self.browser.wrongs()
        must(not wrongs, f"{self.name}: {wrongs}")
        return self.moved


def small(browser, folder):
    """The examples, line by line: forth by keys, back by the buttons; the last lines of the report at the end."""
    moved = 0
    for path in sorted((programs.TOP / "examples").glob("*.txt")):
        visit = Visit(browser, folder, path.stem, path.read_bytes())
        visit.compare(0)
        for line in range(1, len(visit.lines) + 1):
            browser.press("ArrowRight")
            visit.compare(line)
        must(path.with_suffix(".report").read_text() == proved(path.read_bytes()), f"{path.name} does not give its report")
        for line in (len(visit.lines) - 1, len(visit.lines) - 2):
            browser.click_on("#back")
            visit.compare(line)
        moved += visit.ended()
    return moved


def moves(browser, folder):
    """Every way to move: slider, keys, search, refused lines, a row of the picture, an address."""
    text = (programs.TOP / "examples" / "08-first-morning.txt").read_bytes()
    visit = Visit(browser, folder, "moves", text)
    browser.click_on("#slider", 0.5)
    visit.compare(7)
    for key, line in (("End", 14), ("PageUp", 4), ("Home", 0), ("PageDown", 10), ("ArrowLeft", 9), ("r", 5), ("ArrowDown", 6), ("R", 5)):
        browser.press(key)
        visit.compare(line)
    for button, line in (("#last", 14), ("#refused-forth", 5), ("#forth", 6), ("#refused-back", 5), ("#first", 0)):
        browser.click_on(button)
        visit.compare(line)
    for words, line, found in (("12", 12, ""), ("line 3", 3, ""), ("notice", 4, "1 of 2"), ("notice", 9, "2 of 2"), ("notice", 4, "1 of 2"),
                               ("answer=11", 5, "1 of 1"), ("bench=2 from=3", 9, "1 of 1"), ("99", 9, "no line 99"), ("nowhere", 9, "not found")):
        browser.press("/")
        browser.value("document.getElementById('wanted').value = ''")
        browser.type(words)
        browser.press("Enter")
        browser.press("Escape")
        visit.compare(line)
        must(browser.value("document.getElementById('found').textContent") == found, f"the search for '{words}' does not say '{found}'")
    x, y = browser.value("(() => { const r = document.getElementById('sheet').getBoundingClientRect();"
                         " const d = JSON.parse(document.getElementById('data').textContent); return [r.left + 150, r.top + d.tops[2] + 8]; })()")
    browser.click(x, y)
    visit.compare(3)
    browser.value("location.hash = '#line=13'")
    visit.wait_for(lambda line: line == 13)
    visit.compare(13)
    browser.press("ArrowRight")
    browser.press(" ")  # from the end, playing begins at the start
    visit.wait_for(lambda line: 2 <= line < 14)
    browser.press(" ")
    visit.compare(visit.line())
    return visit.ended()


def looks(browser, folder):
    """Light and dark, wide and narrow; what is at hand is in sight."""
    rows = generate.text("run", 33, 400, "rounds")
    visit = Visit(browser, folder, "looks", rows)
    paper = "getComputedStyle(document.body).backgroundColor"

    def written(colour):
        return f"rgb({', '.join(str(int(colour[i:i + 2], 16)) for i in (1, 3, 5))})"

    for wish, button in (("light", colours.DARK), ("dark", colours.LIGHT)):
        browser.ask("Emulation.setEmulatedMedia", features=[{"name": "prefers-color-scheme", "value": wish}])
        browser.open(visit.path)
        must(browser.value(paper) == written((colours.LIGHT if wish == "light" else colours.DARK)["paper"]), f"the page is not {wish}")
        arrow = browser.value("getComputedStyle(document.querySelector('.arrow.s1')).stroke")
        must(arrow == written(colours.of_rounds(1, wish)[0]), f"an arrow of round 1 is {arrow} when it is {wish}")
        browser.click_on("#theme")
        must(browser.value(paper) == written(button["paper"]), "the button does not change light and dark")
    browser.ask("Emulation.setEmulatedMedia", features=[])
    for width in (320, 600, 900, 1400, 2400):
        browser.ask("Emulation.setDeviceMetricsOverride", width=width, height=800, deviceScaleFactor=1, mobile=False)
        browser.open(visit.path)
        for line in (1, 17, 200, 400):
            visit.slide(line)
            wide, out = browser.value("""(() => {
              const inside = (inner, outer) => { const a = inner.getBoundingClientRect(), b = outer.getBoundingClientRect();
                return a.top >= b.top - 1 && a.bottom <= b.bottom + 1 || a.height > b.height && a.top < b.bottom && a.bottom > b.top; };
              const here = document.querySelector(".bench.here");
              return [document.documentElement.scrollWidth, [inside(document.getElementById("cursor"), document.getElementById("picture")),
                !here || inside(here, document.querySelector(".states"))]]; })()""")
            must(wide <= width, f"at a width of {width} the page is {wide} wide")
            must(out == [True, True], f"at a width of {width}, line {line}: the row and the bench are in sight: {out}")
            visit.compare(line)
    browser.ask("Emulation.clearDeviceMetricsOverride")
    return visit.ended()


def odd_texts():
    """Texts at the edges, and some of all families."""
    yield "empty", b""
    yield "malformed", "\n".join(generate.MALFORMED).encode("latin-1")
    yield "markup", b"</script><script>alert(1)</script>\n<!--\n{{data}}\n\xe2\x80\xa8\n\\u003c\nstep=turn bench=1\n"
    yield "refused", b"step=start bench=1 value=3 world=1,2\n" + b"step=turn bench=1\n" * 300 + b"step=fail bench=2\n"
    yield "newlines", b"\n" * reading.TEXT_MAX
    for family in ("deep", "dense", "refusals", "malformed", "bytes"):
        yield family, generate.text("run", 7, 300, family)


def odd(browser, folder):
    moved, rng = 0, random.Random(16)
    for name, text in odd_texts():
        visit = Visit(browser, folder, name, text)
        count = len(visit.lines)
        for line in sorted({0, count, *(rng.randint(0, count) for _ in range(8))}, key=lambda _: rng.random()):
            visit.slide(line)
            visit.compare(line)
        moved += visit.ended()
    (Path(folder) / "long.html").write_text(page.page(b"\n" * (reading.TEXT_MAX + 1), "long.txt"), encoding="utf-8")
    browser.open(Path(folder) / "long.html")
    must(browser.value("document.querySelector('#step p').textContent") == "Refused with 23: the text is longer than 65,536 bytes.",
         "a text too long is not told so")
    return moved


def full(browser, folder):
    """65,536 bytes: a run of sixteen benches of which fifteen fail, filled up with steps at random; loading and stepping are measured."""
    rng = random.Random(65536)
    text = generate.text("run", 159, 70000, "rounds")
    while len(text) < reading.TEXT_MAX - 40:
        bench, sender = rng.randint(1, 16), rng.randint(1, 16)
        text += rng.choice([b"step=turn bench=%d\n" % bench, b"step=arrive bench=%d from=%d\n" % (bench, sender)])
    text += b"x" * (reading.TEXT_MAX - len(text))
    must(len(text) == reading.TEXT_MAX, "the text is not full")
    visit = Visit(browser, folder, "full", text)
    count = len(visit.lines)
    for line in sorted(rng.sample(range(count + 1), 20), key=lambda _: rng.random()) + [count]:
        visit.slide(line)
        visit.compare(line)
    steps = [rng.randint(0, count) for _ in range(60)] + list(range(count - 60, count))
    spent = browser.value(f"""(async () => {{
      const slider = document.getElementById("slider"), began = performance.now();
      for (const line of {steps}) {{
        slider.value = line;
        slider.dispatchEvent(new Event("input"));
        await new Promise((done) => requestAnimationFrame(() => setTimeout(done)));
      }}
      return (performance.now() - began) / 1000 / {len(steps)};
    }})()""")
    must(visit.loaded < LOAD_MOST, f"the page of {len(text)} bytes took {visit.loaded:.1f} s to load")
    must(spent < STEP_MOST, f"a step of the page took {spent:.3f} s")
    size = visit.path.stat().st_size
    measured = f"a page of {size / 1e6:.1f} MB, loaded in {visit.loaded:.1f} s, {1000 * spent:.0f} ms a step"
    return visit.ended(), f"{reading.TEXT_MAX} bytes of text ({count} lines) are {measured}"


def main():
    began = time.time()
    with tempfile.TemporaryDirectory() as folder, chromium.Browser() as browser:
        moved = small(browser, folder) + moves(browser, folder) + looks(browser, folder) + odd(browser, folder)
        more, measured = full(browser, folder)
    print(f"browse: after {moved + more} moves the pages show what the proved program reports; {measured}; {time.time() - began:.0f} s")
    return 0


if __name__ == "__main__":
    sys.exit(main())
