"use strict";
// Shows the run that stands in the page's data: the state after every line was worked out before, and is only put together here from the
// nearest whole state and the changes since.
(() => {
  const data = JSON.parse(document.getElementById("data").textContent);
  const byId = (id) => document.getElementById(id);
  const count = data.lines.text.length;
  let now = 0; // the line after which the run is shown; 0 is before the first
  let playing = null;

  // ------------------------------------------------------------ the state after a line

  const changesUpTo = (line) => {
    let low = 0, high = data.changes.length;
    while (low < high) {
      const middle = (low + high) >> 1;
      if (data.changes[middle][0] <= line) low = middle + 1; else high = middle;
    }
    return low;
  };

  const stateAfter = (line) => {
    const made = changesUpTo(line);
    const whole = Math.floor(made / data.every);
    const state = {};
    for (const [bench, values] of Object.entries(data.checkpoints[whole])) state[bench] = { ...values };
    for (let i = whole * data.every; i < made; i++)
      for (const [bench, values] of Object.entries(data.changes[i][1])) Object.assign(state[bench], values);
    return state;
  };

  // ------------------------------------------------------------ small parts

  const make = (name, kind, ...content) => {
    const element = document.createElement(name);
    if (kind) element.className = kind;
    element.append(...content.filter((part) => part !== null && part !== ""));
    return element;
  };
  const list = (kind, items) => (items.length ? make("ul", kind, ...items.map((item) => make("li", "", ...item))) : null);
  const many = (number, word) => `${number.toLocaleString("en")} ${word}${number === 1 ? "" : "s"}`;

  const benchAt = (line) => (line ? data.lines.bench[line - 1] : 0);

  const ranges = (numbers) => { // 1,2,3 or 1-4, as everywhere
    const groups = [];
    for (const number of numbers) {
      const last = groups[groups.length - 1];
      if (last && number === last[last.length - 1] + 1) last.push(number); else groups.push([number]);
    }
    return groups.map((group) => (group.length > 3 ? `${group[0]}-${group[group.length - 1]}` : group.join(","))).join(",");
  };
  const alike = (pairs) => { // [number, words] pairs as [numbers, words], those with the same words together
    const found = new Map();
    for (const [number, words] of pairs) found.set(words, [...(found.get(words) || []), number]);
    return [...found].map(([words, numbers]) => [ranges(numbers), words]);
  };

  // ------------------------------------------------------------ the panel

  const showStep = () => {
    const step = byId("step");
    if (now === 0) {
      step.replaceChildren(make("h2", "", count ? "Before the first line" : "No line"), make("p", "", count
        ? `All benches are fresh. The text has ${many(count, "line")}.` : data.empty));
      return;
    }
    const answer = data.lines.answer[now - 1], tale = data.tales[data.lines.tale[now - 1]];
    const verdict = answer === 0 ? "done" : answer === 20 ? "malformed (20)" : `refused ${answer}: ${data.meanings[answer] || ""}`;
    step.replaceChildren(
      make("h2", "", `Line ${now}`, make("span", answer ? "answer refused" : "answer", verdict)),
      make("code", "line", data.texts[data.lines.text[now - 1]]),
      ...tale.words.map((sentence) => make("p", "", sentence)),
      list("helps", tale.helps.map(([meant, line]) => [`${meant}: `, make("code", "", line)])) || "");
  };

  const members = (bench) => {
    const row = make("p", "members");
    const views = { heard: bench.heard, excused: bench.excused, missed: bench.missed, awaited: bench.awaited.map(([member]) => member) };
    const all = Object.entries(views).flatMap(([view, benches]) => benches.map((member) => [member, view]));
    for (const [member, view] of all.sort((a, b) => a[0] - b[0])) {
      const chip = make("b", `member ${view}`, String(member));
      chip.title = `bench ${member} is ${view}`;
      row.append(chip);
    }
    return row;
  };

  const waiting = (bench) => {
    const senders = Object.keys(bench).filter((key) => key.startsWith("from") && bench[key].length).map((key) => Number(key.slice(4)));
    const words = (sender) => (bench[`from${sender}`] === "closed" ? "closed by a notice" : bench[`from${sender}`].join(", "));
    return alike(senders.sort((a, b) => a - b).map((sender) => [sender, words(sender)])).map(([from, what]) => [`from ${from}: ${what}`]);
  };

  const benchCard = (number, bench) => {
    const card = make("div", number === benchAt(now) ? "bench here" : "bench");
    card.dataset.bench = number;
    card.dataset.state = bench.state;
    const title = make("h3", "", `bench ${number}`, make("span", "state", bench.state));
    if (bench.round) {
      const disc = make("span", "disc", String(bench.round));
      disc.style.background = `var(--r${bench.round})`;
      disc.title = `the last round it sent: ${bench.round}`;
      title.append(disc);
      card.style.borderLeftColor = `var(--r${bench.round})`;
    }
    if (bench.decided !== null) title.append(make("span", "decided", String(bench.decided)));
    card.append(title);
    if (bench.round) card.append(make("p", "quiet", `round ${bench.round}, value ${bench.value}, world ${bench.world}`));
    if (bench.state === "running") {
      card.append(members(bench));
      const reasons = list("reasons", alike(bench.awaited).map(([whom, reason]) => [`awaits ${whom}: ${reason}`]));
      if (reasons) card.append(reasons);
    }
    const lines = list("waiting", waiting(bench));
    if (lines) card.append(lines);
    return card;
  };

  const showBenches = () => {
    const state = stateAfter(now);
    byId("benches").replaceChildren(...data.lanes.map(([number]) => benchCard(number, state[number])));
    const here = document.querySelector(".bench.here");
    if (here) here.scrollIntoView({ block: "nearest" });
  };

  // ------------------------------------------------------------ the picture

  const showPicture = () => {
    const first = data.tops[0] || 0, top = now ? data.tops[now - 1] : first, end = now ? data.ends[now - 1] : first;
    const cursor = byId("cursor"), later = byId("later"), frame = byId("picture");
    cursor.style.display = now ? "block" : "none";
    cursor.style.top = `${top}px`;
    cursor.style.height = `${end - top}px`;
    later.style.display = count ? "block" : "none";
    later.style.top = `${end}px`;
    if (now === 0) frame.scrollTop = 0;
    else if (top < frame.scrollTop + 50 || end > frame.scrollTop + frame.clientHeight - 50) frame.scrollTop = top - frame.clientHeight / 2;
    const lane = data.lanes.find(([bench]) => bench === benchAt(now));
    const column = byId("column"), left = getComputedStyle(column).position === "sticky" ? column.clientWidth : 0;
    if (lane && lane[1] + 130 < frame.clientWidth) frame.scrollLeft = 0;
    else if (lane && (lane[1] < frame.scrollLeft + left + 40 || lane[1] > frame.scrollLeft + frame.clientWidth - 130))
      frame.scrollLeft = lane[1] - (left + frame.clientWidth) / 2;
  };

  const goTo = (line) => {
    now = Math.max(0, Math.min(count, line));
    byId("slider").value = now;
    byId("where").textContent = now ? `line ${now} of ${count}` : count ? `before line 1 of ${count}` : "no line";
    showStep();
    showBenches();
    showPicture();
    const hash = now ? `#line=${now}` : "#";
    if (location.hash !== hash && !playing) history.replaceState(null, "", hash);
  };

  // ------------------------------------------------------------ finding lines

  const nextLine = (from, direction, matches) => {
    for (let step = 1; step <= count; step++) {
      const line = ((from - 1 + direction * step) % count + count) % count + 1;
      if (matches(line)) return line;
    }
    return 0;
  };
  const isRefused = (line) => data.lines.answer[line - 1] !== 0;
  const toRefused = (direction) => {
    const line = count ? nextLine(now || (direction > 0 ? 0 : 1), direction, isRefused) : 0;
    if (line) goTo(line);
  };

  const matcher = (wanted) => {
    const answer = /^(?:answer=|refused )(\d+)$/.exec(wanted);
    if (answer) return (line) => data.lines.answer[line - 1] === Number(answer[1]);
    const hit = data.texts.map((text) => text.toLowerCase().includes(wanted));
    return (line) => hit[data.lines.text[line - 1]];
  };

  const search = (direction) => {
    const wanted = byId("wanted").value.trim().toLowerCase();
    const number = /^(?:line[ =]?)?(\d+)$/.exec(wanted);
    if (!wanted) { byId("found").textContent = ""; return; }
    if (number) {
      const exists = number[1] >= 1 && number[1] <= count;
      byId("found").textContent = exists ? "" : `no line ${number[1]}`;
      if (exists) goTo(Number(number[1]));
      return;
    }
    const matches = matcher(wanted);
    const line = count ? nextLine(now || (direction > 0 ? 0 : 1), direction, matches) : 0;
    let found = 0, place = 0;
    for (let i = 1; i <= count; i++) if (matches(i)) { found++; if (i === line) place = found; }
    byId("found").textContent = found ? `${place} of ${found}` : "not found";
    if (line) goTo(line);
  };

  // ------------------------------------------------------------ buttons, keys, clicks

  const play = (on) => {
    clearInterval(playing);
    playing = on && now < count ? setInterval(() => { goTo(now + 1); if (now >= count) play(false); }, 650) : null;
    byId("play").textContent = playing ? "\u23f8" : "\u25b6";
    if (!playing) goTo(now);
  };
  const jump = (line) => { if (playing) play(false); goTo(line); };

  const keys = {
    ArrowRight: () => jump(now + 1), ArrowDown: () => jump(now + 1), ArrowLeft: () => jump(now - 1), ArrowUp: () => jump(now - 1),
    PageDown: () => jump(now + 10), PageUp: () => jump(now - 10), Home: () => jump(0), End: () => jump(count),
    " ": () => { if (!playing && now === count) goTo(0); play(!playing); },
    r: () => toRefused(1), R: () => toRefused(-1), "/": () => byId("wanted").focus(),
  };
  document.addEventListener("keydown", (event) => {
    if (event.target.id === "wanted") {
      if (event.key === "Escape") event.target.blur();
      if (event.key === "Enter" && event.shiftKey) { event.preventDefault(); search(-1); }
      return;
    }
    if (event.ctrlKey || event.metaKey || event.altKey || !keys[event.key]) return;
    if (event.key === " " && event.target.tagName === "BUTTON") return;
    event.preventDefault();
    keys[event.key]();
  });
  byId("slider").addEventListener("input", (event) => jump(Number(event.target.value)));
  byId("first").addEventListener("click", keys.Home);
  byId("back").addEventListener("click", keys.ArrowLeft);
  byId("play").addEventListener("click", keys[" "]);
  byId("forth").addEventListener("click", keys.ArrowRight);
  byId("last").addEventListener("click", keys.End);
  byId("refused-back").addEventListener("click", keys.R);
  byId("refused-forth").addEventListener("click", keys.r);
  byId("search").addEventListener("submit", (event) => { event.preventDefault(); search(1); });
  byId("theme").addEventListener("click", () => {
    const dark = getComputedStyle(document.documentElement).colorScheme === "dark";
    document.documentElement.dataset.theme = dark ? "light" : "dark";
  });
  byId("sheet").addEventListener("click", (event) => {
    const y = event.clientY - byId("sheet").getBoundingClientRect().top;
    const line = data.tops.findIndex((top, i) => top <= y && y < data.ends[i]) + 1;
    if (line) jump(line);
  });

  // the names of the lanes stay in sight when the picture is moved up
  for (const [bench, x] of data.lanes) {
    const name = make("span", "", `bench ${bench}`);
    name.style.left = `${x}px`;
    byId("names").append(name);
  }
  byId("picture").addEventListener("scroll", () => {
    byId("names").classList.toggle("on", byId("picture").scrollTop > (data.tops[0] || 0) - 30);
  }, { passive: true });

  const fromHash = () => { const found = /^#line=(\d+)$/.exec(location.hash); if (found) goTo(Number(found[1])); return found; };
  window.addEventListener("hashchange", fromHash);
  if (!fromHash()) goTo(0);
})();
