"""One picture, drawn layer by layer where layout.py has put things."""

import colours
import layout
import shown
import svg

MARGIN = layout.MARGIN
LEAST_WIDTH = 560
LEGEND_TOP = 92  # below title and subtitle
LAYERS = ("guides", "threads", "lanes", "arrows", "marks", "labels", "frame", "column")


def kind_of(line):
    """What a done line is in the picture."""
    if line.decided is not None:
        return "decide"
    return "round" if line.sent and line.sent.round else line.step.kind


class Figure:
    """A layout and its markup, layer by layer."""

    def __init__(self, place):
        self.place = place
        self.layers = {name: [] for name in LAYERS}
        self.rounds = max((line.sent.round for line in place.run.lines[:place.last] if line.sent), default=0)

    def add(self, layer, *markup):
        self.layers[layer].extend(markup)

    def point(self, row):
        return self.place.x[row.first.step.bench], row.y

    def has_lane(self, row):
        step = row.first.step
        return not row.rest and step is not None and step.bench in self.place.x

    def tip(self, line):
        """The line and what it did or why it was refused."""
        answer = f", refused {line.answer}" if line.answer else ""
        return f"line {line.number}: {shown.legible(line.text, 120)}{answer}\n{' '.join(line.told)}"

    # -------------------------------------------------------------- the left column

    def draw_source(self):
        """Each row's line as it stands in the text, led to its lane; under a refused one why."""
        place = self.place
        size = place.letter - 0.5
        for row in place.rows:
            text = row.source()
            end = place.source_x + svg.mono_width(text, size) + 8
            if self.has_lane(row):
                self.add("guides", svg.line("guide", end, row.y, self.point(row)[0], row.y))
            kind = "source" if row.done else "source faded" if row.rest else "source refused"
            self.add("column", svg.words("number", place.source_x - 10, row.y + 4, row.numbers(), place.small),
                     svg.with_tip(self.tip(row.first), svg.words(kind, place.source_x, row.y + 4, text, size)))
            if not row.done:
                self.add("column", svg.words("reason", place.source_x, row.y + 5 + place.small, place.reason(row), place.small))

    # -------------------------------------------------------------- lanes

    def draw_lane(self, bench):
        """The lane, its style following the bench's state, with its names and its foot."""
        place, x = self.place, self.place.x[bench]
        since, style = place.top - 4, lane_style(place.state_at(bench, place.first - 1))
        for row in place.rows:
            line = row.first
            if row.done and line.step.bench == bench and line.step.kind not in ("arrive", "notice"):
                self.draw_stretch(x, since, row.y, style)
                since, style = row.y, lane_style(line)
        self.draw_stretch(x, since, place.bottom, style)
        for y, before in place.names():
            self.add("frame", svg.lane_name(x, y, f"bench {bench}", 12))
            state = place.state_at(bench, before)
            if state and kind_of(state) == "round":  # its mark is further up, or not in the picture
                self.add("marks", svg.with_tip(f"bench {bench} is in round {state.sent.round}, since line {state.number}",
                                               svg.round_mark(x, y + 20, state.sent.round, place.letter)))
        self.draw_foot(bench, x)

    def draw_stretch(self, x, top, bottom, style):
        if style:
            self.add("lanes", svg.line(style, x, top, x, bottom))

    def draw_foot(self, bench, x):
        """What the report of the lines up to here says of the bench."""
        for i, word in enumerate(foot_words(self.place, bench)):
            self.add("frame", svg.words("foot strong" if i == 0 else "foot", x, self.place.bottom + 14 + 15 * i, word, 12))

    # -------------------------------------------------------------- messages

    def draw_messages(self):
        """Arrows of what was taken, each with its round at the end."""
        for row in self.place.rows:
            if row.done and row.first.taken:
                self.draw_message(row, row.first.taken)

    def draw_message(self, row, message):
        place, (x, y) = self.place, self.point(row)
        tag = f"r{message.round}" if message.round else "OUT"
        if message.sender in place.x:
            bus, begin = place.bus_x(message), place.bus[message][1]
            path = svg.route(place.x[message.sender] if message.line in place.row_of else None, begin, bus, y, x)
            at, anchor = (x + 13, "start") if bus > x else (x - 13 - place.channel(row.first.step.bench), "end")
        else:  # its sender is not in the picture
            path, at, anchor, tag = f"M{x - 30:.1f},{y:.1f}H{x - 3.5:.1f}", x - 13, "end", f"{tag} from {message.sender}"
        colour = f"tag f{message.round}" if message.round else "tag faded"
        self.add("arrows", svg.with_tip(self.tip(row.first), svg.arrow(path, message.round, 1.5 if place.pitch > 20 else 1.1),
                                        svg.words(colour, at, y - 2.5, tag, place.small - 0.5, text_anchor=anchor)))

    def draw_stubs(self):
        """Messages that nobody took, with those who did not take them."""
        place = self.place
        for row in place.rows:
            if row.stubs:
                x, y = self.point(row)
                x += 14
                for stub in row.stubs:
                    mark = (svg.lost_stub if stub.lost else svg.open_stub)(x + 4, y + place.small - 0.5)
                    tip = f"{shown.message_text(stub.message)}, sent in line {stub.message.line}, " + (
                        "was lost to " if stub.lost else "was never taken by ") + shown.benches_text(stub.receivers)
                    self.add("labels", svg.with_tip(tip, mark, svg.words("label faded", x + 11, y + place.small + 3, stub.words(), place.small)))
                    x += svg.text_width(stub.words(), place.small) + 24

    # -------------------------------------------------------------- marks and labels

    def draw_marks(self):
        for row in self.place.rows:
            if self.has_lane(row):
                (self.draw_done if row.done else self.draw_refused)(row)

    def draw_done(self, row):
        place, line = self.place, row.first
        (x, y), kind, label = self.point(row), kind_of(line), place.label(row)
        if line.step.kind == "notice" and line.step.sender in place.x:
            away = place.x[line.step.sender]
            self.add("threads", svg.with_tip(self.tip(line), svg.line("thread", away, y, x, y), svg.cross(away, y, 2.5, 1.4)))
        if kind != "arrive":
            self.add("marks", svg.with_tip(self.tip(line), mark_of(line, kind, x, y, place.letter)))
        if label:
            x += svg.decision_width(str(line.decided), place.letter) / 2 - 6 if kind == "decide" else 0
            colour = f"label f{line.sent.round}" if kind == "round" else "label"
            self.add("labels", svg.with_tip(self.tip(line), svg.words(colour, x + 12, y - 4, label, place.letter)))

    def draw_refused(self, row):
        """The refusal's number at the lane it was meant for, and who is awaited at a turn."""
        place, line = self.place, row.first
        x, y = self.point(row)
        awaited = [place.x[b] for b in line.why.benches if b in place.x] if line.answer == 11 else []
        if awaited:
            self.add("threads", svg.with_tip(self.tip(line), svg.line("awaits", min([x, *awaited]), y, max([x, *awaited]), y)))
        marks = [svg.awaited_mark(other, y, place.letter) for other in awaited]
        self.add("marks", svg.with_tip(self.tip(line), svg.refusal_mark(x, y, str(line.answer), place.letter - 1.5), *marks))
        self.add("labels", svg.words("label refused", x + 14, y - 4, place.label(row), place.small))

    # -------------------------------------------------------------- the frame

    def legend(self, top, width):
        """What the marks mean, of those that occur, flowing over the width: its markup, and where it ends."""
        x, y, made = MARGIN, top, []
        for words, length, mark in legend_entries(self):
            need = length + 8 + svg.text_width(words, 12, 0.53)
            if x > MARGIN and x + need > width:
                x, y = MARGIN, y + 24
            made += [mark(x, y), svg.words("key", x + length + 4, y + 4, words, 12)]
            x += need + 12
        return made, y + 20 if made else top - 20

    def draw(self, title, subtitle, empty, alone=True):
        """The whole picture as a text; `empty` is said if there is no row. If it is not alone, the page has its title and its style, and
        the left column is a picture of its own, to stay in sight."""
        place = self.place
        place.settle(0)  # for the width, in which the legend flows
        words = [svg.words("title", MARGIN, 44, title, 21), svg.words("subtitle", MARGIN, 64, subtitle, 12)] if alone else []
        width = max(place.right, MARGIN + svg.text_width(title, 21, 0.65), MARGIN + svg.text_width(subtitle, 12), LEAST_WIDTH)
        legend, end = self.legend(LEGEND_TOP if alone else 26, width)
        place.settle(end + 30)
        self.draw_source()
        for bench in place.benches:
            self.draw_lane(bench)
        self.draw_messages()
        self.draw_stubs()
        self.draw_marks()
        if not place.rows:
            self.add("frame", svg.words("strong", MARGIN, place.top, empty, 13))
        self.add("frame", *words, *legend)
        return self.document(title, width + MARGIN, place.bottom + 56, alone)

    def document(self, title, width, height, alone):
        """The layers, back to front, in one self-contained document."""
        width, height = round(width), round(height)
        paper, heads = svg.tag("rect", class_="paper", width=width, height=height), svg.arrow_heads(self.rounds, 10 if self.place.pitch > 20 else 7)
        if not alone:
            beside = svg.tag("rect", class_="paper", y=self.place.top, width=self.place.source_end + 14, height=self.place.bottom - self.place.top)
            return (self.sheet(width, height, heads, paper, *map(self.layer, LAYERS[:-1]), id="lanes")
                    + self.sheet(round(self.place.source_end + 14), height, beside, self.layer("column"), id="column"))
        style = svg.style(colours.LIGHT, colours.of_rounds(self.rounds, "light"))
        return self.sheet(width, height, svg.tag("title", svg.escape(title)), svg.tag("style", style), heads, paper, *map(self.layer, LAYERS))

    def layer(self, name):
        return svg.tag("g", *(markup + "\n" for markup in self.layers[name]), class_=name)

    def sheet(self, width, height, *content, **more):
        place = {"width": width, "height": height, "viewBox": f"0 0 {width} {height}"}
        return svg.tag("svg", *content, xmlns="http://www.w3.org/2000/svg", **place, **more) + "\n"


def lane_style(line):
    """How the lane goes on below this line; not at all if the bench is gone."""
    if line is None:
        return "fresh"
    kind = kind_of(line)
    return f"lane s{line.sent.round}" if kind == "round" else {"abstain": "abstained", "decide": "decided"}.get(kind)


def foot_words(place, bench):
    line = place.state_at(bench, place.last)
    if line is None:
        return ["fresh"]
    sent = [other.sent.round for other in place.run.lines[:place.last] if other.sent and other.sent.sender == bench]
    decided = [other.decided for other in place.run.lines[:place.last] if other.decided is not None and other.step.bench == bench]
    state = {"round": "running", "decide": "decided", "abstain": "abstained", "leave": "left", "fail": "failed"}[kind_of(line)]
    return [state, f"round {max(sent)}" if any(sent) else "no round"] + [f"value {value}" for value in decided]


def mark_of(line, kind, x, y, size):
    if kind == "round":
        return svg.round_mark(x, y, line.sent.round, size)
    if kind == "decide":
        return svg.decision_mark(x, y, str(line.decided), size)
    return {"abstain": svg.abstain_mark, "leave": svg.leave_mark, "fail": svg.fail_mark, "notice": svg.notice_mark}[kind](x, y)


def legend_entries(figure):
    """Words, width and sample of every kind of mark that occurs, in the order of the legend."""
    rows = figure.place.rows
    done = [row.first for row in rows if row.done]
    kinds = {kind_of(line) for line in done}
    taken = {line.taken.round > 0: line.taken.round for line in done if line.taken}
    stubs = {stub.lost for row in rows for stub in row.stubs}
    refused = [row.first for row in rows if not row.done and figure.has_lane(row)]
    shown_rounds = sorted({line.sent.round for line in done if line.sent and line.sent.round})

    def rounds_sample(x, y):
        return "".join(svg.round_mark(x + 8 + 18 * i, y, number, 12) for i, number in enumerate(shown_rounds[:24]))

    def sample(number):
        return lambda x, y: svg.arrow(f"M{x:.1f},{y:.1f}H{x + 30:.1f}", number, 1.5)

    entries = (
        ("round" in kinds, "starts or goes on to this round: r round, v value, {world}", 18 * min(24, len(shown_rounds)), rounds_sample),
        ("decide" in kinds, "decides this value", 24, lambda x, y: svg.decision_mark(x + 12, y, "9", 12)),
        ("abstain" in kinds, "abstains", 14, lambda x, y: svg.abstain_mark(x + 7, y)),
        ("leave" in kinds, "leaves", 14, lambda x, y: svg.leave_mark(x + 7, y)),
        ("fail" in kinds, "fails", 14, lambda x, y: svg.fail_mark(x + 7, y)),
        ("notice" in kinds, "notices a failure", 14, lambda x, y: svg.notice_mark(x + 7, y)),
        (True in taken, "round message, taken", 32, sample(taken.get(True))),
        (False in taken, "OUT, taken", 32, sample(0)),
        (False in stubs, "nobody took it", 18, lambda x, y: svg.open_stub(x + 12, y + 3)),
        (True in stubs, "lost to a notice", 18, lambda x, y: svg.lost_stub(x + 12, y + 3)),
        (bool(refused), "refused with this number", 20, lambda x, y: svg.refusal_mark(x + 10, y, "11", 10.5)),
        (any(line.answer == 11 for line in refused), "awaited there", 16, lambda x, y: svg.awaited_mark(x + 8, y, 12)),
    )
    return [(words, width, mark) for occurs, words, width, mark in entries if occurs]
