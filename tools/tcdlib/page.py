"""The parts of the page that view.py writes. All that comes from a file is escaped here.

Each part is a list of lines of HTML. Ids: `f3` is frame 3 of the report, `a80000000` an address of
the listing.
"""
import collections
import html
import re

from tcdlib import drawings
from tcdlib import frames
from tcdlib.sources import shown

UPPER_HALF = re.compile(r"(movh|movh\.a|addih|addih\.a) (.*, )(-?\d+)")
#: above so many frames only those of the chain are drawn, and the tables have a filter
MANY = 100
COLOURS = 8
#: how near a label has to be to name an address that code builds
NEAR = 256
BEFORE, AFTER = 8, 4
CODE_WIDTH = 26
#: the least share of the bar that a digit needs
DIGIT = 0.027
PROOF = "This page is a picture: what is proved is what `tcd {}` prints, for what the plan states."
EACH_HEAD = (
    "<h2 id=each>Each frame</h2><p class=note>The points of each frame, with where they go on if "
    "that isn't the next line, and the interrupts that may come, at the lines where they change."
    "</p>"
)
RING_HEAD = (
    "<h2 id=ring>The loop of frames</h2><p class=note>Each turn takes these areas again. It is "
    "read from the listing alone: a branch that is never taken may be in it.</p>"
)
#: how a frame enters the next one of a ring
ENTERING = {"call": "calls", "irq": "is interrupted by", "sys": "makes a", "aln": "makes a"}


def esc(text):
    """A text from a file as HTML shows it, without control characters."""
    return html.escape(shown(text))


def table_head(*names):
    """The head of a table."""
    return f"<thead><tr>{''.join(f'<th scope=col>{name}' for name in names)}<tbody>"


class Page:
    """Names, links and parts of one page. `graph` is None as long as nothing is certified."""

    def __init__(self, known, listing):
        self.known, self.listing, self.graph = known, listing, None
        self.marked, self.colours = set(), {}
        #: whether the page has the part "Each frame", to which names of frames link
        self.has_frames = False
        #: what the areas are that the longest chain doesn't take
        self.rest = "never used"

    # Names and links

    def name(self, address, key=None):
        """The name of an address, of a frame: a label, and the distance to it."""
        return self.known.name(int(address, 16), key and int(key.entry, 16))

    def place(self, address):
        """The file and line of an address, or an empty text."""
        return self.known.place(int(address, 16))

    def labels(self, address):
        """The labels at an address."""
        return self.known.at.get(int(address, 16), [])

    def frame_name(self, key):
        """What a reader calls a frame, within its priority."""
        if key.kind == "irq":
            return f"interrupt {key.prio}"
        if key.kind == "start":
            return f"{self.name(key.entry)} (start)"
        traps = {"sys": "system call", "aln": "misaligned access"}
        return traps.get(key.kind) or self.name(key.entry)

    def to_frame(self, frame):
        """A link to a frame, or to its code if the page has no part on frames."""
        name = self.frame_name(frame.key)
        if not self.has_frames:
            return self.to_code(frame.key.entry, name)
        return f'<a href=#{frame.place} title="{esc(str(frame.key))}">{esc(name)}</a>'

    def to_code(self, address, text=None):
        """A link to an address of the listing; text alone if the listing hasn't got it."""
        text = esc(text or address)
        return f"<a href=#a{address}>{text}</a>" if address in self.listing.texts else text

    def where(self, address, key=None):
        """An address, of a frame, as a link with its name, file and line."""
        file = self.place(address)
        small = f" <small>{esc(file)}</small>" if file else ""
        return self.to_code(address, self.name(address, key)) + small

    def code(self, at, linked=True):
        """An instruction with its target by name, and halves of addresses in hex digits."""
        text = self.listing.texts.get(at, "")
        if found := UPPER_HALF.fullmatch(text):
            return esc(f"{found[1]} {found[2]}0x{int(found[3]) & 0xFFFF:X}")
        target = self.listing.target(at)
        if not target:
            return esc(text)
        name = self.name(target) if self.known else target
        shown = self.to_code(target, name) if linked else esc(name)
        return esc(text[: frames.TARGET.search(text).start()]) + shown

    def padded(self, at):
        """An instruction of a frame's list, its targets as they are aligned with the others'."""
        text = self.code(at, False)
        return f"<code>{text}</code>" + " " * max(0, CODE_WIDTH - len(html.unescape(text)))

    # The number and the longest chain

    def headline(self, command="check", by=""):
        """The number of a certificate, the command that proves it, and whose areas these are."""
        graph = self.graph
        number = f"<b>{graph.certified}</b> of {graph.usable} areas are in use at most {esc(by)}"
        reserve = f"{graph.areas} areas, {graph.reserve} of them the reserve."
        return [
            f"<p class=head>{number.strip()}</p>",
            self.note(f"{reserve} {PROOF.format(command)}"),
        ]

    def chain(self):
        """The bar by priority and the ladder; and the frames of the longest chain."""
        chain, last, held = self.graph.deepest()
        rows, shares = self.ladder(chain, last, held)
        used = rows[-1][0] if rows else 0
        self.colours = {who: number % COLOURS for number, who in enumerate(shares)}
        out = [*self.bar(shares, used), "<h2 id=chain>The longest chain</h2>"]
        out += self.ladder_table(rows) if rows else ["<p>No area is ever used.</p>"]
        if used < self.graph.certified:
            out.append(
                f"<p>This chain uses {used}: the certificate's number is more than its frames "
                "need.</p>"
            )
        return out, [step.frame for step in chain] + [last]

    def ladder(self, chain, last, held):
        """A row for each area of the chain: how many are in use, who uses it, what is entered, by
        what, the point and its frame. And how many each priority uses."""
        rows, shares = [], collections.OrderedDict()
        for step in chain:
            rows += self.saves(step.frame, step.saved, len(rows))
            how = "interrupt" if step.way == "irq" else "call" if step.way == "call" else ""
            how = how or f"<code>{self.code(step.point)}</code>"
            into = self.to_frame(step.into)
            rows.append((len(rows) + 1, step.into.who, into, how, step.point, step.frame.key))
        rows += self.saves(last, held, len(rows))
        for _, who, *_ in rows:
            shares[who] = shares.get(who, 0) + 1
        return rows, shares

    def saves(self, frame, count, used):
        """Rows for the lower contexts that a frame saves itself."""
        rows = []
        for held in range(count):
            points = [
                point
                for point, saved in frame.saved.items()
                if saved == held and frames.SAVES.get(self.listing.word(point), 0) > 0
            ]
            point = points[0] if points else None
            how = f"<code>{self.code(point)}</code>" if point else ""
            what = "<small>its lower context</small>"
            rows.append((used + held + 1, frame.who, what, how, point, frame.key))
        return rows

    def bar(self, shares, used):
        """The areas by priority, side by side, and what the colours mean."""
        usable = max(self.graph.usable, used)
        said = ", ".join(f"{who} {n}" for who, n in shares.items())
        label = esc(f"Areas of the longest chain: {said}; of {self.graph.usable} that there are")
        out = [f'<div class=stack role=img aria-label="{label}">']
        parts = [(who, f"p{self.colours[who]}", n) for who, n in shares.items()]
        if self.graph.usable > used:
            parts.append((self.rest, "free", self.graph.usable - used))
        for who, look, n in parts:
            number = n if n / usable >= DIGIT * len(str(n)) else ""
            title = f'title="{esc(who)}: {n}"'
            out.append(f'<span class={look} style="flex:{n}" {title}>{number}</span>')
        out.append("</div><ul class=legend>")
        out += [f"<li><i class={look}></i>{esc(who)} <b>{n}</b></li>" for who, look, n in parts]
        return [*out, "</ul>"]

    def ladder_table(self, rows):
        """The ladder, with the row marked from which on no area is left."""
        head = table_head("in use", "enters", "by", "from")
        caption = "<caption>Entry by entry, how the areas come into use.</caption>"
        out = [f"<table class=ladder>{caption}{head}"]
        for number, who, into, how, point, key in rows:
            where = self.where(point, key) if point else ""
            row = f"<td><b>{number}</b><td>{into}<td>{how}<td>{where}"
            look = f"p{self.colours[who]}"
            if number == self.graph.usable + 1:
                out.append("<tr class=end><td colspan=4>From here on no area is left.")
            if number > self.graph.usable:
                look = f"'{look} over'"
            out.append(f"<tr class={look}>{row}")
        return [*out, "</table>"]

    # The frames

    def tables(self):
        """The frames by priority."""
        is_many = len(self.graph.frames) > MANY
        out = ["<h2 id=frames>Frames by priority</h2>"]
        if is_many:
            out.append(
                "<p class=find><label>Show frames with <input id=find type=search "
                "placeholder='a name or an address'></label> <span id=shown></span></p>"
            )
        out.append(f"<div class={'many' if is_many else 'few'}>")
        groups = collections.defaultdict(list)
        for frame in self.graph.frames.values():
            groups[frame.key.prio].append(frame)
        for _, group in sorted(groups.items()):
            out += self.table(group)
        out.append("</div>")
        if is_many:
            out.append("<p class=printed>The tables of frames are left out in print.</p>")
        return out

    def table(self, group):
        """The frames of one priority, those that need the most first."""
        prio, who = group[0].key.prio, group[0].who
        longest = {row["prio"]: row["longest"] for row in self.graph.report.get("calls", [])}
        look = f" class=p{self.colours[who]}" if who in self.colours else ""
        frames_are = f"{len(group)} frame" + "s" * (len(group) > 1)
        caption = f"<b>{who.capitalize()}</b> {frames_are}, the longest call "
        caption += f"chain&nbsp;{longest.get(prio, 0)}"
        head = table_head("frame", "areas from here on", "points")
        out = [f"<table class=frames><caption>{caption}</caption>{head}"]
        for frame in sorted(group, key=lambda frame: (-frame.need, frame.key.entry)):
            share = frame.need / max(self.graph.certified, 1)
            out.append(
                f"<tr><td>{self.to_frame(frame)} <small>{frame.key.kind} {frame.key.entry}"
                f"</small><td><i{look} style='--share:{share:.3f}'></i>{frame.need}"
                f"<td>{frame.points}"
            )
        return [*out, "</table>"]

    def each(self, chain):
        """Each frame: its drawing, and its points with their ways."""
        out, all_frames = [EACH_HEAD], self.graph.frames.values()
        svgs = drawings.drawn(self, chain if len(all_frames) > MANY else all_frames)
        for frame in all_frames:
            out.append(
                f"<details id={frame.place}><summary>{esc(self.frame_name(frame.key))} "
                f"<small>{esc(str(frame.key))}</small> needs {frame.need}</summary>"
            )
            if frame.key in svgs:
                out.append(f"<div class=drawn>{svgs[frame.key]}</div>")
            out.append("<pre>" + "\n".join(self.points(frame)) + "</pre></details>")
        return out

    def points(self, frame):
        """The frame's points. Interrupts are told where they change, and a way to the next point
        of the list isn't told."""
        lines, before, following = [], "", dict(zip(frame.ways, [*frame.ways][1:]))
        for point, ways in frame.ways.items():
            told = [
                self.way(frame, way, to)
                for way, to in ways
                if way != "irq" and (way not in ("to", "back") or to != following.get(point))
            ]
            irqs = self.interrupts(ways)
            if irqs != before:
                told.append(f"<small>irq {irqs or 'none'}</small>")
            before = irqs
            lines.append(f"{self.to_code(point)}  {self.padded(point)} {' '.join(told)}".rstrip())
        return lines

    def interrupts(self, ways):
        """The priorities of the interrupts that may come at a point."""
        handlers = (each for way, to in ways if way == "irq" for each in self.graph.handlers[to])
        return " ".join(dict.fromkeys(str(handler.key.prio) for handler in handlers))

    def way(self, frame, way, to):
        """A way out of a point."""
        if way in frames.ENTRIES and (into := self.graph.entered(frame, way, to)):
            return f"{way} {self.to_frame(into)}"
        return f"{way} {self.to_code(to, self.name(to))}" if to else way

    # The listing

    def code_lines(self, lines):
        """Lines of the listing, with their labels."""
        built, out = frames.built_addresses(lines), []
        for text, at, code in lines:
            look = " class=refused" if at in self.marked else ""
            out += self.label_lines(at)
            note = f"  <small>{self.address_note(built[at])}</small>" if at in built else ""
            out.append(f"<span id=a{at}{look}>{at}  {code:<9} {self.code(at)}{note}</span>")
        return out

    def label_lines(self, at):
        """The labels at an address, each a line of the listing."""
        file = self.place(at)
        small = f" <small>{esc(file)}</small>" if file else ""
        return [f"<b>{esc(label)}:</b>{small}" for label in self.labels(at)]

    def address_note(self, address):
        """An address, with the name of what lies there."""
        label = self.known.label(address)
        name = esc(self.known.name(address)) if label and label[1] < NEAR else ""
        return f"{address:08X} {name}".rstrip()

    def listed(self):
        """The listing."""
        out = ["<h2 id=listing>Listing</h2>"]
        for at, lines in self.listing.sections:
            out.append(f"<h3>From {at}</h3><pre class=code>")
            out.append("\n".join(self.code_lines(lines)) + "</pre>")
        return out

    def near(self, address, before=BEFORE, after=AFTER):
        """The lines of the listing around an address."""
        lines = self.listing.around(address, before, after)
        if not lines:
            return "<p>The executable has no bytes at this address.</p>"
        out = []
        for _, at, _ in lines:
            look = " class=refused" if at == address else ""
            out += [f"<b>{esc(label)}:</b>" for label in self.labels(at)]
            out.append(f"<span{look}>{self.to_code(at)}  {self.code(at)}</span>")
        return "<pre class=code>" + "\n".join(out) + "</pre>"

    # A refusal

    def note(self, text):
        """A paragraph, in which what is between backquotes is code."""
        return f"<p class=note>{self.prose(text)}</p>"

    def refusal(self, line, found, note):
        """What stands against a certificate, and what people change."""
        out = [f"<p class='head bad'>{self.bad_headline(found)}</p>"]
        out.append(f"<p><code>{esc(line)}</code></p>")
        if found:
            place = found["function"] or found["address"] or ""
            file = f" <small>{esc(found['file'])}:{found['line']}</small>" if found["file"] else ""
            frame = f" in {esc(found['frame'])}" if found["frame"] else ""
            what = self.prose(found["message"])
            out.append(f"<p>At <b>{esc(place)}</b>{file}{frame}: {what}.</p>")
            if found["change"]:
                out.append(f"<p><b>What people change:</b> {self.prose(found['change'])}.</p>")
        return [*out, self.note(note)]

    def origins(self, notes):
        """The instructions from which the address of an access or a call comes."""
        out = ["<p>Where the address comes from:</p><ul>"]
        for note in notes:
            message = self.prose(note["message"])
            out.append(f"<li>{message}, at {self.where(note['address'])}</li>")
        return [*out, "</ul>"]

    def bad_headline(self, found):
        """The headline of a refusal: the number of areas, if that is the cause."""
        if found and found["needed"] and self.graph:
            return f"<b>{found['needed']}</b> areas are needed, there are {self.graph.usable}"
        return "No certificate"

    def refused_code(self, address):
        """The code around the address of a refusal, which is marked in the listing too."""
        self.marked.add(address)
        return self.near(address)

    @staticmethod
    def prose(text):
        """A sentence of meanings.py: what stands between backquotes is code."""
        return re.sub(r"`([^`]*)`", r"<code>\1</code>", esc(text))

    def ring(self, ring):
        """The frames by which a frame leads back to itself, each with the code that enters it."""
        out = [RING_HEAD, "<ol class=ring>"]
        for step in ring.steps:
            self.marked.add(step.point)
            at = self.where(step.point, step.frame)
            out.append(
                f"<li><p><b>{esc(self.long_name(step.frame))}</b> {ENTERING[step.way]} "
                f"<b>{esc(self.long_name(step.into))}</b>, at {at}</p>"
                f"{self.near(step.point, 2, 1)}</li>"
            )
        first = esc(self.long_name(ring.steps[0].frame))
        out.append(f"</ol><p class=again>and again from <b>{first}</b></p>")
        if ring.lowering:
            self.marked.add(ring.lowering)
            out.append(
                "<p>A handler lowers the priority below its own at "
                f"{self.where(ring.lowering)}:</p>{self.near(ring.lowering, 2, 2)}"
            )
        return out

    def long_name(self, key):
        """A frame's name with its priority."""
        name = self.frame_name(key)
        return name if key.kind == "irq" or not key.prio else f"{name} in interrupt {key.prio}"
