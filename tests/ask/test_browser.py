"""Pages with a picture in a browser: what is marked, zoom, search, lanes, labels, and how smooth they are.

With PICTURES=FOLDER in the environment the pictures that are taken are kept there, to be looked at.
"""

import json
import os
import tempfile
import unittest
from pathlib import Path

from browser import Browser, browser_path
from common import ROOT, asked

SIZES = ((1280, 800), (420, 800))  # of the window: wide and narrow
GROUPS = {6: 1, 144: 36, 1024: 256}  # groups of four rows of each log, by its rows
FORMULA = "G (web.asked -> F[0,40] app.done)"
LONG_NAME = "a_log_with_a_very_long_name_" * 7
RED = (179, 38, 30)  # the line at which a formula fails
MOST_MILLISECONDS = 50  # of a frame while the picture is dragged
MOST_OF_WORK = 25  # milliseconds of the page's own thread for a frame
TRIES = 6  # since other programs may have the processor for a while
FOLLOW = """(() => {
  window.seen = []; window.follows = true;
  const follow = now => { seen.push(now); if (follows) requestAnimationFrame(follow); };
  requestAnimationFrame(follow);
})()"""
OVERLAPS = """(() => {
  const words = document.querySelectorAll(".label, .shift, .flag, .number, .ticks text");
  const boxes = [...words].filter(text => !text.classList.contains("off") && getComputedStyle(text).display !== "none")
    .map(text => [text.textContent, text.getBoundingClientRect()]).filter(([, box]) => box.width > 0);
  const found = [];
  boxes.forEach(([words, one], place) => {
    for (const [others, other] of boxes.slice(0, place))
      if (one.left < other.right - 1 && other.left < one.right - 1 && one.top < other.bottom - 3 && other.top < one.bottom - 3)
        found.push(`${words} over ${others}`);
  });
  return {shown: boxes.length, found};
})()"""


def late_moment(rows):
    """When the request begins that is answered too late."""
    return 100 * (GROUPS[rows] * 2 // 3)


def log_of(rows):
    """A log of requests that a message hands on, each answered within 40 by the clocks, but for one."""
    text = "kind,host,time,name\nhost,web,1,0\nhost,app,1,0\n"
    for group in range(GROUPS[rows]):
        begin = 100 * group
        answered = begin + (70 if begin == late_moment(rows) else 30)
        text += f"set,web,{begin},asked\nclear,web,{begin + 10},asked\n"
        text += f"set,app,{answered},done\nclear,app,{answered + 10},done\n"
    more = ("send,web", "recv,app")[: rows - 4 * GROUPS[rows]]
    return text + "".join(f"{kind},{100 * GROUPS[rows]},last\n" for kind in more)


def many_lanes():
    """A log of 1,024 rows and eight hosts, with messages between them."""
    text = "kind,host,time,name\n" + "".join(f"host,h{host},3,0\n" for host in range(8))
    for row in range(1024):
        host, kind, name = row % 8, ("set", "clear", "note")[row % 3], "pn"[row % 3 == 2]
        if row % 8 == 6:
            kind, name = "send", f"m{row}"
        if row % 8 == 7:
            kind, name = "recv", f"m{row - 1}"
        text += f"{kind},h{host},{1700000000000 + 10 * row},{name}\n"
    return text


class Folder:
    """A folder with the pages of logs."""

    def __init__(self):
        self.folder = tempfile.TemporaryDirectory()
        self.path = Path(self.folder.name)
        self.pages = {}

    def page(self, name, text, *words):
        """The page of a log, which is made once."""
        if (name, words) not in self.pages:
            (self.path / name).write_text(text)
            ended, page, said = asked(["draw", name, *words], self.path)
            assert ended == 0, said
            made = self.path / f"{len(self.pages)}.html"
            made.write_text(page)
            self.pages[name, words] = made
        return self.pages[name, words]


@unittest.skipUnless(browser_path(), "for want of the package chromium")
class InBrowser(unittest.TestCase):
    """Cases that share a browser and pages."""

    @classmethod
    def setUpClass(cls):
        cls.folder = Folder()
        cls.addClassCleanup(cls.folder.folder.cleanup)
        try:
            cls.browser = Browser(*SIZES[0])
        except (OSError, RuntimeError) as error:
            raise unittest.SkipTest(f"chromium doesn't start here: {error}") from None
        cls.addClassCleanup(cls.browser.__exit__)

    def tearDown(self):
        self.assertEqual(self.browser.faults, [])

    def value(self, expression):
        return self.browser.value(expression)

    def show(self, rows, size=SIZES[0]):
        """Shows the page of a log with a formula that is false by every timing."""
        self.show_page(self.folder.page(f"log{rows}", log_of(rows), "--formula", FORMULA), size)

    def show_page(self, page, size=SIZES[0]):
        self.browser.resize(*size)
        self.browser.load(page)
        self.browser.rest()

    def middle_of_plot(self):
        """A point in the first lane, away from its rows."""
        first, top, *_ = self.browser.box("svg.panel")
        return round(first + self.value("left + width / 2")), round(top) + 75

    def row_point(self, row):
        """Where a row is in the window."""
        return self.value(f"""(() => {{
          const part = marksOf[{row}][0], box = part.panel.svg.getBoundingClientRect();
          return [box.left + local(part.x) + shift(), box.top + part.panel.tops[part.lane] + middle];
        }})()""")

    def shown_rows(self):
        """The numbers of the entries of the list that are shown."""
        return self.value("entries.filter(entry => entry.offsetParent).map(entry => Number(entry.dataset.row))")

    def keep(self, name):
        """Keeps a picture of the window where that is wanted."""
        if os.environ.get("PICTURES"):
            self.browser.keep(Path(os.environ["PICTURES"], f"{name}.png"))


class Marks(InBrowser):
    """What decides the formula is marked, and the page opens there."""

    def test_opens_at_the_moment(self):
        for rows in GROUPS:
            for size in SIZES:
                with self.subTest(rows=rows, size=size):
                    self.show(rows, size)
                    self.assertEqual(self.value("facts.rows.length"), rows)
                    first, top, last, bottom = self.browser.box(".moment line")
                    begin, _, end, _ = self.browser.box(".view")
                    self.assertTrue(begin <= first and last <= end)
                    lanes = self.value("""[...document.querySelectorAll(".head .lane")]
                      .map(lane => lane.getBoundingClientRect()).map(box => [box.top, box.bottom])""")
                    self.assertTrue(all(top <= above and below <= bottom for above, below in lanes))
                    words = self.value("document.querySelector('.flag').textContent")
                    self.assertEqual(words, f"fails at {late_moment(rows)}")
                    self.assertLess(self.value("plot / zoom / plot * facts.rows.length"), 64)  # rows, were they even

    def test_the_line_is_painted(self):
        for rows in GROUPS:
            for size in SIZES:
                with self.subTest(rows=rows, size=size):
                    self.show(rows, size)
                    self.keep(f"{rows}_rows_{size[0]}")
                    first, top, last, bottom = map(int, self.browser.box(".moment line"))
                    picture = self.browser.picture(first - 3, top + 3, last + 4, min(bottom, size[1]) - 3)
                    painted = [y for y in range(picture.tall) if any(picture.at(x, y) == RED for x in range(picture.wide))]
                    self.assertGreater(picture.tall, 100)
                    self.assertGreater(len(painted), picture.tall * 0.6)  # the rest is under rows and labels

    def test_rows_are_coloured(self):
        self.show(144)
        colours = self.value("[...document.querySelectorAll('.named .row')].map(row => getComputedStyle(row).fill)")
        self.assertGreater(len(colours), 1)
        self.assertEqual(set(colours), {f"rgb{RED}"})
        lines = self.value("[...document.querySelectorAll('#rows .named .line')].map(line => line.textContent)")
        self.assertIn(str(4 + 4 * (late_moment(144) // 100)), lines)
        self.assertEqual(len(lines), len(colours))
        entry, rows = self.browser.box("#rows .named"), self.browser.box("#rows")
        self.assertTrue(rows[1] <= entry[1] and entry[3] <= rows[3], "the list shows the first of them")
        self.assertEqual(self.value("document.querySelectorAll('.ring').length"), 1)

    def test_the_caption_is_that_of_check(self):
        _, text, _ = asked(["check", FORMULA, "log144", "--json"], self.folder.path)
        said = [f"{reason}." for reason in json.loads(text)["reasons"]["false"]]
        self.show(144)
        self.assertEqual(self.value("[...document.querySelectorAll('.caption li')].map(line => line.textContent)"), said)
        self.assertEqual(self.value("document.querySelector('.why').textContent"), "Why it is false there:")

    def test_no_moment(self):
        page = self.folder.page("log144", log_of(144), "--formula", "G (web.asked -> F[0,90] app.done)")
        self.show_page(page)
        self.assertEqual(self.value("[zoom, document.querySelectorAll('.moment').length]"), [1, 0])
        caption = self.value("document.querySelector('.caption').textContent")
        self.assertIn("No single moment makes it true, so none is marked.", caption)

    def test_back_to_the_moment(self):
        self.show(1024)
        opened = self.value("[zoom, moved]")
        self.browser.key("0")
        self.assertEqual(self.value("zoom"), 1)
        self.browser.press("[data-act=marked]")
        self.assertEqual(self.value("[zoom, moved]"), opened)
        self.browser.key("0")
        self.browser.press(".caption button")
        self.assertEqual(self.value("[zoom, moved]"), opened)

    def test_opens_with_the_panel_that_is_marked(self):
        hosts = "".join(f"host,h{host},5,0\n" for host in range(12))
        rows = "".join(f"set,h{host},{20 * host},p\nclear,h{host},{20 * host + 15},p\n" for host in range(12))
        page = self.folder.page("either", f"kind,host,time,name\n{hosts}{rows}", "--formula", "G !(h3.p & h4.p)")
        for size in SIZES:
            with self.subTest(size=size):
                self.show_page(page, size)
                self.assertEqual(self.value("panels.length"), 2)
                self.keep(f"either_{size[0]}")
                top = self.browser.box("#tools")[3]
                flag = self.browser.box(".flag")
                self.assertTrue(top <= flag[1] and flag[3] <= size[1], "the flag is in view")
                self.value("scrollTo(0, 0)")
                self.browser.key("m")
                self.assertTrue(top <= self.browser.box(".flag")[1] <= size[1], "and it is again")

    def test_a_contradiction_is_opened(self):
        text = log_of(1024).replace("host,web,1,0", "host,web,1,50")  # so far apart its rows can't be
        self.show_page(self.folder.page("contradicting", text))
        self.assertGreater(self.value("zoom"), 20)
        first, _, last, _ = self.browser.box(".step")
        begin, _, end, _ = self.browser.box(".view")
        self.assertTrue(begin <= first and last <= end)


class Moving(InBrowser):
    """The wheel, dragging, keys and the strip."""

    def test_wheel_and_drag(self):
        for size in SIZES:
            with self.subTest(size=size):
                self.show(1024, size)
                self.assertLessEqual(self.value("page.scrollWidth"), self.value("innerWidth"))
                self.browser.key("0")
                x, y = self.middle_of_plot()
                place = self.value(f"placeAt({x})")
                for _ in range(12):
                    self.browser.wheel(x, y, -120)
                self.assertGreater(self.value("zoom"), 8)
                self.assertAlmostEqual(self.value(f"placeAt({x})"), place, delta=0.5)
                before = self.value("moved")
                self.browser.drag((x, y), (x - 80, y))
                self.assertAlmostEqual(self.value(f"(moved - {before}) * width / plot"), 80, delta=1)
                self.assertEqual(self.value("String(getSelection())"), "")
                zoom = self.value("zoom")
                self.browser.wheel(20, y, 120)
                self.assertEqual(self.value("zoom"), zoom)
                self.value("scrollTo(0, 0)")

    def test_what_is_drawn_is_in_view_or_near(self):
        self.show(1024)
        drawn = "document.querySelector('.dots path').getAttribute('d').split('M').length - 1"
        self.assertLess(self.value(drawn), 200)
        self.browser.key("0")
        self.assertGreater(self.value(drawn), 200)
        x, y = self.middle_of_plot()
        for _ in range(20):
            self.browser.wheel(x, y, -120)
        for _ in range(5):  # farther than what was drawn at first
            self.browser.drag((x + 300, y), (x - 300, y))
            expected = self.value("""panels[0].rows.filter(row => row.lane === 0 && !row.isNamed)
              .map(row => local(row.x) + shift()).filter(x => x > left + 5 && x < left + width - 5).map(Math.round)""")
            dots = self.value("""document.querySelector(".dots path").getAttribute("d").split("M").slice(1)
              .map(dot => Math.round(parseFloat(dot) + 4 + shift()))""")
            self.assertTrue(expected)
            self.assertEqual([x for x in expected if not {x - 1, x, x + 1} & set(dots)], [])

    def test_keys(self):
        self.show(1024)
        self.browser.key("0")
        self.browser.key("+")
        self.assertAlmostEqual(self.value("zoom"), 1.5)
        self.browser.key("ArrowRight")
        moved = self.value("moved")
        self.browser.key("ArrowLeft")
        self.assertLess(self.value("moved"), moved)
        self.browser.key("-")
        self.assertAlmostEqual(self.value("zoom"), 1)
        self.browser.key("m")
        self.assertGreater(self.value("zoom"), 8)
        self.browser.key("/")
        self.assertEqual(self.value("document.activeElement.id"), "search")
        zoom = self.value("zoom")
        self.browser.type("0-")
        self.assertEqual(self.value("[zoom, search.value]"), [zoom, "0-"])

    def test_double_click(self):
        self.show(1024)
        x, y = self.middle_of_plot()
        self.browser.mouse("mousePressed", x, y, button="left", buttons=1, clickCount=2)
        self.browser.mouse("mouseReleased", x, y, button="left", buttons=0, clickCount=2)
        self.browser.settle()
        self.assertEqual(self.value("zoom"), 1)

    def test_strip(self):
        self.show(1024)
        first, top, last, bottom = self.browser.box(".window")
        whole, shown = self.value("width"), self.value("width / zoom")
        self.assertAlmostEqual(last - first, max(shown, 3) + 6 * (shown < 6), delta=6)
        x, y = self.value("left + width / 4"), (top + bottom) / 2
        self.browser.click(x, y)
        self.assertAlmostEqual(self.value("(moved + plot / 2) / zoom / plot"), 0.25, delta=0.01)
        self.browser.drag((x, y), (x + whole / 4, y))
        self.assertAlmostEqual(self.value("(moved + plot / 2) / zoom / plot"), 0.5, delta=0.01)
        self.browser.key("0")
        self.browser.drag((self.value("left"), y), (self.value("left + width / 2"), y))
        self.assertAlmostEqual(self.value("zoom"), 2, delta=0.05)
        self.assertAlmostEqual(self.value("(moved + plot) / zoom / plot"), 1, delta=0.01)

    def test_smooth(self):
        page = self.folder.page("lanes", many_lanes())
        for name, show in (("requests", lambda: self.show(1024)), ("lanes", lambda: self.show_page(page))):
            for zoom in (1.3, 12):
                with self.subTest(page=name, zoom=zoom):
                    show()
                    self.value(f"showFrom(plot / 2 - plot / {zoom} / 2, {zoom})")
                    self.browser.rest(800)
                    self.refuse_slow(name, zoom)

    def refuse_slow(self, name, zoom):
        """Fails where no try has frames as short as they have to be, or as those of the page at rest."""
        tries = []
        for _ in range(TRIES):
            at_rest = max(self.frames(lambda: self.browser.rest(500)))
            before = self.work()
            frames = self.frames(self.drag_about)
            each = (self.work() - before) / len(frames)
            tries.append((max(frames), at_rest, each))
            if max(frames) <= max(MOST_MILLISECONDS, 2 * at_rest) and each <= MOST_OF_WORK:
                break
        else:
            self.fail(f"each try: the longest frame, the longest at rest, and the page's own work, in milliseconds: {tries}")
        if os.environ.get("PICTURES"):
            said = f"{len(frames)} frames, the longest {max(frames):.1f} ms, at rest {at_rest:.1f} ms, work {each:.1f} ms"
            print(f"{name}, zoom {zoom}: {said}")

    def drag_about(self):
        """Drags the picture from side to side for some seconds."""
        x, y = self.middle_of_plot()
        self.browser.mouse("mousePressed", x, y, button="left", buttons=1, clickCount=1)
        for step in [*range(0, 350, 25), *range(350, -350, -25), *range(-350, 0, 25)] * 2:
            self.browser.mouse("mouseMoved", x + step, y, button="left", buttons=1)
        self.browser.mouse("mouseReleased", x, y, button="left", buttons=0, clickCount=1)

    def frames(self, meanwhile):
        """The milliseconds of each frame while something is done."""
        self.value(FOLLOW)
        meanwhile()
        times = self.value("follows = false, seen")
        return [after - before for before, after in zip(times, times[1:])]

    def work(self):
        """The milliseconds that the page's own thread has worked."""
        self.browser.ask("Performance.enable", timeDomain="threadTicks")
        metrics = self.browser.ask("Performance.getMetrics")["metrics"]
        return 1000 * next(metric["value"] for metric in metrics if metric["name"] == "TaskDuration")


class Labels(InBrowser):
    """Labels never overlap, and titles wrap."""

    def test_labels_never_overlap(self):
        pages = {rows: self.folder.page(f"log{rows}", log_of(rows), "--formula", FORMULA) for rows in GROUPS}
        pages["lanes"] = self.folder.page("lanes", many_lanes())
        for name, page in pages.items():
            for size in SIZES:
                self.show_page(page, size)
                self.browser.key("0")
                x, y = self.middle_of_plot()
                for turn in range(14):
                    with self.subTest(page=name, size=size, turn=turn):
                        found = self.value(OVERLAPS)
                        self.assertEqual(found["found"], [])
                        self.assertGreater(found["shown"], 4)
                    self.browser.wheel(x, y, -240)

    def test_labels_come_with_the_zoom(self):
        self.show(1024)
        labels = "panels[0].rows.filter(row => row.label.isConnected).length"
        drawn = "panels[0].rows.filter(row => row.x * zoom > placed.low && row.x * zoom < placed.high).length"
        self.assertGreater(self.value(f"{labels} / {drawn}"), 0.9)
        self.browser.key("0")
        self.assertEqual(self.value(drawn), 1024)
        self.assertLess(self.value(f"{labels} / {drawn}"), 0.3)

    def test_titles_wrap(self):
        formula = FORMULA[:-1] + " | " + " | ".join(f"F[0,{bound}] app.done" for bound in range(1, 30)) + ")"
        page = self.folder.page(LONG_NAME, log_of(144), "--formula", formula)
        for size in SIZES:
            with self.subTest(size=size):
                self.show_page(page, size)
                self.keep(f"long_titles_{size[0]}")
                self.assertLessEqual(self.value("page.scrollWidth"), size[0])
                for selector in ("h1", ".caption li"):
                    first, top, last, bottom = self.browser.box(selector)
                    self.assertTrue(0 <= first and last <= size[0])
                    self.assertGreaterEqual(bottom - top, 30)  # two lines at least

    def test_hostile_names(self):
        name = "<img src=x onerror=hacked=1> \"' & <script>hacked=1<:script>\u202e.csv"
        page = self.folder.page(name, log_of(6), "--formula", FORMULA)
        self.show_page(page)
        self.assertIsNone(self.value("window.hacked"))
        title = self.value("document.querySelector('h1').textContent")
        self.assertIn("<img src=x onerror=hacked=1> \"' & <script>hacked=1<:script>\\u202e.csv", title)
        self.assertEqual(self.value("document.querySelectorAll('img').length"), 0)


class Rows(InBrowser):
    """The search, the list, and the row that is pointed at."""

    def test_search(self):
        self.show(1024)
        self.browser.press("#search")
        late = late_moment(1024)
        self.browser.type(f"web {late}")
        expected = [4 * (late // 100)]
        self.assertEqual(self.shown_rows(), expected)
        self.assertEqual(self.value("count.textContent"), "1 of 1024 rows")
        self.assertEqual(self.value("document.querySelector('.found path').getAttribute('d').split('M').length - 1"), 1)
        self.browser.key("Escape")
        self.assertEqual(len(self.shown_rows()), 1024)
        self.assertEqual(self.value("search.value"), "")

    def test_going_on(self):
        self.show(1024)
        self.browser.press("#search")
        self.browser.type("clear app 14")
        found = self.shown_rows()
        self.assertGreater(len(found), 2)
        for row in (found[0], found[1], found[2]):
            self.browser.key("Enter")
            self.browser.rest()
            self.assertEqual(self.value("lit"), row)
            x, y = self.row_point(row)
            begin, _, end, _ = self.browser.box(".view")
            self.assertTrue(begin < x < end)
            self.assertTrue(self.value(f"marksOf[{row}][0].level >= 0"), "the label of a row that is gone to is shown")
            self.browser.move(*self.middle_of_plot())  # the pointer changes nothing of where the next one is
        self.ask_back(found)
        self.keep("search_1024")

    def ask_back(self, found):
        """Goes back from the third of the rows that were found, by a key that isn't typed into the field."""
        self.value("search.blur()")
        self.browser.key("p")
        self.browser.rest()
        self.assertEqual(self.value("lit"), found[1])

    def test_nothing_found(self):
        self.show(144)
        self.browser.press("#search")
        self.browser.type("nowhere")
        self.browser.key("Enter")
        self.assertEqual((self.shown_rows(), self.value("count.textContent")), ([], "0 of 144 rows"))

    def test_the_pointer_lights_both(self):
        for size in SIZES:
            with self.subTest(size=size):
                self.show(144, size)
                row = 4 * (late_moment(144) // 100)
                self.value("document.querySelector('#side').open = true, fit(), 1")
                self.value(f"scrollTo(0, {self.row_point(row)[1]} - 400)")
                self.browser.settle()
                x, y = self.row_point(row)
                self.browser.move(x, y)
                self.browser.settle()
                shown = self.value("[...document.querySelectorAll('#rows .lit')].map(entry => Number(entry.dataset.row))")
                self.assertEqual(shown, [row])
                entry, rows = self.browser.box("#rows .lit"), self.browser.box("#rows")
                self.assertTrue(rows[1] <= entry[1] and entry[3] <= rows[3] + 1, "the list is scrolled to it")
                ring = self.browser.box("circle.lit")
                self.assertAlmostEqual((ring[0] + ring[2]) / 2, x, delta=1.5)
                self.assertAlmostEqual((ring[1] + ring[3]) / 2, y, delta=1.5)
                self.assertIn(f"line {row + 4}: set,web,{late_moment(144)},asked", self.value("tip.textContent"))
                self.assertEqual(self.value("tip.style.visibility"), "visible")
                self.keep(f"pointed_{size[0]}")
                self.browser.move(x, y + 25)
                self.browser.settle()
                self.assertEqual(self.value("document.querySelectorAll('#rows .lit').length"), 0)

    def test_the_list_lights_both(self):
        self.show(144)
        row = 4 * (late_moment(144) // 100) + 1
        self.value(f"scrollListTo(entries[{row}])")
        first, top, last, bottom = self.browser.box(f"#row{row}")
        self.browser.move((first + last) / 2, (top + bottom) / 2)
        ring, point = self.browser.box("circle.lit"), self.row_point(row)
        self.assertAlmostEqual((ring[0] + ring[2]) / 2, point[0], delta=1.5)
        self.assertEqual(self.value(f"entries[{row}].classList.contains('lit')"), True)

    def test_a_click_in_the_list(self):
        self.show(1024)
        self.value("scrollListTo(entries[40])")
        self.browser.press("#row40")
        self.browser.rest()
        begin, _, end, _ = self.browser.box(".view")
        self.assertAlmostEqual(self.row_point(40)[0], (begin + end) / 2, delta=(end - begin) / 4)

    def test_keys_of_the_list(self):
        self.show(144)
        self.value("list.focus()")
        for key, row in (("Home", 0), ("ArrowDown", 1), ("ArrowDown", 2), ("ArrowUp", 1), ("End", 143)):
            self.browser.key(key)
            self.assertEqual(self.value("[lit, list.getAttribute('aria-activedescendant')]"), [row, f"row{row}"])
        self.browser.key("Enter")
        self.browser.rest()
        self.assertLess(self.row_point(143)[0], self.browser.box(".view")[2])

    def test_what_is_under_the_pointer_is_told(self):
        self.show_page(self.folder.page("lanes", many_lanes()))
        x, y = self.row_point(6)
        _, below = self.row_point(7)
        self.value("showBetween(marksOf[0][0].x, marksOf[12][0].x)")
        self.browser.rest()
        ends = [self.row_point(6), self.row_point(7)]
        self.browser.move(*[(first + last) / 2 for first, last in zip(*ends)])
        self.browser.settle()
        self.assertIn("message m6: h6 line 16 to h7 line 17, takes 10", self.value("tip.textContent"))
        self.assertIn("at 1700000000065", self.value("tip.textContent"))


    def test_moments_are_told_as_dates_where_they_have_some(self):
        log = ROOT / "tests" / "ask" / "logs" / "checkout_us.csv"
        (self.folder.path / "dated.notes").write_bytes(log.with_name("checkout_us.csv.notes").read_bytes())
        self.show_page(self.folder.page("dated", log.read_text()))
        self.browser.move(*self.row_point(0))
        self.browser.settle()
        self.assertIn("at 2023-11-14T23:13:20.00", self.value("tip.textContent"))
        self.assertIn("stamp 2023-11-14T23:13:20.000000+01:00", self.value("tip.textContent"))
        self.browser.press("#search")
        self.browser.type("20.0015")
        self.assertEqual(self.shown_rows(), [2])


class Lanes(InBrowser):
    """Lanes are hidden and moved."""

    def lanes(self):
        """The names of the lanes in view, from top to bottom."""
        return self.value("""[...document.querySelectorAll(".head")].map(head => [head.getBoundingClientRect().top, head])
          .filter(([, head]) => head.style.display !== "none").sort(([one], [other]) => one - other)
          .map(([, head]) => head.querySelector(".host").textContent)""")

    def show_lanes(self):
        self.show_page(self.folder.page("lanes", many_lanes()))

    def messages(self):
        return self.value("document.querySelector('.messages path')?.getAttribute('d').split('M').length - 1 || 0")

    def test_hiding(self):
        self.show_lanes()
        tall, messages = self.value("panels[0].svg.getAttribute('height')"), self.messages()
        self.assertGreater(messages, 100)
        self.browser.press("#lanes summary")
        self.browser.press("#lanes li:nth-child(7) input")
        self.assertEqual(self.lanes(), ["h0", "h1", "h2", "h3", "h4", "h5", "h7"])
        self.assertLess(int(self.value("panels[0].svg.getAttribute('height')")), int(tall))
        self.assertEqual(self.messages(), 0)  # all are from h6 to h7
        self.assertEqual(self.value("document.querySelector('#lanes summary').textContent"), "Lanes (1 hidden)")
        self.keep("lanes_hidden")
        self.browser.press("#every")
        self.assertEqual(len(self.lanes()), 8)
        self.assertEqual(self.messages(), messages)

    def test_hiding_in_the_picture(self):
        self.show_lanes()
        first, top, *_ = self.browser.box(".head[data-lane='2']")
        self.browser.move(first + 20, top + 20)
        self.browser.press(".head[data-lane='2'] .hide")
        self.assertNotIn("h2", self.lanes())
        self.browser.press("#search")
        self.browser.type("h2 note")
        self.browser.key("Enter")
        self.browser.rest()
        self.assertIn("h2", self.lanes(), "a row that is gone to is shown with its lane")

    def test_moving_by_buttons(self):
        self.show_lanes()
        before = self.row_point(0)
        self.browser.press("#lanes summary")
        self.browser.press("#lanes li:first-child button:last-child")
        self.assertEqual(self.lanes()[:3], ["h1", "h0", "h2"])
        self.assertEqual(self.value("document.activeElement.getAttribute('aria-label')"), "move h0 down")
        self.assertGreater(self.row_point(0)[1], before[1] + 50)
        self.assertEqual(self.row_point(0)[0], before[0])

    def test_moving_by_dragging(self):
        self.show_lanes()
        first, top, _, bottom = self.browser.box(".head[data-lane='0'] .lane")
        self.browser.drag((first + 40, (top + bottom) / 2), (first + 40, (top + bottom) / 2 + 2 * (bottom - top + 6)), 20)
        self.assertEqual(self.lanes()[:4], ["h1", "h2", "h0", "h3"])
        self.assertEqual(self.value("document.querySelectorAll('.dragged').length"), 0)
        self.assertEqual(self.value("zoom"), 1)
        listed = self.value("[...laneList.children].slice(0, 3).map(entry => entry.textContent.trim().slice(0, 2))")
        self.assertEqual(listed, ["h1", "h2", "h0"])
        x, y = self.row_point(8)
        self.browser.move(x, y)
        self.browser.settle()
        self.assertEqual(self.value("facts.hosts[facts.rows[lit].host]"), "h0", "the pointer finds rows where they are")


class WithoutScript(InBrowser):
    """The picture, what is marked and why can be read without the script."""

    def test_what_is_there(self):
        page = self.folder.page("log144", log_of(144), "--formula", FORMULA)
        self.browser.ask("Emulation.setScriptExecutionDisabled", value=True)
        try:
            self.browser.ask("Page.navigate", url=f"file://{page}")
            deadline = 100
            while deadline and self.value("document.querySelectorAll('svg.panel .row').length") != 144:
                deadline -= 1
            self.assertTrue(deadline)
            self.assertFalse(self.value("document.documentElement.classList.contains('scripted')"))
            self.assertEqual(self.value("document.querySelector('.flag').textContent"), f"fails at {late_moment(144)}")
            first, top, last, bottom = self.browser.box(".moment line")
            lanes = self.value("[...document.querySelectorAll('.lane')].map(lane => lane.getBoundingClientRect().bottom)")
            self.assertTrue(all(top < lane <= bottom + 1 for lane in lanes))
            tools = self.value("[...document.querySelectorAll('.scripted-only')].filter(part => part.offsetParent).length")
            self.assertEqual(tools, 0)
            self.keep("without_script")
        finally:
            self.browser.ask("Emulation.setScriptExecutionDisabled", value=False)


if __name__ == "__main__":
    unittest.main()
