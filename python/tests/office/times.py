"""How long the desk's pages take, how much a worker takes, and how the grid scrolls: `make office-times`.

    times.py make FOLDER     books: a refinery of 25 tanks and 53 streams, plants of 300 and 2,000 streams, a grid of 100 meters
    times.py pages FOLDER    each page twenty times, in time of processors; and the memory of the process at the end
    times.py grid FOLDER     the grid of 31 days and 100 meters in Chromium: time of processors of its main thread for each frame, and
                             for each cell from the key that ends it to its sentence; and that by the clock

The status is 1 if one is above what is wanted. Times of processors are taken, since a machine with
other work to do is slow by the clock.
"""

from __future__ import annotations

import resource
import sys
import tempfile
import time
from collections.abc import Callable, Iterator
from pathlib import Path

sys.path[:0] = [str(Path(__file__).resolve().parents[1]), str(Path(__file__).resolve().parents[2])]

from books import Rows, Sheets, folder  # noqa: E402
from months import Refinery, write  # noqa: E402
from office import site_of  # noqa: E402

ROUNDS = 20
PAGE, LARGE, LONGEST, WORKER, FRAME = 0.3, 2.0, 3_000_000, 200 << 20, 1000 / 60
# Milliseconds until a wrong cell is told, of how many cells.
TOLD, CELLS = 50, 60
PAGES = (
    "",
    "enter/",
    "enter/grid/2024-01/readings",
    "enter/grid/2024-01/dips",
    "look/2024-01/",
    "look/2024-01/drawing",
    "look/2024-01/stream/FLARE",
    "look/journal",
    "ask/",
    "ask/2024-01/whatif",
    "ask/chart",
)


def ladder(count: int, days: int) -> tuple[Sheets, Sheets]:
    """A plant of lines of ten units, each unit with a feed of its own; and some days of it."""
    rows: Rows = [["tag", "stream", "from", "to", "error"]]
    flows: dict[str, int] = {}
    half, carried = count // 2, 0
    for at in range(1, half + 1):
        is_last = at % 10 == 0 or at == half
        rows.append([f"FI-{at}", f"FEED{at}", "env", f"U{at}", "1 % or 1 t"])
        rows.append([f"PI-{at}", f"LINE{at}", f"U{at}", "env" if is_last else f"U{at + 1}", "1 %"])
        flows[f"FI-{at}"] = 10 + at % 7
        carried += flows[f"FI-{at}"]
        flows[f"PI-{at}"] = carried
        carried = 0 if is_last else carried
    readings: Rows = [["day", *flows]]
    for day in range(1, days + 1):
        readings.append([f"2024-01-{day:02}", *(flow + (day % 3) / 10 for flow in flows.values())])
    periods = [["name", "first", "last"], ["2024-01", "2024-01-01", f"2024-01-{days:02}"]]
    critical = [["test", "dof", "value"], ["global", str(half), f"{half + 3 * half ** 0.5:.1f}"]]
    return {"streams": rows, "critical": critical}, {"readings": readings, "periods": periods}


def make(room: Path) -> None:
    """Make the books."""
    from plantbal import Book
    from plantbal.workbook.options import ReadingOptions

    plant, british = Refinery(), ReadingOptions("en_GB")
    book = Book(room / "refinery")
    book.begin("2024", write(room, "plant", plant.plant()), reading=british)
    book.add(write(room, "2024-01", plant.month("2024-01")), reading=british)
    book.report("2024-01")
    for name, count, days in (("grid", 100, 31), ("wide", 300, 5), ("large", 2_000, 2)):
        begin = time.perf_counter()
        of_plant, of_month = ladder(count, days)
        book = Book(room / name)
        book.begin("2024", folder(room / f"{name}_plant", of_plant))
        book.add(folder(room / f"{name}_month", of_month))
        book.report("2024-01")
        print(f"{name}: {count} streams, made in {time.perf_counter() - begin:.1f} s", flush=True)


def spent(call: Callable[[], object]) -> float:
    """The seconds of processors that a call takes, with those of the program that it runs."""
    mine, its = resource.RUSAGE_SELF, resource.RUSAGE_CHILDREN
    took = lambda: sum(  # noqa: E731
        each.ru_utime + each.ru_stime for each in map(resource.getrusage, (mine, its))
    )
    before = took()
    call()
    return took() - before


def pages(room: Path) -> Iterator[str]:
    """Look at each page, and give what is above what is wanted."""
    site_of.begun(Path(tempfile.mkdtemp(prefix="plantbal-times-")))
    from plantbal_office.warm import warm

    warm()  # as a worker does when it starts
    for name, pages_, most in (
        ("refinery", PAGES, PAGE),
        ("grid", ("enter/grid/2024-01/readings",), PAGE),
        ("wide", ("look/2024-01/", "look/2024-01/drawing"), LARGE),
        ("large", ("", "look/2024-01/", "look/2024-01/drawing", "enter/"), LARGE),
    ):
        site = site_of.Site(
            Path(tempfile.mkdtemp(prefix="plantbal-times-")),
            name,
            ("clerk", "engineer", "approver"),
            room / name,
        )
        for page in pages_:
            answers = []
            first = spent(lambda: answers.append(site.get(page)))
            rest = sorted(spent(lambda: answers.append(site.get(page))) for _ in range(ROUNDS))
            p95, size = rest[int(0.95 * ROUNDS) - 1], len(answers[-1].content)
            assert answers[-1].status_code == 200, (page, answers[-1].status_code)
            print(
                f"{name:9} {page or '(months)':30} first {first:6.3f} s, p95 {p95:6.3f} s, "
                f"{size / 1e6:5.2f} MB",
                flush=True,
            )
            if p95 > most or first > max(most, LARGE) or size > LONGEST:
                yield f"{name} {page}: {first:.3f} s, then {p95:.3f} s, {size:,} bytes"
        taken = resource.getrusage(resource.RUSAGE_SELF).ru_maxrss << 10
        print(f"{name:9} the process has taken {taken / (1 << 20):.0f} MB at most", flush=True)
        if taken > WORKER:
            yield f"{taken:,} bytes of memory"


SCROLL = """
const box = document.querySelector('.gridbox'), done = arguments[arguments.length - 1];
let at = 0, times = [], last = performance.now();
const step = now => {
  times.push(now - last); last = now; at += 1;
  box.scrollTo((at * 29) % (box.scrollWidth - box.clientWidth), (at * 17) % Math.max(1, box.scrollHeight - box.clientHeight));
  if (at < 240) requestAnimationFrame(step); else done(times.slice(1));
};
requestAnimationFrame(step);
"""


# Types a digit too few and a text that is no number into cells, one after the other: milliseconds from the key to the sentence.
TYPED = """
const [count, done] = [arguments[0], arguments[arguments.length - 1]], times = [];
const cells = [...document.querySelectorAll('table.grid td[data-part]')];
const key = (at, name) => at.dispatchEvent(new KeyboardEvent('keydown', {key: name, bubbles: true, cancelable: true}));
const type = (cell, text) => new Promise(told => {
  new MutationObserver((_, seen) => { if (cell.dataset.said) { seen.disconnect(); told(performance.now() - began); } }).observe(cell, {attributes: true});
  cell.dispatchEvent(new MouseEvent('mousedown', {bubbles: true}));
  key(cell, '1');
  cell.querySelector('input').value = text;
  const began = performance.now();
  key(cell.querySelector('input'), 'Enter');
});
(async () => {
  for (let at = 0; at < count; at += 1) times.push(await type(cells[(at * 37) % cells.length], at % 2 ? '1x' : '0.5'));
  done(times);
})();
"""


def grid(room: Path) -> Iterator[str]:
    """Scroll the grid and type into it, and give what is above what is wanted."""
    from office.conftest import WORDS, Served
    from selenium import webdriver
    from selenium.webdriver.chrome.options import Options
    from selenium.webdriver.chrome.service import Service

    served = Served(Path(tempfile.mkdtemp(prefix="plantbal-times-")), room / "grid")
    options = Options()
    for word in WORDS:
        options.add_argument(word)
    driver = webdriver.Chrome(service=Service("/usr/bin/chromedriver"), options=options)
    try:
        driver.set_script_timeout(300)
        driver.set_window_size(1440, 900)
        driver.get(served.address)
        driver.get(f"{served.root}/p/grid/enter/grid/2024-01/readings")
        driver.execute_cdp_cmd("Performance.enable", {"timeDomain": "threadTicks"})
        before = _metrics(driver)
        frames = sorted(driver.execute_async_script(SCROLL))
        after = _metrics(driver)
        each = 1000 * (after["TaskDuration"] - before["TaskDuration"]) / len(frames)
        middle = frames[len(frames) // 2]
        print(
            f"grid: {len(frames)} frames, {each:.2f} ms of the main thread each; by the clock "
            f"{middle:.1f} ms in the middle, {frames[int(0.95 * len(frames))]:.1f} ms p95"
        )
        if each > FRAME:
            yield f"{each:.1f} ms for a frame"
        form = "return document.querySelector('form[data-grid]').dataset.here"
        while not (here := driver.execute_script(form)):
            time.sleep(0.2)
        before = _metrics(driver)
        told = sorted(driver.execute_async_script(TYPED, CELLS))
        each = 1000 * (_metrics(driver)["TaskDuration"] - before["TaskDuration"]) / CELLS
        print(
            f"grid: {CELLS} cells judged {'here' if here == 'yes' else 'by the server'}, {each:.2f} ms of "
            f"the main thread from key to sentence; by the clock {told[CELLS // 2]:.1f} ms in the middle"
        )
        if each > TOLD or here != "yes":
            yield f"{each:.1f} ms until a wrong cell is told"
    finally:
        driver.quit()
        served.end()


def _metrics(driver: object) -> dict[str, float]:
    found = driver.execute_cdp_cmd("Performance.getMetrics", {})  # type: ignore[attr-defined]
    return {each["name"]: each["value"] for each in found["metrics"]}


def main() -> int:
    """Do what the first word says."""
    word, room = sys.argv[1], Path(sys.argv[2])
    if word == "make":
        make(room)
        return 0
    wrong = list({"pages": pages, "grid": grid}[word](room))
    for each in wrong:
        print(f"above what is wanted: {each}")
    return 1 if wrong else 0


if __name__ == "__main__":
    sys.exit(main())
