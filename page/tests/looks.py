"""How the page looks: contrast, widths, pictures, keys and print."""

from __future__ import annotations

import base64
import subprocess
from collections.abc import Callable
from io import BytesIO
from pathlib import Path

from opened import EXAMPLES, HERE, WORDS, Page
from PIL import Image, ImageChops, ImageStat

WIDTHS = (1440, 1280, 800, 390)
# How far a picture may be from its reference, of 255, as both are seen from far away.
FAR = 12

CONTRAST = """
  const light = (color) => {
    const [r, g, b] = color.match(/[\\d.]+/g).map(Number).map((v) => v / 255).map((v) => (v <= 0.03928 ? v / 12.92 : ((v + 0.055) / 1.055) ** 2.4));
    return 0.2126 * r + 0.7152 * g + 0.0722 * b;
  };
  const ground = (element) => {
    for (let e = element; e; e = e.parentElement) {
      const color = e.namespaceURI.endsWith("svg") && e.querySelector(":scope > rect") ? getComputedStyle(e.querySelector("rect")).fill : getComputedStyle(e).backgroundColor;
      if (!/rgba\\(.*, 0\\)|transparent|none/.test(color)) return color;
    }
    return "rgb(255,255,255)";
  };
  const low = [];
  const walk = document.createTreeWalker(document.body, NodeFilter.SHOW_TEXT);
  while (walk.nextNode()) {
    const element = walk.currentNode.parentElement;
    if (!walk.currentNode.textContent.trim() || element.closest("script, title, noscript") || !element.getClientRects().length) continue;
    const style = getComputedStyle(element), ink = element.namespaceURI.endsWith("svg") ? style.fill : style.color;
    const [a, b] = [light(ink), light(ground(element))].sort((x, y) => y - x), ratio = (a + 0.05) / (b + 0.05);
    if (ratio < 4.5) low.push(`${ratio.toFixed(2)} ${walk.currentNode.textContent.trim().slice(0, 30)}`);
  }
  return low;
"""


def looks(page: Page, pictures: Path | None) -> None:
    """No view is wider than its window, texts have their contrast, pictures are as looked at."""
    views: dict[str, Callable[[], object]] = {
        "start": page.open,
        "changed_report": lambda: page.choose(EXAMPLES / "handed_in.csv"),
    }
    for name in ("session", "month", "bundle"):
        views[name] = lambda name=name: page.judged(
            lambda: page.js("document.querySelector(`[data-sample=${arguments[0]}]`).click()", name)
        )
    low: list[str] = []
    wide: list[str] = []
    page.browser.size(1280, 1000)
    for name, view in views.items():
        view()
        low += page.js(CONTRAST)
        for width in WIDTHS:
            page.browser.size(width, 1000)
            over = page.js("return document.documentElement.scrollWidth - innerWidth")
            wide += [f"{name} at {width}: {over}"] if over > 0 else []
            if width in (1280, 390):
                compared(page, f"{name}_{width}.png", pictures)
        page.browser.size(1280, 1000)
    page.holds("each text has a contrast of 4.5 to 1", not low, low[:10])
    page.holds(f"no view is wider than its window at {WIDTHS}", not wide, wide)


def compared(page: Page, name: str, pictures: Path | None) -> None:
    """Compare a picture with its reference, as both are seen from far away; or write it."""
    page.js(
        "scrollTo(0, 0); document.activeElement.blur(); document.querySelectorAll('#took, #core_is dd').forEach((each) => { each.textContent = ''; })"
    )
    height = min(page.js("return document.documentElement.scrollHeight"), 5000)
    width = page.js("return innerWidth")
    page.browser.size(width, height)
    found = Image.open(BytesIO(page.browser.picture())).convert("RGB")
    page.browser.size(width, 1000)
    if pictures is not None:
        found.quantize(32).save(pictures / name, optimize=True)
        return
    reference = HERE / "pictures" / name
    if not reference.is_file():
        page.holds(f"{name} has a reference", False)
        return
    kept = Image.open(reference).convert("RGB")
    sizes = [round(each / 16) for each in kept.size]
    far = ImageStat.Stat(ImageChops.difference(found.resize(sizes), kept.resize(sizes))).mean
    page.holds(
        f"{name} is as it was looked at",
        max(far) <= FAR and abs(found.height - kept.height) <= 0.1 * kept.height,
        f"{far}, {found.size} and {kept.size}",
    )


def keyboard(page: Page) -> None:
    """By keys alone: to the file, to a sample, and to the result."""
    from selenium.webdriver.common.keys import Keys

    page.open()
    seen = []
    for _ in range(12):
        page.browser.press(Keys.TAB)
        seen.append(
            page.js(
                "const it = document.activeElement; return it.id || it.dataset.sample || it.lang || it.className || it.tagName"
            )
        )
        if seen[-1] == "month":
            break
    page.holds(
        "the keys reach the languages, the file and the samples",
        all(each in seen for each in ("skip", "en", "pick", "report", "month")),
        seen,
    )
    page.holds(
        "a sample by Enter",
        page.judged(lambda: page.browser.press(Keys.ENTER)) == WORDS["en"]["run_done"],
        page.headline,
    )
    page.holds(
        "then the headline has the focus", page.js("return document.activeElement.id") == "headline"
    )


def printed(page: Page, work: Path) -> None:
    """The print has the verdict and not the controls."""
    page.open()
    page.choose(EXAMPLES / "handed_in.csv")
    found = page.browser.driver.execute_cdp_cmd(
        "Page.printToPDF", {"preferCSSPageSize": True, "printBackground": True}
    )
    (work / "print.pdf").write_bytes(base64.b64decode(found["data"]))
    text = subprocess.run(
        ["pdftotext", "-layout", str(work / "print.pdf"), "-"],
        stdout=subprocess.PIPE,
        text=True,
        check=True,
    ).stdout
    page.holds(
        "a print has the verdict", "2 of 3 blocks are wrong" in text and "100,999,997 g" in text
    )
    page.holds(
        "and no control",
        WORDS["en"]["drop"] not in text and WORDS["en"]["save_verdicts"] not in text,
    )
