"""A close by two people: in the browser, with the keys that they have, and what is refused to one alone."""

from __future__ import annotations

import os
import re
import subprocess
import sys
from collections.abc import Iterator
from pathlib import Path

import keyring
import pytest
import services
from looks import Look, differences
from office.test_pages import KEPT, NAMELESS, SHOWN, WIDTHS, WRITES, complaints_of, look_of
from selenium import webdriver
from selenium.webdriver.chrome.options import Options
from selenium.webdriver.chrome.service import Service as Driver
from selenium.webdriver.common.by import By
from selenium.webdriver.support.ui import WebDriverWait

WORDS = ("--headless=new", "--no-sandbox", "--disable-dev-shm-usage", "--hide-scrollbars")
# The pages whose look is kept at a width.
REFERENCES = {"sign-in": (800,), "password": (800,), "close-signed": (800,), "waiting": (1280, 800)}
_CODE = """
from pathlib import Path; from plantbal import Book; from plantbal.gates import Gate
from plantbal.workbook.options import ReadingOptions
top = Path({top!r}); book = Book({book!r}, who='eva'); de = ReadingOptions('de')
book.begin('2023-24', top / 'plant', reading=de); book.add(top / 'april', reading=de)
if {closes!r}: book.close('2024-04', anyway={{gate: 'as it is' for gate in Gate}})
book.set_rules({rules!r}, signers={signers!r} or None)
"""


def mill(
    office: services.Service, slug: str, rules: str, signers: str = "", closes: bool = False
) -> Path:
    """A plant whose book has rules, filled by Eva, who has closed April before them if told."""
    book, examples = office.books / slug, services.TOP / "examples" / "month_end"
    paths = {"rules": office.room / f"{slug}.rules", "signers": office.room / f"{slug}.signers"}
    paths["rules"].write_text(rules, "ascii")
    paths["signers"].write_text(signers, "ascii")
    code = _CODE.format(
        top=str(examples),
        book=str(book),
        rules=str(paths["rules"]),
        signers=str(paths["signers"]) if signers else "",
        closes=closes,
    )
    subprocess.run([sys.executable, "-c", code], env=office.here, check=True)
    office.plant(slug, book)
    return book


@pytest.fixture(name="office", scope="module")
def fixture_office() -> Iterator[services.Service]:
    """Mills in which a close wants two people, or what changes a closed month; in some their keys too."""
    office = services.Service('[sign_in]\nsecond = "none"\n')
    try:
        rules = f"[wants]\nclose = true\n[sign]\nvouching = [{os.geteuid()}]\n"
        mill(office, "two", rules)
        keys = [keyring.key(office.room / "keys", name) for name in ("lisa", "paul")]
        signers = "".join(keyring.line(key.name, key) for key in keys)
        mill(office, "keys", rules + "keys = true\n", signers)
        rules = rules.replace("close", "anyway = true\namend")
        mill(office, "late", rules, closes=True)
        mill(office, "late-keys", rules + "keys = true\n", signers, closes=True)
        roles = {"lisa": ("engineer", "clerk"), "paul": ("engineer", "approver")}
        office.people(roles, "two", "keys", "late", "late-keys")
        office.start()
        yield office
    finally:
        office.end()


# ---- one alone


def test_nobody_does_both(office: services.Service) -> None:
    """Whoever has submitted it can't approve it, nor can who may not; and a form is done once."""
    lisa, paul = office.signed_in("lisa"), office.signed_in("paul")
    page = paul.get("/p/two/correct/2024-04/close").text
    assert "Submit the close" in page
    words = hidden(page) | reasons(page)
    assert paul.post("/p/two/correct/2024-04/submit", words, at="/").status_code == 302
    assert paul.post("/p/two/correct/2024-04/submit", words, at="/").status_code == 302, "once"
    page = paul.get("/p/two/correct/waiting").text
    assert page.count("<h2>") == 1
    words = hidden(page) | {"answer": "approve", "head": field(page, "head")}
    answer = paul.post("/p/two/correct/approve", words, at="/")
    assert answer.status_code == 400 and "you have submitted action" in answer.text
    assert lisa.post("/p/two/correct/approve", words, at="/").status_code == 403
    words = hidden(page) | {"answer": "reject", "head": field(page, "head"), "why": "too early"}
    assert paul.post("/p/two/correct/approve", words, at="/").status_code == 302
    assert "Nothing is waiting" in paul.get("/p/two/correct/waiting").text


def hidden(page: str) -> dict[str, str]:
    """The fields of the first form of a page that has a key."""
    return {name: field(page, name) for name in ("deed", "version")}


def reasons(page: str) -> dict[str, str]:
    """A reason for each gate that a page asks for."""
    return dict.fromkeys(re.findall(r'name="(why-[a-z-]+)"', page), "as it is")


def field(page: str, name: str) -> str:
    """The value of a field of a page."""
    return re.findall(rf'name="{name}" value="([^"]*)"', page)[0]


# ---- in the browser


class Person:
    """Somebody at a browser of their own."""

    def __init__(self, office: services.Service) -> None:
        options = Options()
        options.accept_insecure_certs = True
        for word in WORDS:
            options.add_argument(word)
        options.set_capability("goog:loggingPrefs", {"browser": "ALL"})
        self.driver = webdriver.Chrome(service=Driver("/usr/bin/chromedriver"), options=options)
        self.driver.set_window_size(1280, 900)
        self.office, self.root = office, f"https://localhost:{office.port}"

    def open(self, path: str) -> None:
        """Open a page."""
        self.driver.get(self.root + path)

    @property
    def text(self) -> str:
        """What the page says."""
        return self.driver.find_element(By.TAG_NAME, "main").text

    def fill(self, name: str, text: str) -> None:
        """Type into a field."""
        self.driver.find_element(By.CSS_SELECTOR, f"main [name='{name}']").send_keys(text)

    def press(self, text: str) -> None:
        """Press a button, and wait for the next page."""
        page = self.driver.find_element(By.TAG_NAME, "html")
        some = self.driver.find_elements(By.TAG_NAME, "button")
        next(each for each in some if each.text == text).click()
        WebDriverWait(self.driver, 90).until(lambda _: _is_gone(page))
        done = "return document.readyState === 'complete'"
        WebDriverWait(self.driver, 90).until(lambda driver: driver.execute_script(done))

    def sign_in(self, name: str) -> None:
        """Sign in."""
        self.open("/people/sign-in")
        self.fill("name", name)
        self.fill("password", self.office.passwords[name])
        self.press("Sign in")

    def fits(self, name: str) -> None:
        """The page is readable at each width, as those of the desk are, and looks as it is kept."""
        self.driver.set_window_size(1280, 900)
        assert self.driver.execute_script(NAMELESS) == [], "each field and button has a name"
        said = [each for width in WIDTHS for each in complaints_of(self, name, width)]
        assert not said, "\n".join(said)
        for width in REFERENCES.get(name, ()):
            path, look = KEPT / f"{name}_{width}.txt", look_of(self, width)
            if WRITES:
                path.write_text(look.text(), encoding="utf-8")
            assert differences(look, Look.read(path.read_text(encoding="utf-8"))) == [], path.name
        if WRITES and name == "waiting":
            self.driver.set_window_size(1280, 660)
            self.driver.save_screenshot(str(SHOWN / f"office_{name}.png"))
        self.driver.set_window_size(1280, 900)

    def complaints(self) -> list[str]:
        """What the browser complains of."""
        return [each["message"] for each in self.driver.get_log("browser")]


def _is_gone(page: object) -> bool:
    from selenium.common.exceptions import WebDriverException

    try:
        page.is_enabled()  # type: ignore[attr-defined]
        return False
    except WebDriverException:
        return True


@pytest.fixture(name="person")
def fixture_person(office: services.Service) -> Iterator[Person]:
    """Somebody at a browser."""
    person = Person(office)
    yield person
    person.driver.quit()


def test_pages_fit(office: services.Service, person: Person) -> None:
    """The pages of the door, and those on which somebody signs, at four widths."""
    person.open("/people/sign-in")
    person.fits("sign-in")
    person.sign_in("root")
    for page in ("log", "enroll", "password"):
        person.open(f"/people/{page}")
        person.fits(page)
    person.press("Sign out")
    person.sign_in("paul")
    person.open("/p/keys/correct/2024-04/close")
    person.fits("close-signed")
    assert not [each for each in person.complaints() if "favicon" not in each]


def test_with_keys(office: services.Service, tmp_path: Path) -> None:
    """Both sign on their own machines; nothing is done without a signature, or with another's."""
    lisa, paul = office.signed_in("lisa"), office.signed_in("paul")
    at = "/p/keys/correct/2024-04/submit"
    page = lisa.get("/p/keys/correct/2024-04/close").text
    assert "ssh-keygen -Y sign -n plantbal-book" in page
    words = hidden(page) | reasons(page)
    answer = lisa.post(at, words, at="/")
    assert answer.status_code == 400 and "this book requires a signature" in answer.text
    text = lisa.post(at, words | {"answer": "text"}, at="/")
    assert text.headers["Content-Disposition"] == 'attachment; filename="submission.txt"'
    for key, said, what in (
        ("paul", text.text, "the key is paul&#x27;s"),
        ("lisa", text.text.replace("close", "amend"), "what was signed isn&#x27;t the text"),
    ):
        answer = lisa.post(at, words, at="/", files=files(office, tmp_path, key, said))
        assert answer.status_code == 400 and what in answer.text, (key, answer.text)
    answer = lisa.post(at, words, at="/", files=files(office, tmp_path, "lisa", text.text))
    assert answer.status_code == 302, answer.text
    page = paul.get("/p/keys/correct/waiting").text
    words = hidden(page) | {"answer": "approve", "head": field(page, "head")}
    for deed in ("reject", "approve"):
        address = f"/p/keys/correct/to-sign?head={field(page, 'head')}&deed={deed}"
        signed_text = paul.get(address).text
        assert f"deed {deed}" in signed_text
        sent = files(office, tmp_path, "paul", signed_text)
        answer = paul.post("/p/keys/correct/approve", words, at="/", files=sent)
        assert answer.status_code == (302 if deed == "approve" else 400), answer.text
    said = signed(office, "keys")
    assert re.search("submit 2024-04 close.*signed by lisa with the key SHA256:", said), said
    assert "approved by paul" in said
    assert said.count("nobody has signed it") == 1, "the first rules"


# ---- what changes a closed month


_AMEND = "correct/fact/2023-24/FI-302_2024-04-18/amend"


def test_a_closed_month(office: services.Service) -> None:
    """An amendment, a workbook and a quieted rule are seen as they would be, and wait; somebody else approves."""
    lisa, paul = office.signed_in("lisa"), office.signed_in("paul")
    words = {"amount": "12188 t", "why": "a digit short"}
    at = f"/p/late/{_AMEND}"
    page = lisa.get(f"{at}?amount=12188 t&why=a digit short").text
    assert "What it would do" in page and "Your signature" not in page
    answer = lisa.post(at, hidden(page) | words, at="/")
    assert answer.headers["Location"] == "/p/late/correct/waiting", answer.text
    page = lisa.get("/p/late/correct/waiting").text
    assert "is submitted, and waits for an approval by somebody else" in page
    again = hidden(lisa.get(f"{at}?amount=12188 t&why=a digit short").text)
    assert lisa.post(at, again | words, at="/").status_code == 400, "it waits already"
    cells = '[{"name": "FI-302", "day": "2024-04-20", "amount": "11900"}]'
    grid = {"cells": cells, "deed": "k" * 20}
    seen = lisa.post("/p/late/enter/grid/2024-04/readings", grid, at="/").headers["Location"]
    answer = lisa.post(f"{seen}/book", hidden(lisa.get(seen).text) | {"why": "x"}, at="/")
    assert answer.headers["Location"] == "/p/late/correct/waiting", answer.text
    assert lisa.get(seen).status_code == 404, "what waits has its rows"
    quiet = {"code": "near-names", "names": "TAILS ORE", "why": "x"}
    page = lisa.get("/p/late/correct/quiet").text
    assert lisa.post("/p/late/correct/quiet", hidden(page) | quiet, at="/").status_code == 302
    page = paul.get("/p/late/correct/waiting").text
    assert page.count("<h2>") == 3
    words = hidden(page) | {"answer": "approve", "head": field(page, "head")}
    assert paul.post("/p/late/correct/approve", words, at="/").status_code == 302
    assert "12,188 t" in paul.get("/p/late/look/fact/2023-24/FI-302_2024-04-18").text
    assert "approved by paul" in signed(office, "late")


def test_a_closed_month_with_keys(office: services.Service, tmp_path: Path) -> None:
    """Whoever submits an amendment signs it; nothing waits before, and what wants no approval isn't signed."""
    lisa, paul = office.signed_in("lisa"), office.signed_in("paul")
    at = f"/p/late-keys/{_AMEND}"
    page = lisa.get(f"{at}?amount=12188 t&why=short").text
    assert "Your signature" in page
    words = hidden(page) | {"amount": "12188 t", "why": "short"}
    answer = lisa.post(at, words, at="/")
    assert answer.status_code == 400 and "this book requires a signature" in answer.text
    text = lisa.post(at, words | {"answer": "text"}, at="/")
    assert text.headers["Content-Disposition"] == 'attachment; filename="submission.txt"'
    assert "Nothing is waiting" in lisa.get("/p/late-keys/correct/waiting").text
    for key, status in (("paul", 400), ("lisa", 302)):
        sent = files(office, tmp_path, key, text.text)
        assert lisa.post(at, words, at="/", files=sent).status_code == status, key
    page = paul.get("/p/late-keys/correct/waiting").text
    words = hidden(page) | {"answer": "approve", "head": field(page, "head")}
    sent = files(
        office,
        tmp_path,
        "paul",
        paul.get(f"/p/late-keys/correct/to-sign?head={words['head']}&deed=approve").text,
    )
    assert paul.post("/p/late-keys/correct/approve", words, at="/", files=sent).status_code == 302
    said = signed(office, "late-keys")
    assert re.search("submit FI-302_2024-04-18 amend.*signed by lisa", said), said


def files(
    office: services.Service, room: Path, key: str, text: str
) -> dict[str, tuple[str, bytes]]:
    """A text and its signature, as a form sends them."""
    path = room / "text.txt"
    path.write_text(text, "ascii")
    path.with_suffix(".txt.sig").unlink(missing_ok=True)
    words = [
        "ssh-keygen",
        "-q",
        "-Y",
        "sign",
        "-f",
        office.room / "keys" / key,
        "-n",
        "plantbal-book",
    ]
    assert services.run([*words, path]).returncode == 0
    signature = path.with_suffix(".txt.sig").read_bytes()
    return {"record": ("text.txt", text.encode("ascii")), "signature": ("text.txt.sig", signature)}


def test_in_the_browser(office: services.Service, person: Person) -> None:
    """Lisa submits April with her reasons, signs out, and Paul approves it; the journal names both."""
    person.sign_in("lisa")
    person.open("/p/two/correct/2024-04/close")
    person.fits("close")
    for each in person.driver.find_elements(By.CSS_SELECTOR, "main [name^=why-]"):
        each.send_keys("as it is")
    person.press("Submit the close")
    assert "waits for an approval" in person.driver.page_source
    assert "Submitted by lisa" in person.text and "Approve" not in _buttons(person)
    person.press("Sign out")
    person.sign_in("paul")
    person.open("/p/two/correct/waiting")
    person.fits("waiting")
    assert "as it is" in person.text and "Head" in person.text
    person.press("Approve")
    assert "close 2024-04 is approved, and done." in person.driver.page_source
    person.open("/p/two/")
    assert "closed" in person.text
    assert not [each for each in person.complaints() if "favicon" not in each]
    said = signed(office, "two")
    assert "submitted by lisa as action" in said and "approved by paul" in said


def _buttons(person: Person) -> list[str]:
    return [each.text for each in person.driver.find_elements(By.TAG_NAME, "button")]


def signed(office: services.Service, slug: str) -> str:
    """What `plantbal-desk book signed` says of a book, which has to be in order."""
    words = [sys.executable, "-m", "plantbal", "book", "signed", "--book", office.books / slug]
    done = services.run(words, env=office.here)
    assert done.returncode == 0, done.stdout + done.stderr
    return done.stdout
