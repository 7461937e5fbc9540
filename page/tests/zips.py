"""Bundles that hold together and that don't, whoever packed them, in the page."""

from __future__ import annotations

import hashlib
import json
import re
import zipfile
from importlib.machinery import SourceFileLoader
from importlib.util import module_from_spec, spec_from_loader
from io import BytesIO
from pathlib import Path

from opened import HERE, WORDS, Page


def bundles(page: Page, work: Path) -> None:
    """Bundles that hold together, and that don't."""
    from plantbal.audit.bundle import (
        DIGESTS,
        MANIFEST,
        MEASURED,
        OUTPUT,
        SESSION,
        SUMMED,
        digests_text,
        packed,
    )

    sample = bundle_of_page(page)
    with zipfile.ZipFile(BytesIO(sample)) as found:
        kept = {name: found.read(name) for name in found.namelist()}

    def forged(name: str, old: bytes, new: bytes) -> bytes:
        """Return the bundle with a file changed, and all digests made anew."""

        assert old in kept[name]
        changed = {**kept, name: kept[name].replace(old, new, 1)}
        manifest = json.loads(kept[MANIFEST])
        manifest["files"][name] = hashlib.sha256(changed[name]).hexdigest()
        changed[MANIFEST] = (json.dumps(manifest, indent=2) + "\n").encode("utf-8")
        changed[DIGESTS] = digests_text(changed)
        return packed(changed)

    at = sample.index(b"session.csv") + 40

    def again(
        names: list[str], method: int = zipfile.ZIP_DEFLATED, streamed: bool = False
    ) -> bytes:
        """Return files as another packer packs them; it may put their sizes after their bytes."""
        out = _Pipe() if streamed else BytesIO()
        with zipfile.ZipFile(out, "w", method) as zip_:
            for name in names:
                zip_.writestr(name, kept[name])
        return out.getvalue()

    def of_a_book(**changed: bytes) -> bytes:
        """Return the bundle with rows of a book's files, of which some are changed afterwards."""
        files = {**kept, MEASURED: b"a\n", SUMMED: b"b\n"}
        manifest = json.loads(kept[MANIFEST])
        for name in (MEASURED, SUMMED):
            manifest["files"][name] = hashlib.sha256(files[name]).hexdigest()
        files[MANIFEST] = (json.dumps(manifest, indent=2) + "\n").encode("utf-8")
        files[DIGESTS] = digests_text(files)
        return packed({**files, **{f"{name}.csv": data for name, data in changed.items()}})

    names = list(kept)
    table = {
        "with the files of a book": (of_a_book(), "bundle_right", []),
        "with a changed file of a book": (
            of_a_book(summed=b"c\n"),
            "bundle_wrong",
            ["b_file_wrong", "b_manifest_wrong"],
        ),
        "as it was archived": (sample, "bundle_right", []),
        "a value of the session changed, digests made anew": (
            forged(SESSION, b"9931400000", b"9931400001"),
            "bundle_wrong",
            ["b_run_wrong"],
        ),
        "a flow of the output changed, digests made anew": (
            forged(OUTPUT, b"1180680924", b"1180680925"),
            "bundle_wrong",
            ["b_run_wrong", "b_check_wrong"],
        ),
        "a digit changed and nothing else": (
            packed({**kept, SESSION: kept[SESSION].replace(b"9931400000", b"9931400001")}),
            "bundle_wrong",
            ["b_file_wrong", "b_run_wrong"],
        ),
        "without its seal": (packed(kept, sealed=False), "bundle_right", ["b_zip_none"]),
        "a byte of the zip changed": (
            sample[:at] + bytes([sample[at] ^ 1]) + sample[at + 1 :],
            ("zip_sum", "zip_cut"),
            [],
        ),
        "cut off": (sample[:-200], ("zip_cut", "not_zip"), []),
        "packed in another order, as mail gateways do": (
            again(names[::-1]),
            "bundle_right",
            ["b_zip_none"],
        ),
        "not packed at all": (again(names, zipfile.ZIP_STORED), "bundle_right", ["b_zip_none"]),
        "with sizes after the bytes": (again(names, streamed=True), "bundle_right", ["b_zip_none"]),
        "without a file": (again(names[1:]), ("zip_other", "not_zip"), []),
        "with bytes between its files": (loosened(again(names)), "bundle_wrong", ["b_zip_loose"]),
        "with bytes after it": (sample + b"\0", ("zip_cut",), []),
    }
    page.open()
    for what, (data, keys, steps) in table.items():
        path = work / "bundle.zip"
        path.write_bytes(data)
        said = page.choose(path)
        wanted = [WORDS["en"][key] for key in ([keys] if isinstance(keys, str) else keys)]
        shown = page.js(
            "return [...document.querySelectorAll('.steps li')].map((each) => each.textContent)"
        )
        starts = [re.split(r"[{]", WORDS["en"][key])[0] for key in steps]
        fits = any(
            said == each or ("{" in each and said.startswith(each.split("{")[0])) for each in wanted
        )
        page.holds(
            f"a bundle {what}",
            fits and all(any(start in line for line in shown) for start in starts if start),
            f"{said} {shown}",
        )


class _Pipe(BytesIO):
    """What a packer writes to that can't go back."""

    def tell(self) -> int:
        raise OSError("a pipe")


def loosened(data: bytes) -> bytes:
    """Return a zip with bytes between its last file and its directory."""
    end = data.rindex(b"PK\5\6")
    begin = int.from_bytes(data[end + 16 : end + 20], "little")
    end_ = data[end : end + 16] + (begin + 40).to_bytes(4, "little") + data[end + 20 :]
    return data[:begin] + b"x" * 40 + data[begin:end] + end_


def bundle_of_page(page: Page) -> bytes:
    """Return the bundle that the page has as a sample."""
    loader = SourceFileLoader("assemble", str(HERE.parent / "assemble"))
    module = module_from_spec(spec_from_loader("assemble", loader))  # type: ignore[arg-type]
    loader.exec_module(module)
    folder = Path(page.address.removeprefix("file://")).parent
    return bytes(
        module.sample_bundle(
            (folder / "plantbal.wasm").read_bytes(),
            {"version": "0", "commit": "none", "way": "other"},
        )
    )
