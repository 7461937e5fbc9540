"""Examples of the site that can be changed and run: the script of the core, and a script for each longer example.

The core is that of `make page`, with the parts of the page that find refused rows and say why.
"""

from __future__ import annotations

import base64
import gzip
import importlib.machinery
import importlib.util
import json
import re
from pathlib import Path
from types import ModuleType

TOP = Path(__file__).resolve().parent.parent.parent
WASM = TOP / "page" / "out" / "plantbal.wasm"
# The parts of the page's script that say why a row is refused.
PARTS = ("../plantbal.mjs", "words.mjs", "records.mjs", "refused.mjs")
# What stands before an example in a page of docs/.
MARK = re.compile(r"^<!-- try: (run(?: --[a-z]+(?: [0-9]+)?)*|check) -->\n", re.M)
OPEN = """
async function open() {
  takeSessionKinds(given.kinds);
  takeWords({ en: given.words, de: given.words, es: given.words }, ["en"]);
  const packed = Uint8Array.from(atob(given.core), (sign) => sign.charCodeAt(0));
  const stream = new DecompressionStream("gzip"), writer = stream.writable.getWriter();
  writer.write(packed).then(() => writer.close()).catch(() => undefined);
  const core = await load(await new Response(stream.readable).arrayBuffer());
  return {
    run: (text, options) => core.run(text, options),
    check: (text, stopping) => core.check(text, stopping),
    refusals: (text, output, most) => {
      const codes = new Map([...output.matchAll(/^refused,([0-9]+),([0-9]+),/gm)].map(([, at, code]) => [Number(at), Number(code)]));
      return { total: codes.size, rows: toldRefusals(records(text), codes, text, most) };
    },
  };
}
return { open };
"""


def button(words: str, name: str = "") -> str:
    """Return the place of an example: its words, and the script that has it if it isn't the block after it.

    Without a core there is none.
    """
    if not WASM.exists():
        return ""
    known = f' data-from="{name}"' if name else ""
    return f'```{{raw}} html\n<div class="try" data-words="{words}"{known}></div>\n```\n'


def marked(text: str) -> str:
    """Return a page of docs/ whose marked examples have their places."""
    return MARK.sub(lambda found: button(found[1]), text)


def write_text(name: str, text: str, static: Path) -> None:
    """Write the script that has the text of an example."""
    folder = static / "try"
    folder.mkdir(exist_ok=True)
    said = f"plantbalTry.texts[{json.dumps(name)}] = {json.dumps(text)};\n"
    (folder / f"{name}.js").write_text(said, encoding="utf-8")


def write_core(static: Path) -> bool:
    """Write the script of the core, and say whether it is there: `make page` builds it."""
    if not WASM.exists():
        return False
    assemble = _assemble()
    schema = json.loads((TOP / "python/plantbal/schema.json").read_text("utf-8"))
    words = json.loads((TOP / "page/words/en.json").read_text("utf-8"))
    data = {
        "core": base64.b64encode(gzip.compress(WASM.read_bytes(), 9, mtime=0)).decode("ascii"),
        "kinds": assemble.session_kinds(schema),
        "words": {key: said for key, said in words.items() if re.match(r"[rm][0-9]", key)},
    }
    script = assemble.script(PARTS)
    text = f"plantbalTry.core = ((given) => {{\n{script}{OPEN}}})({json.dumps(data)});\n"
    folder = static / "try"
    folder.mkdir(exist_ok=True)
    (folder / "core.js").write_text(text, encoding="utf-8")
    return True


def _assemble() -> ModuleType:
    """Return what puts the page together."""
    path = str(TOP / "page" / "assemble")
    loader = importlib.machinery.SourceFileLoader("assemble", path)
    spec = importlib.util.spec_from_loader("assemble", loader)
    assert spec is not None
    module = importlib.util.module_from_spec(spec)
    loader.exec_module(module)
    return module
