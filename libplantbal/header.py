"""What C and Python know of the library, out of the exports of its two crates.

A prototype follows from an export's signature, its comment from the export's, the numbers of the
statuses from the constants of status.rt, and those of the causes from pb_book. A slice is passed as
a pointer and a length, and an allocator isn't passed. A type without a rule stops the maker. The
files are made and checked by packaging/derived.
"""

from __future__ import annotations

import re
import textwrap
from dataclasses import dataclass
from graphlib import TopologicalSorter
from pathlib import Path

TOP = Path(__file__).resolve().parent.parent
CRATE = TOP / "crates" / "plantbal_c" / "src"
STUDIES = TOP / "crates" / "plantbal_study_c" / "src"
# What C reads of a book and of a study: structs that the exports write.
SHOWN = TOP / "crates" / "pb_shown" / "src"
ARRAYS = TOP / "crates" / "pb_arrays" / "src"
HEADER = TOP / "libplantbal" / "plantbal.h"
EXPORTS = TOP / "libplantbal" / "exports.map"
PYTHON = TOP / "python" / "plantbal" / "_declarations.py"
SYMBOLS = TOP / "packaging" / "libplantbal0.symbols"
# The versions of the symbols, and the release that brought each. A function has the first one unless
# it is named below.
SINCE = {"PLANTBAL_0": "0.21.0", "PLANTBAL_1": "0.22.0"}
ADDED = {
    "plantbal_session_records": "PLANTBAL_1",
    "plantbal_session_period_graph": "PLANTBAL_1",
    "plantbal_session_period_names": "PLANTBAL_1",
    "plantbal_session_classes": "PLANTBAL_1",
}

EXPORT = re.compile(
    r"((?:^/// .*\n)+)^#\[unsafe\(no_mangle\)\]\n"
    r'^pub extern "C" fn (\w+)\(\s*([^()]*?),?\s*\)(?: -> (\w+))?\s*\n',
    re.M,
)
STRUCT = re.compile(
    r"((?:^/// .*\n)+)^#\[repr\(C\)\]\n(?:^#\[derive.*\n)*^pub struct (\w+) \{\n([^{}]*)^\}",
    re.M,
)
FIELD = re.compile(r"((?:^ +/// .*\n)*)^ +pub (\w+): (\w+|\[u8; \d+\]),$", re.M)
STATUS = re.compile(r"((?:^/// .*\n)+)^pub\(crate\) const (\w+): u8 = (\d+);", re.M)
CAUSE = re.compile(r"((?:^ +/// .*\n)+)^ +(\w+),$", re.M)
CONSTANT = re.compile(r"(?m)^pub const (\w+): u32 = ([\d_]+);")
CODE = re.compile(r"Refused::(\w+) => (\d+),")

NUMBERS = {
    "u8": "uint8_t",
    "u32": "uint32_t",
    "i32": "int32_t",
    "u64": "uint64_t",
    "i64": "int64_t",
    "usize": "size_t",
    "bool": "bool",
}
# The handles: arrays of one, so that C passes them by their places and can't assign them.
HANDLES = {"SessionHandle": "plantbal_session", "StudyHandle": "plantbal_study"}


@dataclass(frozen=True)
class Export:
    """An exported function: what its comment says, its name, parameters and result in C."""

    comment: str
    name: str
    parameters: list[str]
    result: str

    def prototype(self) -> str:
        """Return the declaration, wrapped to 100 columns."""
        head = f"{self.result} {self.name}("
        whole = head + ", ".join(self.parameters) + ");"
        if len(whole) <= 100:
            return whole
        return head + "\n    " + ",\n    ".join(self.parameters) + ");"


def c_name(rust: str) -> str:
    """Return the name in C of a struct: PlantbalOptions is plantbal_options."""
    return re.sub(r"(?<!^)(?=[A-Z])", "_", rust).lower()


def c_type(rust: str) -> str:
    """Return the type in C of a number or a struct."""
    return NUMBERS.get(rust) or c_name(rust)


def c_field(name: str, rust: str) -> str:
    """Return the declaration of a field: bytes in a row are a text of C, with zeros after it."""
    text = re.fullmatch(r"\[u8; (\d+)\]", rust)
    return f"char {name}[{text[1]}];" if text else f"{c_type(rust)} {name};"


def c_parameters(name: str, rust: str) -> list[str]:
    """Return the parameters in C for one in Rattle."""
    if rust == "Global":
        return []
    if rust in NUMBERS:
        return [f"{NUMBERS[rust]} {name}"]
    if rust.removeprefix("&mut ") in HANDLES:
        return [f"{HANDLES[rust.removeprefix('&mut ')]} {name}"]
    slice_of = re.fullmatch(r"&(mut )?\[(\w+)\]", rust)
    if slice_of:
        const = "" if slice_of[1] else "const "
        element = "void" if slice_of[2] == "u8" else c_type(slice_of[2])
        return [f"{const}{element} *{name}", f"size_t {name}_length"]
    pointer = re.fullmatch(r"&(mut )?(\w+)", rust)
    if pointer:
        const = "" if pointer[1] else "const "
        return [f"{const}{c_type(pointer[2])} *{name}"]
    raise SystemExit(f"header: no rule for the parameter {name}: {rust}")


def words(comment: str) -> str:
    """Return a comment of Rattle as one line of text."""
    lines = [line.strip().removeprefix("///").strip() for line in comment.splitlines()]
    return " ".join(lines).replace("`", "")


def block(text: str, indent: str = "") -> str:
    """Return a text as a comment of C, wrapped to 100 columns."""
    lines = textwrap.wrap(text, 100 - len(indent) - 6)
    if len(lines) == 1:
        return f"{indent}/* {lines[0]} */"
    return f"{indent}/* " + f"\n{indent}   ".join(lines) + " */"


def exports() -> list[Export]:
    """Return the exports in the order of the modules and of the functions in each."""
    found = []
    for crate in (CRATE, STUDIES):
        for module in re.findall(r"(?m)^mod (\w+);", (crate / "lib.rt").read_text("utf-8")):
            for path in [crate / f"{module}.rt", *sorted((crate / module).glob("*.rt"))]:
                found += exports_in(path)
    return found


def exports_in(path: Path) -> list[Export]:
    """Return the exports of a module."""
    source = path.read_text("utf-8")
    found = []
    for comment, name, parameters, result in EXPORT.findall(source):
        passed: list[str] = []
        for parameter in re.split(r",\s*", parameters):
            passed += c_parameters(*parameter.split(": ", 1))
        returned = NUMBERS[result] if result else "void"
        found.append(Export(words(comment), name, passed, returned))
    if len(re.findall(r"no_mangle", source)) != len(found):
        raise SystemExit(f"header: {path.name} has exports that can't be read")
    return found


def usual_numbers() -> str:
    """Return the gap and the sweeps of a run if its words ask for nothing else, in C."""
    source = (TOP / "crates" / "pb_limits" / "src" / "lib.rt").read_text("utf-8")
    numbers = {name: int(number.replace("_", "")) for name, number in CONSTANT.findall(source)}
    return f"{numbers['DEFAULT_GAP']}, {numbers['DEFAULT_SWEEPS']}"


def usual() -> str:
    """Return the options that a run has if its words ask for nothing else, in C."""
    return f"{{{usual_numbers()}, 0, 0, 0}}"


def usual_study() -> str:
    """Return the same of a study."""
    return f"{{{usual_numbers()}, 0, false, false, false, 0, 0}}"


def structs() -> list[str]:
    """Return the declarations of the structs that C fills or reads, each after those in it."""
    found: dict[str, tuple[set[str], str]] = {}
    for path in [path for crate in (CRATE, SHOWN, ARRAYS) for path in sorted(crate.rglob("*.rt"))]:
        for comment, name, body in STRUCT.findall(path.read_text("utf-8")):
            if name in HANDLES:
                continue
            fields = FIELD.findall(body)
            if len(fields) != len(re.findall(r"(?m)^ +pub ", body)):
                raise SystemExit(f"header: {name} has fields that can't be read")
            lines = [block(words(comment)), f"typedef struct {c_name(name)} {{"]
            for about, field, kind in fields:
                lines.append(block(words(about), "    "))
                lines.append(f"    {c_field(field, kind)}")
            held = {kind for _, _, kind in fields if kind not in NUMBERS and kind[0] != "["}
            declared = held, "\n".join([*lines, f"}} {c_name(name)};"])
            if found.setdefault(name, declared) != declared:
                raise SystemExit(f"header: {name} is declared in two ways")
    order = TopologicalSorter({name: held for name, (held, _) in found.items()})
    return [found[name][1] for name in order.static_order()]


def status_numbers() -> list[tuple[str, str, str]]:
    """Return what each status says, its name and its number; what both crates have is the same."""
    found: dict[str, tuple[str, str, str]] = {}
    for crate in (CRATE, STUDIES):
        for comment, name, number in STATUS.findall((crate / "status.rt").read_text("utf-8")):
            if found.setdefault(name, (words(comment), name, number))[2] != number:
                raise SystemExit(f"header: the status {name} has two numbers")
    return list(found.values())


def statuses() -> str:
    """Return the enumeration of the statuses."""
    lines = ["/* How a call ended. The numbers up to 6 are the exit statuses of the program. */"]
    lines.append("enum plantbal_status {")
    for comment, name, number in status_numbers():
        lines.append(block(comment, "    "))
        lines.append(f"    PLANTBAL_{name} = {number},")
    return "\n".join([*lines, "};"])


def causes() -> str:
    """Return the enumeration of the causes for which records are refused."""
    source = (TOP / "crates" / "pb_book" / "src" / "answer.rt").read_text("utf-8")
    numbers = dict(CODE.findall(source))
    body = source[source.index("pub enum Refused {") :]
    lines = [
        "/* The codes of records: why one is refused, or 0. The first cause that holds counts. */"
    ]
    lines += ["enum plantbal_cause {", "    PLANTBAL_ACCEPTED = 0,"]
    for comment, name in CAUSE.findall(body[: body.index("\n}")]):
        lines.append(block(words(comment), "    "))
        upper = re.sub(r"(?<!^)(?=[A-Z])", "_", name).upper()
        lines.append(f"    PLANTBAL_CAUSE_{upper} = {numbers[name]},")
    return "\n".join([*lines, "};"])


HEAD = """\
/* plantbal.h: plant mass balance, in process. Made by packaging/derived write. What each call promises
   is proved. plantbal(3) says what the caller owes: true pointers and lengths, none of them null, buffers
   that don't overlap, one call at a time for each session, and no copy of a session's words. */
#ifndef PLANTBAL_H
#define PLANTBAL_H

#include <stdbool.h>
#include <stddef.h>
#include <stdint.h>

#ifdef __cplusplus
extern "C" {
#endif
"""

HELD = """\
typedef struct plantbal_handle {
    void *at;
    bool live;
} plantbal_session[1];
"""

HELD_STUDY = """\
typedef struct plantbal_study_handle {
    void *at;
    bool live;
} plantbal_study[1];
"""

SESSION = f"""\
/* What a caller holds of a session. It begins as PLANTBAL_SESSION, and the caller never reads or
   writes its words. As an array it is passed by reference, and can't be assigned. */
{HELD}#define PLANTBAL_SESSION {{{{0, false}}}}

/* The same of a study, which begins as PLANTBAL_STUDY. */
{HELD_STUDY}#define PLANTBAL_STUDY {{{{0, false}}}}
"""

TAIL = """\
#ifdef __cplusplus
}
#endif

#endif
"""


def header() -> str:
    """Return the text of plantbal.h."""
    parts = [HEAD, statuses() + "\n", causes() + "\n", SESSION]
    parts += [text + "\n" for text in structs()]
    parts.append(
        "/* The options that a run has if its words ask for nothing else. */\n"
        f"#define PLANTBAL_OPTIONS {usual()}\n"
    )
    parts.append(
        "/* The same of a study: no tests, and no critical values. */\n"
        f"#define PLANTBAL_STUDY_OPTIONS {usual_study()}\n"
    )
    parts += [f"{block(export.comment)}\n{export.prototype()}\n" for export in exports()]
    return "\n".join([*parts, TAIL])


def versions() -> dict[str, list[str]]:
    """Return the names of the exports by the versions of their symbols."""
    found: dict[str, list[str]] = {version: [] for version in SINCE}
    for name in sorted(it.name for it in exports()):
        found[ADDED.get(name, next(iter(SINCE)))].append(name)
    return found


def export_map() -> str:
    """Return the text of exports.map: the version of each symbol, and nothing else is exported."""
    text, before = "", ""
    for version, named in versions().items():
        names = "".join(f"        {name};\n" for name in named)
        rest = "" if before else "    local:\n        *;\n"
        text += f"{version} {{\n    global:\n{names}{rest}}}{before};\n"
        before = f" {version}"
    return text


def declarations() -> str:
    """Return the text of the module of Python: what cffi reads, and the statuses."""
    text = (
        HELD
        + HELD_STUDY
        + "".join(re.sub(r" */\*.*?\*/\n", "", it, flags=re.S) + "\n" for it in structs())
    )
    text += "".join(f"{export.prototype()}\n" for export in exports())
    statuses = "".join(
        f"    # {comment}\n    {name} = {number}\n" for comment, name, number in status_numbers()
    )
    return (
        '"""What cffi reads of libplantbal: made by packaging/derived write."""\n\n'
        "from enum import IntEnum\n\n"
        f'DECLARATIONS = """\\\n{text}"""\n\n\n'
        'class Status(IntEnum):\n    """How a call ended."""\n\n' + statuses
    )


def symbols() -> str:
    """Return the text of Debian's list of symbols, with the release since which each is there."""
    lines = "".join(
        f" {name}@{version} {SINCE[version]}\n"
        for version, named in versions().items()
        for name in [version, *named]
    )
    return f"libplantbal.so.0 libplantbal0 #MINVER#\n{lines}"


def files() -> dict[Path, str]:
    """Return the text of each file that is made."""
    return {
        HEADER: header(),
        EXPORTS: export_map(),
        PYTHON: declarations(),
        SYMBOLS: symbols(),
    }
