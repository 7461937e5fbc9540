"""Workbooks that attack: they take much more than they are, or ask for what is elsewhere."""

from __future__ import annotations

import io
import zipfile


def bombs(port: int) -> dict[str, bytes]:
    """Workbooks that take much more than they are, or ask for what is elsewhere."""
    inner = b"".join(b'<!ENTITY %c "%s">' % (98 + i, b"&%c;" % (97 + i) * 10) for i in range(9))
    web = f"http://127.0.0.1:{port}/"
    sheets = {
        "zip bomb": b"<x>" + b" " * (1 << 29) + b"</x>",
        "XML bomb": b'<?xml version="1.0"?><!DOCTYPE l [<!ENTITY a "aaaaaaaaaa">'
        + inner
        + b"]><l>&j;</l>",
        "request by an entity": f'<!DOCTYPE l [<!ENTITY a SYSTEM "{web}">]><l>&a;</l>'.encode(),
        "request by a definition": f'<!DOCTYPE l SYSTEM "{web}"><l/>'.encode(),
        "file by an entity": b'<!DOCTYPE l [<!ENTITY a SYSTEM "file:///etc/passwd">]><l>&a;</l>',
    }
    found = {}
    for name, sheet in sheets.items():
        out = io.BytesIO()
        with zipfile.ZipFile(out, "w", zipfile.ZIP_DEFLATED) as packed:
            packed.writestr("[Content_Types].xml", "<Types/>")
            packed.writestr("xl/workbook.xml", sheet)
        found[f"{name}.xlsx"] = out.getvalue()
    return found | {"request by a link.xlsx": linked(web)}


def linked(web: str) -> bytes:
    """A workbook that is one, with a picture, a link and a formula that ask for what is elsewhere."""
    import openpyxl

    book = openpyxl.Workbook()
    sheet = book.active
    sheet.title = "readings"
    sheet["A1"], sheet["B1"], sheet["C1"] = "meter", "day", "amount"
    sheet["A2"], sheet["B2"] = "FI-302", "2024-04-18"
    sheet["C2"] = f'=WEBSERVICE("{web}")'
    sheet["A2"].hyperlink = web
    out = io.BytesIO()
    book.save(out)
    return out.getvalue()
