"""What holds a bundle beside its own digests: a signature, a time stamp, the bundle after it.

Digests in a bundle fit whoever makes it anew. So an audit says who has signed it, with which key and
since when that is allowed; and if nothing outside the bundle was compared, that anybody could have
written it.
"""

from __future__ import annotations

import argparse
import datetime
from collections.abc import Iterator
from dataclasses import dataclass
from pathlib import Path

from plantbal.audit.changed import digest
from plantbal.audit.linked import bundle_manifest
from plantbal.audit.said import SentenceKind
from plantbal.faults import Fault, WordsFault, decoded, read_bytes
from plantbal.limits import RULES_BYTES, SIGNATURE_BYTES, STAMP_BYTES
from plantbal.newfile import write_new
from plantbal.signing.signatures import (
    BUNDLE,
    Keys,
    key_of,
    read_signature,
    scheme_of,
    sign,
    verified,
)
from plantbal.signing.signers import fingerprint, read_signers
from plantbal.signing.stamps import Stamped, stamp, stamped

ANYBODY = (
    "nothing else was compared with it, so anybody could have written all of it, digests included: "
    "--signers, --book, --after or the session of the books says more"
)


# ---- to sign


def add_signing(parser: argparse.ArgumentParser) -> None:
    """Add the words by which a bundle is signed."""
    key = "the key with which the bundle is signed: OpenSSH's or minisign's, into BUNDLE.sig"
    parser.add_argument("--key", metavar="FILE", help=key)
    stamps = "the server that stamps the time of the signature, into BUNDLE.sig.tsr"
    parser.add_argument("--stamps", metavar="URL", help=stamps)


def sign_bundle(path: str, key: str | None, server: str | None) -> list[str]:
    """Sign a bundle that is there, and return which files were written.

    Raises
    ------
    Fault
        If a key or a time stamp can't be had, or the signature of another is there.
    """
    if key is None:
        if server is not None:
            raise WordsFault("--stamps stamps a signature", remedy="use --key too")
        return []
    found = Path(f"{path}.sig")
    signature = sign(read_bytes(path)[1], key, BUNDLE)
    if not write_new(found, signature.encode("ascii")):
        remedy = "move it away, and sign by the same command again"
        raise Fault(f"{found} already exists, and isn't overwritten", remedy=remedy)
    if server is None:
        return [str(found)]
    token = Path(f"{path}.sig.tsr")
    if not write_new(token, stamp(signature.encode("ascii"), server).encode("ascii")):
        raise Fault(f"{token} already exists, and isn't overwritten", remedy="move it away")
    return [str(found), str(token)]


# ---- to say who has signed


def add_signers(parser: argparse.ArgumentParser) -> None:
    """Add the words by which an audit knows who may sign."""
    signers = "who may sign, as OpenSSH's allowed_signers: the bundle has to be signed by one"
    parser.add_argument("--signers", metavar="FILE", help=signers)
    by = "who has to have signed it"
    parser.add_argument("--signed-by", metavar="NAME", help=by)
    revoked = "keys that are revoked"
    parser.add_argument("--revoked", metavar="FILE", help=revoked)
    signature = "the signature (default: BUNDLE.sig); its time stamp is beside it, in FILE.tsr"
    parser.add_argument("--signature", metavar="FILE", help=signature)
    authority = "the certificate of the time stamps' authority, as PEM"
    parser.add_argument("--authority", metavar="FILE", help=authority)
    after = "the plant's next bundle, which has to name this one"
    parser.add_argument("--after", metavar="BUNDLE", help=after)


@dataclass(frozen=True)
class Beside:
    """What is compared with a bundle from outside.

    Attributes
    ----------
    path : str
        The bundle.
    signature : str
        Where its signature is, or would be.
    """

    path: str
    signature: str

    def held(self, options: argparse.Namespace, made: str) -> Iterator[tuple[SentenceKind, str]]:
        """Give who has signed a bundle: ``good``, ``note`` or ``wrong``, and a sentence.

        Parameters
        ----------
        options : Namespace
            The words of the command.
        made : str
            When the bundle says that it was made.
        """
        is_there = Path(self.signature).is_file()
        if options.signers is not None:
            yield from self._signed(options, made, is_there)
        elif options.signed_by or options.revoked or options.authority:
            remedy = "--signers FILE, of OpenSSH's form allowed_signers"
            raise WordsFault("whose a signature is follows from who may sign", remedy=remedy)
        elif is_there:
            yield SentenceKind.NOTE, f"{self.path}: {self.signature} has {_key_said(self.signature)}"
        if options.after is not None:
            yield self._after(options.after)

    def _signed(
        self, options: argparse.Namespace, made: str, is_there: bool
    ) -> Iterator[tuple[SentenceKind, str]]:
        """Give whose the signature is that has to be there."""
        if not is_there:
            yield SentenceKind.WRONG, f"{self.path}: nobody has signed it: there is no {self.signature}"
            return
        keys = given_keys(options)
        assert keys is not None, "who may sign is given"
        signature = read_signature(self.signature)
        stamp_ = self._stamped(options.authority, signature)
        stated = datetime.datetime.strptime(made, "%Y-%m-%dT%H:%M:%SZ")
        when = (stamp_.when if stamp_ is not None else None) or stated.replace(
            tzinfo=datetime.timezone.utc
        )
        found = verified(read_bytes(self.path)[1], signature, keys, BUNDLE, when)
        is_other = bool(options.signed_by and found.name and found.name != options.signed_by)
        rest = f", and {options.signed_by} has to have signed it" if is_other else ""
        yield SentenceKind.WRONG if is_other or not found.name else SentenceKind.GOOD, f"{self.path}: {found.said()}{rest}"
        if stamp_ is not None:
            yield SentenceKind.GOOD if stamp_.when else SentenceKind.WRONG, f"{self.path}: {stamp_.said()}"
        else:
            what = "no time stamp was compared: the time of signing is only what the signature says"
            yield SentenceKind.NOTE, f"{self.path}: {what}"

    def _stamped(self, authority: str | None, signature: str) -> Stamped | None:
        """Return what the time stamp says, or None if no authority is named."""
        if authority is None:
            return None
        token = Path(f"{self.signature}.tsr")
        if not token.is_file():
            return Stamped(None, f"there is no {token}")
        text = read_bytes(token, STAMP_BYTES)[1].decode("ascii", "replace")
        return stamped(signature.encode("ascii"), text, given_text(authority))

    def _after(self, path: str) -> tuple[SentenceKind, str]:
        """Return whether a bundle after this one names it."""
        own, named = digest(read_bytes(self.path)[1]), bundle_manifest(path).before.get(
            "sha256", ""
        )
        if named == own:
            return SentenceKind.GOOD, f"{self.path}: {path} names it as the bundle before it"
        what = f"{path} names {named or 'no bundle'} before it, and this one is {own}"
        return SentenceKind.WRONG, f"{self.path}: {what}"


def given_keys(options: argparse.Namespace) -> Keys | None:
    """Return who may sign by the words of a command, or None if they don't say it."""
    if options.signers is None:
        return None
    return Keys(
        read_signers(options.signers, given_text(options.signers)), given_text(options.revoked)
    )


def given_text(path: str | None) -> str:
    """Return the text of a file; nothing without a file."""
    return decoded(*read_bytes(path, RULES_BYTES)) if path is not None else ""


def _key_said(path: str) -> str:
    """Return what a signature says of itself."""
    _, data = read_bytes(path, SIGNATURE_BYTES)
    text = data.decode("ascii", "replace")
    scheme = scheme_of(text)
    try:
        short = fingerprint(scheme, key_of(text)) if scheme is not None else ""
    except (ValueError, IndexError):
        short = ""
    if not short:
        return "no signature of OpenSSH or minisign"
    return f"a signature by the key {short}: --signers FILE says whose"
