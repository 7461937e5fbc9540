"""Says whether the service is in order: its rights, its database, its room, and its books."""

from __future__ import annotations

import shutil
from collections.abc import Iterator
from pathlib import Path

from django.core.management import call_command
from django.core.management.base import SystemCheckError
from django.db import DatabaseError, connection
from django.db.migrations.executor import MigrationExecutor

from plantbal.audit.said import SentenceKind
from plantbal.faults import Fault
from plantbal.program import find_program
from plantbal_office.plants.models import Plant
from plantbal_office.service.config import Config
from plantbal_office.service.restore import restored_book, RestoreFinding

_ROOM = 1 << 30  # bytes that have to be free


def restore_findings(config: Config) -> Iterator[RestoreFinding]:
    """Give what is found of each part."""
    yield from _rights(config)
    try:
        yield from _database()
    except DatabaseError as error:
        yield RestoreFinding(
            SentenceKind.WRONG, f"the database doesn't answer: {str(error).strip()[:200]}"
        )
        return
    try:
        yield RestoreFinding(
            SentenceKind.GOOD, f"the program is {find_program(config.program or None)}"
        )
    except Fault as fault:
        yield RestoreFinding(SentenceKind.WRONG, str(fault))
    for folder in (config.books, config.state):
        free = shutil.disk_usage(folder).free if folder.is_dir() else 0
        kind = SentenceKind.GOOD if free > _ROOM else SentenceKind.WRONG
        yield RestoreFinding(kind, f"{folder} has {free >> 20:,} MiB of free space")
    for plant in Plant.objects.all():
        try:
            yield from restored_book(Path(plant.folder))
        except Fault as fault:
            yield RestoreFinding(SentenceKind.WRONG, f"{plant.slug}: {fault}")


def _rights(config: Config) -> Iterator[RestoreFinding]:
    """Give whether others can read what is secret."""
    for path in (config.path.with_name("secret"), config.path, config.books, config.state):
        if not path.exists():
            yield RestoreFinding(SentenceKind.WRONG, f"there is no {path}")
        elif path.stat().st_mode & 0o007:
            yield RestoreFinding(
                SentenceKind.WRONG, f"other users may read {path}: chmod o= {path}"
            )
    if not config.recipients:
        yield RestoreFinding(
            SentenceKind.NOTE, "backups aren't encrypted: [backup] recipients says for whom"
        )


def _database() -> Iterator[RestoreFinding]:
    """Give whether the database is that of this version, and Django has nothing to say."""
    executor = MigrationExecutor(connection)
    lacking = executor.migration_plan(executor.loader.graph.leaf_nodes())
    if lacking:
        what = f"the database needs {len(lacking)} migrations to this version"
        yield RestoreFinding(SentenceKind.WRONG, f"{what}: run plantbal-office init")
    else:
        yield RestoreFinding(SentenceKind.GOOD, "the database is that of this version")
    try:
        call_command("check", deploy=True, fail_level="ERROR", verbosity=0)
    except SystemCheckError as error:
        yield RestoreFinding(SentenceKind.WRONG, f"{error}"[:500])
