"""How pip builds this package: as setuptools does, but in a copy of this folder.

setuptools leaves the folders `build` and `ipcd.egg-info` where it builds. The copy is removed, so nothing is left here. An
editable installation stands on this folder itself, and its `ipcd.egg-info` stays as long as the installation.
"""

from __future__ import annotations

import os
import shutil
import tempfile
from collections.abc import Iterator
from contextlib import contextmanager
from typing import Any, Optional

from setuptools import build_meta
from setuptools.build_meta import build_editable, get_requires_for_build_editable, prepare_metadata_for_build_editable

__all__ = [
    *("build_editable", "build_sdist", "build_wheel", "get_requires_for_build_editable", "get_requires_for_build_sdist"),
    *("get_requires_for_build_wheel", "prepare_metadata_for_build_editable", "prepare_metadata_for_build_wheel"),
]

Settings = Optional[dict[str, Any]]


@contextmanager
def in_a_copy() -> Iterator[None]:
    """Works in a copy of this folder, which is the one where a build begins."""
    here = os.getcwd()
    with tempfile.TemporaryDirectory() as folder:
        copy = os.path.join(folder, "package")
        shutil.copytree(here, copy, ignore=shutil.ignore_patterns("__pycache__", "build", "*.egg-info"))
        os.chdir(copy)
        try:
            yield
        finally:
            os.chdir(here)


def get_requires_for_build_wheel(settings: Settings = None) -> list[str]:
    with in_a_copy():
        return build_meta.get_requires_for_build_wheel(settings)


def get_requires_for_build_sdist(settings: Settings = None) -> list[str]:
    with in_a_copy():
        return build_meta.get_requires_for_build_sdist(settings)


def prepare_metadata_for_build_wheel(folder: str, settings: Settings = None) -> str:
    folder = os.path.abspath(folder)
    with in_a_copy():
        return build_meta.prepare_metadata_for_build_wheel(folder, settings)


def build_wheel(folder: str, settings: Settings = None, metadata: Optional[str] = None) -> str:
    folder, metadata = os.path.abspath(folder), metadata and os.path.abspath(metadata)
    with in_a_copy():
        return build_meta.build_wheel(folder, settings, metadata)


def build_sdist(folder: str, settings: Settings = None) -> str:
    folder = os.path.abspath(folder)
    with in_a_copy():
        return build_meta.build_sdist(folder, settings)
