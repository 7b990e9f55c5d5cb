"""Builds the package by the setuptools that is installed. pip hides it from a build, to fetch another one from the network."""
import site
import sys

sys.path += [folder for folder in site.getsitepackages() if folder not in sys.path]
from setuptools.build_meta import *  # noqa: F403,E402 - the hooks that pip calls


def get_requires_for_build_wheel(config_settings=None):
    """Nothing more than is here."""
    return []


def get_requires_for_build_editable(config_settings=None):
    """Nothing more than is here."""
    return []
