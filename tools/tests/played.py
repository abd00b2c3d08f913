"""Runs for the tests: the examples, and random scenarios of bench/, all played by the plain model of bench/."""

import contextlib
import functools
import gc
import glob
import importlib.machinery
import importlib.util
import io
import json
import os
import resource
import shutil
import stat
import subprocess
import sys
import tempfile
import unittest
from collections import Counter
from unittest import mock

TOP = os.path.dirname(os.path.dirname(os.path.dirname(os.path.abspath(__file__))))
sys.path[:0] = [os.path.join(TOP, "tools"), os.path.join(TOP, "bench")]
import compare
import ends
import model
import reports
import runs

RANDOM = range(200)
# All runs are kept to the end, and a collector would walk through them again and again.
gc.disable()


def file_text(path):
    with open(path, encoding="utf-8") as source:
        return source.read()


class InFolder(unittest.TestCase):
    """Tests that write files into a folder of their own."""

    def setUp(self):
        self.folder = tempfile.mkdtemp()
        self.addCleanup(shutil.rmtree, self.folder)

    def write(self, name, text, is_program=False):
        path = os.path.join(self.folder, name)
        with open(path, "w", encoding="utf-8") as file:
            file.write(text)
        if is_program:
            os.chmod(path, os.stat(path).st_mode | stat.S_IXUSR)
        return path


def seconds_of_commands():
    """The processor time of the commands that tests have run so far: how long they are waited for depends on the machine's load."""
    taken = resource.getrusage(resource.RUSAGE_CHILDREN)
    return taken.ru_utime + taken.ru_stime


@functools.lru_cache(maxsize=None)
def built_program():
    """The path of this repository's proved program, or None where it would have to be proved first."""
    walter = os.path.join(TOP, "walter")
    version = subprocess.run([walter, "--version"], stdout=subprocess.PIPE, text=True).stdout
    if "proved and built" not in version:
        return None
    return subprocess.run([walter, "--where"], stdout=subprocess.PIPE, text=True).stdout.rstrip("\n")


def examples(kind):
    return sorted(glob.glob(os.path.join(TOP, "examples", "*." + kind)))


def source_of(example):
    """The script of an example that is JSON, where there is one."""
    script = example[: -len("json")] + "script"
    return script if os.path.exists(script) else example


@functools.lru_cache(maxsize=None)
def random_scenario(seed):
    return compare.scenario(seed)


@functools.lru_cache(maxsize=None)
def by_model(text):
    return model.played(json.loads(text), Counter())


def disks_of(made):
    """The bytes on the disk of each site behind the model's run of a scenario, once the disk has settled."""
    sites = model.played(made, Counter()).sites
    for site in sites:
        site.disk.settle()
    return [bytes(site.disk.reads) for site in sites]


@functools.lru_cache(maxsize=None)
def random_run(seed):
    """The model's run of a random scenario, and what the tools read of it."""
    text = json.dumps(random_scenario(seed))
    return by_model(text), runs.Run(runs.Scenario(text), reports.read(by_model(text).text()))


@functools.lru_cache(maxsize=None)
def example_run(path):
    return runs.Run(runs.Scenario(file_text(source_of(path))), reports.read(by_model(file_text(path)).text()))


def without_trace(text):
    return "".join(line + "\n" for line in text.splitlines() if not line.startswith("e "))


@functools.lru_cache(maxsize=None)
def tool(name):
    """A tool as a module."""
    path = os.path.join(TOP, "tools", name)
    spec = importlib.util.spec_from_loader("tool_" + name, importlib.machinery.SourceFileLoader("tool_" + name, path))
    module = importlib.util.module_from_spec(spec)
    sys.modules[spec.name] = module
    spec.loader.exec_module(module)
    return module


def run_bench(module, *words):
    """Runs a command of bench/ in this process: its status or its fault, and what it wrote."""
    out = io.StringIO()
    with mock.patch.object(sys, "argv", [f"{module.__name__}.py", *words]), contextlib.redirect_stdout(out):
        try:
            return module.main(), out.getvalue()
        except SystemExit as end:
            return end.code, out.getvalue()


def run_tool(name, *words):
    """Runs a tool in this process, which is much faster than another: its status, and what it wrote."""
    out, wrong = io.StringIO(), io.StringIO()
    with mock.patch.object(sys, "argv", [name, *words]), contextlib.redirect_stdout(out), contextlib.redirect_stderr(wrong):
        try:
            ends.run(tool(name).main)
        except SystemExit as end:
            return end.code, out.getvalue(), wrong.getvalue()
