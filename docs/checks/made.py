"""Tests what is said in several places or made of something else: the version, the figures, the plain copy, the man page."""
import re
import shutil
import subprocess
import sys

from checks.shared import ROOT, text_of, unless

# Where the version of the C header stands too, and how: by itself, or with the logic.
VERSIONS = {
    "CHANGELOG.md": "\n## {version}\n",
    "docs/INSTALL.md": "/pahkrin_{version}_amd64.deb",
    "crates/oth_c/specs/Texts.antt": 'version_text = codes "{version} (rattle logic {logic})"\n',
    "crates/oth_c/src/texts/version.rt": 'const LIBRARY_VERSION: &str = "{version} (rattle logic {logic})";\n',
    "crates/oth_words/src/commands.rt": 'const VERSION: &str = "{version} (rattle logic {logic})";\n',
    "docs/FORMATS.md": "`othsolve {version} (rattle logic {logic})`",
    "docs/othsolve.1": '"Pahkrin {version}"',
    "examples/python/othsolve/__init__.py": '__version__ = "{version}"\n',
    "examples/python/pyproject.toml": 'version = "{version}"\n',
    "hostile/texts/help.txt": "\nothsolve {version} (rattle logic {logic})\n",
    "include/othsolve.h": ' "{version} (rattle logic {logic})"',
}


def version_faults():
    """Tests that the version is the C header's wherever it stands, and the logic that of the README, and of the kit where there is one."""
    version = re.search(r'#define OTHSOLVE_VERSION "(.*)"\n', text_of(ROOT / "include/othsolve.h")).group(1)
    logic = re.search(r"`logic ([0-9a-f]+)`", text_of(ROOT / "README.md")).group(1)
    for name, text in VERSIONS.items():
        said = text.format(version=version, logic=logic)
        yield unless(said in text_of(ROOT / name), f"{name}: it doesn't say {said.strip()}")
    newest = re.search(r"\n## (.*)\n", text_of(ROOT / "CHANGELOG.md")).group(1)
    yield unless(newest == version, f"CHANGELOG.md: the newest version is {newest}, that of the C header {version}")
    if shutil.which("rt"):
        kit = ran(["rt", "version"]).stdout.strip()
        yield unless(kit.endswith(f" logic {logic}"), f"README.md: its logic is {logic}, and the kit is {kit}")


def made_faults():
    """Tests that the tables and the plot are those of bench/figures.txt, and that a plain Rust copy of the search can be made."""
    found = ran([sys.executable, ROOT / "bench/plot.py", "--check"])
    yield unless(found.returncode == 0, found.stdout.strip())
    found = ran([sys.executable, ROOT / "bench/plain.py", "--check"])
    yield unless(found.returncode == 0, found.stderr.strip())


def man_page_faults():
    """Tests that groff, where there is one, shows the man page without a warning."""
    if shutil.which("groff"):
        found = ran(["groff", "-man", "-Tutf8", "-ww", "-z", ROOT / "docs/othsolve.1"])
        yield unless(found.returncode == 0 and not found.stderr, f"docs/othsolve.1: {found.stderr.strip()}")


def ran(words):
    """Tells how a run of the words ended, with what it wrote and said."""
    return subprocess.run(words, capture_output=True, text=True)
