"""Where things are in the repository, its files, and the state that a generated page is of."""
import datetime
import os
import subprocess

ROOT = os.path.dirname(os.path.dirname(os.path.abspath(__file__)))
TOOLS = os.path.join(ROOT, "tools")
CRATES = os.path.join(ROOT, "crates")
EXAMPLES = os.path.join(ROOT, "examples")
GENERATED = os.path.join(ROOT, "docs", "generated")
# what the tools and scripts of the repository put together; each program is in its crate's out/
FOR_TOOLS = os.path.join(ROOT, "target", "tools")


class Stop(Exception):
    """What keeps a subcommand from going on, in a line; it ends with status 2."""


def read_bytes(name):
    with open(name, "rb") as file:
        return file.read()


def write_bytes(name, data):
    with open(name, "wb") as file:
        file.write(data)


def read_text(name):
    try:
        with open(name, encoding="utf-8") as file:
            return file.read()
    except UnicodeDecodeError as error:
        raise Stop(f"{name}: no UTF-8 text, from byte {error.start} on") from None


def write_text(name, text):
    os.makedirs(os.path.dirname(os.path.abspath(name)), exist_ok=True)
    with open(name, "w", encoding="utf-8") as file:
        file.write(text)


def out_of(crate):
    """The folder in which a crate's program is built."""
    return os.path.join(CRATES, crate, "out")


def page(name):
    """The path of a generated page."""
    return os.path.join(GENERATED, name)


def today():
    return datetime.date.today().isoformat()


def git(*words):
    """What git prints, or nothing where there is no git or no repository."""
    try:
        done = subprocess.run(["git", *words], cwd=ROOT, capture_output=True, text=True, check=False)
    except OSError:
        return ""
    return done.stdout.strip() if done.returncode == 0 else ""


def commit():
    """The commit, and that files of crates/ differ from it, where they do."""
    name = git("rev-parse", "--short", "HEAD") or "unknown"
    return name + (" with uncommitted changes in crates/" if git("status", "--porcelain", "--", "crates") else "")
