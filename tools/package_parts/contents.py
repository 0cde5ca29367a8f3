"""What stands in the packages, and where."""
import gzip
import os
import re
import shutil
import subprocess
import sys
import textwrap
import time

from package_parts import completions, manuals
from package_parts.words import PACKAGE_OF, WORDS

TOP = os.path.dirname(os.path.dirname(os.path.dirname(os.path.realpath(__file__))))
PROGRAMS = ("bmclab", "bmcnet")
TRIALS = {"bmclab": ["frame", "2018C82C0001D3"], "bmcnet": ["pair", "sample.toml", "examples/reply_lost/plan.toml", "20"]}
# The clients' folder, and what a client is called among all programs of a machine.
CLIENTS = "usr/share/hozterqui-clients"
NAMES = {
    **{name: name for name in ("lan-bridge", "controller-bridge", "lossy-link")},
    **{name: f"hozterqui-{name}" for name in ("new-board", "capture", "chart-svg")},
}
UNITS = {"bmcnet-serve@.service": "hozterqui", "lan-bridge@.service": "hozterqui-clients"}
MAINTAINER = "Hozterqui maintainers <maintainers@users.noreply.hozterqui.example>"


def end(text):
    print(f"tools/package: {text}", file=sys.stderr)
    sys.exit(1)


def said(call, both=False):
    """Returns what a command says; with `both`, on both streams, whatever its status is."""
    errors = subprocess.STDOUT if both else subprocess.DEVNULL
    ended = subprocess.run(call, cwd=TOP, stdin=subprocess.DEVNULL, stdout=subprocess.PIPE, stderr=errors, text=True, check=False)
    if ended.returncode and not both:
        end(f"{' '.join(call)} failed")
    return ended.stdout.strip()


def text_of(path):
    with open(f"{TOP}/{path}", encoding="utf-8") as file:
        return file.read()


def write(path, text, mode=0o644):
    os.makedirs(os.path.dirname(path), exist_ok=True)
    with open(path, "wb") as file:
        file.write(text if isinstance(text, bytes) else text.encode())
    os.chmod(path, mode)


def versions():
    """Returns the version, the date and the changes of each heading of CHANGELOG.md, the newest first."""
    found = re.findall(r"(?m)^## (\d+\.\d+\.\d+) \((\d{4}-\d\d-\d\d)\)\n\n((?:.*\n)*?)(?=^## |\Z)", text_of("CHANGELOG.md"))
    return found or end("CHANGELOG.md names no version")


def put_programs(root, programs):
    """Puts the programs, stripped, into their places, and returns these."""
    installed = {name: f"{root}/usr/bin/{name}" for name in programs}
    os.makedirs(f"{root}/usr/bin", exist_ok=True)
    for name, path in programs.items():
        said(["strip", "--strip-all", "--remove-section=.comment", "-o", installed[name], path])
        os.chmod(installed[name], 0o755)
    return installed


def helps_of(program, installed):
    """Returns the help of a program, and those of its commands."""
    files = {**installed, "hozterqui": f"{TOP}/packaging/hozterqui", **{named: f"{TOP}/clients/{name}" for name, named in NAMES.items()}}
    commands = [command for command in WORDS.get(program, {}) if command]
    return {command: said([files[program], *([command] if command else []), "--help"], both=True) + "\n" for command in ["", *commands]}


def changelog_of(package):
    """Returns the changes as Debian's policy has them."""
    made = []
    for version, date, text in versions():
        items = [" ".join(item.split()) for item in re.split(r"(?m)^- ", text.strip())[1:]]
        lines = "\n".join(textwrap.fill(item, 78, initial_indent="  * ", subsequent_indent="    ", break_on_hyphens=False) for item in items)
        day = time.strftime("%a, %d %b %Y 00:00:00 +0000", time.strptime(date, "%Y-%m-%d"))
        made.append(f"{package} ({version}) unstable; urgency=medium\n\n{lines}\n\n -- {MAINTAINER}  {day}\n")
    return "\n".join(made)


def client_text(name):
    """Returns the text of a client as it is installed: its words as there, and Debian's Python."""
    text = manuals.for_calls(text_of(f"clients/{name}")).replace("docs/CLIENTS.md", f"{manuals.DOCS}/CLIENTS.md")
    return re.sub(r"\A#!/usr/bin/env python3\n", "#!/usr/bin/python3\n", text)


def put_clients(root):
    for folder in ("", "python/"):
        for name in sorted(os.listdir(f"{TOP}/clients/{folder}")):
            if name in NAMES or name.endswith(".py"):
                write(f"{root}/{CLIENTS}/{folder}{name}", client_text(f"{folder}{name}"), 0o755 if name in NAMES else 0o644)
    os.makedirs(f"{root}/usr/bin")
    for name, named in NAMES.items():
        os.symlink(f"../share/{os.path.basename(CLIENTS)}/{name}", f"{root}/usr/bin/{named}")


def put_pages(root):
    """Puts the pages, boards and plans into their places."""
    docs = f"{root}/{manuals.DOCS[1:]}"
    write(f"{docs}/README.md", text_of("README.md"))
    for name in sorted(os.listdir(f"{TOP}/docs")):
        write(f"{docs}/{name}", text_of(f"docs/{name}"))
    shutil.copytree(f"{TOP}/examples", f"{root}/usr/share/hozterqui/examples", copy_function=shutil.copyfile)
    write(f"{root}/usr/share/hozterqui/sample.toml", text_of("sample.toml"))
    os.symlink("../../hozterqui/examples", f"{docs}/examples")


def put_rest(roots, installed, version, epoch):
    """Puts all but the programs into the roots of the packages."""
    write(f"{roots['hozterqui']}/usr/bin/hozterqui", text_of("packaging/hozterqui"), 0o755)
    put_pages(roots["hozterqui"])
    put_clients(roots["hozterqui-clients"])
    for page, (package, program, *_) in manuals.MANUALS.items():
        text = manuals.manual(TOP, page, helps_of(program, installed) if program else {}, version, time.strftime("%Y-%m-%d", time.gmtime(epoch)))
        write(f"{roots[package]}/usr/share/man/man{page[-1]}/{page}.gz", gzip.compress(text.encode(), 9, mtime=0))
    for program, package in PACKAGE_OF.items():
        write(f"{roots[package]}/usr/share/bash-completion/completions/{program}", completions.bash(program))
        write(f"{roots[package]}/usr/share/zsh/vendor-completions/_{program}", completions.zsh(program))
    for unit, package in UNITS.items():
        write(f"{roots[package]}/lib/systemd/system/{unit}", text_of(f"packaging/{unit}"))
    for package, root in roots.items():
        write(f"{root}/usr/share/doc/{package}/copyright", text_of("packaging/copyright"))
        write(f"{root}/usr/share/doc/{package}/changelog.gz", gzip.compress(changelog_of(package).encode(), 9, mtime=0))
