#!/usr/bin/env bash
# Runs the commands that the pages show, and compares what they write with what the pages show:
#
#     docs/check.sh crates/kanren/out/kanren
#
# A command is a line that begins with '$ ' in a fenced block which begins with one; the lines behind it
# are what it writes. A page's commands run in one new folder, in which examples/ is that of the
# repository, and with the program on the path as kanren. Where 'cat FILE' names a file that isn't there,
# the lines behind it are written into it. Then the command in the head of each example is run, and
# compared with the example's output, and each example with its copy among the cases of kanren_rows.
# Then the table of refusals in docs/LANGUAGE.md is compared with that of the code.
# Needs bash and python3.
set -euo pipefail
[ $# -eq 1 ] && [ -x "$1" ] || { echo "usage: docs/check.sh PROGRAM" >&2; exit 2; }
exec python3 - "$(realpath "$1")" "$(realpath "$(dirname "$0")/..")" <<'EOF'
import os, pathlib, re, subprocess, sys, tempfile

program, root = pathlib.Path(sys.argv[1]), pathlib.Path(sys.argv[2])
pages = ["README.md", "docs/GUIDE.md", "docs/COMING_FROM.md", "docs/LANGUAGE.md"]
passed = failed = 0


def blocks(text):
    """The fenced blocks that begin with a command."""
    for block in re.findall(r"^```\n(.*?)^```$", text, re.M | re.S):
        if block.startswith("$ "):
            yield block


def commands(block):
    """Each command of a block, with what it writes."""
    for part in re.split(r"^\$ ", block, flags=re.M)[1:]:
        command, _, shown = part.partition("\n")
        yield command, shown


def run(command, folder):
    """What a command writes on both of its outputs."""
    path = f"{folder / '.path'}:{os.environ['PATH']}"
    done = subprocess.run(["bash", "-c", command], cwd=folder, env={**os.environ, "PATH": path},
                          stdin=subprocess.DEVNULL, stdout=subprocess.PIPE, stderr=subprocess.STDOUT)
    return done.stdout.decode()


def compare(place, command, shown, folder):
    global passed, failed
    written = run(command, folder)
    if written == shown:
        passed += 1
    else:
        failed += 1
        print(f"{place}: $ {command}\n--- shown\n{shown}--- written\n{written}---")


def folder_of(name):
    folder = pathlib.Path(name)
    (folder / ".path").mkdir()
    (folder / ".path" / "kanren").symlink_to(program)
    (folder / "examples").symlink_to(root / "examples")
    return folder


for page in pages:
    with tempfile.TemporaryDirectory() as name:
        folder = folder_of(name)
        for block in blocks((root / page).read_text()):
            for command, shown in commands(block):
                file = re.fullmatch(r"cat ([\w.-]+)", command)
                if file and not (folder / file[1]).exists():
                    (folder / file[1]).write_text(shown)
                else:
                    compare(page, command, shown, folder)

with tempfile.TemporaryDirectory() as name:
    folder = folder_of(name)
    for text in sorted((root / "examples").glob("*.scm")):
        for command in re.findall(r"^; (?:Run it with|and with): (.*)$", text.read_text(), re.M):
            suffix = "-all.out" if "--dialect all" in command else ".out"
            shown = text.with_name(text.stem + suffix).read_text()
            compare(f"examples/{text.name}", command, shown, folder)

# The gate reads what lies in data/ alone, so it has a copy of each example.
for file in sorted((root / "examples").iterdir()):
    copy = root / "crates/kanren_rows/data" / f"example-{file.name}"
    if copy.exists() and copy.read_bytes() == file.read_bytes():
        passed += 1
    else:
        failed += 1
        print(f"examples/{file.name} isn't the same as {copy.relative_to(root)}")

# The table of refusals on the page is that of the code.
table = (root / "crates/kan_refusals/src/refusals.rt").read_text()
coded = re.findall(r'Refusal::\w+ => \((\d+), "([^"]*)"\)', table)
page = (root / "docs/LANGUAGE.md").read_text()
section = page.partition("\n## Refused texts\n")[2].partition("\n### ")[0]
shown = re.findall(r"^\| (\d+) \| ([^|]*) \|", section, re.M)
if coded and shown == coded:
    passed += 1
else:
    failed += 1
    print("the refusals in docs/LANGUAGE.md aren't those of crates/kan_refusals/src/refusals.rt")
    for number, text in sorted(set(shown) ^ set(coded), key=lambda entry: int(entry[0])):
        print(f"  {number}, {text}: {'the page' if (number, text) in shown else 'the code'} alone")

print(f"{passed} passed, {failed} failed")
sys.exit(failed > 0)
EOF
