#!/usr/bin/env python3
"""respell_docs.py [--write] [COMMIT]: looks at every name in backticks in the pages. One that stands nowhere in crates/ (code, specs, proofs, edits), but does
once it is turned from dashes or capitals to snake case or, a type, to camel case, is respelt: shown, and with --write written. Names that stand in neither spelling are listed, with `was` before those
that stood in crates/ at COMMIT. Notes in docs/changes/ stay as they were written.
"""
import pathlib
import re
import subprocess
import sys

TOP = pathlib.Path(__file__).resolve().parent.parent
PAGES = ["README.md", "tests/README.md", *(f"docs/{page}.md" for page in ("DECISIONS", "DEMANDS", "MEASURED", "PROMISES", "WORKING"))]
NAME = r"[A-Za-z_][\w'′]*(?:-[\w'′]+)*"


def names_in(path, text):
    """The names of a file of crates/: its own, those of its folders, and each in its text."""
    return set(re.findall(NAME, text)) | set(re.findall(r"\w+", text)) | {part.split(".")[0] for part in path.split("/")}


def standing():
    found = set()
    for file in (TOP / "crates").rglob("*"):
        if file.is_file() and "out" not in file.parts:
            found |= names_in(str(file.relative_to(TOP)), file.read_text(errors="replace"))
    return found


def stood(commit):
    git = ["git", "-C", str(TOP)]
    files = subprocess.run([*git, "ls-tree", "-r", "--name-only", commit, "crates"], capture_output=True, text=True, check=True).stdout.split("\n")
    text = subprocess.run([*git, "grep", "-hI", "", commit, "--", "crates"], capture_output=True, text=True, check=True).stdout
    return names_in("", text).union(*(names_in(file, "") for file in files))


def snake(name):
    return re.sub(r"(?<=[a-z0-9])([A-Z])", lambda big: "_" + big[1].lower(), name[0].lower() + name[1:]).replace("-", "_").replace("′", "'").lower()


def camel(name):
    return "".join(word[:1].upper() + word[1:] for word in re.split("[-_]", name))


def respelt(name, now):
    """The name as it stands in crates/, or None. Rattle's names of goals and steps have dashes too, so one with dashes is taken only where no other stands."""
    both = [camel(name), snake(name)] if name[0].isupper() else [snake(name), camel(name)]
    spelt = [name] if not re.search("-|^[a-z].*[A-Z]", name) else [*both, name] if "-" in name else [name, *both]
    return next((it for it in spelt if it in now), None)


def main(words):
    now = standing()
    was = set().union(*(stood(it) for it in words if it != "--write"))
    lost = {}
    for page in PAGES:
        text = (TOP / page).read_text()

        def name_in(span, page=page):
            def one(found):
                name = found[0]
                other = respelt(name, now)
                if other is None:
                    lost.setdefault(name, set()).add(page)
                elif other != name:
                    print(f"{page}: {name} -> {other}")
                return other or name

            # the ends of several names, as `-append` behind `demand_1_build`
            end = re.fullmatch(r"(\.\.)?-([a-z][a-z0-9-]*)", span)
            if end and any(it.endswith("_" + snake(end[2])) for it in now):
                return (end[1] or "") + "_" + snake(end[2])
            return re.sub(NAME, one, span)

        made = re.sub(r"(?<!`)`([^`\n]+)`", lambda span: f"`{name_in(span[1])}`", text)
        if "--write" in words and made != text:
            (TOP / page).write_text(made)
    for name, pages in sorted(lost.items()):
        print(f"{'was ' if name in was else ''}nowhere: {name} ({', '.join(sorted(pages))})")


main(sys.argv[1:])
