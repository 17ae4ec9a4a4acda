"""The completions of the program and of the tools, against what these say of themselves and what the manual has. zsh is used
where it is installed."""
import contextlib
import os
import pathlib
import pty
import re
import select
import shutil
import tempfile
import time

import harness
from harness import CONTRIB, EXAMPLES, SECONDS, TOP, run, same, test

TOOLS = ("bmpq", "bmp-exporter", "bmp-lookingglass", "bmp-mirror")
PROMPT = "<prompt>"


@contextlib.contextmanager
def completions():
    with tempfile.TemporaryDirectory() as folder:
        done = run([TOP / "packaging/completion", harness.PROGRAM, folder])
        same((done.returncode, done.stderr), (0, b""), "packaging/completion")
        yield pathlib.Path(folder)


def bash_words(folder, *words):
    """What bash offers in the place of the last of these words."""
    name = "_" + words[0].replace("-", "_")
    script = f'. "$1"; shift; COMP_WORDS=("$@"); COMP_CWORD=$(($# - 1)); {name}; printf "%s\\n" "${{COMPREPLY[@]}}"'
    done = run(["bash", "-c", script, "bash", folder / "bash" / words[0], *words], cwd=EXAMPLES)
    same((done.returncode, done.stderr), (0, b""), words)
    return set(done.stdout.decode().split())


class Zsh:
    """A zsh that completes, in a terminal of its own."""

    def __init__(self, folder):
        self.folder = folder

    def __enter__(self):
        self.child, self.end = pty.fork()
        if self.child == 0:
            os.execvpe("zsh", ["zsh", "-f"], {"PATH": os.environ["PATH"], "HOME": str(self.folder), "TERM": "dumb", "PS1": PROMPT, "LC_ALL": "C"})
        self.read(PROMPT)
        self.say(f"stty cols 250 rows 200; LISTMAX=900; fpath=({self.folder}/zsh $fpath); cd {EXAMPLES}; autoload -U compinit; compinit -D")
        return self

    def __exit__(self, *_):
        os.close(self.end)
        os.kill(self.child, 9)
        os.waitpid(self.child, 0)

    def read(self, until):
        """What is written up to and with this text."""
        said, limit = "", time.monotonic() + SECONDS
        while until not in said:
            if time.monotonic() > limit or not select.select([self.end], [], [], SECONDS)[0]:
                raise AssertionError(f"zsh said {said!r:.800}, and no {until!r}")
            said += os.read(self.end, 65536).decode()
        return said

    def say(self, keys):
        """What is written on these keys and a command behind them, after which the next prompt comes."""
        os.write(self.end, (keys + "; print all''-said\n").encode())
        before, after = self.read("all-said").split("all-said")
        if PROMPT not in after:
            self.read(PROMPT)
        return before

    def words(self, line):
        """What zsh lists behind this line: ^D lists, and ^U takes the line away."""
        return set(re.findall(r"[^\s,:|]+", self.say(line + "\x04\x15:")))


def helped_of_station():
    """The commands, the words beside them, and the options of serve, by the help."""
    head, serve = run([harness.PROGRAM, "--help"]).stdout.decode().split("options of serve")
    commands = set(re.findall(r"^  ([a-z]+)", head, re.M))
    return commands, {"--check-options", "--help", "-h", "--version", "-V"}, set(re.findall(r"^  (--[a-z-]+)", serve, re.M))


def helped_of_tool(tool):
    told = run([CONTRIB / tool, "--help"]).stdout.decode().split("\n\n", 1)[1]
    return {name for line in re.findall(r"^  (-.*?)(?:  |$)", told, re.M) for name in re.findall(r"(?<!\S)(--?[a-z-]+)", line)}


def items_of_manual(section):
    page = (CONTRIB / "man" / "bmpstation-query.7").read_text().split(f".Ss {section}")[1].split(".El")[0]
    return page, set(re.findall(r"^\.It Cm ([a-z]+)", page, re.M))


@test
def completion_by_bash():
    commands, alone, serve = helped_of_station()
    queries = items_of_manual("Queries")[1] - {"quit"}
    page, selectors = items_of_manual("Selectors")
    files = {path.name for path in EXAMPLES.iterdir()}
    with completions() as folder:
        def offered(*words):
            return bash_words(folder, *words)

        same(offered("bmpstation", ""), commands | alone, "commands")
        same(offered("bmpstation", "re"), {"replay", "relay", "recall"}, "commands that begin with re")
        same(offered("bmpstation", "serve", ""), serve, "options of serve")
        same(offered("bmpstation", "serve", "--lenient", "--feeds", "4", "--a"), {"--askers", "--ask-port", "--address", "--ask-address", "--ask-idle", "--ask-from"}, "--a")
        for words in ("--ports", ""), ("--ports", "="), ("--ports", "=", ""):
            same(offered("bmpstation", "serve", *words), {"each", "shared"}, words)
        same(offered("bmpstation", "serve", "--rounds", ""), {"forever"}, "--rounds")
        same(offered("bmpstation", "serve", "--feeds", ""), set(), "--feeds")
        for command in commands - {"serve", "drill"}:
            same(offered("bmpstation", command, "--"), {"--lenient"}, command)
            same(offered("bmpstation", command, "--lenient", "--"), set(), command)
        same(offered("bmpstation", "drill", ""), set(), "drill")
        same(offered("bmpstation", "--check-options"), {"--check-options"}, "--check-options")
        same(offered("bmpstation", "--check-options", ""), commands | alone, "commands to be checked")
        same(offered("bmpstation", "--check-options", "serve", ""), serve, "options of serve to be checked")
        same(offered("bmpstation", "--check-options", "replay", "--lenient", ""), queries, "queries to be checked")
        for words in (("replay",), ("replay", "--lenient"), ("recall", "FILE"), ("recall", "--lenient", "FILE")):
            same(offered("bmpstation", *words, ""), queries, words)
            same(offered("bmpstation", *words, "table", ""), selectors, words)
            same(offered("bmpstation", *words, "table", "view", "adj-"), set(re.findall(r"adj-[a-z-]+", page)), "views")
            same(offered("bmpstation", *words, "prefix", ""), set(), "prefix")
            same(offered("bmpstation", *words, "steps", ""), {"table", "prefix", "match", "within", "origin", "full"}, "steps")
            same(offered("bmpstation", *words, "full", ""), {"table", "prefix", "match", "within", "origin", "changes", "marks", "routers"}, "full")
            same(offered("bmpstation", *words, "steps", "table", ""), selectors, "steps table")
        for command in ("rov", "archive", "recall"):
            same(offered("bmpstation", command, ""), files, command)
            same(offered("bmpstation", command, "--lenient", ""), files, command)
        for tool in TOOLS:
            same(offered(tool, "-"), helped_of_tool(tool), tool)
            same(offered(tool, "--port", ""), set(), tool)
        same(offered("bmpq", "--file", ""), files, "bmpq --file")
        same("postgresql" in offered("bmp-mirror", ""), True, "bmp-mirror")
        same(offered("bmpq", "--json", ""), queries | selectors, "bmpq")
        same(offered("bmpq", "table", "view", ""), set(re.findall(r"adj-[a-z-]+", page)) | {"loc"}, "bmpq table view")


@test
def completion_by_zsh():
    if not shutil.which("zsh"):
        return
    commands, alone, serve = helped_of_station()
    queries = items_of_manual("Queries")[1] - {"quit"}
    selectors = items_of_manual("Selectors")[1]
    with completions() as folder, Zsh(folder) as zsh:
        def offered(line, wanted, others=()):
            found = zsh.words(line)
            same((wanted - found, found & set(others)), (set(), set()), f"{line}: {sorted(found)}")

        offered("bmpstation ", commands)
        offered("bmpstation -", alone)
        offered("bmpstation serve --", serve)
        offered("bmpstation --check-options ", commands)
        offered("bmpstation --check-options serve --", serve)
        offered("bmpstation serve --feeds 4 --ports ", {"each", "shared"})
        offered("bmpstation serve --rounds=forever --feeds=4 --", serve - {"--rounds", "--feeds"}, {"--rounds", "--feeds"})
        offered("bmpstation replay ", queries)
        offered("bmpstation replay --lenient table ", selectors, queries - {"table"})
        offered("bmpstation replay steps ", {"table", "prefix", "match", "within", "origin"}, {"count", "peers", "changes"})
        offered("bmpstation replay full ", {"table", "prefix", "match", "within", "origin", "changes", "marks", "routers"}, {"count", "peers", "steps"})
        offered("bmpstation rov ", {path.name for path in EXAMPLES.iterdir()})
        offered("bmpstation recall FILE ", queries)
        for tool in TOOLS:
            offered(f"{tool} -", helped_of_tool(tool))
        offered("bmpq --json ", queries)
