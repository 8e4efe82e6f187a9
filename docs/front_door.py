"""What ./jisthrom and ./try answer; `docs/check` asks it. Each test runs in a copy of the repository whose sources are links."""
import os
import re
import resource
import shutil
import subprocess
import tempfile

# The programs of the system, without the toolchain.
PLAIN = {"PATH": "/usr/bin:/bin", "LC_ALL": "C"}
USAGE = "usage: coroutine_cli run [--workers N] | check | sum --size N [--workers N]\n"
PAGE = "jisthrom runs small scripts"
# Words that ./try takes.
TWO_FILES = "run README.md README.md"

# The crates of programs that a word starts where they are there.
FURTHER = ["explain_run", "run_explore", "judge_run"]

# A status, the words, and how standard output and standard error begin, with nothing built and no toolchain on the path. What follows the
# words that are refused is the usage line of the program.
WORDS = [
    (0, "", PAGE, ""),
    (0, "help", PAGE, ""),
    (0, "-h", PAGE, ""),
    (0, "--help", PAGE, ""),
    (0, "run --help", PAGE, ""),
    (0, "picture -h", PAGE, ""),
    (0, "--version", "jisthrom ", ""),
    (2, "go", "", "there is no word 'go'"),
    (2, "Run", "", "there is no word 'Run'"),
    (2, "--workers 2", "", "there is no word '--workers'"),
    (2, "run --wokers 2", "", "run has no option '--wokers'"),
    (2, "run -w 2", "", "run has no option '-w'"),
    (2, "run --size 2", "", "run has no option '--size'"),
    (2, "run --workers", "", "--workers has no value"),
    (2, "run --workers 0", "", "--workers takes a number from 1 to 16, without a leading zero, and not '0'"),
    (2, "run --workers 17", "", "--workers takes a number from 1 to 16"),
    (2, "run --workers=04", "", "--workers takes a number from 1 to 16, without a leading zero, and not '04'"),
    (2, "run --workers 1 --workers 2", "", "--workers is given twice"),
    (2, "run none.co", "", "there is no file 'none.co' for run to read"),
    (2, "run docs", "", "there is no file 'docs' for run to read"),
    (2, TWO_FILES, "", "run does not take 'README.md'"),
    (2, "check --workers 1", "", "check has no option '--workers'"),
    (2, "sum", "", "sum wants --size N"),
    (2, "sum --workers 2", "", "sum wants --size N"),
    (2, "sum --size 0", "", "--size takes a number from 1 to 100000"),
    (2, "sum --size 100001", "", "--size takes a number from 1 to 100000"),
    (2, "sum --size 5 README.md", "", "sum does not take 'README.md'"),
    (2, "picture --format png", "", "--format takes one of "),
    (2, "picture --only jobs", "", "--only takes one of channels, and not 'jobs'"),
    (2, "picture --size 5", "", "picture has no option '--size'"),
    (2, "picture none.report", "", "there is no file 'none.report' for picture to read"),
    (2, "picture --script none.co", "", "there is no file 'none.co' for picture to read"),
    (2, "picture --script", "", "--script has no value"),
    (2, "explain", "", "explain wants a script"),
    (2, "explain none.co", "", "there is no file 'none.co' for explain to read"),
    (2, "explore --fnid held", "", "explore has no option '--fnid'"),
    (2, "explore --find", "", "--find has no value"),
    (2, "judge --all", "", "judge has no option '--all'; it takes a history, or a script and its log or report"),
    (2, "log --sede 1", "", "log has no option '--sede'"),
    (2, "log none.co", "", "there is no file 'none.co' for log to read"),
    (70, "run README.md", "", "the toolchain's command rt is not found on the path"),
]

# The toolchain, as far as ./jisthrom calls it: it notes each call, refuses a crate that has the file `refused`, and builds a program that
# prints its words and what it reads.
STUB = """#!/bin/sh
echo "$1 ${PWD##*/}" >> "$CALLS"
if [ -e refused ]; then exit 1; fi
program() { printf '#!/bin/sh\\necho "$*"\\ncat\\n'; }
case $1 in
    run)
        mkdir -p out
        program > "out/${PWD##*/}"
        chmod 755 "out/${PWD##*/}"
        ;;
    try)
        if [ "$2" = --cases ]; then
            for file in "$3"/*; do
                echo "== ${file##*/}"
                cat "$file"
                echo "case=${file##*/} run=ended status=0 runners=1 proved=no" >&2
            done
            echo "cases=2 ended=2 fault=0 differs=0 no-answer=0 proved=no" >&2
            exit 0
        fi
        shift 2
        echo "$*"
        cat
        printf 'said by the program\\nchecked: ended status=4\\nraces: not looked for\\nrun=ended status=4 runners=1 proved=no\\n' >&2
        exit 4
        ;;
esac
"""


class Door:
    """A copy of the repository in a folder of its own, with programs as if they were built there."""

    def __init__(self, top, folder):
        self.folder, self.found = folder, []
        for name in ("jisthrom", "try", "crates.txt", "HANDLES"):
            shutil.copy(os.path.join(top, name), folder)
        for name in ("adopt", "docs", "examples", "README.md"):
            os.symlink(os.path.join(top, name), os.path.join(folder, name))
        for crate in os.listdir(os.path.join(top, "crates")):
            own = os.path.join(folder, "crates", crate)
            os.makedirs(own)
            for part in ("src", "specs", "proofs", "args", "stdin", "status"):
                if os.path.exists(os.path.join(top, "crates", crate, part)):
                    os.symlink(os.path.join(top, "crates", crate, part), os.path.join(own, part))

    def place(self, crate, program):
        """Puts a program where the built one of this crate is."""
        out = os.path.join(self.folder, "crates", crate, "out")
        os.makedirs(out, exist_ok=True)
        shutil.copy(program, os.path.join(out, crate))
        open(os.path.join(out, "built_by_jisthrom"), "w").close()

    def place_all(self, programs):
        for crate, program in programs.items():
            if os.path.exists(program):
                self.place(crate, program)
            else:
                self.differs(program, "is not built")

    def call(self, words, given=b"", name="jisthrom", environment=PLAIN):
        words = words.split() if isinstance(words, str) else words
        program = name if os.path.isabs(name) else os.path.join(self.folder, name)
        done = subprocess.run([program, *words], input=given, capture_output=True, cwd=self.folder, env=environment)
        return done.returncode, done.stdout.decode(), done.stderr.decode()

    def differs(self, where, what):
        self.found.append(f"{where}: {what}")

    def wants(self, where, wanted, given):
        if wanted != given:
            self.differs(where, f"gives {given!r}, and not {wanted!r}")


def seconds():
    used = resource.getrusage(resource.RUSAGE_CHILDREN)
    return used.ru_utime + used.ru_stime


def usage_of(top, word):
    """The usage line of the program that a word starts, as its sources have it."""
    crate = {"picture": "run_picture", "explain": "explain_run", "explore": "run_explore", "judge": "judge_run", "log": "judge_run"}.get(word)
    if crate is None:
        return USAGE
    with open(os.path.join(top, "crates", crate, "src", "outcome.rt"), encoding="utf-8") as file:
        return re.search(r'"(usage: ' + crate + r'[^"]*)"', file.read()).group(1) + "\n"


def check_words(door, top):
    """Each word with nothing built: its status, what it says, and that it costs less than a tenth of a second."""
    for name in ("jisthrom", "try"):
        for status, words, written, said in WORDS:
            if name == "try" and words == TWO_FILES:
                continue
            took = 1.0
            # On a machine that is busy a call may seem to take longer than it does.
            for _ in range(5):
                begun = seconds()
                ended, out, error = door.call(words, name=name)
                took = min(took, seconds() - begun)
                if took < 0.1:
                    break
            where = f"./{name} {words}"
            if ended != status or not out.startswith(written) or (out == "") != (written == ""):
                door.differs(where, f"ends with {ended} and writes {out!r}, and not with {status} and {written!r}")
            lines = error.splitlines(keepends=True)
            if status == 2:
                if lines[1:2] != [usage_of(top, words.partition(" ")[0])]:
                    door.differs(where, f"says {error!r}, and not the usage line after its first one")
            begins = f"{name}: {said}" if said else ""
            if not error.startswith(begins) or (said == "" and error != ""):
                door.differs(where, f"says {error!r}, and not {begins!r}")
            if took > 0.1:
                door.differs(where, f"takes {took:.2f} s")
    if any(os.path.exists(os.path.join(door.folder, "crates", crate, "out")) for crate in os.listdir(os.path.join(door.folder, "crates"))):
        door.differs("./jisthrom", "builds something for words that need no program")


def check_version(door, top):
    """The version is that of the newest part of CHANGELOG.md, and the kit that of the toolchain."""
    said = door.call("--version")[1]
    with open(os.path.join(top, "CHANGELOG.md"), encoding="utf-8") as file:
        newest = re.search(r"^## ([0-9.]+)", file.read(), re.M)
    if newest is None or not said.startswith(f"jisthrom {newest.group(1)} "):
        door.differs("./jisthrom --version", f"says {said!r}, and CHANGELOG.md has {newest and newest.group(1)!r}")
    if shutil.which("rt"):
        kit = subprocess.run(["rt", "version"], capture_output=True).stdout.decode().strip()
        if any(part not in said for part in kit.split(" ", 1)):
            door.differs("./jisthrom --version", f"says {said!r}, and the toolchain is {kit!r}")


def check_programs(door, programs, top):
    """The words that start a program that was built."""
    door.place_all(programs)
    script = open(os.path.join(top, "examples", "rendezvous.co"), "rb").read()
    report = open(os.path.join(top, "examples", "rendezvous.report")).read()
    ran = (0, report, "")
    door.wants("./jisthrom run < FILE", ran, door.call("run --workers 1", script))
    door.wants("./jisthrom run FILE", ran, door.call("run --workers 1 examples/rendezvous.co"))
    door.wants("./jisthrom run FILE --workers", ran, door.call("run examples/rendezvous.co --workers=1"))
    door.wants("./jisthrom check FILE", 0, door.call("check examples/rendezvous.co")[0])
    door.wants("./jisthrom sum", 0, door.call("sum --size 1")[0])
    link = os.path.join(door.folder, "link")
    os.symlink("jisthrom", link)
    door.wants("a link to jisthrom", ran, door.call("run --workers 1 examples/rendezvous.co", name="link"))
    faulty = os.path.join(door.folder, "faulty.co")
    with open(faulty, "w") as file:
        file.write("coroutine main\nrecieve a\nend\n")
    status, out, error = door.call("run faulty.co")
    if (status, out) != (3, "line 2: UnknownWord\n") or not error.startswith("2 | recieve a\noutside a block"):
        door.differs("./jisthrom run of a faulty script", f"ends with {status}, {out!r} and {error!r}")
    picture = open(os.path.join(top, "examples", "rendezvous.svg")).read()
    drawn = (0, picture, "")
    door.wants("./jisthrom picture FILE", drawn, door.call("picture examples/rendezvous.report"))
    door.wants("./jisthrom picture < FILE", drawn, door.call("picture", report.encode()))
    prefix = os.path.join(door.folder, "there")
    status, out, error = door.call(["install", prefix])
    if status != 0:
        return door.differs("./jisthrom install", f"ends with {status} and {error!r}")
    door.wants("./jisthrom install", [], [line for line in out.splitlines() if not os.path.isfile(line)])
    # Nothing but the files themselves: no path, and another folder.
    for name, words, given, wanted in [("jisthrom", "run --workers 1", script, ran), ("jisthrom-picture", "", report.encode(), drawn)]:
        file = os.path.join(prefix, "bin", name)
        door.wants(f"the installed {name}", wanted, door.call(words, given, name=file, environment={}))
        if shutil.which("ldd"):
            linked = subprocess.run(["ldd", file], capture_output=True).stdout.decode()
            others = [line for line in linked.splitlines() if not re.search(r"linux-vdso|libc\.so|ld-linux", line)]
            door.wants(f"the libraries of the installed {name}", [], others)
    check_manual(door, os.path.join(prefix, "share", "man", "man1", "jisthrom.1"))


def check_manual(door, page):
    with open(page, encoding="utf-8") as file:
        text = file.read()
    for part in (".TH JISTHROM 1", ".SH COMMANDS", ".SH LINES", ".SH FAULTS", ".SH PICTURES", ".SH STATUSES", "fBsum", "fBtryreceive C"):
        if part not in text:
            door.differs("the manual page", f"lacks {part!r}")
    if shutil.which("groff"):
        said = subprocess.run(["groff", "-ww", "-man", "-Tutf8", page], stdout=subprocess.DEVNULL, stderr=subprocess.PIPE).stderr
        door.wants("groff of the manual page", b"", said)


def check_building(top):
    """What ./jisthrom proves and builds, and how far it says that it is: with a stub of the toolchain, in a small repository."""
    with tempfile.TemporaryDirectory() as folder:
        door = Door(top, folder)
        shutil.rmtree(os.path.join(folder, "crates"))
        crates = {"low": "", "middle": "low", "coroutine_cli": "middle low", "command_line": "", "run_picture": "low", "explain_run": "low", "other": ""}
        with open(os.path.join(folder, "crates.txt"), "w") as file:
            file.write("# the crates\n" + "".join(f"{name}: {below}\n" for name, below in reversed(crates.items())))
        for name in crates:
            os.makedirs(os.path.join(folder, "crates", name, "src"))
        os.makedirs(os.path.join(folder, "bin"))
        stub, calls = os.path.join(folder, "bin", "rt"), os.path.join(folder, "calls")
        with open(stub, "w") as file:
            file.write(STUB)
        os.chmod(stub, 0o755)
        given = {**PLAIN, "TMPDIR": folder, "PATH": os.path.join(folder, "bin") + ":/usr/bin:/bin", "CALLS": calls}

        def step(what, words, status, out, called, said=None, name="jisthrom"):
            """One call: its status, its output, what it calls of the toolchain, and its lines on standard error, or how these end."""
            open(calls, "w").close()
            ended, written, error = door.call(words, b"given\n", name=name, environment=given)
            with open(calls) as file:
                asked = file.read().split("\n")[:-1]
            if (ended, written, asked) != (status, out, called):
                door.differs(f"./{name} {words}, {what}", f"ends with {ended}, {written!r} and {asked}, and not {status}, {out!r}, {called}")
            if said is not None and not re.search(said, error):
                door.differs(f"./{name} {words}, {what}", f"says {error!r}, and not {said!r}")

        touched = os.path.join(folder, "crates", "middle", "src", "lib.rt")
        whole = ["lib low", "lib middle", "run coroutine_cli"]
        far = r"(?s)\./try.*crate 1 of 3, low, after 0 minutes\n.*crate 2 of 3, middle.*crate 3 of 3, coroutine_cli"
        step("the first time", "run", 0, "run\ngiven\n", whole, far)
        step("once it is built", "run --workers 3", 0, "run --workers 3\ngiven\n", [], "^$")
        open(os.path.join(folder, "crates", "other", "src", "lib.rt"), "w").close()
        step("after a change of another crate", "check", 0, "check\ngiven\n", [], "^$")
        open(touched, "w").close()
        step("after a change", "run", 0, "run\ngiven\n", whole, "crate 3 of 3")
        refused = os.path.join(folder, "crates", "middle", "refused")
        open(refused, "w").close()
        open(touched, "w").close()
        step("where a crate is not proved", "run", 70, "", ["lib low", "lib middle"], r"the proof of middle failed, see \S+\n$")
        step("whose crates are proved", "picture", 0, "\ngiven\n", ["lib low", "run run_picture"], "crate 2 of 2, run_picture")
        os.remove(refused)
        step("after it is proved", "check", 0, "check\ngiven\n", whole)
        tried = "said by the program\n$"
        step("", "run --workers 1", 4, "run --workers 1\ngiven\n", ["try coroutine_cli"], tried, name="try")
        one, two = os.path.join(folder, "one.co"), os.path.join(folder, "two.co")
        for file in (one, two):
            with open(file, "w") as it:
                it.write(f"{os.path.basename(file)}\n")
        step("of a file", "run one.co", 4, "run\none.co\n", ["try coroutine_cli"], tried, name="try")
        both = "== one.co\none.co\n== two.co\ntwo.co\n"
        step("of two files", "run one.co two.co", 0, both, ["try coroutine_cli"], "try: two.co ended with the status 0\n$", name="try")
        explained = ["lib low", "run explain_run"]
        step("", "explain one.co", 0, "\none.co\nreport\ngiven\n", explained)
        step("", "explain one.co two.co", 0, "\none.co\nreport\ntwo.co\n", [])
        step("without a script", "explain", 2, "", [], "explain wants a script")
        step("", "run --explain --workers 2 one.co", 0, "run --workers 2\none.co\n", [], "^\none.co\nreport\nrun --workers 2\none.co\n$")
        return door.found


def check_scripts(top):
    """The scripts are `sh`, by the shell and, where it is there, by shellcheck."""
    found = []
    for name in ("jisthrom", "try", ".ci/run"):
        for words in (["sh", "-n"], ["shellcheck", "-s", "sh"]):
            if shutil.which(words[0]):
                done = subprocess.run([*words, os.path.join(top, name)], stdout=subprocess.PIPE, stderr=subprocess.STDOUT)
                if done.returncode or done.stdout:
                    found.append(f"{' '.join(words)} {name}: {done.stdout.decode().strip()}")
    return found


def differences(top, programs):
    with tempfile.TemporaryDirectory() as folder:
        door = Door(top, folder)
        if shutil.which("rt", path=PLAIN["PATH"]) is None:
            check_words(door, top)
        check_version(door, top)
        check_programs(door, programs, top)
        return door.found + check_building(top) + check_scripts(top)
