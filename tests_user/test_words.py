"""The words of the command line, the help, and what the documents say of them."""
import importlib
import os
import re
import shutil
import subprocess
import sys

from room import TOP, content, need

COMMANDS = ("count", "cut", "list", "merge", "histogram", "size", "compare", "union", "intersect", "subtract", "table", "query", "solid", "genomescope",
            "cluster", "doctor")


def text_of(*path):
    return content(os.path.join(TOP, *path)).decode()


def told_options():
    """Pairs of a command and a name of an option that its help tells."""
    for name in COMMANDS:
        for option in importlib.import_module("futoncrane.commands." + name).OPTIONS:
            for it in option.names:
                yield name, it


def test_each_command_has_help_with_examples(room):
    for name in COMMANDS:
        ran = room.run(name, "--help")
        assert ran.status == 0 and ran.err == "", ran
        assert "usage: futoncrane %s" % name in ran.out.decode(), ran
        assert "futoncrane %s" % name in ran.out.decode().split("\nexamples:", 1)[1], ran
    ran = room.run("--help")
    assert ran.status == 0 and all(name in ran.out.decode() for name in COMMANDS), ran


def test_the_file_itself_is_the_command(room):
    ran = subprocess.run([os.path.join(TOP, "futoncrane", "futoncrane"), "--version"], stdout=subprocess.PIPE)
    assert ran.stdout == b"futoncrane %s\n" % content(os.path.join(TOP, "VERSION")).strip()


def test_wrong_words_are_told_with_the_nearest(room):
    for words, part in ((["cuont", "a"], "did you mean count?"), (["histgram"], "did you mean histogram?"), (["--vesion"], "did you mean --version?"),
                        (["count", "--mim", "3", "a"], "did you mean --min?"), (["count", "--thread=3", "a"], "did you mean --threads?"),
                        (["compare", "--comon", "a", "b"], "did you mean --common?"), (["solid", "--cap", "3", "a"], "no option --cap"),
                        (["histogram", "-ci3", "a"], "no option -ci3"), (["genomescope", "-cx10", "a"], "no option -cx10"), ([], "no command")):
        room.refuses(2, part, words=words)


def test_ranges_are_told_with_their_bounds(room):
    for words, part in ((["-k", "65"], "1 to 64"), (["-k0"], "1 to 64"), (["-k", "x"], "1 to 64"), (["--min", "-1"], "0 to 9223372036854775808"),
                        (["--max=9223372036854775809"], "0 to 9223372036854775808 or none"), (["--cap", "0"], "1 to 9223372036854775808"),
                        (["--threads", "0"], "1 to 16"), (["--memory", "8X"], "as 8G"), (["--memory", "1M"], "64M"), (["--min"], "wants a value"),
                        (["--forward=3"], "takes no value"), (["-bx"], "no option -bx")):
        room.refuses(2, part, words=["count", *words] if words == ["--min"] else ["count", *words, "a.fastq"])


def test_an_option_stands_once(room):
    room.refuses(2, "twice", words=["count", "-k", "3", "-k", "4", "a"])
    room.refuses(2, "twice", words=["count", "--forward", "--both-strands", "a"])
    room.refuses(2, "twice", words=["count", "-", "-"])


def test_numbers_of_files_are_told(room):
    room.refuses(2, "two dumps", words=["compare", "a"])
    room.refuses(2, "no dump", words=["merge"])
    room.refuses(1, "0: No such file", words=["merge", *map(str, range(1001))])
    room.refuses(2, "no file", words=["list"])
    room.refuses(2, "-o PREFIX", words=["cut", "a"])
    room.refuses(2, "1 to 1000", words=["count", "--slices", "1001", "a"])
    room.refuses(2, "no file", words=["doctor", "a"])


def completion(shell):
    """The completion for a shell, as the installation makes it."""
    return subprocess.run([sys.executable, os.path.join(TOP, "build", "completions.py"), shell], stdout=subprocess.PIPE, check=True).stdout.decode()


def test_completions_and_page_have_each_option(room):
    page = text_of("docs", "futoncrane.1")
    shells = {name: completion(name) for name in ("bash", "zsh")}
    for command, option in told_options():
        assert re.search(r"\bFl (?:\S+ , )*%s\b" % re.escape(option[1:]), page), "the page lacks %s" % option
        for name, text in shells.items():
            assert re.search(r"(?<![-\w])%s(?![-\w])" % re.escape(option), text.replace("{", " ").replace(",", " ")), "%s lacks %s" % (name, option)
    for name in COMMANDS:
        assert ".Cm " + name in page and all(name in text for text in shells.values()), name


def test_bash_completes(room):
    room.write("completion", completion("bash"))
    script = """source "$1"; complete_it() { COMP_WORDS=("$@"); COMP_CWORD=$(($# - 1)); _futoncrane; echo "${COMPREPLY[*]}"; }
        complete_it futoncrane hi; complete_it futoncrane count --m; complete_it futoncrane compare --s; complete_it futoncrane cluster --w"""
    ran = subprocess.run(["bash", "-c", script, "bash", room.path("completion")], stdout=subprocess.PIPE)
    assert ran.stdout.decode().split("\n") == ["histogram", "--min --max --memory", "--second --same --solid", "--workers", ""], ran
    if shutil.which("shellcheck"):
        assert subprocess.run(["shellcheck", "-S", "warning", room.path("completion")]).returncode == 0


def test_zsh_reads_its_completion(room):
    need("zsh")
    os.mkdir(room.path("functions"))
    room.write("functions/_futoncrane", completion("zsh"))
    assert subprocess.run(["zsh", "-n", room.path("functions/_futoncrane")]).returncode == 0
    ran = subprocess.run(["zsh", "-f", "-c", 'fpath=("$1" $fpath); autoload -Uz compinit; compinit -u -D; echo $_comps[futoncrane]; autoload +X _futoncrane',
                          "zsh", room.path("functions")], env=dict(room.environment, HOME=room.folder), stdout=subprocess.PIPE, stderr=subprocess.PIPE)
    assert (ran.returncode, ran.stdout, ran.stderr) == (0, b"_futoncrane\n", b""), ran


def test_pages_have_no_fault(room):
    need("mandoc")
    for name in ("futoncrane.1", "kmc.1", "kmc_cut.1", "kmc_db.1", "kmc_list.1", "kmc_merge.1"):
        ran = subprocess.run(["mandoc", "-Tlint", os.path.join(TOP, "docs", name)], stdout=subprocess.PIPE, stderr=subprocess.DEVNULL)
        # that a page which is not installed is not found says nothing of this one
        told = [line for line in ran.stdout.decode().splitlines() if "referenced manual not found" not in line]
        assert not told, told


def test_one_version_stands_everywhere(room):
    version = text_of("VERSION").strip()
    assert re.fullmatch(r"[0-9]+\.[0-9]+\.[0-9]+", version)
    places = {("CITATION.cff",): r"^version: (\S+)$", ("packaging", "docker", "Dockerfile"): r"^ARG VERSION=(\S+)$",
              ("packaging", "bioconda", "meta.yaml"): r'version = "([^"]+)"', ("CHANGELOG.md",): r"^# v?([0-9.]+)", ("docs", "futoncrane.1"): r"describes version (\S+)\.$",
              **{("docs", name): r"describes version (\S+)\.$" for name in ("kmc.1", "kmc_cut.1", "kmc_db.1", "kmc_list.1", "kmc_merge.1")}}
    for path, pattern in places.items():
        found = re.search(pattern, text_of(*path), re.MULTILINE)
        assert found and found[1] == version, "%s says %s, and VERSION %s" % ("/".join(path), found and found[1], version)
    assert version in text_of("README.md"), "README.md does not name version %s" % version
