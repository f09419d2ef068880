"""The installation, what it takes away again, and that scripts have no fault."""
import glob
import os
import shutil
import subprocess
import sys

from room import READS, TOP, content, need, program, wanted_dump

NAMES = {"kmc": "counter", "kmc_merge": "summer", "kmc_cut": "cutter", "kmc_list": "lister", "kmc_db": "joiner"}


def made(room, target):
    """A target of the top for the programs that are tried here; -o keeps make from proving and building them anew."""
    words = ["make", "-s", "-C", TOP, target, "DESTDIR=" + room.path("root"), "PREFIX=/opt/k"]
    for variable, name in (("KMC", "kmc"), ("KMC_MERGE", "kmc_merge"), ("KMC_CUT", "kmc_cut"), ("KMC_LIST", "kmc_list"), ("KMC_DB", "kmc_db")):
        words += ["-o", program(name), "%s=%s" % (variable, program(name))]
        words.append("%s=%s" % (variable.replace("KMC", "NAME") if name == "kmc" else variable[len("KMC_"):] + "_NAME", NAMES[name]))
    ran = subprocess.run(words, stdout=subprocess.PIPE, stderr=subprocess.PIPE)
    assert ran.returncode == 0, ran


def ran(room, name, *words, source=subprocess.DEVNULL):
    """What an installed program writes; it finds nothing but what is installed."""
    environment = {key: it for key, it in room.environment.items() if key != "FUTONCRANE_BIN"}
    found = subprocess.run([room.path("root/opt/k/bin/" + name), *words], cwd=room.folder, env=dict(environment, PATH="/usr/bin:/bin"), stdin=source,
                           stdout=subprocess.PIPE, stderr=subprocess.PIPE)
    assert found.returncode == 0, found
    return found.stdout


def test_installs_and_uninstalls(room):
    need("make")
    made(room, "install")
    for name in NAMES.values():
        assert b"\n.Nm %b\n" % name.encode() in content(room.path("root/opt/k/share/man/man1/%s.1" % name)), name
    with open(READS, "rb") as reads:
        assert ran(room, "counter", source=reads) == wanted_dump()
        reads.seek(0)
        ran(room, "cutter", "-slices2", "cut", source=reads)
    room.write("dump", wanted_dump())
    assert ran(room, "summer", "dump") == wanted_dump()
    for it in "01":
        room.write("slice" + it, ran(room, "lister", "cut." + it))
    assert ran(room, "summer", "-ci1", "slice0", "slice1") == wanted_dump()
    assert ran(room, "futoncrane", "count", "-k25", READS) == wanted_dump()
    assert ran(room, "futoncrane", "count", "-k25", "--slices", "3", READS) == wanted_dump()
    told = ran(room, "futoncrane", "doctor")
    assert told.endswith(b"\nall is well\n")
    package = told.splitlines()[0].rpartition(b" in ")[2]
    script = "import futoncrane; print(sum(count for _, count in futoncrane.counts('dump')))"
    total = sum(int(line.split()[1]) for line in wanted_dump().splitlines())
    imported = subprocess.run([sys.executable, "-c", script], cwd=room.folder, env={"PYTHONPATH": package}, stdout=subprocess.PIPE, check=True)
    assert imported.stdout == b"%d\n" % total, imported
    made(room, "uninstall")
    assert not os.path.exists(room.path("root/opt")), subprocess.run(["find", room.path("root")], stdout=subprocess.PIPE).stdout


def test_what_others_installed_stays(room):
    need("make")
    os.makedirs(room.path("root/opt/k/share/man/man1"))
    room.write("root/opt/k/share/man/man1/other.1", b"")
    made(room, "install")
    made(room, "uninstall")
    assert room.files() == {room.path("root/opt/k/share/man/man1/other.1")}


def test_scripts_have_no_fault(room):
    need("shellcheck")
    scripts = [it for pattern in ("bench/*.sh", "build/*.sh", "examples/*/*.sh") for it in glob.glob(os.path.join(TOP, pattern))]
    ran = subprocess.run(["shellcheck", "-S", "warning", "-x", *scripts], stdout=subprocess.PIPE)
    assert ran.returncode == 0, ran.stdout.decode()


def test_python_has_no_fault(room):
    need("pyflakes3")
    files = [it for pattern in ("futoncrane/*.py", "futoncrane/commands/*.py", "futoncrane/futoncrane", "tests_user/*.py", "build/*.py") for it in glob.glob(os.path.join(TOP, pattern))]
    ran = subprocess.run(["pyflakes3", *files], stdout=subprocess.PIPE)
    assert ran.returncode == 0, ran.stdout.decode()


def test_the_archives_script_tells_its_words(room):
    script = os.path.join(TOP, "build", "install.sh")
    shutil.copy(script, room.path("install.sh"))
    for words, status, told in ((["--help"], 0, b"usage: ./install.sh [PREFIX]"), (["--prefix"], 2, b"no option --prefix (see ./install.sh --help)"),
                                (["a", "b"], 2, b"one folder is taken")):
        ran = subprocess.run([room.path("install.sh"), *words], stdout=subprocess.PIPE, stderr=subprocess.STDOUT)
        assert ran.returncode == status and told in ran.stdout, ran
    assert room.files() == {room.path("install.sh")}


def test_an_older_python_is_told(room):
    launcher = os.path.join(TOP, "futoncrane", "futoncrane")
    script = "import runpy, sys; sys.version_info = (3, 6, 8); sys.argv = [%r, 'count']; runpy.run_path(%r, run_name='__main__')" % (launcher, launcher)
    ran = subprocess.run([sys.executable, "-c", script], stdout=subprocess.PIPE, stderr=subprocess.PIPE)
    assert ran.returncode == 1 and ran.stderr.startswith(b"futoncrane: Python 3.9 or later is wanted, and this is 3.6, in ") and ran.stderr.count(b"\n") == 1, ran
