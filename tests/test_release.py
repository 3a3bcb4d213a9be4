"""Tests of the program in release/: which states of it the launcher runs, over a stub of the program; and what a new
user of this checkout meets, over the program that is there."""
from __future__ import annotations

import hashlib
import os
import shlex
import shutil
import subprocess
import sys
import tempfile
import time
from pathlib import Path
from typing import Dict, Iterator, List, Tuple

import pytest
from support import EXAMPLES, REPOSITORY, Ran, needs, script

# a program that says which one it is, and refuses missing words
PROGRAM = "if [ $# = 0 ]; then echo 'ccp: words refused' >&2; exit 2; fi\necho \"$0 $*\"\n"
# the header of a program for a processor that this machine hasn't
OTHER_PROCESSOR = b"\x7fELF\x02\x01\x01" + bytes(9) + b"\x02\x00\xb7\x00\x01\x00\x00\x00" + bytes(40)
PYTHON = shlex.quote(sys.executable)
PARTS = ["ccp", "VERSION", "HANDLES", "tools/install-ccp", "tools/completions", "docs/ccp.1"]


def digest(path: Path) -> str:
    """The SHA-256 of a file in hex."""
    return hashlib.sha256(path.read_bytes()).hexdigest()


class Place:
    """A small repository with the launcher, three crates and a program in release/, and no toolchain on the PATH."""

    def __init__(self, room: Path) -> None:
        self.room, self.top, self.cache = room, room / "repository", room / "cache"
        for name in PARTS:
            (self.top / name).parent.mkdir(parents=True, exist_ok=True)
            shutil.copy(REPOSITORY / name, self.top / name)
        shutil.copytree(REPOSITORY / "tools" / "launcher", self.top / "tools" / "launcher")
        self.write("crates.txt", "base: clap\nspare: base\nccp: base\n")
        for name in ("base/src/lib.rt", "base/specs/Base.antt", "base/proofs/out/Base.antt", "ccp/src/main.rt"):
            self.write("crates/" + name, "\n")
        self.released = self.top / "release" / "ccp"
        self.built = self.top / "crates" / "ccp" / "out" / "ccp"
        self.checked = self.built.parent / "checked" / "ccp"
        self.put(self.released)
        self.note_release()

    def write(self, name: str, text: str) -> None:
        (self.top / name).parent.mkdir(parents=True, exist_ok=True)
        (self.top / name).write_text(text, encoding="utf-8")

    def put(self, path: Path) -> None:
        """Puts the stub of the program there."""
        path.parent.mkdir(parents=True, exist_ok=True)
        script(path.parent, path.name, PROGRAM)
        path.chmod(0o755)

    def note_release(self) -> None:
        """Writes what goes with the program in release/."""
        self.write("release/SHA256SUMS", "%s  ccp\n" % digest(self.released))
        self.write("release/PROVENANCE", "version: 0.9.0\nsources: %s\ntoolchain: stub-kit 1\n" % self.sum())

    def sum(self) -> str:
        return subprocess.check_output([str(self.top / "tools/launcher/source-sum")], text=True).strip()

    def environment(self, **more: str) -> Dict[str, str]:
        folders = [one for one in os.environ["PATH"].split(os.pathsep) if not os.path.exists(os.path.join(one, "rt"))]
        kept = {name: value for name, value in os.environ.items() if name not in ("CCP_PROGRAM", "TMPDIR")}
        path = os.pathsep.join([str(self.room / "bin"), *folders, "/usr/bin", "/bin"])
        return {**kept, "PATH": path, "XDG_CACHE_HOME": str(self.cache), **more}

    def run(self, *words: str, **more: str) -> Ran:
        """Runs the launcher, as a user who can't write what is closed to them."""
        as_user = ["setpriv", "--reuid=65534", "--regid=65534", "--clear-groups"] if more.pop("AS_USER", "") else []
        done = subprocess.run(
            [*as_user, str(self.top / "ccp"), *words],
            input="",
            stdout=subprocess.PIPE,
            stderr=subprocess.PIPE,
            text=True,
            cwd=self.room,
            env=self.environment(**more),
        )
        return Ran(done.stdout, done.stderr, done.returncode)

    def check(self, **more: str) -> Ran:
        return self.run("check", **more)

    def is_released(self) -> bool:
        """Whether the program of release/ answers, without a line on standard error."""
        return self.check() == ("%s check\n" % self.released, "", 0)


@pytest.fixture
def place() -> Iterator[Place]:
    """A Place in a folder that other users may enter."""
    room = Path(tempfile.mkdtemp(prefix="release-"))
    room.chmod(0o755)
    yield Place(room)
    subprocess.run(["chmod", "-R", "u+w", str(room)], check=True)
    shutil.rmtree(room)


# ---- which program runs


def test_the_program_of_these_sources_answers_at_once(place: Place) -> None:
    assert place.is_released() and place.is_released()
    shown = place.run("--version")
    assert shown.errors == "" and "program: release/ccp, proved with stub-kit 1" in shown.output


def test_what_is_found_is_kept_by_the_times_of_files(place: Place) -> None:
    """The SHA-256 over the sources and that of the program are worked out once for each change."""
    calls = place.room / "calls"
    (place.room / "bin").mkdir()
    script(place.room / "bin", "sha256sum", 'echo "$*" >> %s\nexec /usr/bin/sha256sum "$@"\n' % calls)
    assert place.is_released()
    first = calls.read_text()
    assert "--check" in first and place.is_released() and calls.read_text() == first
    time.sleep(0.02)
    place.released.touch()
    assert place.is_released() and calls.read_text() != first


def test_an_unchanged_checkout_needs_a_search_alone(place: Place) -> None:
    """Beside the program a call of the launcher starts `find` alone, and for a page of help nothing."""
    (place.room / "bin").mkdir()
    wanted = ("%s check\n" % place.released, "", 0)
    assert place.check() == wanted
    script(place.room / "bin", "find", 'exec /usr/bin/find "$@"\n')
    # which runs the stub of the program
    shutil.copy("/bin/bash", place.room / "bin")
    alone = {"PATH": str(place.room / "bin")}
    assert place.check(**alone) == wanted
    (place.room / "bin" / "find").unlink()
    assert place.run("--help", **alone)[1:] == ("", 0)
    assert place.run("campain", **alone).errors.startswith("ccp: words refused\nccp: campain is no mode (did you mean")


def test_a_release_that_comes_back_is_seen(place: Place) -> None:
    place.put(place.built)
    os.utime(place.built, (1, 1))
    assert place.is_released(), "the built program is older than its sources"
    (place.top / "release").rename(place.room / "aside")
    assert "no toolchain" in place.check().errors and "no toolchain" in place.check().errors
    (place.room / "aside").rename(place.top / "release")
    assert place.is_released()


def test_an_older_find_takes_no_list(place: Place) -> None:
    (place.room / "bin").mkdir()
    text = 'case $1 in -files0-from) echo "find: unknown predicate" >&2; exit 1 ;; esac\nexec /usr/bin/find "$@"\n'
    script(place.room / "bin", "find", text)
    assert place.is_released() and place.is_released()
    time.sleep(0.02)
    place.write("crates/base/src/lib.rt", "changed\n")
    assert not place.is_released()


def test_a_built_program_comes_first_and_a_named_one_before_all(place: Place) -> None:
    time.sleep(0.02)
    place.put(place.built)
    assert place.check() == ("%s check\n" % place.built, "", 0)
    named = place.room / "named"
    place.put(named)
    assert place.check(CCP_PROGRAM=str(named)) == ("%s check\n" % named, "", 0)
    assert "program: %s, by CCP_PROGRAM" % named in place.run("--version", CCP_PROGRAM=str(named)).output
    place.built.unlink()
    assert place.is_released(), "no other one is there"


def change_in_place(place: Place) -> None:
    """Another text of the same length, with the time of the old one."""
    path = place.top / "crates/base/src/lib.rt"
    times = path.stat()
    path.write_text("x", encoding="utf-8")
    os.utime(path, ns=(times.st_atime_ns, times.st_mtime_ns))


CHANGES = {
    "a source": lambda place: place.write("crates/base/specs/Base.antt", "changed\n"),
    "a source with its old time": change_in_place,
    "a new source": lambda place: place.write("crates/ccp/proofs/New.antt", "\n"),
    "a renamed source": lambda place: (place.top / "crates/ccp/src/main.rt").rename(
        place.top / "crates/ccp/src/other.rt"
    ),
    "a removed source": lambda place: (place.top / "crates/base/specs/Base.antt").unlink(),
    "a removed folder": lambda place: shutil.rmtree(place.top / "crates/base/specs"),
    "a proof of a function out": lambda place: place.write("crates/base/proofs/out/Base.antt", "changed\n"),
    "the list of crates": lambda place: place.write("crates.txt", "base: clap\nccp: base spare\nspare: base\n"),
    "the handles": lambda place: place.write("HANDLES", "changed\n"),
}


@pytest.mark.parametrize("name", CHANGES)
def test_changed_sources_are_not_those_of_the_program(place: Place, name: str) -> None:
    kept = shutil.copytree(place.top, place.room / "kept", copy_function=shutil.copy)
    assert place.is_released()
    time.sleep(0.02)
    CHANGES[name](place)
    refused = place.check()
    assert (refused.output, refused.status) == ("", 1)
    assert refused.errors.startswith("ccp: release/ has the program of an older state of the sources")
    assert "is of an older state" in place.run("--version").output
    place.put(place.checked)
    ran = place.check()
    assert ran.output == "%s check\n" % place.checked and ran.status == 0
    assert "unproved, checked run" in ran.errors and "release/ has the program of an older state" in ran.errors
    assert ran.errors.count("\n") == 1
    time.sleep(0.02)
    shutil.rmtree(place.top / "crates")
    shutil.copytree(kept / "crates", place.top / "crates")
    for changed in ("crates.txt", "HANDLES"):
        shutil.copy(kept / changed, place.top / changed)
    assert place.is_released(), "the change is taken back"


def test_a_crate_that_the_program_does_not_use_changes_nothing(place: Place) -> None:
    assert place.is_released()
    time.sleep(0.02)
    place.write("crates/spare/src/lib.rt", "changed\n")
    assert place.is_released()


def test_without_a_release_all_is_as_before(place: Place) -> None:
    shutil.rmtree(place.top / "release")
    assert place.check().errors.startswith("ccp: there is no program yet, and no toolchain")
    place.put(place.checked)
    assert "release/" not in place.check().errors + place.run("--version").output


# ---- bad states


def cut_off(place: Place) -> None:
    place.released.write_bytes(place.released.read_bytes()[:-9])


def take_run_bit(place: Place) -> None:
    place.released.chmod(0o644)


def take_another_processor(place: Place) -> None:
    place.released.write_bytes(OTHER_PROCESSOR)
    place.note_release()


def take_other_sums(place: Place) -> None:
    place.write("release/SHA256SUMS", "%s  ccp\n" % ("0" * 64))


def remove_program(place: Place) -> None:
    place.released.unlink()


def cut_provenance(place: Place) -> None:
    place.write("release/PROVENANCE", "version: 0.9.0\n")


BAD_STATES = [
    (cut_off, "release/ccp doesn't have the SHA-256 of release/SHA256SUMS", "git checkout -- release"),
    (take_other_sums, "release/ccp doesn't have the SHA-256 of release/SHA256SUMS", "git checkout -- release"),
    (take_run_bit, "release/ccp has no run bit", "chmod +x release/ccp"),
    (take_another_processor, "doesn't run on this machine", "./ccp --prove"),
    (remove_program, "release/ccp is missing", "git checkout -- release"),
    (cut_provenance, "release/PROVENANCE doesn't say of which sources", "git checkout -- release"),
]


@pytest.mark.parametrize("spoil, wrong, remedy", BAD_STATES)
def test_a_bad_state_is_said_in_one_line(place: Place, spoil: object, wrong: str, remedy: str) -> None:
    assert place.is_released() and callable(spoil)
    time.sleep(0.02)
    spoil(place)
    for _ in range(2):
        lines = place.check().errors.splitlines()
        assert len(lines) == 2 and wrong in lines[0] and remedy in lines[0] and "no toolchain" in lines[1], lines
    place.put(place.checked)
    ran = place.check()
    lines = ran.errors.splitlines()
    assert ran.output == "%s check\n" % place.checked and ran.status == 0, "the unproved program goes on"
    assert len(lines) == 2 and wrong in lines[0] and "unproved, checked run" in lines[1]
    shown = place.run("--version")
    assert wrong in shown.output and shown.errors == "" and shown.status == 0
    time.sleep(0.02)
    place.put(place.released)
    place.note_release()
    assert place.is_released(), "it is put right"


@pytest.mark.skipif(os.geteuid() != 0 or shutil.which("setpriv") is None, reason="only root runs as another user")
def test_a_checkout_that_cannot_be_written(place: Place) -> None:
    place.cache.mkdir()
    place.cache.chmod(0o777)
    wanted = ("%s check\n" % place.released, "", 0)
    assert place.check(AS_USER="yes") == wanted and place.check(AS_USER="yes") == wanted
    assert list(place.cache.glob("ccp/*/found")), "the finding is in the cache"
    ran = place.check(AS_USER="yes", XDG_CACHE_HOME="/proc")
    assert ran.output == wanted[0] and ran.status == 0
    assert ran.errors.count("\n") == 1 and "can't be written" in ran.errors and "XDG_CACHE_HOME=" in ran.errors
    place.room.chmod(0o777)
    ran = place.check(AS_USER="yes", XDG_CACHE_HOME="relative", HOME=str(place.cache))
    assert ran == wanted and not (place.room / "relative").exists()
    assert list(place.cache.glob(".cache/ccp/*/found")), "a relative folder is ignored"


# ---- a sum that fails

FAILURES = {"fails": "exit 1\n", "prints nothing": "cat > /dev/null\n", "is killed": "kill -KILL $$\n"}


@pytest.mark.parametrize("how", FAILURES)
@pytest.mark.parametrize("name", ["awk", "find", "sort", "xargs", "sha256sum"])
def test_a_sum_that_fails_is_an_error_and_is_not_kept(place: Place, name: str, how: str) -> None:
    """Nothing is compiled in its place, and the next call, whose commands work, has the program of release/."""
    (place.room / "bin").mkdir()
    script(place.room / "bin", "rt", "echo rt >> %s/compiled\n" % place.room)
    broken = script(place.room / "bin", name, FAILURES[how])
    ran = place.check()
    assert (ran.output, ran.status) == ("", 1) and ran.errors.count("\n") == 1, ran
    assert ran.errors.startswith("ccp: the sum over the sources failed (source-sum: "), ran
    assert name in ran.errors and "CCP_PROGRAM=PATH" in ran.errors, ran
    assert not list(place.built.parent.glob("found*")) and not (place.room / "compiled").exists()
    broken.unlink()
    assert place.is_released()


@pytest.mark.parametrize("how", ["fails", "is killed"])
def test_a_search_that_fails_is_no_finding(place: Place, how: str) -> None:
    """Neither of a kept finding, nor of a built program, nor of a changed source."""
    time.sleep(0.02)
    place.put(place.built)
    assert place.check().output == "%s check\n" % place.built
    time.sleep(0.02)
    place.write("crates/base/src/lib.rt", "changed\n")
    (place.room / "bin").mkdir()
    broken = script(place.room / "bin", "find", FAILURES[how])
    for _ in range(2):
        ran = place.check()
        assert (ran.output, ran.status, ran.errors.count("\n")) == ("", 1, 1) and "(find)" in ran.errors, ran
    broken.unlink()
    assert "release/ has the program of an older state of the sources" in place.check().errors


def test_a_sum_that_fails_is_an_error_for_pages_and_scripts(place: Place) -> None:
    (place.room / "bin").mkdir()
    script(place.room / "bin", "sha256sum", "exit 1\n")
    shown = place.run("--version")
    assert shown.status == 1 and "program" not in shown.output and "sha256sum failed" in shown.errors
    for option in ("--chosen", "--proved"):
        words = [str(place.top / "tools/launcher/checked-program"), option]
        done = subprocess.run(words, capture_output=True, text=True, env=place.environment())
        assert (done.stdout, done.returncode) == ("", 2) and done.stderr.count("\n") == 1
    words = [str(place.top / "tools/install-ccp"), str(place.room / "prefix")]
    done = subprocess.run(words, capture_output=True, text=True, env=place.environment())
    assert done.returncode == 1 and "sha256sum failed" in done.stderr and not (place.room / "prefix").exists()


def test_a_sum_that_an_earlier_launcher_kept_is_not_taken(place: Place) -> None:
    assert place.is_released()
    known = place.built.parent / "found"
    times = known.stat()
    known.write_text("x86_64 release\nolder\n", encoding="utf-8")
    os.utime(known, ns=(times.st_atime_ns, times.st_mtime_ns))
    assert place.is_released()


@pytest.mark.parametrize("how", ["exit 6", "kill -KILL $$", "echo 'Cannot allocate memory'; exit 126"])
def test_a_program_that_has_no_memory_is_not_kept_as_one_that_does_not_run_here(place: Place, how: str) -> None:
    program = "if [ -e %s/full ]; then %s; fi\n%s" % (place.room, how, PROGRAM)
    script(place.released.parent, "ccp", program)
    place.note_release()
    (place.room / "full").touch()
    ran = place.check()
    assert (ran.output, ran.status) == ("", 1) and "release/ccp ended with status" in ran.errors
    (place.room / "full").unlink()
    assert place.is_released()


# ---- what other scripts and the package take


def test_the_package_takes_the_program(place: Place) -> None:
    asked = [str(place.top / "tools/launcher/checked-program"), "--chosen"]
    assert subprocess.check_output(asked, text=True, env=place.environment()) == "%s\n" % place.released
    time.sleep(0.02)
    place.put(place.built)
    assert subprocess.check_output(asked, text=True, env=place.environment()) == "%s\n" % place.built
    proved = subprocess.check_output([asked[0], "--proved"], text=True, env=place.environment())
    assert proved == "%s\n%s\n" % (place.built, place.released)


def test_install_takes_the_program(place: Place) -> None:
    shutil.copytree(REPOSITORY / "src", place.top / "src", ignore=shutil.ignore_patterns("__pycache__"))
    for name in ("LICENSE", "LICENSE-MIT", "LICENSE-APACHE"):
        shutil.copy(REPOSITORY / name, place.top)
    prefix = place.room / "prefix"
    words = [str(place.top / "tools/install-ccp"), str(prefix)]
    subprocess.run(words, check=True, stdout=subprocess.DEVNULL, env=place.environment())
    installed = prefix / "libexec/ccp/ccp"
    assert digest(installed) == digest(place.released)
    assert "program: proved with stub-kit 1" in (prefix / "libexec/ccp/version").read_text()
    take_run_bit(place)
    refused = subprocess.run(words, stderr=subprocess.PIPE, text=True, env=place.environment())
    assert refused.returncode == 1 and "chmod +x release/ccp" in refused.stderr


# ---- a new user


@pytest.fixture(scope="session")
def clone(tmp_path_factory: pytest.TempPathFactory) -> Path:
    """A fresh clone of this checkout, whose release/ has the program of its sources."""
    folder = tmp_path_factory.mktemp("clone") / "ccp"
    made = subprocess.run(["git", "clone", "--quiet", str(REPOSITORY), str(folder)], stderr=subprocess.PIPE, text=True)
    if made.returncode:
        pytest.skip("this checkout can't be cloned: %s" % made.stderr.strip())
    provenance = folder / "release" / "PROVENANCE"
    sources = subprocess.check_output([str(folder / "tools/launcher/source-sum")], text=True).strip()
    if not provenance.is_file() or "sources: %s\n" % sources not in provenance.read_text(encoding="utf-8"):
        pytest.skip("release/ has no program of these sources")
    return folder


def as_new_user(clone: Path, line: str, given: bytes = b"") -> Ran:
    """Runs a line of bash at the top of the clone, without a toolchain on the PATH."""
    folders = [one for one in os.environ["PATH"].split(os.pathsep) if not os.path.exists(os.path.join(one, "rt"))]
    path = os.pathsep.join([*folders, "/usr/bin", "/bin"])
    env = {name: value for name, value in os.environ.items() if not name.startswith("CCP_")}
    done = subprocess.run(
        ["bash", "-c", line],
        input=given,
        stdout=subprocess.PIPE,
        stderr=subprocess.PIPE,
        cwd=clone,
        env={**env, "PATH": path, "PYTHONDONTWRITEBYTECODE": "1"},
    )
    return Ran(done.stdout.decode(), done.stderr.decode(), done.returncode)


def test_the_first_command_answers_at_once(clone: Path) -> None:
    ran = as_new_user(clone, "./ccp campaign examples/campaign.json")
    assert ran == ((EXAMPLES / "campaign.out").read_text(encoding="utf-8"), "", 0)
    assert "program: release/ccp, proved with" in as_new_user(clone, "./ccp --version").output


def commands_of_readme() -> List[str]:
    """The examples of README's table of modes."""
    text = (REPOSITORY / "README.md").read_text(encoding="utf-8").partition("\n## Modes\n")[2].partition("\n## ")[0]
    cells = [line.replace("\\|", "\0").split("|")[-2] for line in text.splitlines() if line.startswith("| `")]
    return [cell.strip().strip("`").replace("\0", "|") for cell in cells]


@pytest.mark.parametrize("line", commands_of_readme())
def test_commands_of_readme(clone: Path, line: str) -> None:
    ran = as_new_user(clone, line)
    assert ran.output and (ran.errors, ran.status) == ("", 0)


def lines_of_examples() -> List[str]:
    """A line for each example: an input with the mode that reads it."""
    modes = {"campaign.json": "campaign", "shared.json": "shared", "delay-shared.json": "shared"}
    modes.update({"live.json": "timeline", "rollout.json": "rollout", "convergence.json": "shared"})
    modes.update({"drive.json": "campaign", "driven.drive": "drive-table"})
    lines = ["./ccp %s examples/%s" % (mode, name) for name, mode in modes.items()]
    lines.append("./ccp acks examples/live.json | examples/agent.py -")
    for mode, first in (("feed", "echo -n"), ("drive", "cat examples/driven.json; echo ---")):
        name = "feed" if mode == "feed" else "driven"
        frames = "{ %s; grep -v '^#' examples/%s.hex | xxd -r -p; } | ./ccp %s | xxd -p" % (first, name, mode)
        lines.append(
            "diff <(%s) <(grep -v '^#' examples/%s-answers.hex | xxd -r -p | xxd -p) && echo same" % (frames, name)
        )
    for path in sorted((EXAMPLES / "traces").glob("*.trace")):
        lines.append("./ccp trace info %s 2>&1" % path.relative_to(REPOSITORY))
    for name in ("aimd", "copa", "bbr"):
        lines.append("PYTHONPATH=src %s -m ccp_tools.drive examples/agents/%s.py examples/drive.json" % (PYTHON, name))
    build = "cc -O2 -o $room/aimd examples/agents/aimd.c && mkfifo $room/frames"
    run = "(cat examples/drive.json; echo ---; $room/aimd < $room/frames) | ./ccp drive | tee $room/frames | xxd -p"
    lines.append("room=$(mktemp -d) && %s && %s; rm -r $room" % (build, run))
    for path in sorted(EXAMPLES.rglob("*.portus")):
        lines.append("./ccp check %s" % path.relative_to(REPOSITORY))
    for path in sorted(EXAMPLES.glob("*.ccp")):
        lines.append("./ccp fold %s" % path.relative_to(REPOSITORY))
    for path in sorted((EXAMPLES / "like-linux").glob("*.acks")):
        base = path.relative_to(REPOSITORY).with_suffix("")
        lines.append("./ccp fold %s.portus %s.acks" % (base, base))
    return lines


@pytest.mark.parametrize(
    "line", [pytest.param(line, marks=needs("cc")) if "cc -O2" in line else line for line in lines_of_examples()]
)
def test_each_example(clone: Path, line: str) -> None:
    ran = as_new_user(clone, line)
    assert ran.output and ran.status == 0 and ran.errors == ""
    expected = (REPOSITORY / line.split()[2]).with_suffix(".out")
    if expected.is_file() and line.split()[1] in ("campaign", "shared", "fold"):
        assert ran.output == expected.read_text(encoding="utf-8")


# ---- a release and its tag


class Maker:
    """A clone of this checkout with a program that ./test has passed, and a toolchain of two scripts."""

    def __init__(self, room: Path, program: Path | None = None) -> None:
        self.room, self.top = room, room / "ccp"
        # without the tags of this checkout: what is made here are tags too
        subprocess.run(["git", "clone", "--quiet", "--no-tags", str(REPOSITORY), str(self.top)], check=True)
        for name, value in (("user.name", "A Maintainer"), ("user.email", "maintainer@example.org")):
            self.git("config", name, value)
        for name in ("release", "install-ccp"):
            shutil.copy(REPOSITORY / "tools" / name, self.top / "tools" / name)
        # a wheel has tests of its own
        script(self.top / "tools", "wheel", 'echo wheel > "$2/ccp_tools.whl"; echo "tools/wheel: $2/ccp_tools.whl"\n')
        self.git("add", "--all")
        self.git("commit", "--quiet", "--message", "This checkout's scripts")
        self.version = (self.top / "VERSION").read_text(encoding="utf-8").strip()
        script(room, "rt", "echo %s/doc" % room)
        (room / "toolchain/bin").mkdir(parents=True)
        script(room / "toolchain/bin", "clang", "echo 'clang version 1'")
        self.pass_program(program or script(room, "stub", PROGRAM))

    def git(self, *words: str) -> str:
        return subprocess.check_output(["git", "-C", str(self.top), *words], text=True).strip()

    def pass_program(self, program: Path) -> None:
        """What ./test leaves: a program, and beside it what it passed."""
        built = self.top / "crates/ccp/out"
        built.mkdir(parents=True)
        shutil.copy(program, built / "ccp")
        sources = subprocess.check_output([str(self.top / "tools/launcher/source-sum")], text=True).strip()
        lines = ("sources: " + sources, "program: " + digest(built / "ccp"), "toolchain: stub-kit 1", "gate: 1 passed")
        (built / "passed").write_text("\n".join(lines) + "\n", encoding="utf-8")

    def release(self, program: Path) -> None:
        """What a release leaves: a program in release/, of these sources, and no trace of ./test or its toolchain."""
        shutil.rmtree(self.top / "crates/ccp/out")
        (self.room / "rt").unlink()
        shutil.copy(program, self.top / "release/ccp")
        sources = subprocess.check_output([str(self.top / "tools/launcher/source-sum")], text=True).strip()
        notes = "version: %s\nsources: %s\ntoolchain: stub-kit 2\n" % (self.version, sources)
        (self.top / "release/PROVENANCE").write_text(notes, encoding="utf-8")
        (self.top / "release/SHA256SUMS").write_text("%s  ccp\n" % digest(program), encoding="utf-8")
        self.git("commit", "--quiet", "--all", "--message", "A release")

    def run(self, *words: str, **more: str) -> Ran:
        path = os.pathsep.join([str(self.room), os.environ["PATH"], "/usr/bin", "/bin"])
        done = subprocess.run(
            [str(self.top / "tools/release"), self.version, *words],
            stdout=subprocess.PIPE,
            stderr=subprocess.PIPE,
            text=True,
            # as little work as can be for the files that nobody keeps
            env={**os.environ, "PATH": path, "XZ_DEFAULTS": "-0", "DPKG_DEB_COMPRESSOR_LEVEL": "1", **more},
        )
        return Ran(done.stdout, done.stderr, done.returncode)

    def state(self) -> str:
        """The commits and tags, and what has changed since the last commit."""
        shown = self.git("log", "--all", "--format=%H %D"), self.git("status", "--porcelain", "--ignored", "dist")
        return "\n".join([*shown, digest(self.top / "release/ccp")])


@pytest.mark.parametrize("name", ["release", "install", "install-ccp", "completions"])
def test_the_help_of_a_script_is_its_header(name: str) -> None:
    path = REPOSITORY / "tools" / name
    lines = path.read_text(encoding="utf-8").splitlines()[1:]
    end = next(at for at, line in enumerate(lines) if not line.startswith("#"))
    ran = subprocess.run([str(path), "--help"], stdout=subprocess.PIPE, text=True, check=True)
    assert ran.stdout.splitlines() == [line[2:] for line in lines[:end]]


@needs("git", "dpkg-deb", "xz")
def test_a_release_has_a_tag(tmp_path: Path) -> None:
    maker = Maker(tmp_path)
    tag = "v" + maker.version
    ran = maker.run("--no-tag")
    assert ran.status == 0 and "no tag is made: --no-tag" in ran.output and not maker.git("tag"), ran
    maker.git("checkout", "--quiet", "--", "release")

    (maker.top / "VERSION").write_text(maker.version + "\n\n", encoding="utf-8")
    ran = maker.run()
    assert ran.status == 0 and "no tag is made: the working tree has other changes, as VERSION" in ran.output, ran
    assert not maker.git("tag")
    maker.git("checkout", "--quiet", "--", ".")

    ran = maker.run()
    assert ran.status == 0 and "the tag %s is made\n" % tag in ran.output, ran
    assert maker.git("cat-file", "-t", tag) == "tag", "it is annotated"
    assert maker.git("rev-parse", tag + "^{commit}") == maker.git("rev-parse", "HEAD")
    assert maker.git("log", "-1", "--format=%s") == "Release " + maker.version and not maker.git(
        "status", "--porcelain"
    )
    assert "sources: " in maker.git("show", tag + ":release/PROVENANCE")

    ran = maker.run()
    assert ran.status == 0 and "no tag is made: it is there" in ran.output, ran


@needs("git", "dpkg-deb", "xz")
def test_a_tag_that_is_elsewhere_is_an_error_before_anything_is_written(tmp_path: Path) -> None:
    maker = Maker(tmp_path)
    tag = "v" + maker.version
    maker.git("tag", "--annotate", tag, "--message", "an earlier one")
    before = maker.state()
    ran = maker.run()
    assert ran.status == 1 and "the tag %s is at this commit, whose release/ has another program" % tag in ran.errors
    assert ran.errors.count("\n") == 1 and "--no-tag" in ran.errors and maker.state() == before

    maker.git("commit", "--quiet", "--allow-empty", "--message", "A later commit")
    before = maker.state()
    ran = maker.run()
    assert ran.status == 1 and "the tag %s is at another commit, " % tag in ran.errors
    assert ran.errors.count("\n") == 1 and "--no-tag" in ran.errors and maker.state() == before
    assert maker.run("--no-tag").status == 0


@needs("git", "dpkg-deb", "xz")
def test_packages_of_the_program_in_release_need_no_proof(tmp_path: Path) -> None:
    """They are made of it, and nothing else changes. Who has no name for git has that of the login."""
    maker = Maker(tmp_path)
    maker.release(tmp_path / "stub")
    for name in ("user.name", "user.email"):
        maker.git("config", "--unset", name)
    before, out = maker.state(), tmp_path / "out"
    plain = {"GIT_CONFIG_GLOBAL": "/dev/null", "GIT_CONFIG_SYSTEM": "/dev/null", "DEBFULLNAME": "", "DEBEMAIL": ""}
    ran = maker.run("--out", str(out), **plain)
    assert ran.status == 0 and ran.errors == "", ran
    assert "no tag is made: release/ has the program of these sources already\n" in ran.output
    assert maker.state() == before
    package = "ccp_%s_amd64.deb" % maker.version
    names = {"ccp-%s-x86_64-linux.tar.xz" % maker.version, package, "ccp-tools_%s_all.deb" % maker.version}
    assert {path.name for path in out.iterdir()} == {*names, "ccp_tools.whl", "SHA256SUMS"}
    fields = subprocess.check_output(["dpkg-deb", "--field", str(out / package), "Maintainer"], text=True)
    login = subprocess.check_output(["id", "-un"], text=True).strip()
    assert fields == "%s <%s@%s>\n" % (login, login, os.uname().nodename)
    unpacked = tmp_path / "unpacked"
    subprocess.run(["dpkg-deb", "--extract", str(out / package), str(unpacked)], check=True)
    assert digest(unpacked / "usr/libexec/ccp/ccp") == digest(tmp_path / "stub")
    assert "program: proved with stub-kit 2\n" in (unpacked / "usr/libexec/ccp/version").read_text(encoding="utf-8")
    assert not (unpacked / "usr/libexec/ccp/installed").exists(), "dpkg has a list of its own"


@needs("git", "dpkg-deb", "xz")
def test_a_program_in_release_that_is_of_other_sources_or_damaged_is_not_packed(tmp_path: Path) -> None:
    maker = Maker(tmp_path)
    maker.release(tmp_path / "stub")
    out = tmp_path / "out"
    (maker.top / "release/ccp").write_text("damaged\n", encoding="utf-8")
    ran = maker.run("--out", str(out))
    assert ran.status == 1 and "release/ccp doesn't have the SHA-256" in ran.errors and ran.errors.count("\n") == 1
    maker.git("checkout", "--quiet", "--", "release")
    (maker.top / "HANDLES").write_text("changed\n", encoding="utf-8")
    ran = maker.run("--out", str(out))
    assert ran.status == 1 and ran.errors.count("\n") == 1 and not out.exists()
    assert "run ./test first: a release is what it passed, and release/ has no program of these sources" in ran.errors


# ---- the packages in an empty Debian

DEBIAN = os.environ.get("CCP_DEBIAN", "")
# the seconds for all that debootstrap fetches; a mirror that is slower is as good as none
FETCHED_S = 300


class Debian:
    """An empty Debian in a folder, and packages that tools/release has made in another one."""

    def __init__(self, top: Path, made: Path) -> None:
        self.top, self.packages = top, {path.name.partition("_")[0]: path for path in made.glob("ccp*.deb")}

    def run(self, line: str) -> Ran:
        """Runs a line of sh in it."""
        env = {"PATH": "/usr/sbin:/usr/bin:/sbin:/bin", "DEBIAN_FRONTEND": "noninteractive", "LC_ALL": "C.UTF-8"}
        done = subprocess.run(
            ["chroot", str(self.top), "sh", "-c", line], input=b"", capture_output=True, env=env, check=False
        )
        return Ran(done.stdout.decode(), done.stderr.decode(), done.returncode)

    def must(self, line: str) -> str:
        """What a line prints that ends well."""
        ran = self.run(line)
        assert ran.status == 0, "%s: %s%s" % (line, ran.output, ran.errors)
        return ran.output

    def files(self) -> Dict[str, Tuple[int, int]]:
        """What is there below the folder that the packages write to, each file with its length and its time."""
        found = {}
        for path in (self.top / "usr").rglob("*"):
            state = path.lstat()
            found[str(path)] = (0, 0) if path.is_dir() else (state.st_size, state.st_mtime_ns)
        return found


@pytest.fixture(scope="module")
def debian(clone: Path, tmp_path_factory: pytest.TempPathFactory) -> Iterator[Debian]:
    """The Debian that CCP_DEBIAN names with the packages in dist/, else one that debootstrap makes with the packages of
    the program in release/."""
    if os.geteuid() != 0:
        pytest.skip("only root may make a Debian and enter it")
    if DEBIAN:
        at = Debian(Path(DEBIAN), REPOSITORY / "dist")
    else:
        room = tmp_path_factory.mktemp("debian")
        top = made_by_debootstrap(room / "root")
        ran = Maker(room, clone / "release" / "ccp").run("--no-tag")
        assert ran.status == 0, ran
        at = Debian(top, room / "ccp" / "dist")
    for name, path in at.packages.items():
        shutil.copy(path, at.top / "tmp" / (name + ".deb"))
    yield at
    if DEBIAN:
        at.run("dpkg --purge ccp-tools ccp; rm -f /tmp/ccp.deb /tmp/ccp-tools.deb")
    else:
        shutil.rmtree(at.top)


def made_by_debootstrap(top: Path) -> Path:
    """An empty Debian in a new folder. Without a mirror within reach there is none, and no fault of the packages."""
    # `timeout` ends also what debootstrap has begun
    words = ["timeout", "--kill-after=10", str(FETCHED_S), "debootstrap", "--variant=minbase", "bookworm", str(top)]
    done = subprocess.run(words, stdout=subprocess.PIPE, text=True)
    if done.returncode:
        pytest.skip("debootstrap makes no Debian here: %s" % "".join(done.stdout.splitlines()[-1:]))
    return top


in_debian = needs("debootstrap", "lintian", "man", "git", "dpkg-deb", "xz")


@pytest.mark.slow
@in_debian
def test_the_packages_are_free_of_errors_of_lintian(debian: Debian) -> None:
    assert set(debian.packages) == {"ccp", "ccp-tools"}, "tools/release makes them in dist/"
    words = ["lintian", "--allow-root", "--tag-display-limit", "0", *map(str, debian.packages.values())]
    done = subprocess.run(words, stdout=subprocess.PIPE, text=True)
    assert done.returncode == 0 and "E: " not in done.stdout, done.stdout


@pytest.mark.slow
@in_debian
def test_the_package_of_the_program(debian: Debian) -> None:
    """It needs nothing that an empty Debian lacks, answers, and leaves nothing behind."""
    before = debian.files()
    debian.must("dpkg --install /tmp/ccp.deb")
    assert debian.must("ccp --version").startswith("ccp ") and "\nprogram: proved with " in debian.must("ccp --version")
    assert "\n  campaign " in debian.must("ccp --help")
    examples = "/usr/share/doc/ccp/examples"
    printed = debian.must("ccp campaign %s/campaign.json" % examples)
    assert printed == (EXAMPLES / "campaign.out").read_text(encoding="utf-8")
    assert debian.run("ccp bend")[0::2] == ("", 2) and "apt-get install ccp-tools" in debian.run("ccp compare x").errors
    page = subprocess.run(
        ["man", "-l", str(debian.top / "usr/share/man/man1/ccp.1.gz")], capture_output=True, text=True, check=True
    )
    assert "over recorded links SYNOPSIS ccp" in " ".join(page.stdout.split()) and not page.stderr
    shown = "COMP_WORDS=(ccp camp); COMP_CWORD=1; _ccp; echo $COMPREPLY"
    assert debian.must("bash -c '. /usr/share/bash-completion/completions/ccp; %s'" % shown) == "campaign\n"
    assert debian.must("head -n 1 /usr/share/zsh/vendor-completions/_ccp") == "#compdef ccp\n"
    assert debian.must("dpkg --verify ccp") == ""
    debian.must("dpkg --remove ccp")
    assert debian.files() == before


@pytest.mark.slow
@in_debian
def test_the_package_of_the_commands(debian: Debian) -> None:
    """With what it depends on, which apt installs, a command answers; one that needs more names what to install."""
    debian.must("apt-get update && apt-get install --yes --no-install-recommends python3")
    before = debian.files()
    debian.must("dpkg --install /tmp/ccp.deb /tmp/ccp-tools.deb")
    scenario = "/usr/share/doc/ccp/examples/campaign.json"
    assert debian.must("ccp campaign %s | ccp table" % scenario).startswith("case,agent,acks,")
    assert debian.must("ccp help table").startswith("usage: ccp table")
    refused = debian.run("ccp compare x")
    if debian.run("python3 -c 'import pandas'").status:
        assert refused.status == 1 and "apt-get install python3-pandas" in refused.errors
    else:  # an earlier use of this folder installed it
        assert refused.status == 2 and "--senders LIST is expected" in refused.errors
    debian.must("dpkg --remove ccp-tools ccp")
    assert debian.files() == before
