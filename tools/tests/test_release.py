# SPDX-License-Identifier: Apache-2.0
"""What a release is made of and when it is refused, over a small repository; and what the man page and the completion name."""

from __future__ import annotations

import hashlib
import json
import os
import re
import shlex
import shutil
import subprocess
import sys
import tarfile
import tempfile
import unittest
from pathlib import Path
from typing import Any, cast

TOP = Path(__file__).resolve().parents[2]
sys.path.insert(0, str(TOP / "tools"))

from tests.case import entered  # noqa: E402  (its folder has to be on the path first)

LOGIC = "5a" * 32
SCRIPT = f"#!/bin/sh\n# rattle logic={LOGIC}\n# proved with rattle-kit-1 logic {LOGIC[:16]}\n# GLIBC_2.9 GLIBC_2.31\necho proved\n"
PROGRAMS, ARCHIVES = ("dsp_console_main", "gateway_console"), ("dsp_library",)
# A library that is made as c/Makefile makes the real one: of the archives.
LIBRARY = """all:
	mkdir -p ../out/c
	cat ../crates/*/out/lib*.a > ../out/c/librokdaum.a
	echo shared > ../out/c/librokdaum.so.1.2.3
	echo found > ../out/c/rokdaumConfig.cmake
	echo version > ../out/c/rokdaumConfigVersion.cmake
"""


def content(tar: tarfile.TarFile, name: str) -> bytes:
    """What a file of an archive holds."""
    member = tar.extractfile(name)
    assert member, name
    return member.read()


class Release(unittest.TestCase):
    def setUp(self) -> None:
        self.room = Path(entered(self, tempfile.TemporaryDirectory()))
        self.top = self.room / "repository"
        self.out = self.room / "made"
        texts = {
            "README.md": f"    rattle-kit-1 logic {LOGIC[:16]}\n",
            "docs/RELEASE.md": "[a](A.md) [x](../examples/x) [c](../CHANGELOG.md) [n](https://example.org/A.md)\n",
            "docs/A.md": "a\n",
            "docs/man/dsp_console.1": ".TH X 1\n",
            "docs/man/rokdaum.3": ".TH X 3\n",
            "docs/completion/dsp_console": "# none\n",
            "examples/x": "#!/bin/sh\n../dsp_console\n",
            "crates.txt": "".join(f"{name}: arrayvec\n" for name in PROGRAMS) + "".join(f"{name} staticlib: ialg\n" for name in ARCHIVES),
            **{f"crates/{name}/src/main.rt": "first\n" for name in PROGRAMS + ARCHIVES},
            "c/Makefile": LIBRARY,
            "c/rokdaum.h": "/* h */\n",
            "c/rokdaum.pc.in": "prefix=@PREFIX@\nincludedir=${prefix}/include\nVersion: @VERSION@\n",
            "c/rokdaum.c": "no part of a release\n",
            "c/examples/e.c": "int e;\n",
            "python/rokdaum/host.py": "made = 1\n",
            "python/bin/dsp_run": "#!/bin/sh\necho ran\n",
            "python/bin/dsp_design": "#!/bin/sh\n",
            "python/bin/dsp_map": "#!/bin/sh\n",
            "python/tests/test_host.py": "no part of a release\n",
            "VERSION": "1.2.3\n",
            "SONAME": "librokdaum.so.4\n",
            ".gitignore": "out/\n",
            "secret/key": "no part of a release\n",
        }
        for path in ("CHANGELOG.md", "LICENSE", "NOTICE", "SECURITY.md"):
            texts[path] = path
        for path, text in texts.items():
            (self.top / path).parent.mkdir(parents=True, exist_ok=True)
            (self.top / path).write_text(text)
        shutil.copy(TOP / "Makefile", self.top)
        (self.top / "tools").mkdir()
        for tool in ("bom.py", "crates.py", "deb.py", "dist.py", "program.py", "release.py", "wheel.py"):
            shutil.copy(TOP / "tools" / tool, self.top / "tools")
        for path in ("examples/x", "python/bin/dsp_run", "python/bin/dsp_design", "python/bin/dsp_map"):
            (self.top / path).chmod(0o755)
        self.git("init", "-q")
        self.commit()
        self.build()

    def git(self, *words: str) -> None:
        settings = ("-c", "user.name=n", "-c", "user.email=e", "-c", "commit.gpgsign=false")
        subprocess.run(("git", *settings, *words), cwd=self.top, check=True, capture_output=True)

    def commit(self) -> None:
        self.git("add", "-A")
        self.git("commit", "-q", "-m", "all")

    def build(self, text: str = SCRIPT) -> None:
        """Programs and archives that are said to be built from the sources as they stand."""
        for name in PROGRAMS + ARCHIVES:
            made = self.top / f"crates/{name}/out" / (f"lib{name}.a" if name in ARCHIVES else name)
            made.parent.mkdir(exist_ok=True)
            made.write_text(text if name in PROGRAMS else f"{name}\n")
            made.chmod(0o755)
            words = f"import program; program.built_from({name!r}).write_text(program.checksum({name!r}))"
            subprocess.run((sys.executable, "-B", "-c", words), cwd=self.top / "tools", check=True)

    def call(self, *words: str, status: int = 0) -> str:
        environment = {name: value for name, value in os.environ.items() if name not in ("SOURCE_DATE_EPOCH", "MAKEFLAGS", "MAKELEVEL")}
        ran = subprocess.run(words, cwd=self.top, env=environment, capture_output=True, text=True, check=False)
        self.assertEqual(ran.returncode, status, ran.stdout + ran.stderr)
        return ran.stdout + ran.stderr

    def release(self, *words: str, status: int = 0) -> str:
        return self.call("tools/release.py", "--to", str(self.out), *words, status=status)

    def test_what_it_holds(self) -> None:
        path = Path(self.release().strip())
        self.assertEqual(path.name, "rokdaum-1.2.3-x86_64-linux.tar.gz")
        self.assertEqual(Path(f"{path}.sha256").read_text(), f"{hashlib.sha256(path.read_bytes()).hexdigest()}  {path.name}\n")
        with tarfile.open(path) as tar:
            found = {it.name: it for it in tar.getmembers()}
            texts = {name.partition("/")[2]: content(tar, name).decode() for name, it in found.items() if it.isfile()}
        wanted = {"CHANGELOG.md", "LICENSE", "Makefile", "NOTICE", "ORIGIN", "README.md", "SECURITY.md", "SHA256SUMS", "SONAME", "VERSION", "docs/A.md", "docs/RELEASE.md"}
        wanted |= {"docs/completion/dsp_console", "docs/man/dsp_console.1", "docs/man/rokdaum.3", "dsp_console", "gateway_console", "examples/x"}
        wanted |= {"c/rokdaum.h", "c/examples/e.c", "lib/librokdaum.a", "lib/librokdaum.so.1.2.3", "lib/pkgconfig/rokdaum.pc", "lib/cmake/rokdaum/rokdaumConfig.cmake", "lib/cmake/rokdaum/rokdaumConfigVersion.cmake"}
        wanted |= {f"python/{it}" for it in ("rokdaum/host.py", "rokdaum/librokdaum.so", "bin/dsp_run", "bin/dsp_design", "bin/dsp_map")}
        self.assertEqual(set(texts), wanted)
        self.assertEqual((texts["dsp_console"], texts["gateway_console"]), (SCRIPT, SCRIPT))
        self.assertEqual((texts["lib/librokdaum.a"], texts["python/rokdaum/librokdaum.so"]), ("dsp_library\n", texts["lib/librokdaum.so.1.2.3"]))
        self.assertEqual(texts["lib/pkgconfig/rokdaum.pc"], "prefix=${pcfiledir}/../..\nincludedir=${prefix}/c\nVersion: 1.2.3\n")
        self.assertEqual(texts["README.md"], "[a](docs/A.md) [x](examples/x) [c](CHANGELOG.md) [n](https://example.org/A.md)\n")
        self.assertIn(f"logic    {LOGIC}\n", texts["ORIGIN"])
        self.assertIn("glibc    2.31 or newer\n", texts["ORIGIN"])
        self.assertNotIn("with changes", texts["ORIGIN"])
        modes = {name.partition("/")[2]: it.mode for name, it in found.items() if it.isfile()}
        self.assertEqual({name for name, mode in modes.items() if mode == 0o755}, {"dsp_console", "gateway_console", "examples/x", "python/bin/dsp_run", "python/bin/dsp_design", "python/bin/dsp_map"})
        self.assertEqual(len({(it.uid, it.gid, it.mtime) for it in found.values()}), 1)

    def test_the_time_may_be_given(self) -> None:
        os.environ["SOURCE_DATE_EPOCH"] = "86400"
        self.addCleanup(os.environ.pop, "SOURCE_DATE_EPOCH")
        ran = subprocess.run(("tools/release.py", "--to", self.out), cwd=self.top, capture_output=True, text=True, check=True)
        with tarfile.open(ran.stdout.strip()) as tar:
            self.assertEqual({it.mtime for it in tar.getmembers()}, {86400})
        os.environ["SOURCE_DATE_EPOCH"] = "today"
        ran = subprocess.run(("tools/release.py", "--to", self.out), cwd=self.top, capture_output=True, text=True, check=False)
        self.assertEqual((ran.returncode, ran.stderr), (1, "release: SOURCE_DATE_EPOCH is no number of seconds: today\n"))

    def test_no_program(self) -> None:
        shutil.rmtree(self.top / "crates/dsp_console_main/out")
        self.assertIn("isn't built", self.release(status=69))
        self.assertFalse(self.out.exists())
        self.assertIn("isn't built", self.call("make", "dist", status=2))

    def bill(self, *others: Path) -> dict[str, Any]:
        """The bill of materials of a release and of artefacts that were made of it."""
        words = "import bom, release, sys; from pathlib import Path; found = release.contents(False); print(bom.bill(found, release.write(Path(sys.argv[1]), found), list(map(Path, sys.argv[2:]))).decode())"
        ran = subprocess.run((sys.executable, "-B", "-c", words, self.out, *others), cwd=self.top / "tools", capture_output=True, text=True, check=True)
        return cast("dict[str, Any]", json.loads(ran.stdout))

    def test_a_bill_of_materials(self) -> None:
        wheel = self.room / "one.whl"
        wheel.write_bytes(b"wheel")
        found = self.bill(wheel)
        self.assertEqual(self.bill(wheel), found)
        archive = self.out / "rokdaum-1.2.3-x86_64-linux.tar.gz"
        packages = {it["name"]: it for it in found["packages"]}
        for name, path in (("rokdaum", archive), ("one.whl", wheel)):
            self.assertEqual({it["algorithm"]: it["checksumValue"] for it in packages[name]["checksums"]}["SHA256"], hashlib.sha256(path.read_bytes()).hexdigest())
        self.assertEqual((packages["arrayvec"]["versionInfo"], packages["glibc"]["versionInfo"]), ("rattle-kit-1", "2.31 or newer"))
        with tarfile.open(archive) as tar:
            held = {f"./{it.name.partition('/')[2]}": content(tar, it.name) for it in tar.getmembers() if it.isfile()}
        self.assertEqual({it["fileName"]: it["checksums"][0]["checksumValue"] for it in found["files"]}, {name: hashlib.sha1(text).hexdigest() for name, text in held.items()})
        sums = "".join(sorted(hashlib.sha1(text).hexdigest() for text in held.values()))
        self.assertEqual(packages["rokdaum"]["packageVerificationCode"]["packageVerificationCodeValue"], hashlib.sha1(sums.encode()).hexdigest())
        known = {it["SPDXID"] for it in (*found["packages"], *found["files"], found)}
        self.assertEqual(len(known), len(found["packages"]) + len(found["files"]) + 1)
        self.assertLessEqual({it[end] for it in found["relationships"] for end in ("spdxElementId", "relatedSpdxElement")}, known)
        of = {it["SPDXID"]: it["fileName"] for it in found["files"]}
        linked = {of[it["spdxElementId"]] for it in found["relationships"] if it["relationshipType"] == "STATIC_LINK"}
        self.assertEqual(linked, {"./dsp_console", "./gateway_console", "./lib/librokdaum.a", "./lib/librokdaum.so.1.2.3", "./python/rokdaum/librokdaum.so"})

    def test_no_library(self) -> None:
        (self.top / "crates/dsp_library/out/libdsp_library.a").unlink()
        self.assertIn("archive dsp_library isn't built", self.release(status=69))
        self.build()
        (self.top / "c/Makefile").write_text("all:\n\t@echo no compiler; exit 1\n")
        self.assertIn("make -C c ended with status 2: no compiler", self.release("--changed", status=1))

    def test_a_program_of_other_sources(self) -> None:
        (self.top / "crates/dsp_console_main/src/main.rt").write_text("second\n")
        self.assertIn("isn't built", self.release("--changed", status=69))
        self.commit()
        self.assertIn("isn't built", self.release(status=69))

    def test_a_program_of_another_logic(self) -> None:
        self.build(SCRIPT.replace("5a5a", "5b5b"))
        self.assertIn("logic 5b5b", self.release(status=1))
        self.build("#!/bin/sh\n")
        self.assertIn("no logic", self.release(status=1))

    def test_changes_that_are_not_committed(self) -> None:
        (self.top / "docs/A.md").write_text("b\n")
        self.assertIn("not committed", self.release(status=1))
        path = self.release("--changed").strip()
        with tarfile.open(path) as tar:
            self.assertIn(b"with changes", content(tar, "rokdaum-1.2.3-x86_64-linux/ORIGIN"))
            self.assertEqual(content(tar, "rokdaum-1.2.3-x86_64-linux/docs/A.md"), b"b\n")

    def test_a_file_that_git_does_not_know(self) -> None:
        (self.top / "examples/mine").write_text("mine\n")
        with tarfile.open(self.release().strip()) as tar:
            self.assertNotIn("rokdaum-1.2.3-x86_64-linux/examples/mine", tar.getnames())

    def test_a_stage_takes_no_other_folder(self) -> None:
        (self.room / "precious").mkdir()
        (self.room / "precious/file").write_text("mine\n")
        said = self.call("tools/release.py", "--stage", str(self.room / "precious"), status=1)
        self.assertIn("is no folder of a release", said)
        self.assertEqual((self.room / "precious/file").read_text(), "mine\n")

    def test_install_from_the_repository(self) -> None:
        target = self.room / "target"
        for _ in range(2):
            self.call("make", "install", "PREFIX=/usr", f"DESTDIR={target}")
        self.assertEqual([self.call(str(target / "usr/bin" / name)) for name in ("dsp_console", "gateway_console", "dsp_run")], ["proved\n", "proved\n", "ran\n"])
        for path in ("include/rokdaum.h", "lib/librokdaum.a", "lib/librokdaum.so", "lib/librokdaum.so.4", "share/rokdaum/python/rokdaum/librokdaum.so", "share/doc/rokdaum/python/rokdaum/host.py", "share/doc/rokdaum/c/rokdaum.h", "share/doc/rokdaum/c/examples/e.c"):
            self.assertTrue((target / "usr" / path).is_file(), path)
        self.assertEqual((target / "usr/lib/pkgconfig/rokdaum.pc").read_text(), "prefix=/usr\nincludedir=${prefix}/include\nVersion: 1.2.3\n")
        self.assertTrue((target / "usr/share/doc/rokdaum/dsp_console").samefile(target / "usr/bin/dsp_console"))
        self.assertFalse((target / "usr/share/doc/rokdaum/Makefile").exists())
        self.call("make", "uninstall", "PREFIX=/usr", f"DESTDIR={target}")
        self.assertEqual([it for it in target.rglob("*") if not it.is_dir()], [])
        self.assertIn("nothing is installed", self.call("make", "uninstall", "PREFIX=/usr", f"DESTDIR={target}", status=2))


class Pages(unittest.TestCase):
    def options(self, text: str) -> set[str]:
        return set(re.findall(r"--\w+", text))

    def setUp(self) -> None:
        self.wanted = self.options((TOP / "docs/dsp_console.txt").read_text(encoding="utf-8"))

    def test_the_man_page_has_the_options_of_help(self) -> None:
        page = (TOP / "docs/man/dsp_console.1").read_text(encoding="utf-8").replace("\\-", "-")
        self.assertEqual(self.options(page), self.wanted)
        self.assertIn(f'"Rokdaum {(TOP / "VERSION").read_text().strip()}"', page)

    def test_the_man_page_of_a_gateway_has_the_options_of_help(self) -> None:
        page = (TOP / "docs/man/gateway_console.1").read_text(encoding="utf-8").replace("\\-", "-")
        for option in re.findall(r"--[a-z0-9]+", (TOP / "docs/gateway_console.txt").read_text(encoding="utf-8")):
            self.assertIn(option, page)
        ran = subprocess.run(("groff", "-man", "-Tutf8", "-ww", "-z", TOP / "docs/man/gateway_console.1"), capture_output=True, text=True, check=True)
        self.assertEqual(ran.stderr, "")

    def test_the_man_page_has_no_fault(self) -> None:
        ran = subprocess.run(("groff", "-man", "-Tutf8", "-ww", "-z", TOP / "docs/man/dsp_console.1"), capture_output=True, text=True, check=True)
        self.assertEqual(ran.stderr, "")

    def test_the_man_page_of_the_library_is_of_the_header(self) -> None:
        """Its prototypes are the header's, and its codes with their numbers."""
        page = (TOP / "docs/man/rokdaum.3").read_text(encoding="utf-8")
        header = re.sub(r"/\*.*?\*/", "", (TOP / "c/rokdaum.h").read_text(encoding="utf-8"), flags=re.S)
        shown = "".join("".join(shlex.split(line)[1:]) for line in page.splitlines() if line.startswith(".BI") and "(1)" not in line)
        there = re.findall(r"^(?:inline )?([a-z][\w *]*?\**rokdaum_(?!proved)\w+\([^;{]*?\));", header, re.M)
        self.assertGreater(len(there), 30)
        closed = {re.sub(r"\s", "", it) for it in shown.split(";")}
        self.assertEqual({it for it in closed if "rokdaum_" in it}, {re.sub(r"\s", "", it) for it in there})
        codes = dict(re.findall(r"ROKDAUM_(\w+) = (\d+)", header[:header.index("} rokdaum_code;")]))
        self.assertEqual(dict(re.findall(r'^\.BR ROKDAUM_(\w+) " \((\d+)\)"$', page, re.M)), {name: number for name, number in codes.items() if name != "OK"})
        self.assertIn(f'"Rokdaum {(TOP / "VERSION").read_text().strip()}"', page)
        self.assertIn(f"ROKDAUM_OK\n({codes['OK']})", page)
        kinds = re.findall(r"(ROKDAUM_\w+) = \d+", header[header.index("enum rokdaum_kind"):header.index("} rokdaum_kind;")])
        self.assertEqual(re.findall(r"ROKDAUM_\w+", page[page.index(".B Kinds"):page.index(".B Samples")]), kinds)
        ran = subprocess.run(("groff", "-man", "-Tutf8", "-ww", "-z", TOP / "docs/man/rokdaum.3"), capture_output=True, text=True, check=True)
        self.assertEqual(ran.stderr, "")

    def complete(self, *words: str) -> list[str]:
        """What bash offers for the last of the words."""
        script = 'source "$0"; COMP_WORDS=("$@"); COMP_CWORD=$(($# - 1)); _dsp_console; printf "%s\\n" "${COMPREPLY[@]}"'
        ran = subprocess.run(("bash", "-c", script, TOP / "docs/completion/dsp_console", "dsp_console", *words), cwd=TOP, capture_output=True, text=True, check=True)
        return ran.stdout.split()

    def test_the_completion_is_for_both_programs(self) -> None:
        ran = subprocess.run(("bash", "-c", ". docs/completion/dsp_console; complete -p dsp_console gateway_console"), cwd=TOP, capture_output=True, text=True, check=True)
        self.assertEqual(len(ran.stdout.splitlines()), 2)

    def test_the_completion_has_the_options_of_help(self) -> None:
        self.assertEqual(set(self.complete("--")), self.wanted)
        self.assertEqual(self.complete("--da"), ["--daram"])
        self.assertEqual(self.complete("--daram", "65"), ["65536"])
        self.assertEqual(self.complete("--poison", ""), [])
        self.assertEqual(self.complete("LICEN"), ["LICENSE"])


if __name__ == "__main__":
    unittest.main()
