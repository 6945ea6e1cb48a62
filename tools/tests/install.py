"""tools/install: what goes where, and runs of what was installed."""
import os
import re
import shutil
import sys
import unittest

sys.path.insert(0, os.path.dirname(os.path.abspath(__file__)))

import cases

HEAD = b"ctr-schedule 1\nharts 1\nlayout 803\ntask 4 4 0 4 0 1\nimages\n"
SCHEDULE = HEAD + cases.image(0x0000006F) + b"run 0 0 2\nend\n"
TOOLS = sorted(["brstack", "explain", "fold", "from_perf", "perf_data", "preagg", "record", "same", "trace"])
NO_PAGES = "install: left out: the manual pages of the tools, since help2man isn't here\n"
BASH_COMPLETION = "/usr/share/bash-completion/bash_completion"
COMPLETE = """. "$1"; shift; COMP_WORDS=("$@"); COMP_CWORD=$(($# - 1)); _ctrsim; echo "${COMPREPLY[@]}\""""


class Install(cases.Case):
    def setUp(self):
        super().setUp()
        self.prefix = os.path.join(self.folder, "prefix")
        self.words = {"PATH": os.path.join(self.prefix, "bin") + os.pathsep + os.environ["PATH"]}

    def install(self):
        with cases.environment(CTRSIM=cases.program(), DESTDIR=""):
            ended = cases.tool("install", self.prefix)
        self.assertEqual((ended[0], ended[2].replace(NO_PAGES, "")), (0, ""), ended)
        return ended[1].splitlines()

    def of_installed(self, *command, given=b""):
        return cases.run(list(command), given, env=self.words, cwd=self.folder)

    def test_what_goes_where(self):
        told = self.install()
        there = sorted(os.path.join(folder, name) for folder, _, names in os.walk(self.prefix) for name in names)
        self.assertEqual(sorted(told), there)
        there = [os.path.relpath(path, self.prefix) for path in there]
        for path in ("libexec/ctrsim/bin/ctrsim", "libexec/ctrsim/bin/ctrsim.from", "bin/ctrsim-same", "libexec/ctrsim/same",
                     "libexec/ctrsim/ctrtools/ends.py", "libexec/ctrsim/start/link.ld", "share/man/man1/ctrsim.1",
                     "share/man/man5/ctr-schedule.5", "share/man/man5/ctr-samples.5",
                     "share/bash-completion/completions/ctrsim", "share/zsh/site-functions/_ctrsim"):
            self.assertIn(path, there)
        self.assertEqual([path for path in there if path.startswith("bin/")],
                         ["bin/ctrsim"] + ["bin/ctrsim-" + name for name in TOOLS])
        if shutil.which("help2man"):
            self.assertEqual([path for path in there if path.startswith("share/man/man1/ctrsim-")],
                             ["share/man/man1/ctrsim-%s.1" % name for name in TOOLS])
        self.assertFalse([path for path in there if "tests" in path or "pycache" in path or path.endswith(("install", "build"))])
        self.assertEqual(os.readlink(os.path.join(self.prefix, "bin", "ctrsim-same")), "../libexec/ctrsim/same")

    def test_taken_away(self):
        told = self.install()
        own = os.path.join(self.prefix, "share", "man", "man1", "own.1")
        with open(own, "w", encoding="ascii"):
            pass
        with cases.environment(DESTDIR=""):
            status, gone, said = cases.tool("install", "--uninstall", self.prefix)
        self.assertEqual((status, sorted(gone.splitlines()), said), (0, sorted(told), ""))
        self.assertEqual([os.path.join(folder, name) for folder, _, names in os.walk(self.prefix) for name in names], [own])
        self.assertEqual(os.listdir(self.prefix), ["share"])
        with cases.environment(DESTDIR=""):
            self.ends(cases.tool("install", "--uninstall", self.prefix), 3, "cannot read ")
        # A list that leads out of the folder is none.
        path = os.path.join(self.prefix, "libexec", "ctrsim", "installed")
        os.makedirs(os.path.dirname(path))
        for line in ("../file", "/etc/passwd", ""):
            with open(path, "w", encoding="ascii") as file:
                file.write(line + "\nlibexec/ctrsim/installed\n")
            with cases.environment(DESTDIR=""):
                self.ends(cases.tool("install", "--uninstall", self.prefix), 3, "isn't a list of installed files")

    def test_the_program_in_front(self):
        self.install()
        status, told, said = self.of_installed("ctrsim", "--version")
        self.assertEqual((status, said), (0, b""))
        self.assertRegex(told.decode(), r"\Actrsim, %s/libexec/ctrsim/bin/ctrsim\n" % self.prefix)
        self.assertIn(b"ctrsim --version", self.of_installed("ctrsim", "--help")[1])
        self.assertEqual(self.of_installed("ctrsim")[0], 2)
        link = os.path.join(self.folder, "link")
        os.symlink(os.path.join(self.prefix, "bin", "ctrsim"), link)
        self.assertEqual(self.of_installed(link, "run")[0], 5)

    def test_runs_from_there(self):
        self.install()
        status, stream, said = self.of_installed("ctrsim", "run", given=SCHEDULE)
        # Two samples of 32 bytes, with one branch and with two.
        self.assertEqual((status, len(stream), said), (0, 2 * 32 + 3 * 24, b""))
        stream = self.file("stream", stream)
        self.assertEqual(self.of_installed("ctrsim-same", "803", stream, stream),
                         (0, b"same: 2 samples of 1 tasks\n", b""))
        # No CTRSIM here: the tool finds the program that it was installed with.
        status, output, said = self.of_installed("ctrsim-explain", given=SCHEDULE.replace(b"layout 803", b"layout 3"))
        self.assertEqual((status, output.splitlines()[0], said), (1, b"ctrsim: line 3: out of range", b""))
        self.assertEqual(self.of_installed("ctrsim-same", "803"), (
            2, b"", b"ctrsim-same: the following arguments are required: A, B; --help tells more\n"))

    def test_pages_and_completion(self):
        self.install()
        page_of_command = os.path.join(self.prefix, "share", "man", "man1", "ctrsim.1")
        page_of_tool = os.path.join(self.prefix, "share", "man", "man1", "ctrsim-record.1")
        for command in (["mandoc"], ["man", "-l"]):
            if shutil.which(command[0]):
                status, page, _ = self.of_installed(*command, page_of_command)
                self.assertEqual(status, 0)
                self.assertIn(b"branch stacks", b" ".join(page.split()))
                if os.path.exists(page_of_tool):
                    status, page, _ = self.of_installed(*command, page_of_tool)
                    text = re.sub(r".\x08", "", page.decode())
                    self.assertIn("NAME ctrsim-record - Runs a program through ctrsim", " ".join(text.replace("\u2010", "-").split()))
        completion = os.path.join(self.prefix, "share", "bash-completion", "completions", "ctrsim")
        for words, answer in ((["ctrsim", ""], b"run show demo --version --help\n"), (["ctrsim", "s"], b"show\n"),
                              (["ctrsim", "show", "88"], b"883 887\n"), (["ctrsim", "show", "803", "2"], b"20000\n"),
                              (["ctrsim", "run", ""], b"\n")):
            self.assertEqual(self.of_installed("bash", "-c", COMPLETE, "bash", completion, *words), (0, answer, b""))

    def test_options_of_tools(self):
        self.install()
        # By bash-completion's own reading of --help.
        completions = os.path.join(self.prefix, "share", "bash-completion", "completions")
        self.assertEqual(sorted(os.listdir(completions)), ["ctrsim"] + ["ctrsim-" + name for name in TOOLS])
        if os.path.exists(BASH_COMPLETION):
            script = (". %s; . %s/ctrsim-record; COMP_WORDS=(ctrsim-record --unt); COMP_CWORD=1; COMP_LINE='ctrsim-record --unt';"
                      "COMP_POINT=19; _longopt ctrsim-record --unt ctrsim-record; echo \"${COMPREPLY[@]}\"" % (BASH_COMPLETION, completions))
            status, told, _ = self.of_installed("bash", "-c", script)
            self.assertEqual((status, set(told.split())), (0, {b"--until", b"--until-still"}))
            # Each tool has it.
            status, told, _ = self.of_installed("bash", "-c", ". %s; . %s/ctrsim; complete -p" % (BASH_COMPLETION, completions))
            self.assertEqual(re.findall(r"complete -F _longopt ctrsim-(\w+)", told.decode()), [name for name in re.findall(
                r"complete -F _longopt ctrsim-(\w+)", told.decode()) if name in TOOLS])
            self.assertEqual(len(re.findall(r"complete -F _longopt ctrsim-(\w+)", told.decode())), len(TOOLS))
        if shutil.which("zsh"):
            folder = os.path.join(self.prefix, "share", "zsh", "site-functions")
            script = "fpath=(%s $fpath); autoload -U compinit; compinit -u -D; print -l ${(ok)_comps[(R)_ctrsim]}" % folder
            status, told, _ = self.of_installed("zsh", "-f", "-c", script)
            self.assertEqual((status, told.decode().split()), (0, ["ctrsim"] + ["ctrsim-" + name for name in TOOLS]))

    def test_a_debian_package(self):
        if not shutil.which("dpkg-deb"):
            self.skipTest("no dpkg-deb")
        with cases.environment(CTRSIM=cases.program(), DESTDIR=""):
            status, path, said = cases.tool("package", "-o", self.folder)
        self.assertEqual((status, said.replace(NO_PAGES, "")), (0, ""))
        path = path.strip()
        root = os.path.join(self.folder, "root")
        self.assertEqual(cases.run(["dpkg-deb", "-x", path, root])[0], 0)
        self.words["PATH"] = os.path.join(root, "usr", "bin") + os.pathsep + os.environ["PATH"]
        status, stream, said = self.of_installed("ctrsim", "run", given=SCHEDULE)
        self.assertEqual((status, len(stream), said), (0, 2 * 32 + 3 * 24, b""))
        self.assertEqual(self.of_installed("ctrsim-same", "803", "-", self.file("stream", stream), given=stream)[0], 0)
        with open(os.path.join(self.folder, "sums"), "wb") as file:
            file.write(cases.run(["dpkg-deb", "--ctrl-tarfile", path])[1])
        status, _, said = cases.run(["sh", "-c", "tar xf sums ./md5sums && cd root && md5sum --quiet -c ../md5sums"], cwd=self.folder)
        self.assertEqual((status, said), (0, b""))
        if shutil.which("lintian"):
            status, told, _ = cases.run(["lintian", "--allow-root", "--fail-on", "error,warning", path])
            self.assertEqual((status, told), (0, b""))

    def test_twice_and_for_a_package(self):
        self.assertEqual(self.install(), self.install())
        root = os.path.join(self.folder, "root")
        with cases.environment(CTRSIM=cases.program(), DESTDIR=root):
            status, told, _ = cases.tool("install", "/usr")
        self.assertEqual(status, 0)
        self.assertTrue(all(line.startswith(root + "/usr/") for line in told.splitlines()))
        self.assertTrue(os.path.isfile(os.path.join(root, "usr", "bin", "ctrsim-same")))

    def test_errors(self):
        file = self.file("file", b"")
        with cases.environment(CTRSIM=cases.program(), DESTDIR=""):
            self.ends(cases.tool("install", os.path.join(file, "prefix")), 4, "cannot write")
            self.ends(cases.tool("install"), 2, "--help")
            self.ends(cases.tool("install", ""), 2, "PREFIX is empty")
        with cases.environment(CTRSIM=os.path.join(self.folder, "none"), DESTDIR=""):
            self.ends(cases.tool("install", self.prefix), 7, "CTRSIM names no file")
            self.assertFalse(os.path.exists(self.prefix))

    def test_closed_pipe(self):
        with cases.environment(CTRSIM=cases.program(), DESTDIR=""):
            self.closed_pipe("install", self.prefix)


if __name__ == "__main__":
    unittest.main()
