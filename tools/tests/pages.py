"""The commands of the pages, each block run as it stands; and a C program that isn't in a page, by both compilers."""
import os
import re
import shutil
import subprocess
import sys
import unittest

sys.path.insert(0, os.path.dirname(os.path.abspath(__file__)))

import cases
import hosts

COMPILERS = ["riscv64-unknown-elf-gcc", "clang"]
BOLT = "/usr/lib/llvm-19/bin/llvm-bolt"
GCC_OF_THE_PAGE = "12.2.0"
FLAMEGRAPH = "/usr/share/perl5/Devel/NYTProf/flamegraph.pl"


PICOLIBC = "/usr/lib/picolibc/riscv64-unknown-elf/lib/picolibc.ld"


def missing(command):
    """The compiler, or perf, that a block of commands needs and that isn't here, or nothing."""
    for name in COMPILERS + ["perf"]:
        if re.search(r"^%s " % name, command, re.M) and not is_here(name):
            return name
    if re.search(r"^parallel ", command, re.M) and not (is_here("parallel") and os.environ.get("SECOND")):
        return "GNU parallel or a second host"
    if re.search(r"\bsbatch ", command) and not os.environ.get("SLURM_CONF"):
        return "a cluster"
    if "picolibc.specs" in command and not os.path.exists(PICOLIBC):
        return "picolibc"
    return ""


def is_here(name):
    return bool(shutil.which(name)) and (name != "clang" or bool(shutil.which("ld.lld")))


# What needs a library's heap, its thread-local errno, a variable of the program's own in that block, and none behind it.
OF_A_LIBRARY = b"""
#include <errno.h>
#include <limits.h>
#include <stdlib.h>
static __thread int mine = 7;
static __thread int zero;
int other = 5;
__attribute__((noinline)) void good(void) { for (;;) { } }
__attribute__((noinline)) void bad(void) { for (;;) { } }
int main(void)
{
    long most = strtol("99999999999999999999", 0, 10);
    void *much = malloc(1 << 22), *little = malloc(1000);
    if (most == LONG_MAX && errno == ENOMEM && !much && little && mine == 7 && zero++ == 0 && other == 5)
        good();
    bad();
}
"""


def is_gcc_of_the_page():
    if not shutil.which(COMPILERS[0]):
        return False
    said = subprocess.run([COMPILERS[0], "-dumpfullversion"], stdout=subprocess.PIPE, check=True).stdout
    return said.decode().strip() == GCC_OF_THE_PAGE


class Pages(cases.Case):
    def blocks(self, page):
        """The blocks of a page: of commands, and of what they print."""
        with open(os.path.join(cases.TOP, "docs", page), encoding="utf-8") as file:
            return re.findall(r"^```(\w*)\n(.*?)^```$", file.read(), re.M | re.S)

    def run_page(self, page, folder=cases.TOP):
        """Runs the commands of a page in a folder, with another one in the place of /tmp. What they print, and what the
        page says that they print."""
        printed, told = "", ""
        with cases.environment(CTRSIM=cases.program()):
            for kind, text in self.blocks(page):
                if kind != "sh":
                    told += text
                elif missing(text):
                    print("%s: a block of commands is left out, for want of %s" % (page, missing(text)))
                else:
                    command = ["bash", "-e", "-o", "pipefail", "-c", text.replace("/tmp", self.folder)]
                    status, output, said = cases.run(command, cwd=folder)
                    self.assertEqual(status, 0, (text, said))
                    printed += said.decode() + output.decode()
        return printed, told

    def test_definitions(self):
        """The list of definitions is what the sources give."""
        status, _, said = cases.run([os.path.join(cases.TOP, "docs", "definitions.py"), "--check"])
        self.assertEqual((status, said), (0, b""))

    def test_links(self):
        """Every link of every page that isn't to another site leads to a file or a folder."""
        pages, missing = 0, []
        for folder, folders, names in os.walk(cases.TOP):
            folders[:] = [name for name in folders if name not in ("out", ".git", "crates", "__pycache__")]
            for name in names:
                if name.endswith(".md"):
                    pages += 1
                    path = os.path.join(folder, name)
                    with open(path, encoding="utf-8") as file:
                        text = re.sub(r"^```.*?^```$", "", file.read(), flags=re.M | re.S)
                    for target in re.findall(r"\]\(([^)#\s]+)(?:#[^)]*)?\)", text):
                        if not re.match(r"\w+:", target) and not os.path.exists(os.path.join(folder, target)):
                            missing.append((os.path.relpath(path, cases.TOP), target))
        self.assertGreater(pages, 30)
        self.assertEqual(missing, [])

    def test_profiling_a_c_program(self):
        if all(missing("%s " % name) for name in COMPILERS):
            self.skipTest("no compiler for RISC-V")
        printed, told = self.run_page("profiling-a-c-program.md")
        self.assertRegex(printed, r"(?m)^enter;main;place;place;place;place;place;place;attacked \d+$")
        if os.path.exists(PICOLIBC) and is_here(COMPILERS[0]):
            with open(os.path.join(self.folder, "sorted.stacks"), encoding="ascii") as file:
                stacks = file.read()
            self.assertIn("enter;main;qsort;by_count ", stacks)
            self.assertIn("enter;main;snprintf;", stacks)
            self.assertNotIn("trap", stacks)
        if not is_gcc_of_the_page():
            self.skipTest("what is printed isn't compared, since it is that of gcc %s" % GCC_OF_THE_PAGE)
        for line in told.splitlines():
            self.assertIn(line + "\n", printed)

    def test_in_your_ci(self):
        if missing("clang "):
            self.skipTest("no clang with lld")
        printed, _ = self.run_page("in-your-ci.md")
        self.assertIn("at a_three+0x4 the records show the 3 branches that they should\n", printed)
        # The steps of the workflow itself, but for the checkouts and the compiler; and each mistake of the example.
        with open(os.path.join(cases.TOP, "docs", "ci", "workflow.yml"), encoding="utf-8") as file:
            steps = re.findall(r"^        run: \|\n((?:          .*\n)+)", file.read(), re.M)
        self.assertEqual(len(steps), 3)
        if not shutil.which("rustc"):
            steps[0] = "cp %s simulator\n" % cases.program()
        words = {"CTRSIM_AT": cases.TOP, "SWITCH": "switch"}
        status, output, said = self.steps_of("".join(steps), words)
        self.assertEqual((status, output.splitlines()[-1:]), (0, [b"at a_three+0x4 the records show the 3 branches that they should"]),
                         said)
        for mistake, shown in (("NO_RECORDS", b"b_four b_five call"), ("VALID_ONLY", b"b_three b_four call"),
                               ("POINTER_LAST", b"a_main a_one call\n  a_two a_three ind_call"),
                               ("NO_TYPES", b"a_two a_three call"), ("DEPTH_LAST", b"the records show\n  \nand not")):
            status, output, said = self.steps_of("".join(steps[1:]), dict(words, FLAGS="-D" + mistake))
            self.assertEqual(status, 1, mistake)
            self.assertIn(shown, said, mistake)

    def steps_of(self, steps, words):
        """Runs steps of the workflow in the folder that the page's commands made."""
        with cases.environment(**words):
            return cases.run(["bash", "-e", "-c", steps], cwd=os.path.join(self.folder, "ci"))

    def test_ctrtools(self):
        if missing("clang "):
            self.skipTest("no clang with lld")
        self.run_page("profiling-a-c-program.md")
        printed, _ = self.run_page("ctrtools.md")
        # place calls itself and attacked, and main calls place once.
        self.assertRegex(printed, r"(?m)^enter -> main (\d+)$")
        self.assertRegex(printed, r"(?m)^place -> attacked \d+$")
        with open(os.path.join(self.folder, "attacked.stacks"), encoding="ascii") as file:
            stacks = file.read().splitlines()
        self.assertTrue(stacks)
        self.assertTrue(all(";place;attacked" in line for line in stacks), stacks)

    def test_flame_graphs(self):
        if missing("clang ") and missing("riscv64-unknown-elf-gcc "):
            self.skipTest("no compiler for RISC-V")
        if not os.path.exists(FLAMEGRAPH):
            self.skipTest("no flamegraph.pl")
        self.run_page("profiling-a-c-program.md")
        self.run_page("flame-graphs.md")
        with open(os.path.join(self.folder, "flame.svg"), encoding="utf-8") as file:
            made = file.read()
        for name in ("place", "attacked", "main"):
            self.assertRegex(made, r"<title>%s \(\d+ samples" % name)
        if is_gcc_of_the_page():
            # The picture of the page, whose boxes may stand in another order.
            with open(os.path.join(cases.TOP, "docs", "flame-graph.svg"), encoding="utf-8") as file:
                boxes = re.findall(r"<title>.*", file.read())
            self.assertEqual(sorted(re.findall(r"<title>.*", made)), sorted(boxes))
            self.assertGreater(len(boxes), 10)

    def test_tools_with_perf(self):
        if missing("clang ") or missing("perf "):
            self.skipTest("no clang with lld, or no perf")
        self.run_page("profiling-a-c-program.md")
        printed, _ = self.run_page("tools.md")
        self.assertRegex(printed, r"(?m)^task0;enter;main;place;place;place;place;place;place;attacked \d+$")

    def test_from_samples_to_bolt(self):
        if missing("perf ") or not os.path.exists(BOLT) or not shutil.which("llvm-profgen-19") or not is_gcc_of_the_page():
            self.skipTest("no perf, no bolt-19, no llvm-19, or no gcc %s for RISC-V" % GCC_OF_THE_PAGE)
        blocks = [text for kind, text in self.blocks("from-samples-to-bolt.md") if kind == "sh"]
        with cases.environment(CTRSIM=cases.program(), TOOLS=cases.TOOLS):
            status, output, said = cases.run(["bash", "-e", "-o", "pipefail", "-c", "\n".join(blocks)], cwd=self.folder)
        self.assertEqual(status, 0, said)
        self.profgen_warns_of_jumps()
        # The steps before and after, as the page has them.
        self.assertEqual([line for line in output.decode().splitlines() if re.fullmatch(r"\d+", line)][:2], ["88900", "85500"])

    def profgen_warns_of_jumps(self):
        """The ranges of which llvm-profgen says that they don't end at an instruction are those that end at a JAL or JALR."""
        status, output, said = cases.run(["llvm-profgen-19", "--perfscript=words.text", "--binary=words.debug", "--format=text",
                                          "--output=again.prof", "--show-detailed-warning"], cwd=self.folder)
        self.assertEqual(status, 0, said)
        pair = r"\[([0-9a-f]+),([0-9a-f]+)\]: Range is not on instruction boundary"
        warned = {(int(start, 16), int(end, 16)) for start, end in re.findall(pair, (output + said).decode())}
        listing = cases.run(["riscv64-unknown-elf-objdump", "-d", "-M", "no-aliases", "words.debug"], cwd=self.folder)[1].decode()
        names = {int(at, 16): name for at, name in re.findall(r"^\s*([0-9a-f]+):\t[0-9a-f]+\s+(\S+)", listing, re.M)}
        with open(os.path.join(self.folder, "words.text"), encoding="utf-8") as file:
            lines = [[tuple(int(word, 16) for word in entry.split("/")[:2]) for entry in line.split()[1:]]
                     for line in file if not line.startswith("PERF")]
        ranges = {(older[1], younger[0]) for branches in lines for younger, older in zip(branches, branches[1:])}
        self.assertEqual(warned, {found for found in ranges if names[found[1]] in ("jal", "jalr")})
        self.assertTrue(ranges - warned and warned)

    def test_many_runs(self):
        if missing("clang "):
            self.skipTest("no clang with lld")
        with hosts.second_host(self.folder) as second, hosts.cluster(self.folder) as slurm:
            # Without either the blocks that need it are left out, and a line says so.
            with cases.environment(**dict(second or {}, **(slurm or {}))):
                printed, told = self.run_page("many-runs.md")
        if slurm:
            self.assertEqual(printed.replace(self.folder, "/tmp").count(told), 1, printed[-500:])
            with open(os.path.join(self.folder, "sweep", "slurm.stacks"), encoding="ascii") as file:
                self.assertEqual(sum(int(line.split()[-1]) for line in file), 5 * 1003)
        if second and is_here("parallel"):
            with open(os.path.join(self.folder, "sweep", "log"), encoding="ascii") as file:
                runs = [line.split("\t") for line in file.read().splitlines()[1:]]
            self.assertEqual(len(runs), 20)
            self.assertEqual({run[1] for run in runs}, {":", "localhost"})
            self.assertEqual({run[6] for run in runs}, {"0"})
        rows = [line.split() for line in printed.splitlines() if re.fullmatch(r"\w+ \d+ \d+ \d+", line)]
        self.assertEqual(len(rows), 20)
        stacks = {int(depth): int(full) for kind, depth, full, _ in rows if kind == "call_stack"}
        # A deeper buffer is full in fewer samples; 256 entries hold all of the calls, which are 202 at most.
        self.assertEqual(sorted(stacks.values(), reverse=True), [stacks[depth] for depth in (16, 32, 64, 128, 256)])
        self.assertEqual(stacks[256], 0)
        self.assertGreater(stacks[128], 0)


# A program with a recursion, a tail call, a copy of a structure, and a multiplication.
PROGRAM = b"""
struct block { long words[32]; };
static struct block from, to;
volatile int result;
__attribute__((noinline)) static int fib(int n) { return n < 2 ? n : fib(n - 1) + fib(n - 2); }
__attribute__((noinline)) static int leaf(int k) { int s = 0; for (int i = 0; i < 100; i++) s += i * (k ^ s); return s; }
__attribute__((noinline)) static int tail(int k) { result += k; return leaf(k + 1); }
int main(void)
{
    for (int i = 0; i < 20; i++) {
        to = from;
        from.words[i] += result;
        result += fib(9) + tail(i);
    }
    return 0;
}
"""
COMMON = ["-mabi=lp64", "-mcmodel=medany", "-O2", "-ffreestanding", "-nostdlib", "-static"]
COMMANDS = {"riscv64-unknown-elf-gcc": ["-march=rv64im", "-Wa,-march=rv64im_zicsr", "-Wl,--no-warn-rwx-segments"],
            "clang": ["--target=riscv64", "-march=rv64im", "-fuse-ld=lld"]}


class Programs(cases.Case):
    def profiled(self, compiler, mode):
        if missing(compiler + " "):
            self.skipTest("no %s" % compiler)
        start = os.path.join(cases.TOOLS, "start")
        elf, samples = os.path.join(self.folder, "program"), os.path.join(self.folder, "samples")
        sources = [os.path.join(start, "start.S"), os.path.join(start, "memory.S"), self.file("program.c", PROGRAM)]
        words = [compiler] + COMMANDS[compiler] + COMMON + ["-DUSER"] * (mode == "U")
        words += ["-T", os.path.join(start, "link.ld")] + sources + ["-lgcc"] * ("gcc" in compiler)
        subprocess.run(words + ["-o", elf], check=True)
        with cases.environment(CTRSIM=cases.program()):
            status, _, said = cases.tool("record", elf, "--mode", mode, "--steps", "60000", "--every", "97", "-o", samples)
        self.assertEqual(status, 0, said)
        self.assertRegex(said, r"after 60000 steps it stood in mode %s at enter\+0x[48], as in the last" % mode)
        status, text, said = cases.tool("fold", elf, "987", samples)
        self.assertEqual((status, said), (0, ""))
        stacks = [line.rsplit(" ", 1)[0] for line in text.splitlines()]
        self.assertIn("enter;main;fib;fib", "\n".join(stacks))
        # leaf is entered by the tail call of tail alone, if the compiler made one; main calls it otherwise.
        self.assertTrue({"enter;main;tail;leaf", "enter;main;leaf"} & set(stacks), stacks)
        self.assertFalse([stack for stack in stacks if "[unknown]" in stack or "trap" in stack])

    def test_a_library(self):
        if missing("riscv64-unknown-elf-gcc ") or not os.path.exists(PICOLIBC):
            self.skipTest("no gcc for RISC-V, or no picolibc")
        elf, start = os.path.join(self.folder, "program"), os.path.join(cases.TOOLS, "start")
        subprocess.run(["riscv64-unknown-elf-gcc", "--specs=picolibc.specs", *COMMANDS["riscv64-unknown-elf-gcc"], "-mabi=lp64",
                        "-mcmodel=medany", "-O2", "-nostartfiles", "-static", "-DLIBC", "-T", os.path.join(start, "link.ld"),
                        os.path.join(start, "start.S"), self.file("program.c", OF_A_LIBRARY), "-o", elf], check=True)
        with cases.environment(CTRSIM=cases.program()):
            status, _, said = cases.tool("record", elf, "--until", "good", "-o", os.path.join(self.folder, "samples"))
        self.assertEqual(status, 0, said)

    def test_gcc_in_m(self):
        self.profiled("riscv64-unknown-elf-gcc", "M")

    def test_gcc_in_u(self):
        self.profiled("riscv64-unknown-elf-gcc", "U")

    def test_clang_in_m(self):
        self.profiled("clang", "M")

    def test_clang_in_u(self):
        self.profiled("clang", "U")


if __name__ == "__main__":
    unittest.main()
