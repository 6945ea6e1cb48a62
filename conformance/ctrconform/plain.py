"""The sources of the harts as plain Rust: contracts and proofs are taken away, and what is left is compiled by rustc.

A clause, a ghost item and an `impl Model` are no code, so what is left is the code itself. What of std is named otherwise in
Rattle is used in one file, the memory of a task, and replaced there by the same call of Rust's std.
"""
import os
import re
import shutil
import subprocess

from . import ends

# The crates of a hart, lowest first.
CRATES = ["ctr_bits", "ctr_port", "rv_decode", "rv_alu", "xfer_class", "ctr_csrs", "ctr_rules", "ctr_buffer", "guest_modes",
          "indirect_regs", "rv_hart"]
RUSTC = ["rustc", "--edition", "2024", "--cap-lints", "allow", "-C", "opt-level=1", "-C", "overflow-checks=on"]

# What is written otherwise in plain Rust, by the file; each text stands there.
MEMORY = [
    ("use byteorder::{ByteOrder, LittleEndian};", ""),
    ("use std::alloc::Global;", ""),
    ("alloc: Global, ", ""),
    ("Vec::from_slice(alloc, image)?", "image.to_vec()"),
    ("bytes.resize(mem as usize, 0)?", "bytes.resize(mem as usize, 0)"),
    ("LittleEndian::read_u16(rest)", "u16::from_le_bytes(rest[..2].try_into().unwrap())"),
    ("LittleEndian::read_u32(rest)", "u32::from_le_bytes(rest[..4].try_into().unwrap())"),
    ("LittleEndian::read_u64(rest)", "u64::from_le_bytes(rest[..8].try_into().unwrap())"),
    ("impl TaskMem {", "impl TaskMem {\n    pub fn all(&self) -> &[u8] { &self.bytes }\n"),
]
HART = [("pub use harts::{Harts, Store};", ""), ("mod harts;", "")]
OTHERWISE = {("rv_hart", "memory"): MEMORY, ("rv_hart", "lib"): HART}
LEFT_OUT = {("rv_hart", "harts")}
PORT = "#[derive(Debug)]\npub struct NoMemory;\n"


def behind(text, at):
    """The place behind the braces that open at a place."""
    depth = 0
    while True:
        depth += {"{": 1, "}": -1}.get(text[at], 0)
        at += 1
        if not depth:
            return at


def without(text, pattern, tail=""):
    """The text without each match of a pattern that ends with an opening brace, and what the braces hold."""
    while True:
        found = re.search(pattern, text)
        if not found:
            return text
        end = behind(text, found.end() - 1)
        end += len(re.match(r"\s*[%s]?" % tail, text[end:]).group()) if tail else 0
        text = text[:found.start()] + text[end:]


def plain(text):
    """A source without its contracts."""
    text = re.sub(r"(?m)^\s*//.*\n", "", text)
    text = re.sub(r"\s//[^\n\"]*(?=\n)", "", text)
    text = re.sub(r"(?m)^\s*#!?\[tactic.*\n", "", text)
    text = re.sub(r"#\[derive\(Drop\)\]|, Drop\b|use std::marker::Model;", "", text)
    text = re.sub(r"(?m)^\s*(pub )?ghost use [^;]*;", "", text)
    text = without(text, r"(?m)^\s*impl(<.*>)? Model for [^{]*\{")
    text = without(text, r"(?m)^\s*ghost [\w*]+\s*[=:]\s*\{", ";,")
    text = without(text, r"(?m)^\s*(requires|ensures)\*?(\s+\w+)*\s*\{")
    return re.sub(r"(#\[cfg\(test\)\]\s*)?\n\s*mod tests;", "", text)


def write(crates, folder):
    """Writes the plain sources of the crates of a hart into a folder."""
    for crate in CRATES:
        target = os.path.join(folder, crate)
        os.makedirs(target)
        if crate == "ctr_port":
            with open(os.path.join(target, "lib.rs"), "w", encoding="utf-8") as file:
                file.write(PORT)
            continue
        source = os.path.join(crates, crate, "src")
        for name in sorted(os.listdir(source)):
            stem = name[:-3]
            if not name.endswith(".rt") or "test" in stem or (crate, stem) in LEFT_OUT:
                continue
            with open(os.path.join(source, name), encoding="utf-8") as file:
                text = plain(file.read())
            for old, new in OTHERWISE.get((crate, stem), []):
                if old not in text:
                    raise ends.End("%s/%s: there is no text %s" % (crate, name, old))
                text = text.replace(old, new)
            with open(os.path.join(target, stem + ".rs"), "w", encoding="utf-8") as file:
                file.write(text)


def standing_on(crates, changed):
    """The crates of a hart that are to be compiled anew where some of them are changed: these, and all that stand on them
    by the list of the repository."""
    with open(os.path.join(crates, "..", "crates.txt"), encoding="utf-8") as file:
        pairs = [line.split("#")[0].partition(":") for line in file if ":" in line.split("#")[0]]
    below = {name.split()[0]: names.split() for name, _, names in pairs}
    found = set(changed)
    for crate in CRATES:
        if found.intersection(below[crate]):
            found.add(crate)
    return found


def compile_all(folder, libraries, anew, harness):
    """Compiles some of the crates, and the harness, into a folder that has the others. Answers the program, and what the
    compiler said where there is none."""
    known = []
    for crate in CRATES:
        output = os.path.join(libraries, "lib%s.rlib" % crate)
        if crate in anew:
            said = rustc(["--crate-type", "lib", "--crate-name", crate, "-o", output, os.path.join(folder, crate, "lib.rs")],
                         libraries, known)
            if said:
                return None, said
        known.append(crate)
    program = os.path.join(libraries, "harness")
    said = rustc(["-o", program, harness], libraries, known)
    return (None, said) if said else (program, "")


def rustc(words, libraries, known):
    more = [word for crate in known for word in ("--extern", "%s=%s/lib%s.rlib" % (crate, libraries, crate))]
    ended = subprocess.run(RUSTC + words + ["-L", libraries] + more, stdout=subprocess.PIPE, stderr=subprocess.STDOUT,
                           universal_newlines=True)
    return ended.stdout if ended.returncode else ""


def copied(libraries, anew, folder):
    """Copies the compiled crates, but for those that are compiled anew, into a folder."""
    for crate in CRATES:
        if crate not in anew:
            shutil.copy(os.path.join(libraries, "lib%s.rlib" % crate), folder)
