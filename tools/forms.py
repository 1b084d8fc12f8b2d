#!/usr/bin/env python3
"""Lists the places of src/ where an older form of the language may stand, point by point (docs/DESIGN-PASS.md).

    tools/forms.py [-v] [COMMIT]     counts, at a commit or in the working tree; with -v each place

A row is a place to look at, and no verdict: what stays has its reason beside it, and the page counts it as kept.
"""
import re, subprocess, sys

POINTS = [
    ("1", "enums", r"^\s*(pub |pub\(crate\) )?enum \w+"),
    ("1", "a flag beside a value", r"^\s+(pub )?(\w*ready|taken|fixed|known|has_\w+|as_sent|encrypted): (bool|u32)\b"),
    ("1", "numbers for kinds or refusals", r"\b(kind: usize|op: u8|number: u8|number: u32|cipher: u32|integrity: u32)\b|\bfn number\(self\)"),
    ("2", "functions and types named alike but for a size or a kind",
     r"\b(fn|struct|enum) (\w*(16|32|64|128|192|256)|\w*(media|control|sender|receiver)\w*|(Sender|Receiver|Media|Control)\w+)\b"),
    ("3", "loops that test an index by hand", r"^\s+while "),
    ("3", "loops over a range that index with it", r"^\s+for \w+ in \S+\.\.\S+ \{"),
    ("4", "conversions and library functions by hand",
     r"\bfn (same|wide|size|least|smaller|one_more|of|words|to_core|from_core|cipher_of|cipher_number|integrity_of|integrity_number|last_of|"
     r"has_last|last_index|highest_of|has_highest|highest_index|number_of|number_given|set_up_number|word|add|rotl|clear|encrypts|refusal_of|"
     r"cipher_named|initial|refused|bytes|load)\b"),
    ("4", "printing in pieces", r"words::(text|number|line)\("),
    ("5", "facts that three or more contracts say",
     r"(requires|ensures).*(SBoxTable|RoundTable|FrontOf|words_of s →|Ring m|Placed|Holds self|self\.got|length w\.now ≡ 44|mki_len ≤ 4|tag_len ≤ 14|14 ≤ length out|"
     r"length packet\.now ≤ 2048|4 \* nr)"),
    ("5", "parameters that travel together",
     r"(key: &\[u8\], salt: &\[u8\]|t: &\[u8; 256\]|t: &\[u32\], w: &\[u32\]|w: &\[u32\], nr: usize|packets: &(mut )?\[\[u8|op: u8, head: Head|body: &\[u8\], parts: Layout)"),
    ("6", "buffers with a length beside", r"^\s+(pub )?(\w+_len|len|got): (usize|u16),"),
    ("7", "a switch on which step to run", r"match (kind|op|q)\b|if op (==|<|>)"),
]


def git(*args):
    return subprocess.run(("git",) + args, capture_output=True, text=True, check=True).stdout


def sources(commit):
    if commit:
        names = git("ls-tree", "-r", "--name-only", commit).split()
    else:
        names = git("ls-files").split()
    for name in names:
        if re.fullmatch(r"crates/\w+/src/.*\.rt", name):
            yield name, git("show", f"{commit}:{name}") if commit else open(name).read()


def main():
    args = sys.argv[1:]
    verbose = "-v" in args
    commit = next((a for a in args if a != "-v"), None)
    files = list(sources(commit))
    for point, what, pattern in POINTS:
        found = [(name, i + 1, line.strip()) for name, text in files for i, line in enumerate(text.splitlines()) if re.search(pattern, line)]
        crates = {}
        for name, _, _ in found:
            crate = name.split("/")[1]
            crates[crate] = crates.get(crate, 0) + 1
        print(f"{point}  {len(found):4}  {what}: " + ", ".join(f"{c} {n}" for c, n in crates.items()))
        if verbose:
            for name, i, line in found:
                print(f"        {name}:{i}: {line}")


main()
