"""--help, --version, the completions and the manual page."""
import os
import re
import shutil
import subprocess

from .comparisons import run, same, TOP


def try_forms_of_help(work):
    whole = run("--help")
    for words in ("-h", "help", "help --help", "--help gc", "-V -h", "nothing --help", "-q -o out --help"):
        same(f"the arguments {words!r}", run(*words.split()), whole)
    same("-V", run("-V"), run("--version"))
    for name in ("gc", "report", "list", "check", "sections", "strip", "snip", "stub", "why"):
        for words in ("{} --help", "{} -h", "help {}", "{} -o out in -h in in", "{} -x --json=1 --help", "{} -o -o --help", "{} --help -- in"):
            same(f"the arguments {words.format(name)!r}", run(*words.format(name).split()), run(name, "--help"))


def try_help(work):
    version = run("--version")
    same("--version", (version[0], version[2], re.fullmatch(rb"mulkavesh \d+\.\d+\.\d+\n", version[1]) is not None), (0, "", True))
    words = ["gc", "report", "list", "check", "sections", "strip", "snip", "stub", "why"]
    whole = run("--help")
    same("--help", (whole[0], whole[2]), (0, ""))
    flags = {}
    for word in words:
        same(f"--help names {word}", f"\n  {word} " in whole[1].decode(), True)
        status, text, said = run(word, "--help")
        same(f"{word} --help", (status, said, text.startswith(f"usage: mulkavesh {word} ".encode())), (0, "", True))
        flags[word] = set(re.findall(r"--[a-z-]+", text.decode()))
        for flag in (
            "--no-names", "--no-producers", "--no-legacy", "--quiet", "--json", "--section=x", "--names", "--producers", "--debug", "--all", "--exports",
            "--imports", "--dropped", "--callers", "--keep=x", "--drop=x", "--function=x", "--module=x", "--import=x", "--by=size",
        ):
            operand = {"strip": ["--section=y"], "snip": ["--function=y"], "stub": ["--module=y"], "why": ["x"]}.get(word, [])
            known = run(word, flag, *operand, data=b"")[0] != 2
            flag = flag.split("=")[0]
            same(f"{word} --help names {flag}", flag in flags[word], known)
    lines = [line for it in (whole, *(run(word, "--help") for word in words)) for line in it[1].decode().splitlines()]
    same("the longest line of --help", max(map(len, lines)) <= 150, True)
    in_the_completions(words, flags)
    in_the_manual(words, set().union(*flags.values()))


def completed(*words):
    text = 'source "$FILE"; COMP_WORDS=("$@"); COMP_CWORD=$(($# - 1)); _mulkavesh; printf "%s\\n" "${COMPREPLY[@]}"'
    done = subprocess.run(["bash", "-c", text, "bash", *words], capture_output=True, check=False, cwd=TOP / "tests",
                          env={**os.environ, "FILE": str(TOP / "completions" / "mulkavesh.bash")})
    same(f"what the completion of {words} says", (done.returncode, done.stderr), (0, b""))
    return set(done.stdout.decode().split())


def in_the_completions(words, flags):
    same("bash -n of the completions", subprocess.run(["bash", "-n", TOP / "completions" / "mulkavesh.bash"], check=False).returncode, 0)
    for shell in ("zsh", "fish"):
        path = TOP / "completions" / f"mulkavesh.{shell}"
        if shutil.which(shell):
            same(f"{shell} -n of the completions", subprocess.run([shell, "-n", path], check=False).returncode, 0)
        text = path.read_text()
        for word in [*words, *(flag[2:] for flag in set().union(*flags.values())), "output", "version"]:
            same(f"the completions of {shell} name {word}", word in text, True)
    same("the first word", completed("mulkavesh", ""), {*words, "help", "--help", "--version"})
    same("a word that is begun", completed("mulkavesh", "s"), {"sections", "strip", "snip", "stub"})
    same("a word behind help", completed("mulkavesh", "help", "st"), {"strip", "stub"})
    for word in words:
        same(f"the options of {word}", completed("mulkavesh", word, "-"), {*flags[word], "--help", "-o", "--output", *(["-n"] if word == "list" else [])})
    same("a file", "samples" in completed("mulkavesh", "gc", "sam"), True)
    same("a name behind --section", completed("mulkavesh", "strip", "--section", "na"), {"name"})
    same("an order behind --by", completed("mulkavesh", "list", "--by", "s"), {"size"})
    same("no file behind --keep", completed("mulkavesh", "gc", "--keep", "sam"), set())
    for option in ("-o", "--output"):
        same(f"a file behind {option}", "samples" in completed("mulkavesh", "gc", option, "sam"), True)


def in_the_manual(words, flags):
    page = TOP / "man" / "mulkavesh.1"
    if not shutil.which("groff"):
        print("not tried: the manual page, since there is no groff")
        return
    done = subprocess.run(["groff", "-man", "-Tascii", "-ww", page], capture_output=True, check=False)
    same("what groff says of the manual page", (done.returncode, done.stderr), (0, b""))
    text = page.read_text().replace("\\-", "-")
    for word in [*words, *flags, "-h", "--help", "-V", "--version", "-q", "-o", "--output", "--output=", "--section="]:
        same(f"the manual page names {word}", word in text, True)
