#!/usr/bin/env python3
"""Counts what the documents say, and looks whether what they point at is there.

    tools/prose.py              the counts, and what is wrong, a line each
    tools/prose.py FILE..       of these documents: words, sentences, words a sentence, and each sentence that is too long

Words are what white space separates, in all of a document. A sentence ends at `.`, `?` or `!`, and at the end of a paragraph or a point of a
list; tables, headings and code have none. `tools/form.py` calls `wrong_in_documents`.
"""
import pathlib
import re
import subprocess
import sys

TOP = pathlib.Path(__file__).resolve().parent.parent

LONGEST_SENTENCE = 45
MOST_LONG_SENTENCES = 25
MOST_WORDS = 29_500
MOST_WORDS_A_SENTENCE_OF_THE_README = 16
# Documents that a script makes.
MADE = ("docs/CALLS.md", "docs/THEOREM.md")
# Folders whose files are made, and never kept in the repository; and the crate that a reader of an example makes.
UNKEPT = ("out", "dist", "release", "mine")


def documents_by_hand():
    """README.md, CONTRIBUTING.md and docs/, but for pages that scripts make."""
    paths = [TOP / "README.md", TOP / "CONTRIBUTING.md", *sorted((TOP / "docs").glob("*.md"))]
    return [path for path in paths if path.is_file() and path.relative_to(TOP).as_posix() not in MADE]


def blocks(text):
    """The paragraphs and points of lists of a document, each as one line; tables, headings and code aside."""
    block, fenced = [], False
    for line in [*text.split("\n"), ""]:
        bare = line.strip()
        fence = bare.startswith("```")
        starts = re.match(r"(?:[-*+]|\d+\.)\s+", bare)
        aside = not bare or fence or fenced or bare.startswith(("#", "|", "<!--")) or (line.startswith("    ") and not block)
        if (aside or starts) and block:
            yield " ".join(block)
            block = []
        if fence:
            fenced = not fenced
        elif not aside:
            block.append(bare[starts.end():] if starts else bare)


def sentences(text):
    """The sentences of a document, each as a list of words."""
    for block in blocks(text):
        for sentence in re.split(r"(?<=[.?!])(?:[*_`\")]*)\s+(?=[^a-z])", block):
            words = [word for word in sentence.split() if re.search(r"\w", word)]
            if words:
                yield words


def long_sentences(text):
    return [words for words in sentences(text) if len(words) > LONGEST_SENTENCE]


def mean(text):
    counts = [len(words) for words in sentences(text)]
    return sum(counts) / len(counts)


def tracked():
    return subprocess.run(["git", "ls-files"], cwd=TOP, capture_output=True, text=True, check=True).stdout.split("\n")


def dead_in(path, folders):
    """Links of a document to files that aren't there, and paths from the top of the repository that aren't there. A word in
    capitals, a star or two dots stand for any name."""
    text = path.read_text(encoding="utf-8")
    for target in re.findall(r"\]\(([^)#\s]+)[^)]*\)", text):
        if not re.match(r"\w+:", target) and not (path.parent / target).exists():
            yield target
    for found in re.findall(rf"(?<![\w/.$~-])((?:{'|'.join(folders)})/[\w./*-]*)", text):
        parts = found.rstrip(".").split("/")
        known = [part for part in parts if not re.search(r"[*]|\.\.", part) and not re.fullmatch(r"[A-Z]+(\.\w+)?", part)]
        told = [part for part in parts if re.fullmatch(r"[A-Z]+(\.\w+)?", part)]
        if not any(part in UNKEPT for part in parts) and (known == parts or told) and not (TOP / "/".join(parts)).exists():
            if known == parts or not list(TOP.glob("/".join("*" if part in told or part not in known else part for part in parts))):
                yield found


def wrong_in_documents():
    texts = {path: path.read_text(encoding="utf-8") for path in documents_by_hand()}
    words = sum(len(text.split()) for text in texts.values())
    long = {path: len(long_sentences(text)) for path, text in texts.items()}
    if words > MOST_WORDS:
        yield f"the documents by hand: {words} words, more than {MOST_WORDS}"
    if sum(long.values()) > MOST_LONG_SENTENCES:
        where = ", ".join(f"{path.name} {count}" for path, count in long.items() if count)
        yield f"the documents by hand: {sum(long.values())} sentences of more than {LONGEST_SENTENCE} words, more than {MOST_LONG_SENTENCES} ({where})"
    a_sentence = mean(texts[TOP / "README.md"])
    if a_sentence > MOST_WORDS_A_SENTENCE_OF_THE_README:
        yield f"README.md: {a_sentence:.1f} words a sentence in the mean, more than {MOST_WORDS_A_SENTENCE_OF_THE_README}"
    files = tracked()
    folders = sorted({file.split("/")[0] for file in files if "/" in file} - {".ci"})
    for file in files:
        if file.endswith(".md") and (TOP / file).is_file():
            for dead in dead_in(TOP / file, folders):
                yield f"{file}: there is no {dead}"


def main():
    for path in map(pathlib.Path, sys.argv[1:]):
        text = path.read_text(encoding="utf-8")
        print(f"{path}: {len(text.split())} words, {len(list(sentences(text)))} sentences of {mean(text):.1f} words, {len(long_sentences(text))} too long")
        for words in long_sentences(text):
            print(f"  {len(words)}: {' '.join(words)}")
    if len(sys.argv) == 1:
        for path in documents_by_hand():
            text = path.read_text(encoding="utf-8")
            print(f"{path.relative_to(TOP)}: {len(text.split())} words, {mean(text):.1f} a sentence, {len(long_sentences(text))} sentences too long")
        wrong = list(wrong_in_documents())
        print(*wrong, sep="\n")
        sys.exit(1 if wrong else 0)


if __name__ == "__main__":
    main()
