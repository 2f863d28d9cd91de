"""The pages are read once: sentences are short, README is short, and words of our own are explained where they are used."""
import glob
import os
import re
import unittest

from built import ROOT

MOST_WORDS_OF_README = 1500
MOST_WORDS_OF_A_SENTENCE = {"README.md": 30}
MOST_WORDS_ELSEWHERE = 35

GLOSSARY = "docs/WORDS.md"
PAGES = sorted(
    {
        "README.md",
        "CONTRIBUTING.md",
        "bench/README.md",
        "workflow/README.md",
        *(os.path.relpath(page, ROOT) for page in glob.glob(f"{ROOT}/docs/*.md")),
        *(os.path.relpath(page, ROOT) for page in glob.glob(f"{ROOT}/examples/**/README.md", recursive=True)),
    }
)
# Phrases that stand for a noun, so that a reader has to look for it, and how often the pages have each. A number only falls.
PRONOUNS = {
    "those of": 3,
    "that of": 1,
    "the same of": 0,
    "what is told": 0,
    "it is so": 0,
    "is so where": 0,
    "befell": 0,
    "wanting": 0,
    "want of memory": 0,
    "no longer": 0,
    "any more": 0,
}


def read(name: str) -> str:
    with open(f"{ROOT}/{name}", encoding="utf-8") as page:
        return page.read()


def prose(text: str) -> list[str]:
    """The paragraphs and list items of a page, without tables, heads and code."""
    text = re.sub(r"```.*?```", "", text, flags=re.S).replace("**", "")
    paragraphs = []
    for block in re.split(r"\n\s*\n", text):
        lines = [line for line in block.split("\n") if not line.startswith(("|", "#", "    ", "!["))]
        items = re.split(r"^\s*(?:[-*]|\d+\.)\s+", "\n".join(lines), flags=re.M)
        paragraphs += [" ".join(item.split()) for item in items if item.strip()]
    return paragraphs


def sentences(text: str) -> list[str]:
    return [it for part in prose(text) for it in re.split(r"(?<=[.!?])\s+(?=[A-Z`'\"(\[]|\w+/)", part)]


def long_sentences(text: str, most: int) -> list[tuple[int, str]]:
    """Sentences of more words than `most` with the count of each, but for lists of names."""
    counted = [(len(it.split()), it) for it in sentences(text)]
    return [(count, it) for count, it in counted if count > most and not is_list_of_names(it)]


def is_list_of_names(sentence: str) -> bool:
    """Whether half of the words or more are names in code."""
    names = re.findall(r"`[^`]*`", sentence)
    return 2 * sum(len(it.split()) for it in names) >= len(sentence.split())


def own_words(text: str) -> list[str]:
    """The second column of the glossary's tables, but for what stands in code, since an output or a file has it so."""
    rows = [row.split("|") for row in text.split("\n") if re.match(r"\| (?!In the field)", row)]
    cells = [re.sub(r"`[^`]*`", "", row[2]) for row in rows]
    return [word for cell in cells for word in map(str.strip, re.split("[,;]", cell)) if len(word) > 1]


def used(words: list[str], text: str) -> list[str]:
    return [word for word in words if re.search(rf"(?<![\w-]){re.escape(word)}s?\b", text)]


class Words(unittest.TestCase):
    def test_sentences_are_short(self) -> None:
        for page in PAGES:
            most = MOST_WORDS_OF_A_SENTENCE.get(page, MOST_WORDS_ELSEWHERE)
            with self.subTest(page):
                found = long_sentences(read(page), most)
                self.assertEqual(found, [])

    def test_readme_is_short(self) -> None:
        self.assertLessEqual(len(read("README.md").split()), MOST_WORDS_OF_README)

    def test_pronouns_become_fewer(self) -> None:
        text = " ".join(" ".join(read(page).split()) for page in PAGES).lower()
        counts = {phrase: len(re.findall(rf"\b{phrase}\b", text)) for phrase in PRONOUNS}
        self.assertEqual({it: counts[it] for it in counts if counts[it] > PRONOUNS[it]}, {}, "more than PRONOUNS has")

    def test_readme_links_the_glossary_before_it_uses_its_words(self) -> None:
        for_users = read(GLOSSARY).partition("\n## The code\n")[0]
        front, link, _ = read("README.md").partition(f"]({GLOSSARY})")
        self.assertNotEqual(link, "")
        self.assertEqual(used(own_words(for_users), front.lower()), [])

    def test_pages_with_words_of_ours_name_the_glossary(self) -> None:
        words = own_words(read(GLOSSARY))
        self.assertGreater(len(words), 30)
        for page in set(PAGES) - {GLOSSARY}:
            with self.subTest(page):
                named = re.search(r"(docs/|\()WORDS\.md", read(page))
                self.assertTrue(named or not used(words, read(page)), f"it has words of {GLOSSARY}, and no link to it")

    def test_sentences_are_counted(self) -> None:
        text = "# Head of a page\n\nOne two. `Three` four\nfive: six.\n\n| no |\n|---|\n\n- Seven\n- eight\n\n```text\nno\n```\n"
        self.assertEqual(sentences(text), ["One two.", "`Three` four five: six.", "Seven", "eight"])
        self.assertEqual(long_sentences(text, 3), [(4, "`Three` four five: six.")])


if __name__ == "__main__":
    unittest.main()
