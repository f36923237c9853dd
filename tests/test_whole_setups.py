"""The whole setups of docs/setups: `check` takes each of them and warns of nothing."""
import glob
import os

from peers import expect, same
from test_startup import printed

FOLDER = os.path.join(os.path.dirname(os.path.abspath(__file__)), "..", "docs", "setups")
NAMES = ["chain-first", "chain-second", "one-pmu", "pdc", "slow-wan", "two-subscribers"]


def whole_setups():
    """The text of each file, by its name."""
    texts = {}
    for path in sorted(glob.glob(f"{FOLDER}/*.toml")):
        with open(path, encoding="utf-8") as f:
            texts[os.path.basename(path).removesuffix(".toml")] = f.read()
    return texts


def test_each_whole_setup(bench):
    """`check` ends with status 0, prints the subscribers that would run, and has no error and no warning."""
    texts = whole_setups()
    same(list(texts), NAMES)
    for name, text in texts.items():
        status, out, errors = printed(bench, text, "check", name)
        same((status, errors), (0, ""), f"{name}.toml\n`check`:")
        same(out.count("; ring of "), text.count("[[subscriber]]"), f"{name}.toml, the subscribers that would run:")


def test_the_head_of_each_whole_setup(bench):
    """A comment of two lines says what the file is of."""
    for name, text in whole_setups().items():
        heads = [line.startswith("# ") for line in text.splitlines()[:3]]
        expect(heads == [True, True, False], f"{name}.toml begins with another comment than one of two lines")
