"""The words that every script of this folder takes, and the stored files that most of them make.

Without a word a script writes its files; with `--check` it compares them with what it makes, and ends with 1 where one differs. The
models have no files: they compare themselves with document 01 either way. Any other word gets the script's use, and it ends with 2.
"""
import sys
from pathlib import Path

TOP = Path(__file__).resolve().parent.parent


def checking():
    """Whether the word is `--check`. To be asked first, as making the files may take a while."""
    words = sys.argv[1:]
    if words not in ([], ["--check"]):
        print(f"use: python3 tests/{Path(sys.argv[0]).name} [--check]", file=sys.stderr)
        sys.exit(2)
    return bool(words)


def store(crate, made, made_of):
    """`made` has a file's content by its name in the crate."""
    store_in(f"crates/{crate}", made, made_of)


def store_in(folder, made, made_of):
    """The same for any folder of the repository. tests/check reads the line that is printed."""
    files = {TOP / folder / name: content for name, content in made.items()}
    if checking():
        compare(files)
    else:
        write(files)
    print(f"{folder}: {made_of}; files {'as made' if checking() else 'written'}: {' '.join(made)}")


def compare(files):
    """A difference ends the script."""
    wrong = [str(path.relative_to(TOP)) for path, content in files.items() if not path.is_file() or path.read_bytes() != content]
    if wrong:
        print("differs: " + ", ".join(wrong))
        sys.exit(1)


def write(files):
    for path, content in files.items():
        path.parent.mkdir(parents=True, exist_ok=True)
        path.write_bytes(content)
