"""The files that a user installs beside `jm`, and what is to stand in each."""
import os

from user_files import completions, definitions, man, syntax
from user_files.told import told

TOP = definitions.TOP
# Of what the program says of itself, and of the words of the definitions.
OF_JM = {"man/jm.1": man.page, "completions/jm.bash": completions.bash, "completions/_jm": completions.zsh, "completions/jm.fish": completions.fish}
OF_WORDS = {"editors/vim/syntax/jasmin.vim": syntax.vim, "editors/vim/ftdetect/jasmin.vim": syntax.filetype,
            "editors/textmate/jasmin.tmLanguage.json": syntax.textmate}
NAMES = (*OF_JM, *OF_WORDS)


def made(jm):
    """Returns what is to stand in each file, by its name."""
    program, words = told(jm), definitions.words()
    return {name: make(program) for name, make in OF_JM.items()} | {name: make(words) for name, make in OF_WORDS.items()}


def standing(name):
    """Returns what stands in a file, if there is one."""
    path = f"{TOP}/{name}"
    if not os.path.exists(path):
        return None
    with open(path, encoding="utf-8") as file:
        return file.read()


def write(texts):
    """Writes the files."""
    for name, text in texts.items():
        os.makedirs(os.path.dirname(f"{TOP}/{name}"), exist_ok=True)
        with open(f"{TOP}/{name}", "w", encoding="utf-8") as file:
            file.write(text)
