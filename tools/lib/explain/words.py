"""Says which of the words of a command make it none."""
import re

MOST_CHECKERS, MOST_FILES = 16, 64
VALUES = {"--depth": ("[0-8]", "one digit from 0 to 8"), "--format": ("table|json", "table or json")}


def explained(words):
    """What is wrong with the words of a command that metalcheck answered with its usage."""
    files, ended = files_of(words)
    if isinstance(files, str):
        return files
    for word in files:
        if word.startswith("-") and word != "-" and not ended:
            return f"{word}: options stand before the first file; a file of such a name stands behind --"
    checkers = sum(word.endswith(".metal") for word in files)
    if checkers > MOST_CHECKERS or len(files) - checkers > MOST_FILES:
        return (f"{checkers} checkers and {len(files) - checkers} C files: at most {MOST_CHECKERS} and {MOST_FILES} a run "
                "(tools/check_commands divides them)")
    if checkers == len(files):
        return "there is no C file among the words: a name that ends in .metal is a checker's, any other a C file's"
    return "these words are no command: docs/COMMAND.md has the table of words"


def files_of(words):
    """The files behind the options, and whether `--` ended these; or what is wrong with an option, and False."""
    seen, at = set(), 0
    while at < len(words) and words[at].startswith("-") and words[at] != "-":
        if words[at] == "--":
            return words[at + 1:], True
        name, equals, value = words[at].partition("=")
        if name not in VALUES and words[at] != "--stats":
            return no_option(words[at]), False
        if name in seen:
            return f"{name} stands twice", False
        seen.add(name)
        if name in VALUES and not equals:
            at += 1
            value = words[at] if at < len(words) else ""
        wrong = wrong_value(name, value)
        if wrong:
            return wrong, False
        at += 1
    return words[at:], False


def wrong_value(name, value):
    """What is wrong with the value of an option, or nothing."""
    pattern, wanted = VALUES.get(name, ("", ""))
    if not value and wanted:
        return f"{name}: a value is wanted behind it, {wanted}"
    return "" if re.fullmatch(pattern, value) else f"{name} {value}: the value is {wanted}"


def no_option(word):
    """What is said of a word that is no option."""
    if word.partition("=")[0] == "--generate":
        return "--generate stands alone, with a number from 1 to 9999 in a word of its own and no zero in front"
    return f"{word}: there is no such option; there are --depth N, --format NAME and --stats (docs/COMMAND.md)"
