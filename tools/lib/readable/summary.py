"""What is said of a file: one line for each function that isn't read, warnings, and counts at the end."""


def lines(record):
    """The lines of a record, for standard error."""
    if record.fault is not None:
        return [f"readable: {record.path}: {record.fault}"]
    found = [f"{one.file}:{one.line}: {one.name} isn't read: {', '.join(one.reasons)}" for one in record.unread]
    found += [f"{one.file}:{one.line}: the declaration of {one.name} isn't read: {', '.join(one.reasons)}" for one in record.declarations]
    found += [f"{one.file}:{one.line}: {one.name}: the calls of its cleanup attributes aren't seen" for one in record.cleanups]
    if record.approximations():
        found.append(f"readable: {record.path}: approximations: {counted(record.approximations())}")
    return found + [f"readable: {record.path}: {result(record)}"]


def result(record):
    """The last line of a file, without its name."""
    if record.as_it_is:
        loops = record.classes.get("plain loop", 0)
        return "read as it is" + (f", but for {loops} plain loops" if loops else "")
    return unread_of(len(record.unread), record.functions, record.reasons()) + "".join(f"; {part}" for part in others(record))


def others(record):
    """What else was cut, in words."""
    if record.header_functions:
        yield f"of headers {record.header_unread} of {record.header_functions}"
    if record.pruned:
        yield f"{record.pruned} pruned"
    cut = len(record.declarations) + record.header_declarations
    if cut:
        yield f"{cut} declarations cut"
    if record.trimmed:
        yield f"{record.trimmed} without their initial values"


def unread_of(unread, functions, reasons):
    """How many functions are not read, with the reasons."""
    return f"{unread} of {functions} functions aren't read" + (f" ({counted(reasons)})" if reasons else "")


def counted(numbers):
    """Names with their numbers, the largest first."""
    return ", ".join(f"{name} {number}" for name, number in sorted(numbers.items(), key=lambda item: (-item[1], item[0])))


def total(records):
    """The last line over several files."""
    made = [record for record in records if record.fault is None]
    reasons = {}
    for record in made:
        for name, number in record.reasons().items():
            reasons[name] = reasons.get(name, 0) + number
    unchanged = sum(record.as_it_is for record in made)
    failed = len(records) - len(made)
    counts = f"{len(records)} files, {unchanged} read as they are" + (f", {failed} without a text" if failed else "")
    unread, functions = sum(len(record.unread) for record in made), sum(record.functions for record in made)
    return f"readable: {counts}: {unread_of(unread, functions, reasons)}"
