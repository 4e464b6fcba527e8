"""Pruning: functions of headers that no function of the main file names, directly or through others, need no body."""


def unreached(source):
    """The functions that are never named, as chunks. The bodies of all others are put in, where they were left out."""
    functions = [chunk for chunk in source.chunks if chunk.is_function()]
    waiting = [chunk for chunk in functions if source.in_main(chunk)]
    by_name = {}
    for chunk in functions:
        if not source.in_main(chunk):
            by_name.setdefault(chunk.name, []).append(chunk)
    kept, named = set(waiting), set()
    while waiting:
        words = {text for text in source.all_texts(waiting.pop()) if text in by_name and text not in named}
        named |= words
        found = [chunk for word in words for chunk in by_name[word]]
        kept |= set(found)
        waiting += found
    source.put_in_bodies([chunk for chunk in functions if chunk in kept])
    return [chunk for chunk in functions if chunk not in kept]
