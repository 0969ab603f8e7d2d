"""What reading a file's texts answers (02, P7; Blorb 2.0.4, section 9), written from the papers. UTF-8 is Python's own decoder."""
from reference import Refusal, answer, be32, parse, refuse_if


def good_length(text):
    """How many bytes the longest beginning of the text has that is whole UTF-8 characters."""
    try:
        text.decode("utf-8")
        return len(text)
    except UnicodeDecodeError as e:
        return e.start


def entries_of(body, start):
    """The entries of one 'RDes' that starts there: usage, number, place of the text in the file, text. 37, then 38 before 39 entry by entry."""
    entries, at = [], 4
    refuse_if(len(body) < 4, 37, start)
    for _ in range(be32(body, 0)):
        refuse_if(at + 12 > len(body), 37, start)
        size = be32(body, at + 8)
        refuse_if(at + 12 + size > len(body), 37, start)
        entries.append((be32(body, at), be32(body, at + 4), start + 8 + at + 12, body[at + 12:at + 12 + size]))
        at += 12 + size
    refuse_if(at != len(body), 37, start)
    seen = set()
    for usage, number, place, text in entries:
        refuse_if((usage, number) in seen, 38, place - 12)
        refuse_if(good_length(text) < len(text), 39, place + good_length(text))
        seen.add((usage, number))
    return entries


def texts(s, profile):
    """The entries of the file's one 'RDes', and the pairs of its index: the reader's refusals, the first chunk's, then 36."""
    chunks, index = parse(s, profile)
    found = [c for c in chunks if c.kind == b"RDes"]
    entries = entries_of(found[0].body, found[0].start) if found else []
    refuse_if(len(found) > 1, 36, found[1].start if len(found) > 1 else 0)
    return entries, {(int.from_bytes(e.usage, "big"), e.number) for e in index}


def by_entry(s, i, profile):
    def ask():
        entries = texts(s, profile)[0]
        if i >= len(entries):
            raise Refusal(22, 0)
        usage, number, place, text = entries[i]
        return ("given", usage, number, place, text)
    return answer(ask)


def by_pair(s, usage, number, profile):
    """22 for a pair without a text, and for one that isn't in the index."""
    def ask():
        entries, index = texts(s, profile)
        for u, n, place, text in entries:
            if (u, n) == (usage, number) and (usage, number) in index:
                return ("told", place, text)
        raise Refusal(22, 0)
    return answer(ask)
