"""What the two readers share: a text as words, and taking them one by one."""


def split(pattern, text):
    """A text as pairs of kind and word, by a pattern with a group for each kind."""
    out, at = [], 0
    while at < len(text):
        found = pattern.match(text, at)
        assert found, "unknown sign: " + text[at:at + 40]
        if found.lastgroup:
            out.append((found.lastgroup, found[found.lastgroup]))
        at = found.end()
    return out


class Words:
    """Words to be taken in order."""

    def __init__(self, words):
        self.words, self.at = words, 0

    def kind(self):
        """The next word's kind."""
        return self.words[self.at][0] if self.at < len(self.words) else "end"

    def peek(self, ahead=0):
        """The next word, or one further ahead."""
        return self.words[self.at + ahead][1] if self.at + ahead < len(self.words) else ""

    def next(self, word=None):
        """Takes the next word, which must be `word` if one is given."""
        found = self.peek()
        before = " ".join(w for _, w in self.words[max(0, self.at - 10):self.at])
        assert word in (None, found), "%r where %r should stand, after: %s" % (found, word, before)
        self.at += 1
        return found

    def took(self, word):
        """Takes the next word if it is this one."""
        here = self.peek() == word
        self.at += here
        return here
