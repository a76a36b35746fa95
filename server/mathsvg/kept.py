"""Pictures that are kept for the next request of the same formula."""

import collections

# What a picture takes beside its text.
OVERHEAD = 1000


class Kept:
    """Pictures by formula and syntax, of at most so many bytes; those that were not asked for longest are dropped."""

    def __init__(self, most):
        self.most = most
        self.size = 0
        self.found = collections.OrderedDict()

    def get(self, key):
        """The picture that is kept, or None."""
        picture = self.found.get(key)
        if picture is not None:
            self.found.move_to_end(key)
        return picture

    def put(self, key, picture):
        """Keeps a picture."""
        if key in self.found:
            return
        self.found[key] = picture
        self.size += weight(picture)
        while self.size > self.most:
            self.size -= weight(self.found.popitem(last=False)[1])


def weight(picture):
    """About how many bytes a picture takes."""
    return OVERHEAD + picture.size()
