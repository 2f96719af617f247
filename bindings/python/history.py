"""Which pages a cache may show that is opened again, whatever its file looks like: those after a prefix of the changes that were begun,
which holds all that was flushed, and no batch in part."""

from machine import CANCEL, FLUSH, PIN, SEAL, Change


class History:
    """What happened since a cache was opened over these contents."""

    def __init__(self, contents):
        self._contents = list(contents)
        self._events, self.flushed = [], 0

    def add(self, events, is_done):
        """A call did these, or had begun them when something went wrong."""
        for event in events:
            if isinstance(event, Change) or event in (PIN, SEAL, CANCEL):
                self._events.append(event)
            elif event == FLUSH and is_done:
                self.flushed = len(self._events)

    def _cuts(self):
        """Where a prefix may end: not inside a batch that is sealed or still open."""
        cuts, pinned = {0}, None
        for count, event in enumerate(self._events, 1):
            if event == PIN:
                pinned = count
            elif event == SEAL:
                pinned = None
            elif event == CANCEL:
                cuts |= set(range(pinned, count))
                pinned = None
            if pinned is None:
                cuts.add(count)
        return cuts

    def allows(self, shown):
        """Whether these contents may be shown."""
        contents, cuts = list(self._contents), self._cuts()
        for count in range(len(self._events) + 1):
            event = self._events[count - 1] if count else None
            if isinstance(event, Change):
                contents[event.page : event.page + 1] = [event.held.content]
            if count >= self.flushed and count in cuts and contents == shown:
                return True
        return False
