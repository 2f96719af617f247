"""What grows in an ordered map, by lines of `dilluvas`."""

from runs import MOST, SIZES, Growth


def _key(size):
    return f"k{size:07d}"


class Keys(Growth):
    """Keys of one map, which are taken out again at the end."""

    def grow(self, size):
        self.ask(f"set m {_key(size)} {size}", "new")

    def look(self, size):
        self.ask("len m", f"len {size}")
        self.ask("first m", f"pair {_key(1)} 1")
        self.ask("last m", f"pair {_key(size)} {size}")
        self.ask(f"get m {_key(size)}", f"value {size}")
        self.ask(f"get m {_key(size + 1)}", "none")
        self.ask(f"scan m {_key(size - 2)} 10", f"pairs 3 {' '.join(f'{_key(at)} {at}' for at in range(size - 2, size + 1))}")

    def end(self):
        for size in range(MOST, 0, -1):
            at = 1 + size * 7919 % MOST
            self.ask(f"del m {_key(at)}", f"was {at}")
            if size - 1 in SIZES:
                self.ask("len m", f"len {size - 1}")
        self.ask("len m", "len 0")
        self.ask("drop m", "dropped")


class KeysInBatch(Growth):
    """Keys of one map that are set in a batch."""

    in_file = False

    def begin(self):
        self.ask("set m - 0", "new")
        self.ask("pin", "ok")

    def grow(self, size):
        self.ask(f"set m {_key(size)} {size}", "new")

    def look(self, size):
        self.ask("len m", f"len {size + 1}")

    def end(self):
        self.ask("seal", "ok")
        self.ask("drop m", "dropped")
        self.ask("maps", "maps 0")


GROWTHS = (Keys, KeysInBatch)
