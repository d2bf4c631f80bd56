"""What is compared, and how much of it differs."""


class Trial:
    """Counts what is compared, and names what differs."""

    def __init__(self):
        self.checked = self.differ = 0

    def check(self, what, found, wanted):
        """Compares what was found with what is wanted."""
        self.count(found == wanted, f"{what}:\n    is     {found!r}\n    wanted {wanted!r}")

    def expect(self, holds, what):
        """Names what does not hold."""
        self.count(holds, what)

    def count(self, holds, what):
        self.checked += 1
        if not holds:
            self.differ += 1
            print(what, flush=True)

    def ended(self, things="checked"):
        """Says how much was compared; the status."""
        print(f"{self.checked} {things}, {self.differ} differ")
        return int(self.differ > 0)
