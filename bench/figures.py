"""Prints the figures of a benchmark, each beside its bound, and at the end how many are within theirs."""


class Figures:
    """The figures so far. A bound is a goal; if figures past it are accepted up to a second bound, both are given."""

    def __init__(self):
        self.told, self.past = 0, []

    def tell(self, what, value, bound, at_most=None, unit="", digits=2):
        """Prints a figure with its bound."""
        most = bound if at_most is None else at_most
        self.told += 1
        goal = f"bound {bound:g}{unit}" + ("" if at_most is None else f", {at_most:g}{unit} accepted")
        said = "within" if value <= bound else "accepted" if value <= most else "PAST"
        if value > most:
            self.past.append(what)
        print(f"{what}: {value:.{digits}f}{unit} ({goal}): {said}", flush=True)

    def end(self):
        """Prints the last line."""
        for what in self.past:
            print(f"past its bound: {what}")
        print(f"{self.told - len(self.past)} of {self.told} figures within their bounds", flush=True)
