"""What goes wrong."""


class ProllyError(ValueError):
    """Bytes are no chunk file, no record file or no proof, or an index is not that of its bytes."""

    def __init__(self, fault, status, place):
        super().__init__(fault, status, place)
        self.fault = fault
        """What is wrong, in words."""
        self.status = status
        """Its number in prolly.h."""
        self.place = place
        """The chunk, or the record, that it names, counted from 0. None where it names none."""

    def __str__(self):
        return self.fault if self.place is None else f"{self.fault} ({self.place})"
