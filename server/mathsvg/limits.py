"""What a request, a formula and a run of the program may take."""

import dataclasses

MEGABYTE = 1_000_000


@dataclasses.dataclass(frozen=True)
class Limits:
    """The limits, each with what it counts. The server's README has the answers of requests beyond them."""

    # A request.
    body_bytes: int = MEGABYTE
    formulas: int = 1000
    definitions_characters: int = 16_384
    request_seconds: float = 10.0
    answer_bytes: int = 12 * MEGABYTE
    # A formula: its source, and the glyphs and rules of its picture.
    formula_characters: int = 4000
    places: int = 3000
    # A run of the program.
    run_formulas: int = 1000
    run_bytes: int = 200_000
    run_seconds: float = 2.0
    run_memory: int = 256 * MEGABYTE
    run_stack: int = 8 * MEGABYTE
    run_output: int = 16 * MEGABYTE
    # Requests that are set together: seconds and bytes of pictures. What is beyond is set by itself.
    together_formulas: int = 1000
    together_seconds: float = 0.5
    together_bytes: int = 12 * MEGABYTE
    # A process that converts LaTeX: its memory, and seconds for a formula.
    converter_memory: int = 256 * MEGABYTE
    conversion_seconds: float = 1.0
    # The server: connections, requests that wait, seconds in which a client sends one or takes an answer, bytes of
    # answers that are kept, and bytes of all requests and answers on their way.
    connections: int = 400
    waiting: int = 512
    client_seconds: float = 10.0
    idle_seconds: float = 30.0
    kept_bytes: int = 16 * MEGABYTE
    way_bytes: int = 24 * MEGABYTE


class Room:
    """Bytes that are left of some."""

    def __init__(self, most):
        self.left = most

    def take(self, count):
        """Takes bytes, if so many are left."""
        if count > self.left:
            return False
        self.left -= count
        return True

    def give_back(self, count):
        """Gives bytes back."""
        self.left += count
