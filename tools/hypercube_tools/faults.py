"""What is wrong with what the user gave, in words that say where it is and what to do."""


class Fault(Exception):
    """One fault, or all that were found."""

    def __init__(self, *messages: str) -> None:
        super().__init__("\n".join(messages))
        self.messages = messages


class Faults:
    """Faults as they are found, so that all of them are reported and not only the first."""

    def __init__(self) -> None:
        self.messages: list[str] = []

    def add(self, message: str) -> None:
        if message not in self.messages:
            self.messages.append(message)

    def raise_any(self) -> None:
        if self.messages:
            raise Fault(*self.messages)
