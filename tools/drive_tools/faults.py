"""What is wrong with an input, and where."""


class InputFault(Exception):
    """A fault of an input: what is wrong, in which file, and at which line, byte or field where there is one."""

    def __init__(self, text, file=None, line=None, field=None, byte=None):
        super().__init__(text)
        self.text, self.file, self.line, self.field, self.byte = text, file, line, field, byte

    def __str__(self):
        place = str(self.file) if self.file is not None else ""
        if self.line is not None:
            place += f":{self.line}"
        parts = [place] if place else []
        if self.byte is not None:
            parts.append(f"byte {self.byte}")
        if self.field is not None:
            parts.append(self.field)
        return ": ".join([*parts, self.text])

    def placed(self, file, line=None):
        """The same fault with the file, and the line where it has none yet."""
        self.file = file if self.file is None else self.file
        self.line = line if self.line is None else self.line
        return self
