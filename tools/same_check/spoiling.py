"""Spoils tables texts: most have a fault then, some only say another machine."""
FIELDS = ("-", "x", "", "0", "1", "007", "65535", "65536", "4294967295", "4294967296", "end", "c0", "u0_0")


class Spoiler:
    """Edits of a text, by a seed."""

    def __init__(self, random):
        self.random = random

    def spoiled(self, text):
        """A text after one edit or two."""
        for _ in range(self.random.choice([1, 1, 2])):
            text = self.random.choice([self.drop_line, self.repeat_line, self.change_field, self.change_field, self.change_field, self.cut_off,
                                       self.add_after])(text)
        return text

    def drop_line(self, text):
        lines = text.split("\n")
        del lines[self.random.randrange(len(lines))]
        return "\n".join(lines)

    def repeat_line(self, text):
        lines = text.split("\n")
        place = self.random.randrange(len(lines))
        lines.insert(self.random.randrange(len(lines)), lines[place])
        return "\n".join(lines)

    def change_field(self, text):
        lines = text.split("\n")
        place = self.random.randrange(len(lines))
        fields = lines[place].split(" ")
        fields[self.random.randrange(len(fields))] = self.random.choice(FIELDS)
        lines[place] = " ".join(fields)
        return "\n".join(lines)

    def cut_off(self, text):
        return text[:self.random.randrange(len(text) + 1)]

    def add_after(self, text):
        return text + self.random.choice(["\n", " ", "end\n", "row 0\n", "\0", "\xff"])
