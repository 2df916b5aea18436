"""Descriptions and traces that a seed makes for hz_why."""
import re

from check_walk import SETS, Maker

# issues of this class, each a cycle after the one before, all hold something in the end
FAR = 80
FAR_CLASS = f'(define_insn_reservation "far" 1 (const_int 1) "nothing*{FAR},u0_0")'


class WhyMaker(Maker):
    """Descriptions with more statements, longer names and reservations, units in another order, classes of many alternatives (under `ndfa`
    a calendar is slow with them), and some with too many states."""

    def statement(self, units):
        """A set statement, often with a pattern of two units."""
        own = self.random.choice([own for own in units if len(own) > 1])
        place = self.random.randint(1, len(own) - 1)
        head = self.random.choice(SETS)
        patterns = list(own[place:])
        self.random.shuffle(patterns)
        if head != "exclusion_set" and len(patterns) > 1 and self.random.random() < 0.5:
            patterns = [" ".join(patterns[:2]), *patterns[2:]]
            patterns += [" ".join(self.random.sample(own[place:], 2)) for _ in range(self.random.randint(0, 2))]
        return f'({head} "{",".join(own[:place])}" "{",".join(patterns)}")'

    def statements(self, lines):
        """Some set statements on units of these lines that have others in their automaton, of more patterns and units."""
        units = {}
        for line in lines:
            for name in re.findall(r"u\d_\d", line) if "cpu_unit" in line else []:
                units.setdefault(name[:2], []).append(name)
        units = [own for own in units.values() if len(own) > 1]
        return [self.statement(units) for _ in range(self.random.randint(1, 3))] if units else []

    def description(self):
        """The text of a description."""
        lines = super().description().splitlines()
        if self.random.random() < 0.5:
            lines += self.statements(lines)
        if self.random.random() < 0.3:
            self.shuffle_units(lines)
        if self.random.random() < 0.1:
            lines += [f'(define_insn_reservation "late{place}" 1 (const_int 1) "nothing*{place},u0_0")' for place in range(1, 18)]
        if self.random.random() < 0.1:
            lines.append(FAR_CLASS)
        if self.random.random() < 0.2 and not any("ndfa" in line for line in lines):
            lines.append(self.class_of_many(lines))
        return self.renamed("\n".join(lines) + "\n")

    def renamed(self, text):
        """The text with longer names of a unit and of a class, and a longer repetition, each at times."""
        if self.random.random() < 0.3:
            text = text.replace("u0_0", "a_unit_with_a_name_of_many_columns" + self.random.choice(["", "", "_" * 20, "_" * 60]))
        if self.random.random() < 0.2:
            text = text.replace('"c0"', f'"a_class_with_a_name_of_many_columns{"_" * self.random.choice([0, 20, 60])}"')
        if self.random.random() < 0.2:
            text = text.replace("*3", f"*{self.random.choice([20, 60, 100])}", 1)
        return text

    def class_of_many(self, lines):
        """A class that takes one of some units of one automaton in each of several cycles. The first cycles are often the same for all."""
        units = ["u0_0", *(unit for unit in ("u0_1", "u0_2", "u0_3") if any(unit in line for line in lines))]
        beside = self.random.choice([2, 3, 4])
        chosen = "(" + "|".join(self.random.choices(units, k=beside)) + ")"
        places = {2: 7, 3: 4, 4: 4}[beside]
        parts = [chosen if self.random.random() < 0.9 else "nothing" for _ in range(places)]
        return f'(define_insn_reservation "many" 1 (const_int 1) "nothing*{self.random.randint(1, 3)},{",".join(parts)}")'

    def shuffle_units(self, lines):
        """The forms of units in another order: rows go by the file, and pairs by automaton."""
        places = [place for place, line in enumerate(lines) if "cpu_unit" in line]
        forms = [lines[place] for place in places]
        self.random.shuffle(forms)
        for place, form in zip(places, forms):
            lines[place] = form

    def trace(self, simulation):
        """The text of a trace, at times with lines of many digits, and with many issues that hold something in the end."""
        text = super().trace(simulation)
        if "far" in simulation.classes and self.random.random() < 0.5:
            text = "issue far\nadvance 1\n" * self.random.randint(FAR - 20, FAR) + text.replace("advance", "; advance")
        return "\n" * self.random.choice([0, 0, 0, 7, 98, 1020]) + text
