"""All faults of a source, by runs of mathset that leave parts of it out."""
import bisect
import collections
import re

from checking.source import BAD, TOKEN, Cutter, Place

# What takes a number or a dimension, a comment or a name, and a letter or a digit.
NUMBERS = re.compile(
    r"\\(?:mskip|mkern|hskip|kern|mathchar|delimiter|radical|mathaccent|fam|above|abovewithdelims)(?![A-Za-z])"
)
ALIKE = re.compile(r"%[^\n]*|\\[A-Za-z]+|\\.|[A-Za-z0-9]")
# How many formulas are run at once, and how many faults of a whole source are looked for.
CHUNK = 64
MOST_OF_WHOLE = 100


class Check:
    """The units of a source, and the faults of each. The source is cut into units where these are not given."""

    def __init__(self, document, program, units=None):
        self.document = document
        self.program = program
        self.units = Cutter(document.text).units_of_source() if units is None else units
        self.definitions = [unit for unit in self.units if unit.kind in ("definition", "assignment")]
        self.rejected_names = set()
        self.bytes_of_strays = []

    def faults(self):
        """All faults, in the order of the source."""
        return sorted(self.faults_of_units() + self.check_whole())

    def faults_of_units(self):
        """The faults of each unit by itself."""
        self.check_bytes()
        self.check_strays()
        self.check_definitions()
        self.find_names()
        self.check_formulas()
        return [unit.fault for unit in self.units if unit.fault and unit.fault.text] + self.bytes_of_strays

    def check_bytes(self):
        """Units with a byte that cannot stand in a source: the first of each. A stray unit has another fault too."""
        first = {}
        for unit in self.units:
            for text, offset in unit.tokens:
                if BAD.fullmatch(text):
                    first[unit] = self.around(text, offset), offset
                    break
        answers = self.program.answers((given, "".join(given)) for given in {given for given, _ in first.values()})
        for unit, (given, offset) in first.items():
            line, column = self.document.line_column(offset)
            place = answers[given].place
            if not place:
                continue
            fault = Place(line, column + place.column - 1 - len(given[0]), place.text)
            if unit.kind == "stray" and offset > unit.start:
                self.bytes_of_strays.append(fault)
            else:
                unit.fault = fault

    def around(self, text, offset):
        """A short source with these bytes, and what is in front of them: nothing at the beginning of a file."""
        before = "" if offset in self.document.file_starts() else "$"
        # What mathset says may depend on the byte after it, as for a backslash and a blank.
        end = offset + len(text)
        return before, text + self.document.text[end : end + 1] + "$\n"

    def check_strays(self):
        """The text depends on the first token alone."""
        strays = [unit for unit in self.units if unit.kind == "stray" and not unit.fault]
        answers = self.program.answers((text, text + "\n") for text in {unit.tokens[0][0] for unit in strays})
        for unit in strays:
            answer = answers[unit.tokens[0][0]]
            unit.fault = Place(*self.document.line_column(unit.start), answer.text if answer.status else "")

    def check_definitions(self):
        """Runs all whole ones together, again after each that is rejected, and each of the others by itself."""
        broken = [unit for unit in self.definitions if not unit.is_whole and not unit.fault]
        answers = self.program.answers((unit, self.document.only([unit])) for unit in broken)
        for unit, answer in answers.items():
            unit.fault = answer.place
        while True:
            good = [unit for unit in self.definitions if not unit.fault]
            answer = self.program.answers([("all", self.document.only(good))])["all"]
            if not answer.place:
                break
            self.unit_at(good, answer.place).fault = answer.place
        self.rejected_names = {unit.defined_name() for unit in self.definitions if unit.fault}

    def unit_at(self, units, place):
        offset = self.document.offset(place.line, place.column)
        return units[max(0, bisect.bisect_right([unit.start for unit in units], offset) - 1)]

    def find_names(self):
        """Where each name is defined, and which names its body has."""
        self.defined_at = collections.defaultdict(list)
        for number, unit in enumerate(self.definitions):
            if unit.kind == "definition" and not unit.fault:
                self.defined_at[unit.defined_name()].append(number)
        good = [(number, unit) for number, unit in enumerate(self.definitions) if not unit.fault]
        self.assigned_at = [number for number, unit in good if unit.kind == "assignment"]

    def needed(self, unit):
        """The numbers of the definitions that a formula needs, and of the assignments before it."""
        before = unit.definitions_before
        found = {number for number in self.assigned_at if number < before}
        names, seen = list(unit.names()), set()
        while names:
            name = names.pop()
            at = bisect.bisect_left(self.defined_at[name], before) - 1 if name in self.defined_at else -1
            if name not in seen and at >= 0:
                number = self.defined_at[name][at]
                found.add(number)
                names += self.definitions[number].names()
            seen.add(name)
        return tuple(sorted(found))

    def check_formulas(self):
        """Runs each formula once."""
        same = collections.defaultdict(list)
        for unit in self.units:
            if unit.kind == "formula" and not unit.fault:
                same[unit.text, self.needed(unit), unit.is_whole].append(unit)
        for key, place in self.places(same).items():
            for unit in same[key]:
                unit.fault = self.unless_rejected(self.in_document(unit, place))

    def places(self, keys):
        """The place of the first fault within each formula that has one.

        A key is its text, the definitions that it needs and whether it is whole. To be read, it is run once for all
        formulas that differ only in letters and digits.
        """
        alike = collections.defaultdict(list)
        for key in keys:
            alike[self.with_letters_alike(key)].append(key)
        chunks = Chunks(self.program, self.definitions)
        read = chunks.faults_of_reading(list(alike))
        found = {key: read[form] for form in read for key in alike[form] if not self.is_at_letter(form, read[form])}
        found.update(chunks.faults_of_setting([key for key in keys if key not in found]))
        return found

    def in_document(self, unit, place):
        """The place within a formula as one of the document."""
        first, before = self.document.line_column(unit.start)

        def move(line, column):
            return first + line - 1, column + (before - 1 if line == 1 else 0)

        return Place(*move(place.line, place.column), place.text).with_opening(move)

    def with_letters_alike(self, key):
        """A formula is read in the same way with other letters and digits, where it has no number and no dimension."""
        text, needed, is_whole = key
        texts = [text] + [self.definitions[number].text for number in needed]
        if any(self.definitions[number].kind == "assignment" for number in needed) or any(map(NUMBERS.search, texts)):
            return key
        return ALIKE.sub(self.alike, text), needed, is_whole

    @staticmethod
    def alike(found):
        text = found.group()
        if text[0] in "\\%":
            return text
        return "0" if text.isdigit() else "x"

    @staticmethod
    def is_at_letter(form, place):
        return re.match("[A-Za-z0-9]", form[0].split("\n")[place.line - 1][place.column - 1 :]) is not None

    def unless_rejected(self, place):
        """The fault without its text, where it is at a name whose definition is reported already."""
        offset = self.document.offset(place.line, place.column)
        name = TOKEN.match(self.document.text, offset)
        if name and name.group() in self.rejected_names:
            return place._replace(text="")
        return place

    def check_whole(self):
        """Faults that are left where all others are blanked: those of the limits of a whole source."""
        found = []
        while len(found) < MOST_OF_WHOLE:
            rejected = [unit for unit in self.units if unit.fault]
            answer = self.program.answers([("whole", self.document.without(rejected))])["whole"]
            if not answer.status:
                break
            place = answer.place or Place(1, 1, answer.text)
            found.append(place)
            unit = self.unit_at(self.units, place) if self.units else None
            if unit is None or unit.fault or not answer.place or answer.status in (42, 49):
                break
            unit.fault = place._replace(text="")
        return found


class Chunks:
    """Formulas that are run several at a time. A run reports the first fault; the formulas after it are run again."""

    def __init__(self, program, definitions):
        self.program = program
        self.definitions = definitions
        self.found = {}
        self.is_reading = True

    def faults_of_reading(self, keys):
        """These faults, by line and column in the formula. A run reads all formulas before it sets one."""
        self.is_reading = True
        return self.run(keys)

    def faults_of_setting(self, keys):
        self.is_reading = False
        return self.run(keys)

    def run(self, keys):
        self.found = {}
        whole = [key for key in keys if key[2]]
        chunks = [(key,) for key in keys if not key[2]]
        chunks += [tuple(whole[at : at + CHUNK]) for at in range(0, len(whole), CHUNK)]
        self.program.answers([(chunk, self.source(chunk)) for chunk in chunks], self.after)
        return self.found

    def source(self, chunk):
        """Definitions are made anew only where they change, so that each formula has those that it needs."""
        parts, made = [], {}
        for text, needed, _ in chunk:
            for number in needed:
                name = self.definitions[number].defined_name() or number
                if made.get(name) != number:
                    made[name] = number
                    parts.append(self.definitions[number].text)
            parts.append(text)
        return "\n".join(parts) + "\n"

    def after(self, chunk, answer):
        """Takes the answer of a chunk, and gives what is to be run again."""
        if not answer.status or self.is_reading and answer.is_of_setting():
            return []
        if answer.formula is None and len(chunk) > 1:
            half = len(chunk) // 2
            return [(keys, self.source(keys)) for keys in (chunk[:half], chunk[half:])]
        # A text that is not whole may be several formulas for mathset.
        number = min(answer.formula or 1, len(chunk)) - 1
        before, after = chunk[:number], chunk[number + 1 :]
        again = [after]
        if answer.status == 42 and before:
            again.append(chunk[number : number + 1])
        else:
            self.found[chunk[number]] = self.place(chunk, number, answer)
        if not self.is_reading and not answer.is_of_setting():
            again.append(before)
        return [(keys, self.source(keys)) for keys in again if keys]

    def place(self, chunk, number, answer):
        """The place within the formula."""
        if not answer.place:
            return Place(1, 1, answer.text)
        upto = self.source(chunk[: number + 1])
        first = upto.count("\n") - chunk[number][0].count("\n")

        def move(line, column):
            return max(1, line - first + 1), column

        return Place(*move(*answer.place[:2]), answer.place.text).with_opening(move)
