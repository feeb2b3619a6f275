"""Reads traces and invariant files: the value, or the line that tells the first record at fault."""
import re

NUMBER = re.compile(r"0|-?[1-9][0-9]*")
COUNT = (1 << 32) - 1


class Fault(Exception):
    """A record at fault, told as `check` and `replay` tell it."""


def fault(number, name, *fields):
    return Fault("reaver,badfile,%d,%s,%s\n" % (number, name, ",".join(map(str, fields))))


def records_of(text):
    """The records of a text of fields with commas between them; a field may stand in quotes."""
    if text.startswith(b"\xef\xbb\xbf"):
        text = text[3:]
    records, record, field, state = [], [], bytearray(), "line"
    for byte in text:
        ends, comma, quote = byte in b"\r\n", byte == 44, byte == 34
        if state == "line" and ends:
            continue
        if state == "quoted":
            state = "closed" if quote else state
            if not quote:
                field.append(byte)
        elif ends or comma:
            record.append(bytes(field))
            field, state = bytearray(), "field"
            if ends:
                records.append(record)
                record, state = [], "line"
        elif quote and state in ("line", "field"):
            state = "quoted"
        elif quote and state == "closed":
            field.append(byte)
            state = "quoted"
        else:
            field.append(byte)
            state = "within"
    if state != "line":
        records.append(record + [bytes(field)])
    return records


class Reader:
    """Records one after another, each tested by what is awaited."""

    def __init__(self, text):
        self.records, self.at = records_of(text), -1

    def take(self, shapes, first=None):
        """The next record, whose first field is one of the awaited words; a shape says whether a number of fields may be."""
        self.at += 1
        if self.at == len(self.records):
            raise fault(5, "ends", self.at)
        record = self.records[self.at]
        if any(byte < 32 or byte > 126 for field in record for byte in field):
            raise fault(1, "notrecords", self.at)
        fields = [field.decode() for field in record]
        if fields[0] not in shapes or not shapes[fields[0]](len(fields)) or (first and fields != first):
            raise fault(2, "wrongkind", self.at)
        return fields

    def same(self, fields, wanted):
        if fields != wanted:
            raise fault(3, "wrongprogram", self.at)

    def number(self, fields, place, least, most):
        """A field that is a number in a range."""
        text = fields[place]
        if not NUMBER.fullmatch(text) or not least <= int(text) <= most:
            raise fault(4, "badnumber", self.at, place)
        return int(text)

    def bad(self, place):
        return fault(4, "badnumber", self.at, place)

    def count(self, word, most, least=0):
        fields = self.take({word: lambda n: n == 2})
        return self.number(fields, 1, least, most)

    def end(self):
        self.take({"end": lambda n: n == 1})
        if self.at + 1 < len(self.records):
            self.at += 1
            bytes_of = b"".join(self.records[self.at])
            raise fault(1, "notrecords", self.at) if any(b < 32 or b > 126 for b in bytes_of) else fault(2, "wrongkind", self.at)

    def head(self, kind, main):
        self.take({"reaver": lambda n: n == 3}, ["reaver", kind, "1"])
        self.same(self.take({"main": lambda n: n == 2}), ["main", main])

    def value(self, fields, place, kind):
        """A field that is a value of a kind."""
        text = fields[place]
        if kind == ("int",):
            return self.number(fields, place, -(1 << 63), (1 << 63) - 1)
        names = ("false", "true") if kind == ("bool",) else kind[2]
        if text not in names:
            raise self.bad(place)
        return text == "true" if kind == ("bool",) else names.index(text)


def read_trace(text, flat):
    """The start values by their places, and the inputs of each instant."""
    from .values import dotted

    reader = Reader(text)
    reader.head("trace", flat.main)
    reader.count("starts", len(flat.memories), len(flat.memories))
    starts = {}
    for place, memory in flat.memories.items():
        fields = reader.take({"start": lambda n: n == 3})
        reader.same(fields[1], dotted(place))
        starts[place] = reader.value(fields, 2, memory[3])
    fields = reader.take({"inputs": lambda n: True})
    reader.same(fields[1:], [name for name, _ in flat.inputs])
    count, instants = reader.count("instants", COUNT), []
    for _ in range(count):
        fields = reader.take({"instant": lambda n: n == 1 + len(flat.inputs)})
        instants.append([reader.value(fields, 1 + number, kind) for number, (_, kind) in enumerate(flat.inputs)])
    reader.end()
    return starts, instants


class Invariant:
    """Reads an invariant file over the diagram variables and columns of a program."""

    def __init__(self, text, symbolic):
        self.reader, self.symbolic = Reader(text), symbolic
        self.memories, self.tests = len(symbolic.columns), len(symbolic.tests)
        self.state_end = 2 * len(symbolic.state_names)
        self.locations, self.reached = [], {}

    def read(self):
        from .values import dotted

        reader, symbolic = self.reader, self.symbolic
        reader.head("invariant", symbolic.flat.main)
        reader.same(reader.take({"bits": lambda n: True})[1:], symbolic.names)
        columns = ["memory:" + dotted(place) for place in symbolic.columns]
        columns += ["input:" + symbolic.flat.inputs[number][0] for number in symbolic.integer_inputs]
        reader.same(reader.take({"columns": lambda n: True})[1:], columns)
        self.count = reader.count("locations", 4096)
        for number in range(self.count):
            self.location(number)
        reader.end()
        return self.locations

    def diagram(self, word, state_only, fields=None):
        """A root and triples."""
        reader = self.reader
        fields = fields or reader.take({word: lambda n: n >= 2 and n % 3 == 2})
        count = (len(fields) - 2) // 3
        root, triples = reader.number(fields, 1, 0, count + 1), []
        for own in range(count):
            place = 2 + 3 * own
            variable = reader.number(fields, place, 0, (self.state_end if state_only else len(self.symbolic.names)) - 1)
            if variable < self.state_end and variable % 2 == 1:
                raise reader.bad(place)
            children = []
            for side in (place + 1, place + 2):
                child = reader.number(fields, side, 0, own + 1)
                if child > 1 and triples[child - 2][0] <= variable:
                    raise reader.bad(side)
                children.append(child)
            triples.append((variable, *children))
        return root, triples

    def rows(self, word, location=None):
        """A counted list of rows."""
        reader = self.reader
        count = reader.count(word, 1024)
        if location is not None and self.reached.get(location, count) != count:
            raise reader.bad(1)
        return [self.row() for _ in range(count)]

    def row(self):
        fields = self.reader.take({"row": lambda n: n == 2 + self.memories})
        bound = self.reader.number(fields, 1, -(1 << 60), 1 << 60)
        return tuple(self.reader.number(fields, 2 + i, -(1 << 30), 1 << 30) for i in range(self.memories)), bound

    def by(self, premises, fields=None, dead=False):
        """Multipliers: a divisor and weights of premises."""
        reader = self.reader
        fields = fields or reader.take({"by": lambda n: n >= 2 and n % 2 == 0})
        divisor, weights, least = reader.number(fields, 1, 1, 1 if dead else 1 << 30), [], 0
        for place in range(2, len(fields), 2):
            if len(weights) == 256:
                raise reader.bad(place)
            premise = reader.number(fields, place, least, premises - 1)
            weights.append((premise, reader.number(fields, place + 1, 1, 1 << 41)))
            least = premise + 1
        return divisor, weights

    def location(self, number):
        one = {"control": self.diagram("control", True), "entries": []}
        one["entry"] = self.rows("entry", number)
        self.reached[number] = len(one["entry"])
        for word in ("first", "around", "state"):
            one[word] = self.rows(word)
        self.locations.append(one)
        one["by_entry"], one["by_first"] = [self.by(len(one["entry"])) for _ in one["state"]], []
        must = bool(one["first"] or one["around"])
        count, must = self.cases(one, must)
        may = must or not one["state"]
        for left in range(count, 0, -1):
            kinds = ["loop"] if must and left == 1 and not self.looped(one) else ["go", "dead"] + (["loop"] if may else [])
            self.entry(one, kinds, number)

    def looped(self, one):
        return any(entry["kind"] == "loop" for entry in one["entries"])

    def cases(self, one, must):
        """The second list of multipliers, where there is one, and the number of entries; whether there must be a loop."""
        reader, by = self.reader, {"by": lambda n: n >= 2 and n % 2 == 0}
        if one["state"]:
            fields = reader.take(by if must else {**by, "cases": lambda n: n == 2})
            if fields[0] == "cases":
                return reader.number(fields, 1, 0, COUNT), False
            one["by_first"].append(self.by(len(one["first"]), fields))
            one["by_first"] += [self.by(len(one["first"])) for _ in one["state"][1:]]
            must = True
        return reader.count("cases", COUNT, 1 if must else 0), must

    def entry(self, one, kinds, number):
        reader = self.reader
        shapes = {"go": lambda n: n == 2, "dead": lambda n: n == 1, "loop": lambda n: n == 1}
        fields = reader.take({kind: shapes[kind] for kind in kinds})
        entry = {"kind": fields[0]}
        if fields[0] == "go":
            entry["target"] = reader.number(fields, 1, 0, self.count - 1)
        entry["when"] = self.diagram("when", False)
        one["entries"].append(entry)
        held = len(one["state"]) + self.tests
        if fields[0] == "dead":
            entry["by"] = [self.by(held, dead=True)]
        elif fields[0] == "loop":
            around = len(one["around"]) + held
            lists = [(len(one["entry"]), "first"), (len(one["first"]), "around"), (around - self.tests, "around"), (around - self.tests, "state")]
            entry["by"] = [[self.by(rows + self.tests) for _ in one[word]] for rows, word in lists]
        else:
            entry["by"] = self.reach(entry["target"], held)

    def reach(self, target, held):
        """The multipliers of a go: as many as its target has entry rows, or as come where that is not known yet."""
        if target in self.reached:
            return [self.by(held) for _ in range(self.reached[target])]
        reader, found = self.reader, []
        while len(found) < 1024 and reader.at + 1 < len(reader.records) and reader.records[reader.at + 1][0] == b"by":
            found.append(self.by(held))
        self.reached[target] = len(found)
        return found
