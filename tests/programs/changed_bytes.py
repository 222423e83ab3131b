"""Changes bytes by chance, anywhere, and those of images where they are of interest."""
from image_reader import Image, Refused
from made_images import CODES, op

EDGES = (0, 1, 2, 31, 32, 33, 63, 64, 65, 255, 256, 257, 1_023, 1_024, 1_025, 8_192, 65_535)
ODD_BYTES = (0, 9, 10, 34, 92, 127, 128, 191, 192, 195, 224, 237, 240, 244, 255)


class Places:
    """Where the fields of an image stand: numbers and texts with their lengths, instructions, and of each routine the
    place of its first byte, and that of its number of instructions with the places of these."""

    def __init__(self, data):
        image = Image(data)
        fields = image.fields.read
        self.numbers = [(place, length) for kind, place, length in fields if kind == "number"]
        self.texts = [(place, length) for kind, place, length in fields if kind == "text"]
        self.ops = [place for kind, place, _ in fields if kind == "op"]
        self.routines = []
        for routine in image.routines:
            first = routine.counted + 2
            self.routines.append((routine.start, routine.counted, list(range(first, first + 4 * len(routine.ops), 4))))


class Changer:
    """Changes bytes, once or more often."""

    def __init__(self, chance, data):
        self.chance, self.data = chance, data

    def below(self, bound):
        return self.chance.randrange(bound)

    def place(self):
        return self.below(len(self.data))

    def replaced(self, place, old, new):
        """Puts other bytes in the place of so many."""
        self.data = self.data[:place] + new + self.data[place + old :]

    def cut(self):
        self.data = self.data[: self.place()]

    def longer(self):
        self.data += bytes(self.below(256) for _ in range(self.chance.choice((1, 1, 2, 4))))

    def set_one(self):
        byte = self.chance.choice((self.below(256), self.below(4), *self.chance.choices(ODD_BYTES)))
        self.replaced(self.place(), 1, bytes((byte,)))

    def set_two(self):
        self.set_one()
        self.set_one()

    def drop(self):
        self.replaced(self.place(), self.chance.choice((1, 1, 2, 4, 8)), b"")

    def exchange_two(self):
        self.exchange(self.place(), self.place(), 1)

    def exchange(self, one, other, length):
        """Exchanges two runs of bytes that do not overlap."""
        one, other = sorted((one, other))
        length = min(length, other - one, len(self.data) - other)
        first, second = self.data[one : one + length], self.data[other : other + length]
        self.replaced(one, length, second)
        self.replaced(other, length, first)

    def copy_slice(self):
        """Copies bytes over others, in the same number."""
        length = 1 + self.below(min(len(self.data), 32))
        taken = self.below(len(self.data) - length + 1)
        self.replaced(self.below(len(self.data) - length + 1), length, self.data[taken : taken + length])


ANYWHERE = (Changer.cut, Changer.longer, Changer.set_one, Changer.set_one, Changer.set_two, Changer.drop,
            Changer.exchange_two, Changer.copy_slice)


class ImageChanger(Changer):
    """Changes an image whose fields are known."""

    def __init__(self, chance, data, places):
        super().__init__(chance, data)
        self.places = places

    def change(self, times):
        """Changes it so many times. Bytes that are no image any more are changed anywhere."""
        for turn in range(times):
            if turn:
                self.look_again()
            aimed = self.places and self.below(7)
            self.chance.choice(AIMED if aimed else ANYWHERE)(self)
        return self.data

    def look_again(self):
        try:
            self.places = self.places and Places(self.data)
        except Refused:
            self.places = None
        if not self.data:
            self.data = b"I"

    def set_number(self, place, length, number):
        self.replaced(place, length, (number % 256**length).to_bytes(length, "big"))

    def number(self, place, length):
        return int.from_bytes(self.data[place : place + length], "big")

    def nudge(self):
        """A number or an operand, 1 more or less."""
        words = [(place + 2, 2) for place in self.places.ops] if self.below(2) else self.places.numbers
        place, length = self.chance.choice(words or self.places.numbers)
        self.set_number(place, length, self.number(place, length) + self.chance.choice((-1, 1)))

    def edge(self):
        place, length = self.chance.choice(self.places.numbers)
        self.set_number(place, length, self.chance.choice(EDGES))

    def budget(self):
        """One of the stated budgets."""
        place, length = self.chance.choice(self.places.numbers[1:5])
        self.set_number(place, length, self.number(place, length) + self.chance.choice((-3, -2, -1, -1, -1, 1)))

    def set_code(self):
        """Another instruction, or another code alone, which may spell nothing with the operand that stands there."""
        if self.places.ops:
            place, name = self.chance.choice(self.places.ops), self.chance.choice(list(CODES))
            whole = op(name, self.below(4) if self.below(2) else 0, self.below(3) if name == "link" else 0)
            self.replaced(place, 4, whole) if self.below(3) else self.replaced(place, 1, whole[:1])

    def set_operand(self):
        if self.places.ops:
            place = self.chance.choice(self.places.ops)
            self.set_number(place + 2, 2, self.chance.choice((self.below(4), self.below(20), self.chance.choice(EDGES))))

    def exchange_ops(self):
        """Two instructions, or two runs of them."""
        if self.places.ops:
            self.exchange(*self.chance.choices(self.places.ops, k=2), 4 * self.chance.choice((1, 1, 2, 3, 5)))

    def copy_op(self):
        if self.places.ops:
            taken, place = self.chance.choices(self.places.ops, k=2)
            self.replaced(place, 4, self.data[taken : taken + 4])

    def routine(self):
        """The place of a routine, that of the number of its instructions, and those of its instructions."""
        return self.chance.choice(self.places.routines)

    def drop_op(self):
        """One instruction less in a routine, which says so."""
        if self.places.ops:
            _, count, ops = self.routine()
            if ops:
                self.replaced(self.chance.choice(ops), 4, b"")
                self.set_number(count, 2, len(ops) - 1)

    def insert_op(self):
        """Instructions more in a routine, which says so."""
        if self.places.ops:
            _, count, ops = self.routine()
            taken, many = self.chance.choice(self.places.ops), self.chance.choice((1, 1, 1, 2, 33, 65))
            self.replaced(self.chance.choice(ops or [count + 2]), 0, self.data[taken : taken + 4] * many)
            self.set_number(count, 2, len(ops) + many)

    def results(self):
        """What a routine takes and leaves: a number of kinds, or a kind."""
        if self.places.routines:
            start, count, _ = self.routine()
            self.set_number(self.chance.randrange(start, count), 1, self.chance.choice((0, 1, 1, 2, 2, 3, 4, 5)))

    def exchange_kinds(self):
        """Two bytes of what a routine takes and leaves."""
        if self.places.routines:
            start, count, _ = self.routine()
            self.exchange(*self.chance.choices(range(start, count), k=2), 1)

    def version(self):
        self.set_number(4, 1, self.chance.choice((1, 2, 2, 3)))

    def text_byte(self):
        if self.places.texts:
            place, length = self.chance.choice(self.places.texts)
            self.replaced(place + self.below(length), 1, bytes((self.chance.choice(ODD_BYTES),)))

    def copy_text(self):
        """A text with its length in the place of another one."""
        if self.places.texts:
            (taken, size), (place, length) = self.chance.choices(self.places.texts, k=2)
            self.replaced(place - 2, length + 2, self.data[taken - 2 : taken + size])


AIMED = (ImageChanger.nudge, ImageChanger.nudge, ImageChanger.edge, ImageChanger.budget, ImageChanger.set_code,
         ImageChanger.set_code, ImageChanger.set_operand, ImageChanger.exchange_ops, ImageChanger.exchange_ops,
         ImageChanger.copy_op, ImageChanger.drop_op, ImageChanger.insert_op, ImageChanger.results, ImageChanger.results,
         ImageChanger.exchange_kinds, ImageChanger.version, ImageChanger.text_byte, ImageChanger.copy_text)
