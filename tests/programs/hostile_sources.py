"""Images and policy texts that are changed by chance, from a seed: the same ones each time."""
import os
import random
import re

import made_images
import made_policies
from changed_bytes import ImageChanger, Places
from changed_texts import BY_HAND, TextChanger
from running import EXAMPLES, TOP, Wrong, contents, ran, write

MADE = 40


class Sources:
    """The images and the policy texts that are changed, those of the examples apart from the made ones."""

    def __init__(self, seed, program, room):
        self.seed, self.program, self.path = seed, program, os.path.join(room, "source")
        self.texts, images = [], []
        for folder in sorted(EXAMPLES.iterdir()):
            if (folder / "policy").exists():
                self.texts.append(contents(folder / "policy"))
                images.append(self.compiled(self.texts[-1]))
            elif (folder / "image.hex").exists():
                images.append(bytes.fromhex(contents(folder / "image.hex").decode()))
        images += documented()
        self.made_texts = list(made_texts(seed))
        compiled = [self.compiled(text) for text in self.made_texts]
        by_chance = [made_images.by_chance(random.Random(f"{seed} image {number}")) for number in range(MADE)]
        groups = (images, images, compiled, by_chance)
        self.images = [[(data, Places(data)) for data in dict.fromkeys(group) if data] for group in groups]
        self.by_hand = [data for group in self.images[1:] for data, _ in group] + made_images.by_hand()

    def compiled(self, text):
        """The image of a policy, empty where its code is too much."""
        write(self.path, text)
        write(self.path + ".image", b"")
        quietly(self.program, "compile", self.path, self.path + ".image")
        return contents(self.path + ".image")

    def image(self, number):
        """An image, changed once or more often."""
        if number < len(self.by_hand):
            return self.by_hand[number]
        chance = random.Random(f"{self.seed} {number - len(self.by_hand)}")
        changer = ImageChanger(chance, *chance.choice(chance.choice(self.images)))
        return changer.change(chance.choice((1, 1, 1, 2, 3)))

    def text(self, number):
        """A policy text, changed once or more often."""
        if number < len(BY_HAND):
            return BY_HAND[number][1].encode()
        chance = random.Random(f"{self.seed} text {number - len(BY_HAND)}")
        changer = TextChanger(chance, chance.choice(chance.choice((self.texts, self.made_texts))))
        return changer.change(chance.choice((1, 1, 2, 3)))


def documented():
    """The images of docs/IMAGE.md, without the words beside their bytes."""
    page = contents(TOP / "docs" / "IMAGE.md").decode()
    for block in re.findall(r"^```\n(49465356.*?)^```", page, re.M | re.S):
        yield bytes.fromhex("".join(re.split(r"(?<=\S)  +", line)[0] for line in block.split("\n")))


def made_texts(seed):
    """Policies by chance that need no definitions beside them."""
    number = count = 0
    while count < MADE:
        maker = made_policies.Maker(random.Random(f"{seed} policy {number}"))
        text, number = maker.text(), number + 1
        if not maker.given:
            count += 1
            yield text.encode()


def quietly(program, word, *operands):
    """The status, the output and what is on standard error, without reports. A signal is a status below 0."""
    try:
        return tuple(ran(program, word, "--quiet", *operands).texts("backslashreplace"))
    except Wrong as wrong:
        return None, "", str(wrong)
