"""What a configuration says of space: its walls, surfaces, panels, compartments and species, for a page that shows them.

A configuration is read here that the program accepts, so nothing is tested again. Numbers are floats, in length units.
"""
import math
import re
from decimal import Decimal
from fractions import Fraction

from smol import statements

AXES = {"x": 0, "y": 1, "z": 2, "0": 0, "1": 1, "2": 2}
ACTIONS = {"reflect": "r", "absorb": "a", "transmit": "t", "jump": "j", "r": "r", "a": "a", "t": "t", "j": "j"}
FACES = {"front": ["front"], "back": ["back"], "both": ["front", "back"]}


def exact(word):
    """The number of a decimal, as the program reads it."""
    if not re.fullmatch(r"[+-]?(\d+\.?\d*|\.\d+)([eE][+-]?\d{1,3})?", word, re.ASCII) or len(word) > 4000:
        raise ValueError(word)
    return Fraction(Decimal(word))


class Model:
    """The model of one configuration, statement by statement. `seen` is what the page is given of it."""

    def __init__(self, contents):
        self.lines = contents.split(b"\n")
        self.dims = 0
        self.species = []
        self.walls = []
        self.surfaces = []
        self.panels = []
        self.compartments = []
        self.times = {"time_start": Fraction(0)}
        self.seed = 0
        for number, words in statements(contents):
            read = getattr(self, "read_" + words[0], None)
            if read:
                read(number, words[1:])

    def steps(self):
        """How many steps the whole run has."""
        start, stop, step = (self.times[name] for name in ("time_start", "time_stop", "time_step"))
        return max(0, math.ceil((stop - start) / step))

    def seen(self):
        """All that a page shows of space, as lists, texts and numbers."""
        return {name: getattr(self, name) for name in ("dims", "species", "walls", "surfaces", "panels", "compartments")}

    def _who(self, word):
        """The numbers of the species that a word means."""
        return range(len(self.species)) if word == "all" else [self.species.index(word.partition("(")[0])]

    def read_dim(self, _, words):
        self.dims = int(words[0])

    def read_species(self, _, words):
        self.species += words

    def read_time_start(self, _, words):
        self.times["time_start"] = exact(words[0])

    def read_time_stop(self, _, words):
        self.times["time_stop"] = exact(words[0])

    def read_time_step(self, _, words):
        self.times["time_step"] = exact(words[0])

    def read_random_seed(self, _, words):
        self.seed = int(words[0])

    def read_boundaries(self, _, words):
        for word, upper in zip(words[1:3], (False, True)):
            self.walls.append({"axis": AXES[words[0]], "at": float(word), "upper": upper, "letter": (words + ["t"])[3]})

    def read_start_surface(self, _, words):
        self.surfaces.append({"name": words[0], "front": {}, "back": {}, "front_new": {}, "back_new": {}})
        self._panels_of_surface = {}

    def read_action(self, _, words):
        face, who = words[:2] if words[0] in FACES else reversed(words[:2])
        new = self._who(words[3])[0] if len(words) == 4 else None
        for name in FACES[face]:
            for species in self._who(who):
                self.surfaces[-1][name][species] = ACTIONS[words[2]]
                self.surfaces[-1][name + "_new"][species] = new

    def read_panel(self, number, words):
        axis = AXES[words[1][1:]]
        numbers = words[2:1 + 2 * self.dims]
        low = [float(word) for word in numbers[:self.dims]]
        edges = [float(word) for word in numbers[self.dims:]]
        edges.insert(axis, 0.0)
        name = (words[1 + 2 * self.dims:] + [f"rect{len(self._panels_of_surface)}"])[0]
        self._panels_of_surface[name] = len(self.panels)
        self.panels.append({
            "surface": len(self.surfaces) - 1, "name": name, "axis": axis, "greater": words[1][0] == "+", "low": low,
            "high": [corner + edge for corner, edge in zip(low, edges)], "to": {}, "line": number,
            "text": self.lines[number - 1].decode(errors="replace").strip()})

    def read_jump(self, _, words):
        from_, to = ((self._panels_of_surface[name], face) for name, face in (words[0:2], words[3:5]))
        for (panel, face), destination in [(from_, to), (to, from_)][:2 if words[2] == "<->" else 1]:
            self.panels[panel]["to"][face] = destination

    def read_start_compartment(self, _, words):
        self.compartments.append({"name": words[0], "surfaces": [], "points": []})

    def read_surface(self, _, words):
        self.compartments[-1]["surfaces"].append(words[0])

    def read_point(self, _, words):
        self.compartments[-1]["points"].append([float(word) for word in words])
