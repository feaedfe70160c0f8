"""Scripts of runs over several tiles: arrays and boxes with edges about the seams, versions of several submitters."""
from geometry import LIMIT, ORIENTATIONS

from .script import OFFICER, Script, Spent
from .wafers import a_key, begin_with_wafer, waived_keys
from .written import array, library, rectangle, single

CELLS = ["left", "right", "via"]
USERS = [OFFICER, "ann", "bob"]
ASIDE = [0, 0, 1, -1, 5, -5, 10, -10, 12, 30, -30, 100]
DISTANCES = [1, 5, 6, 11, 13, 31, 64, 120, 255, 256, 257, 300, 700]
LAYERS = [[(1, 0)], [(1, 0), (2, 0)], [(1, 0), (2, 0), (3, 0)]]
FAR_BOXES = [(-LIMIT, -LIMIT, 5 - LIMIT, 20 - LIMIT), (LIMIT - 7, LIMIT - 20, LIMIT, LIMIT)]


class SeamLines:
    """Draws libraries round a grid of tiles; seldom one with boxes at the limits of the plane."""

    def __init__(self, script):
        self.script = script
        self.layers = script.choice(LAYERS)
        self.is_far = script.chance(.06)
        self.side = script.choice([256, 256, 256, 300, 512])
        self.origin = script.choice([0, 0, 17, -100]), script.choice([0, 0, 33, -300])

    def near_seam(self, axis):
        return self.origin[axis] + self.side * self.script.choice([0, 0, 1, 1, 2, 3]) + self.script.choice(ASIDE)

    def box(self):
        left, right = sorted([self.near_seam(0), self.near_seam(0)])
        bottom, top = sorted([self.near_seam(1), self.near_seam(1)])
        if left == right:
            right += self.script.choice([1, 10])
        if bottom == top:
            top += self.script.choice([1, 10, 256])
        return rectangle(self.script.choice(self.layers), left, bottom, right, top)

    def reference(self, target):
        choice = self.script.choice
        if self.script.chance(.5):
            return single(target, choice([0, 10, 256, -5]), choice([0, 7, -256]))
        columns, rows = choice([1, 2, 3, 6]), choice([1, 2, 4])
        dx, dy = choice([25, 40, 128, 256, 13]), choice([25, 40, 128, 256, -13])
        behind_columns = (columns * dx, choice([0, columns]))
        return array(target, columns, rows, (0, 0), behind_columns, (choice([0, rows]), rows * dy))

    def submit(self, cell, number, targets=()):
        choice = self.script.choice
        elements = [*(self.box() for _ in range(number)), *map(self.reference, targets)]
        structures = {"T": elements}
        if self.script.chance(.4):
            columns, rows = choice([1, 3, 5, 9]), choice([1, 2, 7])
            structures["E"] = [rectangle(choice(self.layers), 0, 0, choice([5, 10, 20]), choice([5, 10, 30]))]
            behind_columns = (columns * choice([15, 22, 64, 256]), 0)
            behind_rows = (0, rows * choice([12, 31, 64, -256]))
            elements.append(array("E", columns, rows, (0, 0), behind_columns, behind_rows))
        if self.is_far:
            elements.append(rectangle(self.layers[0], *choice(FAR_BOXES)))
        self.script.submit(cell, "T", library(structures))

    def submit_all(self):
        script = self.script
        for cell in CELLS:
            for _ in range(script.choice([1, 1, 2])):
                if script.chance(.6):
                    script.switch(script.choice(USERS))
                if not script.policy.permits("submit", cell):
                    script.as_officer()
                targets = [name for name in CELLS if name in script.present][:script.choice([0, 1, 1])]
                self.submit(cell, script.choice([1, 2, 4, 8]), targets)

    def place_all(self):
        """Seldom a new version comes between two placements."""
        script = self.script
        script.as_officer()
        for place in range(script.choice([1, 2, 3, 4])):
            x, y = script.choice([0, 0, 3, 128, 256, -77, 600]), script.choice([0, 0, 9, 256, -300])
            at = (0, 0) if self.is_far else (x, y)
            script.line("place", script.choice(CELLS), f"l{place}", script.choice(ORIENTATIONS), *at)
            if script.chance(.25):
                script.switch(script.choice(USERS))
                self.submit(script.choice(CELLS), 2)
                script.as_officer()

    def bring_deck(self):
        script = self.script
        near, far = [256, 256, 257, 300, 511, 512, 600, 2000], [LIMIT, LIMIT - 1, 1 << 29, 1 << 26]
        lines = [f"tile {script.choice(far if self.is_far else near)}"]
        for place in range(script.choice([1, 2, 4])):
            check = script.choice(["width", "space", "separation", "enclosing"])
            distance = script.choice([*DISTANCES, 65535 if script.chance(.3) else 90])
            layer = script.choice(self.layers)
            layers = [layer]
            if check in ("separation", "enclosing"):
                layers.append(script.choice([one for one in self.layers if one != layer] or [(7, 7)]))
            words = " ".join("%d/%d" % one for one in layers)
            lines.append(f"{check} r{place} {words} {distance}")
        script.deck("\n".join(lines).encode())

    def look_and_sign(self):
        script = self.script
        for user in USERS[1:]:
            script.switch(user)
            script.line("markers")
            for verb in ("waive", "sign", "waive", "sign"):
                script.line(verb, a_key(script))
            self.sign_waived()
            script.line("waivers")
        script.as_officer()
        self.sign_waived()
        script.line("verdict")

    def sign_waived(self):
        keys = waived_keys(self.script)
        if keys:
            self.script.line("sign", self.script.choice(keys))


def seam_script(random):
    """Submissions and placements of several users, and one run or two with looks and waivers behind each."""
    script = Script(random)
    lines = SeamLines(script)
    try:
        begin_with_wafer(script, CELLS, USERS, ["a", "b"])
        lines.submit_all()
        lines.place_all()
        for _ in range(random.choice([1, 2])):
            lines.bring_deck()
            script.line("run")
            script.line("markers")
            lines.look_and_sign()
    except Spent:
        pass
    return script
