"""Sign-off: what a session is told of a run's markers, their waivers, and the verdict."""
from collections import Counter
from dataclasses import dataclass

from replies import Denied, Refused, test


@dataclass(eq=False)
class Waiver:
    """That a marker may stay: asked for by one user, and signed by another, or by none yet."""

    asker: str
    signer: str | None = None


class SignOff:
    """The requests over the wafer's finished run."""

    def __init__(self, policy, wafer):
        self.policy = policy
        self.wafer = wafer

    @property
    def run(self):
        """The finished run, which there has to be."""
        test(self.wafer.run is not None, "notfinished")
        return self.wafer.run

    def sight_of(self, marker):
        """In full to who may read the cells of all that the marker meets, masked to who may read some, else hidden."""
        may_read = {self.policy.permits("read", cell) for cell in marker.cells}
        if may_read == {True}:
            return "full"
        return "masked" if True in may_read else "hidden"

    def markers(self):
        """The markers in full, each with its cells by name; then of each rule how many more are masked."""
        self.policy.need_session()
        run, lines, masked = self.run, [], Counter()
        for marker in run.markers:
            sight = self.sight_of(marker)
            if sight == "full":
                lines.append(" ".join([marker.key.word, *sorted(marker.cells)]))
            if sight == "masked":
                masked[marker.rule] += 1
        named = enumerate(run.deck.rules)
        return lines + [f"masked {rule.name} {masked[place]}" for place, rule in named if masked[place]]

    def marker_at(self, key):
        """The marker of a key; one that isn't shown in full is refused as one that isn't there."""
        for marker in self.run.markers:
            if marker.key == key and self.sight_of(marker) == "full":
                return marker
        raise Refused("marker")

    def waive(self, key):
        """Asks for a waiver; a marker has one at most."""
        self.policy.need("waive", "desk")
        self.marker_at(key)
        test(key not in self.run.waivers, "known")
        self.run.waivers[key] = Waiver(self.policy.user)

    def sign(self, key):
        """Signs the waiver that another asked for, of a marker that meets nothing that the signer submitted."""
        self.policy.need("sign", "desk")
        marker, user = self.marker_at(key), self.policy.user
        waiver = self.run.waivers.get(key)
        test(waiver is not None, "nowaiver")
        test(waiver.signer is None, "known")
        own = [submission.cell for submission in marker.met if submission.submitter == user]
        if own:
            raise Denied(f"submitter {min(own)}")
        if waiver.asker == user:
            raise Denied("asker")
        waiver.signer = user

    def waivers(self):
        """The waivers of the markers that are shown in full, in the order of the markers."""
        self.policy.need_session()
        lines = []
        for marker in self.run.markers:
            waiver = self.run.waivers.get(marker.key)
            if waiver and self.sight_of(marker) == "full":
                names = f"asked {waiver.asker}" if waiver.signer is None else f"signed {waiver.asker} {waiver.signer}"
                lines.append(f"{marker.key.word} {names}")
        return lines

    def verdict(self):
        """Stale where deck or placed submissions aren't those of the run; else how many markers are without a signed
        waiver, or clean."""
        self.policy.need("verdict", "desk")
        run = self.run
        if (self.wafer.deck, self.wafer.roots) != (run.deck, run.roots):
            return ["stale"]
        signed = sum(waiver.signer is not None for waiver in run.waivers.values())
        still_open = len(run.markers) - signed
        return [f"open {still_open}" if still_open else "clean"]
