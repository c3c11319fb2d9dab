"""fast: a room of the reference that keeps its view, for long scripts.

`tests/differential` compares its answers with those of the plain room, so it stands for that one where replaying for
each answer would take too long."""
import bisect

import reference


class FastRoom(reference.Room):
    """A room that replays its steps only where some were taken out."""

    def __init__(self, types):
        super().__init__(types)
        self.kept = None

    def view(self):
        """The view that is kept, which `forward` leads on."""
        if self.kept is None:
            self.kept = super().view()
        return self.kept

    def without(self, role, places, reason):
        """The same, and the view has to be made anew."""
        if places and reason is None:
            self.kept = None
        return super().without(role, places, reason)

    def place_of_step(self, role, number):
        """The same; the numbers of the steps rise."""
        place = bisect.bisect_left(self.history, number, key=lambda step: step.number)
        if place == len(self.history) or self.history[place].number != number:
            return None, "nostep"
        return place, None if self.history[place].role == role else "notyours"

    def consequences(self, place):
        """The same in one walk: the k-th receipt of a pair is matched with its k-th send."""
        found, roles, under_way = [], set(), {}
        for at, (_, role, (kind, peer, _)) in enumerate(self.history):
            depends = at == place or role in roles
            if kind in ("recv", "pick"):
                waiting = under_way[peer, role]
                waiting[1] += 1
                depends = depends or waiting[0][waiting[1] - 1]
            if kind in ("send", "choose"):
                under_way.setdefault((role, peer), [[], 0])[0].append(depends)
            if depends:
                found.append(at)
                roles.add(role)
        return found
