"""Statements in sequence, as a proof writes them."""


class Part:
    """The body, an arm, a block or a loop's turn. `text` is how the proof writes the statements, `after` what is to
    hold after them and `then` the same for each way out; `up` says where they stand: (kind, the part around, the place
    there), and for a turn the loop in place of the part."""

    def __init__(self, stmts, text, ident, up, after, then):
        self.stmts = stmts
        self.text = text
        self.ident = ident
        self.up = up
        self.after = after
        self.then = then

    def past(self, place):
        """The statements from a place on, as the proof writes them."""
        if self.text == 'mir.t-1':
            return 'mir.t-%d' % (place + 1)
        return self.text if place == 0 else '(past %d %s)' % (place, self.text)

    def name(self, place):
        """The statement's number, as descriptions have it."""
        return (self.ident + '.' if self.ident else '') + str(place + 1)

    def is_last(self, place):
        return place == len(self.stmts) - 1

    def at(self, place):
        """One statement, as the proof writes it."""
        return self.past(place) if self.is_last(place) else '(one %s)' % self.past(place)

    def after_one(self, place):
        """What is to hold after one statement, and for each way out of it."""
        if self.is_last(place):
            return self.after, self.then
        then = '(afterSeq 𝓤 H (Wp 𝓤 H C Λ En %s %s) %s)' % (self.past(place + 1), self.then, self.then)
        return '(anyQ %s)' % then, then
