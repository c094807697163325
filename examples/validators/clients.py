"""A generated flow of orders and messages, to try validators with."""
import random


class Clients:
    """A generated flow of what clients, and the validators' own daemons, hand in."""

    OWNERS = range(1, 9)
    # Those who have little money, and so come below their margin when prices move.
    SMALL = range(6, 9)

    def __init__(self, seed, genesis):
        self.random = random.Random(seed)
        self.markets = genesis[6]
        self.prices, self.standing = [market[5] for market in self.markets], []

    def opening(self, height):
        """Deposits, by which money comes in. Equal messages count as one, so each has the height in it."""
        amounts = {owner: 3_000_000 if owner in self.SMALL else 10_000_000_000 for owner in self.OWNERS}
        return [["message", [1, [owner, 0], amount + height]] for owner, amount in amounts.items()]

    def order(self, height, number, flags=0):
        """An order near the market's price; no two of a run have one client number."""
        draw, market = self.random.randrange, self.random.randrange(len(self.markets))
        atomic, conversion, step, tick, exponent = self.markets[market][:5]
        power = exponent + 6 + atomic - conversion
        middle = self.prices[market] * 10 ** max(power, 0) // 10 ** max(-power, 0)
        subticks = max(1, middle * draw(9_980, 10_021) // 10_000 // tick) * tick
        until = 4_000_000_000 if flags else height + draw(2, 12)
        kind = 0 if flags else self.random.choice([0, 0, 0, 0, 1, 2, 3])
        name = [self.random.choice(self.OWNERS), 0, (height * 1_000 + number) % 2**32, flags, market]
        return [*name, draw(2), step * draw(1, 21), subticks, until, kind]

    def orders(self, height, count):
        """Some orders for the block of a height, one of them a stateful one, which stands or waits."""
        for number in range(count if self.markets else 0):
            if number % 15 < 14:
                yield ["place", self.order(height, number)]
                continue
            order = self.order(height, number, self.random.choice([32, 64]))
            trigger = [self.random.randrange(2), self.prices[order[4]]] if order[3] == 32 else []
            self.standing.append(order[:5])
            yield ["message", [6 if trigger else 4, order, *trigger]]

    def others(self, height):
        """A payment and cancels for the block of a height."""
        paying, paid = self.random.sample(self.OWNERS, 2)
        yield ["message", self.random.choice([[2, [paying, 0], height], [3, [paying, 0], [paid, 0], height]])]
        name = [self.random.choice(self.OWNERS), 0, (height - 1) * 1_000 + self.random.randrange(9)]
        yield ["cancel", [*name, self.random.randrange(max(1, len(self.markets)))], height + 5]
        if len(self.standing) > 5:
            yield ["message", [5, self.standing.pop(0)]]

    def daemons(self, height):
        """What each validator hears by itself: a new price, and when it is in the state, whose margin to look at."""
        if self.markets and height % 5 == 0:
            market = self.random.randrange(len(self.markets))
            self.prices[market] = max(1, self.prices[market] * self.random.randrange(9_500, 10_501) // 10_000)
            yield ["feed", market, self.prices[market]]
        if height % 5 == 2:
            yield from (["sweep", [owner, 0]] for owner in self.SMALL)
