"""The generator of numbers, as its authors describe it: PCG-XSH-RR with 64 bits of state (O'Neill, "PCG: A Family of Simple Fast
Space-Efficient Statistically Good Algorithms for Random Number Generation", 2014), seeded from a number as Rust's rand_core does."""
MULTIPLIER = 6364136223846793005
MASK = 2**64 - 1


def output(state):
    word = (((state >> 18) ^ state) >> 27) & 0xFFFFFFFF
    turn = state >> 59
    return (word >> turn | word << (32 - turn)) & 0xFFFFFFFF


class Dice:
    def __init__(self, number):
        seed = b""
        for _ in range(4):
            number = (number * MULTIPLIER + 11634580027462260723) & MASK
            seed += output(number).to_bytes(4, "little")
        self.increment = int.from_bytes(seed[8:], "little") | 1
        self.state = (int.from_bytes(seed[:8], "little") + self.increment) & MASK
        self.step()

    def step(self):
        self.state = (self.state * MULTIPLIER + self.increment) & MASK

    def word(self):
        state = self.state
        self.step()
        return output(state)

    def draw(self, n):
        return self.word() % n

    def key(self, n, hot, share):
        d = self.draw(100)
        if hot in (0, n):
            return self.draw(n)
        return self.draw(hot) if d < share else hot + self.draw(n - hot)


def drawn(given, number, count):
    """As many words of actors of a session, drawn from the number."""
    clients, stages = range(len(given["clients"])), range(given["shape"]["stages"])
    words = [*(f"c{c}" for c in clients), *(f"p{c}" for c in clients), *(f"s{s}" for s in stages), "r"]
    dice = Dice(number)
    return [words[dice.draw(len(words))] for _ in range(count)]
