"""A quasi-cyclic code, its serial decoder, and the pages that hold several of its codewords. A word is a
whole number: its bit i is variable i, or bit i of the page."""


def told(given):
    """What a check row tells each of its edges: three quarters of the least magnitude among the others,
    rounded down, with the product of the others' signs. Zero has the sign +."""
    least, next_least = sorted([abs(q) for q in given])[:2]
    negative = sum([q < 0 for q in given]) % 2 == 1
    answers = []
    for q in given:
        magnitude = 3 * (next_least if abs(q) == least else least) // 4
        answers.append(-magnitude if (q < 0) != negative else magnitude)
    return answers


class Code:
    def __init__(self, lifting, base_rows):
        self.lifting, self.base_rows = lifting, base_rows
        self.message_columns = len(base_rows[0]) - len(base_rows)
        self.message_bits = lifting * self.message_columns
        self.bits = lifting * len(base_rows[0])
        self.check_rows = []
        for base_row in base_rows:
            blocks = [(j, s) for j, s in enumerate(base_row) if s >= 0]
            for r in range(lifting):
                self.check_rows.append([j * lifting + (r + s) % lifting for j, s in blocks])

    def turned(self, block, shift):
        """The block whose bit r is bit r + shift, going round."""
        return (block >> shift | block << self.lifting - shift) & (1 << self.lifting) - 1

    def row_sums(self, word, columns):
        """For each base row the sum of its turned blocks in the first columns."""
        blocks = [word >> j * self.lifting & (1 << self.lifting) - 1 for j in range(columns)]
        sums = []
        for base_row in self.base_rows:
            total = 0
            for block, shift in zip(blocks, base_row):
                if shift >= 0:
                    total ^= self.turned(block, shift)
            sums.append(total)
        return sums

    def word_of(self, message):
        """The codeword that begins with the message, by the dual-diagonal parity part."""
        sums = self.row_sums(message, self.message_columns)
        column = [base_row[self.message_columns] for base_row in self.base_rows]
        middle = column.index(0, 1, len(column) - 1)
        first = 0
        for row_sum in sums:
            first ^= row_sum
        block = sums[0] ^ self.turned(first, column[0])
        parity = [first, block]
        for t in range(1, len(sums) - 1):
            block ^= sums[t] ^ (first if t == middle else 0)
            parity.append(block)
        for j, block in enumerate(parity, self.message_columns):
            message |= block << j * self.lifting
        return message

    def failed_checks(self, word):
        return sum(total.bit_count() for total in self.row_sums(word, len(self.base_rows[0])))

    def rounds(self, values):
        """The numbers of the variables: first the given values, then what they are after each iteration."""
        totals, answers = list(values), [[0] * len(row) for row in self.check_rows]
        while True:
            yield totals
            for row, edges in zip(self.check_rows, answers):
                given = []
                for v, e in zip(row, edges):
                    q = totals[v] - e
                    given.append(127 if q > 127 else -127 if q < -127 else q)
                edges[:] = told(given)
                for v, q, e in zip(row, given, edges):
                    totals[v] = q + e

    def decode(self, values, iterations):
        """The number of iterations until the hard decision is a codeword, and the codeword, or None."""
        for done, totals in zip(range(iterations + 1), self.rounds(values)):
            word = int("".join(["1" if p < 0 else "0" for p in reversed(totals)]), 2)
            if self.failed_checks(word) == 0:
                return done, word
        return None


class Pages:
    """Pages of several codewords: first the message part of each, and after these the parity of each."""

    def __init__(self, code, count):
        self.code, self.count = code, count
        self.bits, self.payload_bits = count * code.bits, count * code.message_bits
        self.parity_bits = code.bits - code.message_bits

    def places_of(self, part):
        """Where in a page the message part and the parity of a codeword begin."""
        return part * self.code.message_bits, self.payload_bits + part * self.parity_bits

    def codewords(self, page):
        """The words that stand at the places of a page's codewords."""
        words = []
        for part in range(self.count):
            message, parity = self.places_of(part)
            words.append(page >> message & (1 << self.code.message_bits) - 1
                         | (page >> parity & (1 << self.parity_bits) - 1) << self.code.message_bits)
        return words

    def shares(self, values):
        """The values of each codeword's variables, from one value for each bit of the page."""
        shares = []
        for part in range(self.count):
            message, parity = self.places_of(part)
            shares.append(values[message:message + self.code.message_bits]
                          + values[parity:parity + self.parity_bits])
        return shares

    def page_of(self, codewords):
        page = 0
        for part, word in enumerate(codewords):
            message, parity = self.places_of(part)
            page |= (word & (1 << self.code.message_bits) - 1) << message
            page |= word >> self.code.message_bits << parity
        return page

    def word_of(self, payload):
        """The page whose message parts are those of a payload, each with its parity."""
        size = self.code.message_bits
        parts = [payload >> part * size & (1 << size) - 1 for part in range(self.count)]
        return self.page_of([self.code.word_of(part) for part in parts])

    def payload_of(self, page):
        return (page & (1 << self.payload_bits) - 1).to_bytes(self.payload_bits // 8, "little")
