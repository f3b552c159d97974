"""Random expressions over x: of integers and of booleans, of every operator, call and constant."""
from streamrun_language.values import BINDS, MAX, MIN

NUMBERS = [0, 1, -1, 2, -2, 3, 5, 7, -7, 8, 10, 16, 31, 32, 33, 62, 63, 64, 65, 100, 127, 255, 1000, 1023, 1024, 2 ** 31 - 1,
           2 ** 31, 2 ** 32 - 1, 2 ** 32, 2 ** 32 + 1, 3037000500, 2 ** 62, -2 ** 62, MAX, MIN, MAX - 1, MIN + 1]
TWO = ['Math.min', 'Math.max', 'Long.min', 'Long.max', 'Long.sum', 'Math.floorDiv', 'Math.floorMod', 'Math.addExact',
       'Math.subtractExact', 'Math.multiplyExact']
LONG_OPERATORS = '| ^ & << >> >>> + - * / %'.split()


class LambdaWriter:
    """numbers: the jobs above whose answers may stand in lambdas, if uses_names says so; uses_rows: whether places may stand there,
    and the cells of these columns."""

    def __init__(self, chance):
        self.random, self.numbers, self.uses_names = chance, [], False
        self.uses_rows, self.cells = False, []

    def pick(self, *choices):
        return self.random.choice(choices)

    def often(self, chance):
        return self.random.random() < chance

    def number(self):
        value = self.random.choice(NUMBERS) if self.often(0.7) else self.random.randint(-50, 50)
        if value in (MAX, MIN) and self.often(0.5):
            return 'Long.MAX_VALUE' if value == MAX else 'Long.MIN_VALUE'
        return f'{value}{self.pick("", "", "", "L", "l")}'

    def leaf(self):
        if self.uses_names and self.numbers and self.often(0.4):
            return '$' + self.random.choice(self.numbers)
        if self.uses_rows and self.often(0.4):
            return self.row()
        return 'x' if self.often(0.6) else self.number()

    def row(self):
        """A cell, if the job has some, or the place of the item."""
        return f'cell("{self.random.choice(self.cells)}")' if self.cells and self.often(0.85) else 'row()'

    def within(self, text, level, least):
        """Text that may stand where operators of a level may, with parentheses if they are wanted."""
        return f'({text})' if level < least or self.often(0.1) else text

    def long(self, depth):
        """(text, level) of an expression that is an integer."""
        if depth == 0 or self.often(0.15):
            text = self.leaf()
            return text, 10 if text.startswith('-') else 11
        form = self.random.random()
        if form < 0.5:
            operator = self.random.choice(LONG_OPERATORS)
            level = BINDS[operator]
            left = self.within(*self.long(depth - 1), level)
            return f'{left} {operator} {self.right(operator, depth, level)}', level
        if form < 0.62:
            operator = self.pick('-', '+', '~')
            return f'{operator} {self.within(*self.long(depth - 1), 10)}', 10
        if form < 0.75:
            condition = self.within(*self.boolean(depth - 1), 0)
            return f'{condition} ? {self.long(depth - 1)[0]} : {self.long(depth - 1)[0]}', -1
        if form < 0.85:
            return f'Math.{self.pick("abs", "abs", "negateExact")}({self.long(depth - 1)[0]})', 11
        call = self.random.choice(TWO)
        second = self.divisor(depth) if 'floor' in call else self.long(depth - 1)[0]
        return f'{call}({self.long(depth - 1)[0]}, {second})', 11

    def right(self, operator, depth, level):
        if operator in '/ %'.split():
            return self.within(self.divisor(depth), -1, level)
        return self.within(*self.long(depth - 1), level + 1)

    def divisor(self, depth):
        """Mostly a number that isn't zero, so that not every job has a fault."""
        if self.often(0.7):
            return self.number().lstrip('-').replace('0L', '9').replace('0l', '9') or '1'
        return f'({self.long(depth - 1)[0]})' if self.often(0.5) else f'((x & {self.pick(1, 3, 7)}) + 1)'

    def boolean(self, depth):
        if depth == 0 or self.often(0.5):
            operator = self.pick('==', '!=', '<', '<=', '>', '>=')
            level = BINDS[operator]
            depth = max(depth - 1, 0)
            left, right = self.within(*self.long(depth), level + 1), self.within(*self.long(depth), level + 1)
            return f'{left} {operator} {right}', level
        form = self.random.random()
        if form < 0.6:
            operator = self.pick('||', '&&')
            level = BINDS[operator]
            left = self.within(*self.boolean(depth - 1), level)
            return f'{left} {operator} {self.within(*self.boolean(depth - 1), level + 1)}', level
        if form < 0.8:
            return f'!({self.boolean(depth - 1)[0]})', 10
        if form < 0.9:
            parts = [self.within(*self.boolean(depth - 1), 0) for _ in range(3)]
            return '{} ? {} : {}'.format(*parts), -1
        return self.pick('true', 'false'), 11

    def head(self):
        return self.pick('x ->', 'x ->', 'x->', '(x) ->', '(long x) ->')

    def map(self, depth=3):
        return f'map({self.head()} {self.long(self.random.randint(1, depth))[0]})'
