"""Reading expressions, as generously as the compilers that shaders were written for."""
from __future__ import annotations

from collections.abc import Iterable

from reyes.bring.shaders.lexer import Token
from reyes.bring.shaders.tree import Call, Cast, Choice, Expression, Infix, Item, Items, Name, Number, Parts, Place, Prefix, Refused, Set, String

TYPES = ("float", "color", "point", "vector", "normal", "string", "matrix", "void", "bool")
RESERVED = (
    *TYPES[:6], "surface", "displacement", "light", "volume", "uniform", "varying", "break", "continue", "return", "if", "else", "while",
    "for", "illuminance", "illuminate", "solar",
)
SIGNS = {
    "||": 1, "&&": 2, "==": 3, "!=": 3, "<": 4, "<=": 4, ">": 4, ">=": 4, "+": 5, "-": 5, "^": 6, "*": 7, "/": 7, ".": 8,
}
SETS = ("=", "+=", "-=", "*=", "/=")
DEEPEST = 128


class Expressions:
    """Tokens, read from the front."""

    def __init__(self, found: Iterable[Token]) -> None:
        self.found = list(found)
        self.place = 0
        self.levels = 0
        # what the profile's grammar hasn't, and is read all the same
        self.liberties: list[tuple[Place, str]] = []

    def peek(self, ahead: int = 0) -> str:
        """The text of a token that isn't read yet."""
        return self.token(ahead).text

    def token(self, ahead: int = 0) -> Token:
        """A token that isn't read yet; the end goes on for ever."""
        return self.found[min(self.place + ahead, len(self.found) - 1)]

    @property
    def at(self) -> Place:
        """The place of the next token."""
        return self.token().at

    def next(self) -> Token:
        """Reads a token."""
        it = self.token()
        self.place = min(self.place + 1, len(self.found) - 1)
        return it

    def take(self, text: str) -> bool:
        """Reads this token where it comes next."""
        if self.peek() == text and self.token().kind != "string":
            self.next()
            return True
        return False

    def need(self, text: str) -> None:
        """Reads this token, or refuses the text."""
        if not self.take(text):
            raise Refused(self.at, f"`{text}` is missing before {self.shown()}")

    def name(self, what: str) -> str:
        """Reads a name."""
        if self.token().kind != "name" or self.peek() in RESERVED:
            raise Refused(self.at, f"{what} is missing before {self.shown()}")
        return self.next().text

    def shown(self) -> str:
        """The next token, for a message."""
        return f"`{self.peek()[:24]}`" if self.token().kind != "end" else "the end"

    def liberty(self, at: Place, words: str) -> None:
        """Notes a form that the profile's grammar hasn't."""
        self.liberties.append((at, words))

    def enter(self) -> None:
        """Opens a level; refuses the text where it is nested too deep."""
        self.levels += 1
        if self.levels > DEEPEST:
            raise Refused(self.at, "nested too deep")

    def leave(self) -> None:
        """Closes a level."""
        self.levels -= 1

    def expression(self) -> Expression:
        """An expression, assignments among them."""
        self.enter()
        at, left = self.at, self.choice()
        if self.peek() in SETS and self.token().kind == "mark":
            sign = self.next().text
            left = Set(sign, left, self.expression(), at=at)
        self.leave()
        return left

    def choice(self) -> Expression:
        """`a ? b : c`, or what binds more tightly."""
        at, condition = self.at, self.infix(1)
        if not self.take("?"):
            return condition
        yes = self.expression()
        self.need(":")
        return Choice(condition, yes, self.expression(), at=at)

    def infix(self, least: int) -> Expression:
        """Values joined by signs that bind at least that tightly; chains group to the left."""
        left = self.prefix()
        while self.token().kind == "mark" and SIGNS.get(self.peek(), 0) >= least:
            sign = self.next()
            left = Infix(sign.text, left, self.infix(SIGNS[sign.text] + 1), at=sign.at)
        return left

    def prefix(self) -> Expression:
        """A value with signs before it."""
        at = self.at
        if self.token().kind == "mark" and self.peek() in ("-", "!", "+"):
            self.enter()
            sign = self.next().text
            value = self.prefix()
            self.leave()
            if sign == "+":
                self.liberty(at, "`+` before a value left out")
                return value
            return Prefix(sign, value, at=at)
        return self.primary()

    def primary(self) -> Expression:
        """A number, a string, a variable, a call, a type before a value, or an expression in parentheses."""
        it = self.token()
        if it.kind == "number":
            return Number(self.next().text, at=it.at)
        if it.kind == "string":
            return self.string()
        if it.text == "(":
            return self.parentheses()
        if it.kind == "name" and it.text in TYPES:
            return self.typed()
        if it.kind == "name":
            return self.named()
        raise Refused(it.at, f"no value begins with {self.shown()}")

    def string(self) -> String:
        """A string; strings that follow one another are one."""
        at, text = self.at, self.next().text
        while self.token().kind == "string":
            self.liberty(at, "strings that follow one another joined")
            text = text[:-1] + self.next().text[1:]
        return String(text, at=at)

    def parentheses(self) -> Expression:
        """An expression in parentheses, or three values in them."""
        at = self.next().at
        values = self.row(")")
        if len(values) == 1:
            return values[0]
        return Parts("", None, values, at=at)

    def typed(self) -> Expression:
        """What stands after a type."""
        kind = self.next()
        space = None
        if self.token().kind == "string" and kind.text != "string":
            space = String(self.peek(), at=self.next().at)
        self.enter()
        if self.peek() == "(":
            self.next()
            values = self.row(")")
            self.leave()
            if len(values) == 1:
                return Cast(kind.text, space, values[0], at=kind.at)
            return Parts(kind.text, space, values, at=kind.at)
        value = self.prefix()
        self.leave()
        return Cast(kind.text, space, value, at=kind.at)

    def named(self) -> Expression:
        """A variable, an element of one, or a call."""
        it = self.next()
        value: Expression = Name(it.text, at=it.at)
        if self.take("("):
            value = Call(it.text, self.row(")"), at=it.at)
        while self.take("["):
            value = Item(value, self.expression(), at=it.at)
            self.need("]")
        return value

    def row(self, closing: str) -> tuple[Expression, ...]:
        """Expressions with commas between them, up to a closing mark. A string may have a channel's number after it."""
        found: list[Expression] = []
        while not self.take(closing):
            if found:
                self.need(",")
            value = self.expression()
            if self.take("["):
                value = Item(value, self.expression(), at=value.at)
                self.need("]")
            found.append(value)
        return tuple(found)

    def initial(self) -> Expression:
        """The first value of a variable: an expression, or those of an array in braces."""
        at = self.at
        if not self.take("{"):
            return self.expression()
        found: list[Expression] = []
        while not self.take("}"):
            self.enter()
            found.append(self.initial())
            self.leave()
            if not self.take(",") and self.peek() != "}":
                raise Refused(self.at, f"`}}` is missing before {self.shown()}")
        return Items(tuple(found), at=at)
