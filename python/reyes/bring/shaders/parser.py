"""Reading a shader's text: declarations, statements, functions and the shader itself, in all forms that compilers accepted."""
from __future__ import annotations

from reyes.bring.shaders.expressions import TYPES, Expressions
from reyes.bring.shaders.lexer import tokens
from reyes.bring.shaders.tree import (
    Block, Declare, Do, Expression, File, For, Formal, Function, If, Infix, Jump, Lights, Node, Number, Place, Refused, Return, Shader, Statement,
    Variable, While, children,
)

KINDS = ("surface", "displacement", "light", "volume", "imager", "transformation", "deformation")
DETAILS = ("uniform", "varying")
DECLARING = (*DETAILS, "extern", "output", "constant")
LIGHTS = ("illuminance", "illuminate", "solar", "gather")
TALLEST = 250


def parsed(text: str, name: str) -> tuple[File, list[tuple[Place, str]]]:
    """The tree of a shader's text, and the forms in it that the profile's grammar hasn't. Raises Refused where it isn't a shader's."""
    reader = Parser(tokens(text, name))
    file = reader.file()
    row: list[tuple[int, Node]] = [(1, file)]
    while row:
        height, node = row.pop()
        if height > TALLEST:
            raise Refused(file.shader.at, "an expression of too many parts")
        row.extend((height + 1, it) for it in children(node))
    return file, reader.liberties


class Parser(Expressions):
    """Reads a file from its tokens."""

    def file(self) -> File:
        """The functions and the shader; whatever follows the shader are functions too."""
        functions: list[Function] = []
        shader: Shader | None = None
        while self.token().kind != "end":
            at = self.at
            if self.take(";"):
                self.liberty(at, "`;` between functions left out")
                continue
            if self.peek() in KINDS and self.token(1).kind == "name" and self.peek(2) == "(" and shader is None:
                shader = Shader(self.next().text, self.name("the shader's name"), self.formals(), self.block(), at=at)
            elif self.token().kind == "name":
                if shader is not None:
                    self.liberty(at, "a function after the shader put before it")
                functions.append(self.function())
            else:
                raise Refused(self.at, f"no function and no shader begins with {self.shown()}")
        if shader is None:
            raise Refused(self.at, "there is no shader in the file")
        return File(tuple(functions), shader)

    def function(self) -> Function:
        """A function; where no type stands before its name it gives a float."""
        at = self.at
        if self.peek() not in TYPES:
            self.liberty(at, "`float` put before a function, or a class before its type left out")
        while self.peek() in DECLARING:
            self.next()
        kind = self.next().text if self.peek() in TYPES else "float"
        name = self.name("a function's name")
        return Function(kind, name, self.formals(), self.block(), at=at)

    def formals(self) -> tuple[Formal, ...]:
        """The parameters of a shader or a function."""
        self.need("(")
        found: list[Formal] = []
        output, detail, kind, before = False, "", "", ";"
        while not self.take(")"):
            if self.peek() in (";", ","):
                if before in (";", ","):
                    self.liberty(self.at, "a comma or semicolon without a parameter left out")
                before = self.next().text
                continue
            heads = self.peek() in DECLARING or self.peek() in TYPES
            if heads != (before == ";"):
                self.liberty(self.at, "parameters parted as the grammar has it")
            if heads:
                output, detail, kind = self.heading()
            before = ""
            if not kind:
                raise Refused(self.at, f"a type is missing before {self.shown()}")
            at, name = self.at, self.name("a parameter's name")
            length, value = self.length_and_value()
            found.append(Formal(output, detail, kind, name, length, value, at=at))
        if before == ",":
            self.liberty(self.at, "a comma or semicolon without a parameter left out")
        return tuple(found)

    def heading(self) -> tuple[bool, str, str]:
        """`output`, a class and a type, in whatever order they stand."""
        output, detail, kind, at = False, "", "", self.at
        while self.peek() in DECLARING or (self.peek() in TYPES and not kind):
            word = self.next().text
            if word == "constant" or not (detail == "" or word in TYPES) or (kind and word in DETAILS):
                self.liberty(at, "the class of a variable written before its type")
            output = output or word == "output"
            detail = word if word in DETAILS else detail
            kind = word if word in TYPES else kind
        if not kind:
            self.liberty(at, "`float` put before a variable")
        return output, detail, kind or "float"

    def length_and_value(self) -> tuple[Expression | None, Expression | None]:
        """An array's length and a first value after a name; a length that isn't said is 0."""
        length: Expression | None = None
        value: Expression | None = None
        if self.take("["):
            length = Number("0") if self.peek() == "]" else self.expression()
            self.need("]")
        if self.take("="):
            value = self.initial()
        return length, value

    def block(self) -> Block:
        """Statements in braces."""
        at = self.at
        self.need("{")
        found: list[Statement] = []
        while not self.take("}"):
            if self.token().kind == "end":
                raise Refused(self.at, "`}` is missing at the end")
            found.append(self.statement())
        return Block(tuple(found), at=at)

    def statement(self) -> Statement:
        """One statement."""
        self.enter()
        found = self.one()
        self.leave()
        return found

    def one(self) -> Statement:
        """One statement, by the word that it begins with."""
        at, word = self.at, self.peek()
        if self.token().kind == "string":
            raise Refused(at, "no statement begins with a string")
        if self.take(";"):
            return Block((), at=at)
        if word == "{":
            return self.block()
        if word in ("if", "while", "for"):
            return self.control(word)
        if word in LIGHTS and self.peek(1) == "(":
            return self.lights()
        if word in ("break", "continue"):
            return self.jump()
        if word == "return":
            self.next()
            value = None if self.peek() == ";" else self.expression()
            self.need(";")
            return Return(value, at=at)
        if self.declares():
            return self.declaration()
        value = self.expression()
        self.need(";")
        return Do(value, at=at)

    def control(self, word: str) -> Statement:
        """`if`, `while` and `for`."""
        at = self.next().at
        self.need("(")
        if word == "for":
            return self.loop()
        condition = self.expression()
        self.need(")")
        body = self.statement()
        if word == "while":
            return While(condition, body, at=at)
        return If(condition, body, self.statement() if self.take("else") else None, at=at)

    def loop(self) -> Statement:
        """What follows `for (`; variables that are declared there are declared before the loop."""
        at = self.at
        before = self.declaration() if self.declares() else None
        if before:
            self.liberty(at, "a declaration in a `for` put before it")
        first = () if before else self.sets(";")
        condition: Expression = Infix("==", Number("1"), Number("1"), at=at)
        if self.take(";"):
            self.liberty(at, "a `for` without a condition given one")
        else:
            condition = self.expression()
            self.need(";")
        last = self.sets(")")
        whole = For(first, condition, last, self.statement(), at=at)
        return Block((before, whole), at=at) if before else whole

    def sets(self, closing: str) -> tuple[Expression, ...]:
        """The assignments in the head of a `for`."""
        return self.row(closing)

    def lights(self) -> Lights:
        """`illuminance`, `illuminate`, `solar` and `gather`."""
        it = self.next()
        self.next()
        arguments = self.row(")")
        body = self.statement()
        otherwise = self.statement() if it.text == "gather" and self.take("else") else None
        return Lights(it.text, arguments, body, otherwise, at=it.at)

    def jump(self) -> Jump:
        """`break` and `continue`, with how many loops they leave."""
        it = self.next()
        levels = 1
        if self.token().kind == "number":
            text = self.next().text
            levels = int(text) if text.isdigit() and len(text) < 3 else 99
        self.need(";")
        return Jump(it.text, levels, at=it.at)

    def declares(self) -> bool:
        """Whether a declaration comes next, of variables or of a function."""
        ahead = 0
        while self.peek(ahead) in DECLARING:
            ahead += 1
        if self.peek(ahead) not in TYPES:
            return ahead > 0
        if self.token(ahead + 1).kind != "name" or self.peek(ahead + 1) in TYPES:
            return False
        after = self.peek(ahead + 2)
        return after in ("=", ";", ",", "[") or (after == "(" and self.is_function(ahead + 2))

    def is_function(self, ahead: int) -> bool:
        """Whether a brace stands after the parentheses that open there: a call after a type has none."""
        depth, place = 0, self.place + ahead
        while place < len(self.found):
            it = self.found[place]
            if it.kind == "mark":
                depth += (it.text == "(") - (it.text == ")")
            place += 1
            if depth == 0:
                break
        return place < len(self.found) and self.found[place].text == "{"

    def declaration(self) -> Statement:
        """Variables, or a function inside another."""
        at, start = self.at, self.place
        extern = False
        while self.peek() in DECLARING:
            extern = self.next().text == "extern" or extern
        if self.peek() in TYPES and self.peek(2) == "(":
            self.place = start
            return self.function()
        self.place = start
        detail, kind = self.heading()[1:]
        found = []
        while True:
            here, name = self.at, self.name("a variable's name")
            length, value = self.length_and_value()
            found.append(Variable(name, length, value, at=here))
            if not self.take(","):
                break
        self.need(";")
        return Declare(detail, extern, kind, tuple(found), at=at)
