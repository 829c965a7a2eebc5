"""Proof logs as text, and as records that can be moved.

A Log is written record by record; its methods give the numbers that later records name. Types and terms are small trees,
written once each:

    ("var", name)  ("op", name, arguments)                                              types
    ("free", name, type)  ("con", name, type)  ("bound", k)  ("app", f, x)  ("lam", type, body)     terms
"""

BOOL = ("op", "bool", ())


def fun(a, b):
    return ("op", "->", (a, b))


def free(name, ty):
    return ("free", name, ty)


def con(name, ty):
    return ("con", name, ty)


def bound(k):
    return ("bound", k)


def app(f, *xs):
    for x in xs:
        f = ("app", f, x)
    return f


def lam(ty, body):
    return ("lam", ty, body)


def equation(ty, left, right):
    return app(con("=", fun(ty, fun(ty, BOOL))), left, right)


def identity(ty):
    return lam(ty, bound(0))


def truth(ty=BOOL):
    return equation(fun(ty, ty), identity(ty), identity(ty))


class Log:
    def __init__(self):
        self.lines = ["otlog", "1"]
        self.types = {}
        self.terms = {}
        self.sequents = 0

    def put(self, *tokens):
        self.lines += [str(token) for token in tokens]

    def quoted(self, name):
        return '"%s"' % name

    def ty(self, ty):
        if ty not in self.types:
            if ty[0] == "var":
                self.put("tyvar", self.quoted(ty[1]))
            else:
                arguments = [self.ty(argument) for argument in ty[2]]
                self.put("tyop", self.quoted(ty[1]), len(arguments), *arguments)
            self.types[ty] = len(self.types)
        return self.types[ty]

    def term(self, term):
        if term not in self.terms:
            kind = term[0]
            if kind in ("free", "con"):
                ty = self.ty(term[2])
                self.put(kind, self.quoted(term[1]), ty)
            elif kind == "bound":
                self.put("bound", term[1])
            elif kind == "app":
                f, x = self.term(term[1]), self.term(term[2])
                self.put("app", f, x)
            else:
                ty, body = self.ty(term[1]), self.term(term[2])
                self.put("lam", ty, body)
            self.terms[term] = len(self.terms)
        return self.terms[term]

    def made(self, *tokens):
        self.put(*tokens)
        self.sequents += 1
        return self.sequents - 1

    def refl(self, term):
        return self.made("refl", self.term(term))

    def assume(self, term):
        return self.made("assume", self.term(term))

    def beta_conv(self, term):
        return self.made("betaConv", self.term(term))

    def rule(self, word, first, second):
        return self.made(word, first, second)

    def abs_thm(self, name, ty, sequent):
        return self.made("absThm", self.quoted(name), self.ty(ty), sequent)

    def subst(self, sequent, types=(), terms=()):
        tokens = [len(types)]
        for name, ty in types:
            tokens += [self.quoted(name), self.ty(ty)]
        tokens.append(len(terms))
        for name, ty, term in terms:
            tokens += [self.quoted(name), self.ty(ty), self.term(term)]
        return self.made("subst", sequent, *tokens)

    def assumption(self, term, *hypotheses):
        conclusion = self.term(term)
        hypotheses = [self.term(hypothesis) for hypothesis in hypotheses]
        return self.made("assumption", conclusion, len(hypotheses), *hypotheses)

    def constant(self, name, term):
        term = self.term(term)
        return self.made("constant", self.quoted(name), term)

    def constants(self, pairs, premise):
        tokens = [len(pairs)]
        for name, variable, ty in pairs:
            tokens += [self.quoted(name), self.quoted(variable), self.ty(ty)]
        return self.made("constants", *tokens, premise)

    def type_operator(self, name, variables, premise):
        quoted = [self.quoted(variable) for variable in variables]
        first = self.made("typeOperator", self.quoted(name), self.quoted(name + "_abs"),
                          self.quoted(name + "_rep"), len(quoted), *quoted, premise)
        self.sequents += 1
        return first, first + 1

    def results(self, *sequents):
        for sequent in sequents:
            self.put("result", sequent)

    def symmetric(self, sequent, ty, left):
        """From the number of |- left = r at a type the number of |- r = left."""
        equals = self.refl(con("=", fun(ty, fun(ty, BOOL))))
        same = self.refl(left)
        both = self.rule("appThm", self.rule("appThm", equals, sequent), same)
        return self.rule("eqMp", both, same)

    def inhabited(self, ty):
        """The number of |- p w, where p is true of everything of a type."""
        predicate = lam(ty, truth(ty))
        redex = app(predicate, free("w", ty))
        reduced = self.beta_conv(redex)
        back = self.symmetric(reduced, BOOL, redex)
        return self.rule("eqMp", back, self.refl(identity(ty)))

    def text(self):
        return ("\n".join(self.lines) + "\n").encode("latin-1")


# The operands of records: N a name, i a type, e a term, s a sequent, k a count of what stands in parentheses.
OPERANDS = {
    "tyvar": "N", "tyop": "Nk(i)", "free": "Ni", "con": "Ni", "bound": "n", "app": "ee", "lam": "ie",
    "refl": "e", "assume": "e", "eqMp": "ss", "absThm": "Nis", "appThm": "ss", "deductAntisym": "ss",
    "betaConv": "e", "subst": "sk(Ni)k(Nie)", "assumption": "ek(e)", "constant": "Ne", "constants": "k(NNi)s",
    "typeOperator": "NNNk(N)s", "result": "s"}

WITHOUT_SEQUENT = ("tyvar", "tyop", "free", "con", "bound", "app", "lam", "result")


def operands(word, tokens, at):
    """The kinds of the operands of a record whose first operand is the token at a place."""
    kinds = []
    form = OPERANDS[word]
    while form:
        if form[0] == "k":
            inside = form[2:form.index(")")]
            kinds.append("k")
            kinds += inside * int(tokens[at + len(kinds) - 1])
            form = form[form.index(")") + 1:]
        else:
            kinds.append(form[0])
            form = form[1:]
    return kinds


def records(text):
    """The records of a log: word, operands with their kinds, numbers of the sequents that it makes."""
    tokens = text.decode("latin-1").split("\n")[2:-1]
    found, sequents, at = [], 0, 0
    while at < len(tokens):
        word = tokens[at]
        kinds = operands(word, tokens, at + 1)
        made = 2 if word == "typeOperator" else 0 if word in WITHOUT_SEQUENT else 1
        found.append((word, list(zip(kinds, tokens[at + 1:])), list(range(sequents, sequents + made))))
        sequents += made
        at += 1 + len(kinds)
    return found


def moved(found, at, to):
    """The text of the log whose record at a place stands behind as many of the others as `to` says."""
    rest = found[:at] + found[at + 1:]
    ordered = rest[:to] + [found[at]] + rest[to:]
    numbers = {}
    for _, _, made in ordered:
        for sequent in made:
            numbers[sequent] = len(numbers)
    lines = ["otlog", "1"]
    for word, tokens, _ in ordered:
        lines.append(word)
        lines += [str(numbers[int(token)]) if kind == "s" else token for kind, token in tokens]
    return ("\n".join(lines) + "\n").encode("latin-1")


def used_sequents(record):
    return {int(token) for kind, token in record[1] if kind == "s"}
