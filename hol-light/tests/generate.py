"""Random proof logs. generate(seed) gives the text of one: mostly a proof, sometimes with a step that doesn't follow.

A step is chosen with a small model of the logic, so that it mostly follows; whether it does is for the checkers to say.
"""
import random

from logs import BOOL, Log, app, bound, con, equation, free, fun, identity, lam, truth

A, B = ("var", "A"), ("var", "B")


def type_of(term, binders=()):
    kind = term[0]
    if kind in ("free", "con"):
        return term[2]
    if kind == "bound":
        return binders[term[1]]
    if kind == "lam":
        return fun(term[1], type_of(term[2], (term[1],) + binders))
    return type_of(term[1], binders)[2][1]


def map_term(term, leaf, depth=0):
    """The term with each leaf changed, which may depend on the binders around it."""
    kind = term[0]
    if kind == "app":
        return ("app", map_term(term[1], leaf, depth), map_term(term[2], leaf, depth))
    if kind == "lam":
        return ("lam", term[1], map_term(term[2], leaf, depth + 1))
    return leaf(term, depth)


def shifted(term, by):
    """A term put under more binders."""
    return map_term(term, lambda leaf, depth: bound(leaf[1] + by) if leaf[0] == "bound" and leaf[1] >= depth else leaf)


def opened(body, term):
    """The body of an abstraction with a term for its variable."""
    def leaf(part, depth):
        if part == bound(depth):
            return shifted(term, depth)
        if part[0] == "bound" and part[1] > depth:
            return bound(part[1] - 1)
        return part
    return map_term(body, leaf)


def closed(term, variable):
    """The body of the abstraction over a variable."""
    def leaf(part, depth):
        if part == variable:
            return bound(depth)
        if part[0] == "bound" and part[1] >= depth:
            return bound(part[1] + 1)
        return part
    return map_term(term, leaf)


def type_subst(types, ty):
    if ty[0] == "var":
        return types.get(ty[1], ty)
    return ("op", ty[1], tuple(type_subst(types, argument) for argument in ty[2]))


def instance(term, types, terms):
    kind = term[0]
    if kind == "app":
        return ("app", instance(term[1], types, terms), instance(term[2], types, terms))
    if kind == "lam":
        return ("lam", type_subst(types, term[1]), instance(term[2], types, terms))
    if kind == "bound":
        return term
    leaf = (kind, term[1], type_subst(types, term[2]))
    return terms.get(leaf, leaf) if kind == "free" else leaf


def frees(term):
    if term[0] == "free":
        return {term}
    if term[0] == "app":
        return frees(term[1]) | frees(term[2])
    return frees(term[2]) if term[0] == "lam" else set()


def type_variables(ty):
    if ty[0] == "var":
        return {ty[1]}
    return set().union(*(type_variables(argument) for argument in ty[2])) if ty[2] else set()


def all_type_variables(term):
    if term[0] in ("free", "con"):
        return type_variables(term[2])
    if term[0] == "app":
        return all_type_variables(term[1]) | all_type_variables(term[2])
    if term[0] == "lam":
        return type_variables(term[1]) | all_type_variables(term[2])
    return set()


def sides(term):
    """The sides of an equation, or none."""
    if term[0] == "app" and term[1][0] == "app" and term[1][1][0] == "con" and term[1][1][1] == "=":
        return term[1][2], term[2]
    return None


class Generator:
    def __init__(self, seed, prefix):
        self.random = random.Random(seed)
        self.prefix = prefix     # of the names of all symbols
        self.log = Log()
        self.proved = []         # number, hypotheses, conclusion
        self.operators = [(prefix + "n", 0), (prefix + "m", 1)]
        self.constants = [(prefix + "c", None), (prefix + "d", None)]      # name, type it is defined at
        self.fresh = 0

    def choose(self, items):
        return self.random.choice(list(items))

    def chance(self, percent):
        return self.random.randrange(100) < percent

    # ---- Random types and terms. ----

    def a_type(self, depth=2):
        if depth == 0 or self.chance(50):
            return self.choose([BOOL, BOOL, A, B])
        if self.chance(75):
            return fun(self.a_type(depth - 1), self.a_type(depth - 1))
        name, arity = self.choose(self.operators)
        return ("op", name, tuple(self.a_type(depth - 1) for _ in range(arity)))

    def a_constant(self, ty):
        name, defined = self.choose(self.constants)
        return con(name, defined if defined and self.chance(70) else ty)

    def a_term(self, ty, depth=3, binders=(), is_closed=False):
        places = [bound(k) for k, binder in enumerate(binders) if binder == ty]
        if places and self.chance(50):
            return self.choose(places)
        if depth > 0 and ty[:2] == ("op", "->") and len(ty[2]) == 2 and self.chance(60):
            body = self.a_term(ty[2][1], depth - 1, (ty[2][0],) + binders, is_closed)
            return lam(ty[2][0], body)
        if depth > 0 and ty == BOOL and self.chance(50):
            side = self.a_type(1)
            return equation(side, self.a_term(side, depth - 1, binders, is_closed),
                            self.a_term(side, depth - 1, binders, is_closed))
        if depth > 0 and self.chance(50):
            argument = self.a_type(1)
            return app(self.a_term(fun(argument, ty), depth - 1, binders, is_closed),
                       self.a_term(argument, depth - 1, binders, is_closed))
        constant = self.a_constant(ty)
        if constant[2] == ty and (is_closed or self.chance(40)):
            return constant
        return con(self.prefix + "k", ty) if is_closed else free(self.choose("xyz"), ty)

    def new_name(self, stem):
        self.fresh += 1
        return "%s%s.%s%d" % (self.prefix, self.choose(["a", "b"]), stem, self.fresh)

    # ---- Steps. Each writes records, and notes what they prove. ----

    def prove(self, number, hypotheses, conclusion):
        self.proved.append((number, frozenset(hypotheses), conclusion))

    def refl(self):
        term = self.a_term(self.a_type())
        self.prove(self.log.refl(term), (), equation(type_of(term), term, term))

    def assume(self):
        term = self.a_term(BOOL)
        self.prove(self.log.assume(term), (term,), term)

    def assumption(self):
        term = self.a_term(BOOL)
        hypotheses = [self.a_term(BOOL, 1) for _ in range(self.choose([0, 0, 1, 2]))]
        self.prove(self.log.assumption(term, *hypotheses), hypotheses, term)

    def deduct_antisym(self):
        (s, g, p), (r, d, q) = self.choose(self.proved), self.choose(self.proved)
        number = self.log.rule("deductAntisym", s, r)
        self.prove(number, (g - {q}) | (d - {p}), equation(BOOL, p, q))

    def eq_mp(self):
        pairs = [(e, p) for e in self.proved for p in self.proved if sides(e[2]) and sides(e[2])[0] == p[2]]
        if pairs:
            (s, g, e), (r, d, _) = self.choose(pairs)
            self.prove(self.log.rule("eqMp", s, r), g | d, sides(e)[1])

    def app_thm(self):
        s, g, e = self.choose(self.proved)
        if sides(e):
            left, right = sides(e)
            f = self.a_term(fun(type_of(left), self.a_type(1)), 2)
            number = self.log.rule("appThm", self.log.refl(f), s)
            self.prove(number, g, equation(type_of(f)[2][1], app(f, left), app(f, right)))

    def abs_thm(self):
        s, g, e = self.choose(self.proved)
        if sides(e):
            left, right = sides(e)
            variable = self.choose(sorted(frees(e)) or [free("x", A)])
            if self.chance(95) and any(variable in frees(h) for h in g):
                return
            number = self.log.abs_thm(variable[1], variable[2], s)
            ty = fun(variable[2], type_of(left))
            self.prove(number, g, equation(ty, lam(variable[2], closed(left, variable)), lam(variable[2], closed(right, variable))))

    def beta_conv(self):
        argument = self.a_type(1)
        body = self.a_term(self.a_type(1), 3, (argument,))
        term = self.a_term(argument, 2)
        redex = app(lam(argument, body), term)
        reduced = opened(body, term)
        self.prove(self.log.beta_conv(redex), (), equation(type_of(reduced), redex, reduced))

    def subst(self):
        s, g, p = self.choose(self.proved)
        types = [(name, self.a_type(1)) for name in "AB" if self.chance(40)]
        map_types = dict(types)
        variables = {instance(v, map_types, {}) for h in g | {p} for v in frees(h)}
        terms = [(v, self.a_term(v[2], 2)) for v in sorted(variables) if self.chance(50)]
        number = self.log.subst(s, types, [(v[1], v[2], term) for v, term in terms])
        self.prove(number, [instance(h, map_types, dict(terms)) for h in g], instance(p, map_types, dict(terms)))

    def define_constant(self):
        term = self.a_term(self.a_type(), 3, (), True)
        if all_type_variables(term) <= type_variables(type_of(term)) or self.chance(5):
            name = self.new_name("c") if self.chance(85) else self.choose(self.constants)[0]
            self.prove(self.log.constant(name, term), (), equation(type_of(term), con(name, type_of(term)), term))
            self.constants.append((name, type_of(term)))

    def define_constants(self):
        terms = [self.a_term(self.a_type(), 2, (), True) for _ in range(self.choose([1, 2, 2, 3]))]
        if not all(all_type_variables(term) <= type_variables(type_of(term)) for term in terms):
            return
        function = truth()
        for term in reversed(terms):
            function = lam(type_of(term), function)
        premise, pairs = self.log.refl(function), []
        for k, term in enumerate(terms):
            ty = type_of(term)
            equal = self.log.assume(equation(ty, free("v%d" % k, ty), term))
            premise = self.log.rule("appThm", premise, equal)
            pairs.append((self.new_name("l"), "v%d" % k, ty))
        number = self.log.constants(pairs, premise)
        applied = [app(function, *(con(name, ty) for name, _, ty in pairs)), app(function, *terms)]
        self.prove(number, (), equation(BOOL, *applied))
        self.constants += [(name, ty) for name, _, ty in pairs]

    def define_type(self):
        ty = self.a_type()
        inside = sorted(type_variables(ty))
        listed = self.random.sample(inside, len(inside)) + (["Z"] if self.chance(20) else [])
        name = self.new_name("t") if self.chance(85) else self.choose(self.operators)[0]
        premise = self.log.inhabited(ty)
        first, second = self.log.type_operator(name, listed, premise)
        new = ("op", name, tuple(("var", variable) for variable in listed))
        abs_, rep = con(name + "_abs", fun(ty, new)), con(name + "_rep", fun(new, ty))
        self.prove(first, (), equation(fun(new, new), lam(new, app(abs_, app(rep, bound(0)))), identity(new)))
        fixed = equation(ty, app(rep, app(abs_, bound(0))), bound(0))
        self.prove(second, (), equation(fun(ty, BOOL), lam(ty, fixed), lam(ty, app(lam(ty, truth(ty)), bound(0)))))
        self.operators.append((name, len(listed)))
        self.constants += [(name + "_abs", fun(ty, new)), (name + "_rep", fun(new, ty))]

    def result(self):
        self.log.results(self.choose(self.proved)[0])

    def generate(self):
        self.refl()
        self.assume()
        rules = [self.refl, self.assume, self.deduct_antisym, self.eq_mp, self.app_thm, self.abs_thm, self.beta_conv, self.subst]
        others = [self.assumption, self.define_constant, self.define_constants, self.define_type, self.result]
        for _ in range(self.random.randrange(10, 60)):
            self.choose(rules + rules + others)()
        for _ in range(3):
            self.result()
        return self.log.text()


def generate(seed, prefix=""):
    return Generator(seed, prefix).generate()
