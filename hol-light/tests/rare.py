"""Logs made by hand, one for each rarer way of the importer. Each function writes one log."""
import sys

from logs import BOOL, Log, app, bound, con, equation, free, fun, identity, lam, truth

A, B = ("var", "A"), ("var", "B")


def constant_before_its_definition(log):
    q = log.assumption(con("c", BOOL))
    r = log.refl(con("c", BOOL))
    d = log.constant("c", truth())
    log.results(q, r, log.rule("eqMp", d, q), log.assume(con("c", BOOL)), d)


def generic_constant_before_its_definition(log):
    r = log.refl(con("c", fun(A, A)))
    i = log.subst(r, [("A", BOOL)])
    d = log.constant("c", identity(B))
    log.results(r, i, d, log.rule("appThm", r, log.refl(free("x", A))))


def symbol_in_an_earlier_definition(log):
    log.constant("d", con("c", BOOL))
    log.constant("c", con("d", BOOL))


def symbol_in_its_own_definition(log):
    log.constant("c", con("c", BOOL))


def symbol_in_its_own_definition_at_another_type(log):
    function = fun(BOOL, BOOL)
    log.constant("c", app(lam(function, identity(BOOL)), con("c", function)))


def own_type_by_substitution(log):
    """The log is accepted; HOL Light can't say it."""
    d = log.constant("c", truth())
    r = log.refl(con("c", A))
    log.results(d, r, log.subst(r, [("A", BOOL)]))


def own_type_by_substitution_before_the_definition(log):
    """The log is accepted; HOL Light can't say it."""
    r = log.refl(con("c", A))
    i = log.subst(r, [("A", BOOL)])
    log.results(log.constant("c", truth()), r, i)


def other_type_by_substitution(log):
    d = log.constant("c", truth())
    r = log.refl(con("c", A))
    log.results(d, r, log.subst(r, [("A", fun(BOOL, BOOL))]))


def equals_at_other_types(log):
    r = log.refl(con("=", BOOL))
    q = log.refl(con("=", A))
    log.results(r, q, log.subst(q, [("A", fun(A, A))]))


def equals_comes_to_equality(log):
    """The log is accepted; HOL Light can't say it."""
    q = log.refl(con("=", A))
    log.results(q, log.subst(q, [("A", fun(BOOL, fun(BOOL, BOOL)))]))


def arities(log):
    types = [("op", name, arguments) for name, arguments in [
        ("->", ()), ("->", (BOOL,)), ("->", (BOOL, BOOL, BOOL)), ("bool", (BOOL,)), ("fun", ()), ("fun", (BOOL, BOOL)),
        ("fun", (BOOL,)), ("n", ()), ("n", (A,)), ("n", (A, BOOL)), ("bool", (BOOL, BOOL))]]
    for ty in types:
        log.results(log.refl(free("x", ty)))


def names_that_clash(log):
    names = ["a.b", "a\\.b", "a.b%1", "a\\.b%1", "", ".", "\\.", "->", "fun", "x", "x0", "x1", "x_0", "x__12", "\\\"", "\\\\"]
    for name in names:
        ty = ("op", name, ())
        function = app(free(name, fun(ty, fun(BOOL, BOOL))), bound(0), bound(1))
        log.results(log.refl(free(name, ty)), log.refl(con(name, ty)), log.refl(con(name, ("var", name))),
                    log.refl(lam(BOOL, lam(ty, function))))


def names_that_clash_in_definitions(log):
    log.results(log.constant("a.b", identity(BOOL)), log.constant("a\\.b", identity(fun(BOOL, BOOL))),
                log.constant("a.b%1", identity(BOOL)))


def assumptions_with_hypotheses(log):
    p, q, r = [free(name, BOOL) for name in "pqr"]
    e = equation(BOOL, p, q)
    for hypotheses in [(p,), (truth(),), (truth(), p), (p, truth(), q), (e,), (e, p, p), (r,), (p, q, r, e, truth())]:
        s = log.assumption(r, *hypotheses)
        log.results(s, log.assumption(truth(), *hypotheses))
        log.results(log.rule("deductAntisym", s, log.assume(p)))
    s = log.assumption(r, p, truth())
    log.results(s, log.subst(s, [], [("r", BOOL, p), ("p", BOOL, truth())]))


def binary_predicate_type(variables):
    ty = BOOL
    for variable in variables:
        ty = fun(("var", variable), ty)
    return ty


def type_definition(log):
    premise = log.inhabited(binary_predicate_type("AB"))
    log.results(*log.type_operator("n", "AB", premise))


def type_variables_in_another_order(log):
    ty = binary_predicate_type("AB")
    first, second = log.type_operator("n", "BA", log.inhabited(ty))
    n = ("op", "n", (A, BOOL))
    log.results(first, second, log.refl(free("x", n)), log.refl(con("n_rep", fun(n, ty))), log.subst(first, [("A", BOOL)]))


def type_variables_beside_those_of_the_predicate(log):
    first, second = log.type_operator("n", "ZBCAP", log.inhabited(binary_predicate_type("AB")))
    log.results(first, second, log.subst(second, [("Z", A), ("A", ("var", "P"))]))


def type_operator_before_its_definition(log):
    n = ("op", "n", (A,))
    x = log.refl(free("x", n))
    y = log.refl(free("x", ("op", "n", ())))
    c = log.refl(con("n_abs", fun(BOOL, n)))
    i = log.subst(x, [("A", BOOL)])
    q = log.assumption(free("p", BOOL), equation(n, free("x", n), con("k", n)))
    first, second = log.type_operator("n", "A", log.inhabited(fun(A, BOOL)))
    log.results(x, y, c, i, q, first, second)


def type_operator_in_use(log):
    log.constant("k", identity(("op", "n", ())))
    log.type_operator("n", "", log.inhabited(BOOL))


def two_constants_at_once(log):
    """From the theorem v = T, w = (\\x. x) |- f v w = f T (\\x. x), where f is \\a. \\b. b."""
    function = fun(A, A)
    v, w = free("v", BOOL), free("v", function)
    left = log.assume(equation(BOOL, v, truth()))
    right = log.assume(equation(function, w, identity(A)))
    f = log.refl(lam(BOOL, lam(function, bound(0))))
    premise = log.rule("appThm", log.rule("appThm", f, left), right)
    log.results(premise, log.constants([("c.one", "v", BOOL), ("c.two", "v", function)], premise))


def no_constant(log):
    premise = log.refl(identity(A))
    log.results(log.constants([], premise), log.constants([], premise))


def variables_that_become_one(log):
    x, y = free("x", A), free("y", BOOL)
    f = free("f", fun(A, fun(BOOL, BOOL)))
    r = log.refl(app(f, x, y))
    g = log.refl(lam(A, app(lam(BOOL, app(f, bound(1), bound(0))), y)))
    log.results(log.subst(r, [("A", BOOL), ("A", fun(A, BOOL))], [("x", BOOL, y), ("x", BOOL, x)]),
                log.subst(g, [("A", BOOL)]), log.subst(r, [], [("x", A, free("y", A))]), g)


def variables_that_would_be_caught(log):
    x = free("x", BOOL)
    f = free("f", fun(BOOL, fun(BOOL, BOOL)))
    r = log.refl(lam(BOOL, app(f, bound(0), x)))
    a = log.abs_thm("x", BOOL, log.refl(x))
    b = log.abs_thm("x0", BOOL, log.refl(lam(BOOL, app(f, bound(0), free("x0", BOOL)))))
    log.results(r, log.subst(r, [], [("x", BOOL, free("x0", BOOL))]), a, b)


def without_a_type():
    x = free("x", BOOL)
    return app(x, x)


def term_without_a_type_that_no_step_uses(log):
    log.term(without_a_type())
    log.results(log.refl(free("x", BOOL)))


def second_pair_without_a_type(log):
    log.results(log.subst(log.refl(free("x", BOOL)), [], [("x", BOOL, free("y", BOOL)), ("x", BOOL, without_a_type())]))


def pair_without_a_type_for_another_variable(log):
    log.subst(log.refl(free("x", BOOL)), [], [("z", BOOL, without_a_type())])


def open_term_for_another_variable(log):
    log.subst(log.refl(free("x", BOOL)), [], [("z", BOOL, bound(0))])


def variable_free_in_a_hypothesis(log):
    x = free("x", BOOL)
    log.abs_thm("x", BOOL, log.rule("deductAntisym", log.assume(x), log.refl(x)))


def free_variable_in_a_definition(log):
    log.constant("c", free("x", BOOL))


def type_variable_not_in_the_type(log):
    log.constant("c", equation(fun(A, A), identity(A), identity(A)))


def primitive_symbol(log):
    log.constant("=", identity(BOOL))


def defined_twice(log):
    log.constant("c", identity(BOOL))
    log.constant("c", identity(BOOL))


def many_definitions(count):
    log = Log()
    for k in range(count):
        log.constant("c%d" % k, identity(BOOL))
    return log.text()


def shared_term(doublings):
    """A term that doubles so often, with y put in for x."""
    log = Log()
    f = free("f", fun(BOOL, fun(BOOL, BOOL)))
    log.ty(BOOL)
    term = log.term(free("x", BOOL))
    function = log.term(f)
    for k in range(doublings):
        log.put("app", function, term, "app", len(log.terms) + 2 * k, term)
        term = len(log.terms) + 2 * k + 1
    r = log.made("refl", term)
    y = len(log.terms) + 2 * doublings
    log.put("free", log.quoted("y"), log.types[BOOL])
    log.made("subst", r, 0, 1, log.quoted("x"), log.types[BOOL], y)
    log.put("refl", y, "result", 2)
    return log.text()


def deep_sequent(depth):
    """|- t = t, where t is nested so deep; the sequent is two deeper."""
    log = Log()
    function = log.term(free("f", fun(BOOL, BOOL)))
    term = log.term(free("x", BOOL))
    for _ in range(depth - 1):
        log.put("app", function, term)
        term += 1
    log.results(log.made("refl", term))
    return log.text()


# ---- Logs for a session that has HOL Light's booleans, by HOL Light's names. ----

def excluded_middle():
    disjunction = app(con("\\\\/", fun(BOOL, fun(BOOL, BOOL))), bound(0), app(con("~", fun(BOOL, BOOL)), bound(0)))
    return app(con("!", fun(fun(BOOL, BOOL), BOOL)), lam(BOOL, disjunction))


def session_logs():
    """The logs by name: each says something else of what the session has."""
    made = {name: Log() for name in ("other_type", "other_definition", "assumption", "assumption_with_hypothesis", "no_theorem")}
    made["other_type"].constant("T", identity(BOOL))
    log = made["other_definition"]
    log.results(log.constant("T", truth(fun(BOOL, BOOL))))
    log = made["assumption"]
    log.results(log.assumption(excluded_middle()))
    log = made["assumption_with_hypothesis"]
    log.results(log.assumption(excluded_middle(), free("p", BOOL)))
    log = made["no_theorem"]
    log.constant("new", truth())
    log.results(log.assumption(con("F", BOOL)))
    return {name: log.text() for name, log in made.items()}


def all_logs():
    """The logs by name."""
    made = {"sequent_nested_as_deep_as_may_be": deep_sequent(4126), "sequent_nested_deeper": deep_sequent(4127),
            "term_nested_deeper": deep_sequent(4129), "shared_term": shared_term(12), "many_definitions": many_definitions(200)}
    for name, function in list(globals().items()):
        takes_log = getattr(function, "__code__", None) and function.__code__.co_varnames[:1] == ("log",)
        if takes_log and function.__module__ == __name__:
            log = Log()
            function(log)
            made[name] = log.text()
    return made


if __name__ == "__main__":
    # rare.py FOLDER: writes the logs for a session into a folder.
    for log_name, log_text in session_logs().items():
        with open("%s/%s.log" % (sys.argv[1], log_name), "wb") as file:
            file.write(log_text)
