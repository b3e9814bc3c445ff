"""Writes the equations of the definitions on typed nodes, one a variant: what holds of a node, by what holds of its parts.
Those of every fold stand in crates/typed_tree/proofs/At.antt; those of one definition are instances of them. Run it at the top
of the checkout.
"""

EXPRESSIONS = """Const: ℕ|Captured: CapturedWord ℕ|Var: ℕ|SetVar: ℕ Expr|PostVar: ℕ Width ℕ|VGet: ℕ|VSet: ℕ Expr|VPost: ℕ ℕ
Frame: ℕ|Load: Width Expr|Store: Width Expr Expr|Modify: Width BinKind Expr Expr|Post: Width ℕ Expr|Bin: BinKind Expr Expr
Un: UnKind Expr|And: Expr Expr|Or: Expr Expr|Cond: Expr Expr Expr|Comma: Expr Expr|Void: Expr|Call: Answer ℕ Exprs
CallNumber: Answer Expr Exprs|Getchar:|Lib: Library Expr|Tick: ℕ Exprs|Capture: CaptureKind Expr|Splice: Answer ℕ
Compile: Expr|Local:|ParamOf: Expr"""
STATEMENTS = """Eval: Expr|Block: Stmts Stmts|Variable: ℕ|Object: ℕ ℕ|Parameter: ℕ Width|ParameterObject: ℕ Width ℕ|If: Expr Stmt
IfElse: Expr Stmt Stmt|While: Expr Stmt|Do: Stmt Expr|For: Expr Stmt|ForStep: Expr Expr Stmt|Switch: Expr Stmts Stmts
Case: ℕ|Default:|Break:|Continue:|Return:|ReturnValue: Expr"""
TYPES = """use Rattle.word32.specs.declared.width.Width.{Width}
use Rattle.icode_ops.specs.declared.kind.BinKind.{BinKind}
use Rattle.icode_ops.specs.declared.kind.UnKind.{UnKind}
use Rattle.typed_tree.specs.declared.expression.Answer.{Answer}
use Rattle.typed_tree.specs.declared.expression.Library.{Library}
use Rattle.typed_tree.specs.declared.expression.CaptureKind.{CaptureKind}
use Rattle.typed_tree.specs.declared.expression.CapturedWord.{CapturedWord}
use Rattle.typed_tree.specs.declared.expression.Expr.{Expr}
use Rattle.typed_tree.specs.declared.expression.Expr.TheOpen.{Expr-F}
"""
VARIANTS = "use Rattle.typed_tree.specs.declared.expression.Expr.TheVariants as e\n"
STATEMENT_TYPES = """use Rattle.typed_tree.specs.declared.expression.Stmt.{Stmt}
use Rattle.typed_tree.specs.declared.expression.Stmt.TheVariants as st
"""
COMMON = "use Rattle.std.proofs.Common.{◌≡◌, ℕ, List, map%s}\n"


def variants(table):
    for line in table.replace("\n", "|").split("|"):
        name, types = line.split(":")
        yield name, types.split()


def typed(types):
    spelled = {"Exprs": "List Expr", "Stmts": "List Stmt"}
    return "".join("(%s : %s) " % (chr(97 + i), spelled.get(t, t)) for i, t in enumerate(types))


def applied(name, arguments):
    return " ".join([name] + arguments)


def parts(types, expression, statement):
    """The parts of a node, those that are nodes folded."""
    by = {"Expr": "(%s {})" % expression if expression else "tt", "Exprs": "(map %s {})" % wrapped(expression)}
    by.update({"Stmt": "(%s {})" % statement, "Stmts": "(map %s {})" % wrapped(statement)})
    return [by.get(t, "{}").format(chr(97 + i)) for i, t in enumerate(types)]


def wrapped(text):
    return "(%s)" % text if " " in text else text


def letters(types):
    return [chr(97 + i) for i in range(len(types))]


def bracketed(text):
    return "(%s)" % text if " " in text else text


def arrow(types):
    return typed(types) + ("→ " if types else "")


def equation(name, extra, types, left, right, unfolding, body):
    arguments = applied(name, ([extra[0]] if extra else []) + letters(types))
    given = "(%s : %s) " % extra if extra else ""
    sign = given + typed(types) + ("→ " if given or types else "")
    lines = ["pub %s : %s%s ≡ %s" % (name, sign, left, right)]
    if unfolding:
        lines.append("unfolding " + unfolding)
    return "\n".join(lines + ["%s = %s" % (arguments, body)])


def expression_equations(function, rule, prefix):
    for name, types in variants(EXPRESSIONS):
        left = "%s %s" % (function, bracketed(applied("e." + name, letters(types))))
        right = "%s %s" % (rule, bracketed(applied("Expr-F." + name, parts(types, function, ""))))
        body = applied("at_%s %s" % (name.lower(), rule), letters(types))
        yield equation("%s_%s" % (prefix, name.lower()), None, types, left, right, function, body)


def statement_equations(function, rule, rules, prefix, expression, opened, extra=None):
    at = "%s %s" % (function, extra[0]) if extra else function
    for name, types in variants(STATEMENTS):
        left = "%s %s" % (at, bracketed(applied("st." + name, letters(types))))
        right = "%s %s" % (rule, bracketed(applied("parts." + name, parts(types, expression, at))))
        body = applied("on_%s %s" % (name.lower(), rules), letters(types))
        yield equation("%s_%s" % (prefix, name.lower()), extra, types, left, right, opened, body)


def summed(block, sums):
    """An equation with the numbers of a list of parts: contracts have them as a `sum`."""
    name = named(block)
    if name not in sums:
        return block
    right, step = sums[name]
    head, unfolding, body = block.split("\n")
    return "\n".join([head[: head.index(" ≡ ")] + " ≡ " + right, unfolding, body + " ∙ " + step])


def list_sum(function, letter):
    return "sum (map %s %s)" % (function, letter), "(total_is_sum (map %s %s))" % (function, letter)


def expression_sums():
    c, c_is = list_sum("size", "c")
    b, b_is = list_sum("size", "b")
    return {
        "size_call": ("1 + " + c, "ap (λ n. 1 + n) " + c_is),
        "size_callnumber": ("1 + size b + " + c, "ap (λ n. 1 + size b + n) " + c_is),
        "size_tick": ("1 + " + b, "ap (λ n. 1 + n) " + b_is),
    }


def statement_sums():
    a, a_is = list_sum("statement_size", "a")
    b, b_is = list_sum("statement_size", "b")
    c, c_is = list_sum("statement_size", "c")
    return {
        "statement_size_block": (
            "1 + %s + %s" % (a, b),
            "ap (λ n. 1 + n + total (map statement_size b)) %s ∙ ap (λ n. 1 + %s + n) %s" % (a_is, a, b_is),
        ),
        "statement_size_switch": (
            "2 + size a + %s + %s" % (b, c),
            "ap (λ n. 2 + size a + n + total (map statement_size c)) %s ∙ ap (λ n. 2 + size a + %s + n) %s" % (b_is, b, c_is),
        ),
    }


def named(block):
    return block[4 : block.index(" :")]


def ruleset(name, blocks):
    return "pub ruleset %s = (%s)" % (name, ", ".join(named(b) for b in blocks))


def write(path, head, blocks):
    with open(path, "w") as out:
        out.write("\n\n".join([head.strip()] + blocks) + "\n")


def imported(prefix, table):
    return ", ".join(prefix + name.lower() for name, _ in variants(table))


def at_use():
    return "use Rattle.typed_tree.proofs.At.{%s}\n" % imported("at_", EXPRESSIONS)


def on_use():
    return "use Rattle.typed_tree.proofs.At.{%s}\n" % imported("on_", STATEMENTS)


def generic():
    blocks = []
    for name, types in variants(EXPRESSIONS):
        fold = "fold-Expr R r"
        opened = bracketed(applied("Expr-F." + name, letters(types)))
        right = "r " + bracketed(applied("Expr-F." + name, parts(types, fold, "")))
        blocks.append("pub at_%s : {R : Type 0} (r : Expr-F R → R) %s→ %s %s ≡ %s\nat_%s = ap (fold-Expr R r) (sym %s) ∙ fold-roll-Expr R r %s" % (
            name.lower(), typed(types), fold, bracketed(applied("e." + name, letters(types))), right,
            applied(name.lower() + " {R} r", letters(types)), bracketed(applied("e.rolls-" + name, letters(types))), opened))
    for name, types in variants(STATEMENTS):
        fold = "fold_statement r"
        opened = bracketed(applied("Stmt-F." + name, letters(types)))
        right = "r.stmt " + bracketed(applied("parts." + name, parts(types, "fold-Expr E r.expr", fold)))
        blocks.append("pub on_%s : {E S : Type 0} (r : Rules E S) %s→ %s %s ≡ %s\non_%s = ap (fold_statement r) (sym %s) ∙ fold-roll-Stmt S (layer r) %s" % (
            name.lower(), typed(types), fold, bracketed(applied("st." + name, letters(types))), right,
            applied(name.lower() + " {E} {S} r", letters(types)), bracketed(applied("st.rolls-" + name, letters(types))), opened))
    head = "-- What every fold makes of a node, one a variant. Written by tools/checker/nodes.py.\n" + COMMON % ", ap, sym, ◌∙◌" + TYPES
    head += "use Rattle.typed_tree.specs.declared.expression.Expr.TheFolds.{fold-Expr, fold-roll-Expr}\n" + VARIANTS + STATEMENT_TYPES
    head += "use Rattle.typed_tree.specs.declared.expression.Stmt.TheOpen.{Stmt-F}\n"
    head += "use Rattle.typed_tree.specs.declared.expression.Stmt.TheFolds.{fold-roll-Stmt}\n"
    head += "use Rattle.typed_tree.specs.Folds.{Rules, layer, fold_statement}\nuse Rattle.typed_tree.specs.Folds as parts\n"
    write("crates/typed_tree/proofs/At.antt", head, blocks)


def instances(path, about, head, expressions, statements):
    whole = about + " Written by tools/checker/nodes.py.\n" + COMMON % "" + TYPES + VARIANTS
    whole += at_use()
    if statements:
        whole += STATEMENT_TYPES + on_use() + "use Rattle.typed_tree.specs.Folds as parts\n"
    write(path, whole + head, expressions + statements)


def typed_tree():
    sizes = [summed(b, expression_sums()) for b in expression_equations("size", "size_rule", "size")]
    statements = statement_equations("statement_size", "statement_rule", "size_rules", "statement_size", "size", "size statement_size")
    statements = [summed(b, statement_sums()) for b in statements]
    instances("crates/typed_tree/proofs/SizeLaws.antt", "-- The equations of sizes, one a node.",
        "use Rattle.std.proofs.Common.{◌+◌, sum, ap, ◌∙◌}\nuse Rattle.typed_tree.specs.Folds.{total}\nuse Rattle.typed_tree.proofs.Totals.{total_is_sum}\n"
        "use Rattle.typed_tree.specs.Sizes.{size, size_rule, size_rules, statement_size, statement_rule}\n",
        sizes + [ruleset("expressions", sizes)], statements + [ruleset("statements", statements)])
    values = list(expression_equations("has_value", "value_rule", "value"))
    instances("crates/typed_tree/proofs/ValueLaws.antt", "-- Whether a node leaves a value, one a node.",
        "use Rattle.typed_tree.specs.Sizes.{has_value, value_rule}\n", values + [ruleset("values", values)], [])
    views = list(expression_equations("expr_view", "expr_rule", "view"))
    statements = list(statement_equations("stmt_view", "stmt_rule", "view_rules", "stmt_view", "expr_view", "expr_view stmt_view"))
    instances("crates/typed_tree/proofs/Views.antt", "-- The equations of the view, one a node.",
        "use Rattle.typed_tree.specs.View.{expr_view, expr_rule, stmt_view, stmt_rule, view_rules}\n",
        views + [ruleset("expressions", views)], statements + [ruleset("statements", statements)])


def wellformed():
    places = list(expression_equations("part", "expr_rule", "part"))
    acts = list(statement_equations("act", "stmt_rule", "rules", "act", "part", "part act"))
    number = ("x", "ℕ")
    objects = list(statement_equations("objects_at", "object_rule x", "(object_rules x)", "objects_at", "", "objects_at", number))
    declared = statement_equations("declarations_of", "declaration_rule x", "(declaration_rules x)", "declarations_of", "", "declarations_of", number)
    declared = list(declared)
    instances("crates/wellformed/proofs/Equations.antt", "-- The equations of the definitions, one a node.",
        "use Rattle.wellformed.specs.Places.{part, expr_rule, act, stmt_rule, rules}\n"
        "use Rattle.wellformed.specs.Counts.{objects_at, object_rule, object_rules, declarations_of, declaration_rule, declaration_rules}\n",
        places, acts + objects + declared)
    uses = list(expression_equations("value_use", "expr_rule", "value_use"))
    used = list(statement_equations("uses_values", "stmt_rule", "rules", "uses_values", "value_use", "value_use uses_values"))
    instances("crates/wellformed/proofs/Uses.antt", "-- Which values a node uses, one a node.",
        "use Rattle.wellformed.specs.Values.{value_use, expr_rule, uses_values, stmt_rule, rules}\n",
        uses, used)


    named = list(expression_equations("named", "expr_rule", "named"))
    named_of = list(statement_equations("named_of", "stmt_rule", "rules", "named_of", "named", "named named_of"))
    instances("crates/wellformed/proofs/Named.antt", "-- Which captures a node names, one a node.",
        "use Rattle.wellformed.specs.Captured.{named, expr_rule, named_of, stmt_rule, rules}\n",
        named + [ruleset("expressions", named)], named_of + [ruleset("statements", named_of)])


def captures():
    names = list(expression_equations("names", "expr_rule", "names"))
    named = list(statement_equations("names_of", "statement_rule", "rules", "names_of", "names", "names names_of"))
    instances("crates/tick_captures/proofs/Equations.antt", "-- What the nodes of a tree name of captures, one a node.",
        "use Rattle.tick_captures.specs.Captures.{names, expr_rule, names_of, statement_rule, rules}\n",
        names + [ruleset("expressions", names)], named + [ruleset("statements", named)])


generic()
typed_tree()
wellformed()
captures()
