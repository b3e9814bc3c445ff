"""Writes crates/check_laws/proofs/Equations.antt: for each variant of each type of the tree the walk over it, by
the walks over its parts.

Run it at the top of the checkout, after a change of the tree's variants or of the folds' rules.
"""

RESULTS = "Shape Node Start (Option Node) Item SuffixWalk Declarations Shape InitParts TypeWalk Named"
RULES = ("core_rule expr_rule start_rule optional_rule stmt_rule suffix_walk declaration_rule declarator_rule init_rule "
         "parameter_rule typename_rule")
WALKS = "core node optional item suffix declaration shape init initializer parameter named"
NUMBER, BYTES = "ℕ", "(List ℕ)"
# A child has its type and the function of the walk over it; a list of children ends in a star, two children in one box in a comma.
EXPR, TYPENAME, STMT, OPTIONAL = ("Expr", "node"), ("Typename", "named"), ("Stmt", "item"), ("OptionalExpr", "optional")
EXPRS, STMTS, PAIR = ("(List Expr)", "node*"), ("(List Stmt)", "item*"), ("(Expr × Expr)", "node,")

EXPRESSIONS = [
    ("Name", "Expr::Name", [NUMBER, BYTES]), ("Number", "Number", [NUMBER, "Bool"]), ("Character", "Character", [NUMBER]),
    ("String", "String", [BYTES]), ("Paren", "Expr::Paren", [EXPR]), ("Compile", "Compile", [NUMBER, EXPR, TYPENAME]),
    ("Local", "Expr::Local", [NUMBER, TYPENAME]), ("Param", "Param", [NUMBER, TYPENAME, EXPR]),
    ("Index", "Index", [NUMBER, PAIR]), ("Call", "Call", [NUMBER, EXPR, EXPRS]), ("Step", "Step", [NUMBER, "StepOp", EXPR]),
    ("Unary", "Unary", [NUMBER, "UnaryOp", EXPR]), ("Tick", "Tick", [NUMBER, EXPR]), ("TickBlock", "TickBlock", [NUMBER, STMTS]),
    ("Cast", "Cast", [NUMBER, TYPENAME, EXPR]), ("Sizeof", "Sizeof", [NUMBER, TYPENAME]),
    ("Binary", "Binary", [NUMBER, "BinaryOp", PAIR]), ("Choice", "Choice", [NUMBER, EXPR, EXPR, EXPR]),
    ("Assign", "Assign", [NUMBER, PAIR]), ("Modify", "Modify", [NUMBER, "ModifyOp", PAIR]),
    ("Comma", "Comma", [NUMBER, PAIR]),
]
STATEMENTS = [
    ("Empty", "Empty", []), ("Expr", "Expr", [EXPR]), ("Block", "Block", [STMTS]),
    ("Local", "Stmt::Local", [("Declaration", "declaration")]), ("If", "If", [NUMBER, EXPR, STMT]),
    ("IfElse", "IfElse", [NUMBER, EXPR, STMT, STMT]), ("While", "While", [NUMBER, EXPR, STMT]), ("Do", "Do", [NUMBER, STMT, EXPR]),
    ("For", "For", [NUMBER, STMT, OPTIONAL, OPTIONAL, STMT]), ("Switch", "Switch", [NUMBER, EXPR, STMTS]), ("Case", "Case", [NUMBER, EXPR]),
    ("Default", "Default", [NUMBER]), ("Break", "Break", [NUMBER]), ("Continue", "Continue", [NUMBER]),
    ("Return", "Return", [NUMBER, OPTIONAL]),
]
OPTIONALS = [("Absent", "OptionalExpr::Absent", []), ("Present", "Present", [EXPR])]
SUFFIXES = [("Array", "Array", [OPTIONAL]), ("Unlisted", "Unlisted", []), ("Nothing", "Nothing", []),
            ("Listed", "Listed", [("(List Parameter)", "parameter*")])]
CORES = [("Absent", "Core::Absent", []), ("Name", "Core::Name", [NUMBER, BYTES]), ("Paren", "Core::Paren", [("Declarator", "shape")])]
INITIALIZERS = [("Absent", "Initializer::Absent", []), ("Value", "Value", [EXPR]), ("List", "List", [EXPRS, "Bool"])]

HEAD = """-- What the walk over each node is, by the walks over its parts. Written by tools/checker/equations.py.
use Rattle.std.proofs.Common.{◌≡◌, ℕ, Bool, true, false, ap, sym, ◌∙◌, List, map}
use Rattle.std.specs.Prelude.{Option}
use Rattle.tick_tree.specs.declared.base.Base.{Base}
use Rattle.tick_tree.specs.declared.base.BinaryOp.{BinaryOp}
use Rattle.tick_tree.specs.declared.base.ModifyOp.{ModifyOp}
use Rattle.tick_tree.specs.declared.base.StepOp.{StepOp}
use Rattle.tick_tree.specs.declared.base.UnaryOp.{UnaryOp}
use Rattle.tick_tree.specs.declared.syntax.Core.{Core}
use Rattle.tick_tree.specs.declared.syntax.Core.TheVariants as co
use Rattle.tick_tree.specs.declared.syntax.Declaration.{Declaration, out-Declaration}
use Rattle.tick_tree.specs.declared.syntax.Declarator.{Declarator, out-Declarator}
use Rattle.tick_tree.specs.declared.syntax.Expr.{Expr}
use Rattle.tick_tree.specs.declared.syntax.Expr.TheVariants as e
use Rattle.tick_tree.specs.declared.syntax.Init.{Init, out-Init}
use Rattle.tick_tree.specs.declared.syntax.Initializer.{Initializer}
use Rattle.tick_tree.specs.declared.syntax.Initializer.TheVariants as iz
use Rattle.tick_tree.specs.declared.syntax.OptionalExpr.{OptionalExpr}
use Rattle.tick_tree.specs.declared.syntax.OptionalExpr.TheVariants as oe
use Rattle.tick_tree.specs.declared.syntax.Parameter.{Parameter, out-Parameter}
use Rattle.tick_tree.specs.declared.syntax.Stmt.{Stmt}
use Rattle.tick_tree.specs.declared.syntax.Stmt.TheVariants as st
use Rattle.tick_tree.specs.declared.syntax.Suffix.{Suffix}
use Rattle.tick_tree.specs.declared.syntax.Suffix.TheVariants as sx
use Rattle.tick_tree.specs.declared.syntax.Typename.{Typename, out-Typename}
use Rattle.tick_tree.specs.declared.syntax.Core.TheFolds.{fold-roll-Core, fold-roll-Expr, fold-roll-Initializer, fold-roll-OptionalExpr, fold-roll-Stmt, fold-roll-Suffix, fold_out-Declaration, fold_out-Declarator, fold_out-Init, fold_out-Parameter, fold_out-Typename}
use Rattle.tick_tree.specs.declared.syntax.Core.TheOpen.{Core-F, Expr-F, Initializer-F, OptionalExpr-F, Stmt-F, Suffix-F}
use Rattle.check_rules.specs.declared.state.Around.{Around}
use Rattle.check_rules.specs.declared.state.Stage.{Stage}
use Rattle.check_rules.specs.declared.state.State.{State}
use Rattle.check_rules.specs.ExpressionRules.{Node, Named, Shape, Item}
use Rattle.check_rules.specs.Walk.{Start, InitParts, Declarations, SuffixWalk, TypeWalk, core_rule, expr_rule, start_rule, optional_rule, stmt_rule, declaration_rule, declarator_rule, init_rule, parameter_rule, typename_rule, declaration_walk, declare_one, declare_by, declare_each, suffix_walk, suffix_steps, expr_walk, statement_walk, typename_walk, parameter_walk, declarator_walk, core, node, optional, item, suffix, declaration, shape, init, initializer, parameter, named}

"""


def applied(head, arguments):
    return "(%s %s)" % (head, " ".join(arguments)) if arguments else head


def walked(name, field):
    if isinstance(field, str):
        return name
    function = field[1]
    if function.endswith(","):
        return "(%s %s.0, %s %s.1)" % (function[:-1], name, function[:-1], name)
    return "(map %s %s)" % (function[:-1], name) if function.endswith("*") else "(%s %s)" % (function, name)


def parts(module, kind, function, variant, layer_name, fields):
    vs = "a b c d h".split()[:len(fields)]
    binders = " ".join("(%s : %s)" % (v, f if isinstance(f, str) else f[0]) for v, f in zip(vs, fields))
    tree = applied(module + "." + variant, vs)
    layer = applied(kind + "-F." + layer_name, vs)
    result = applied(kind + "-F." + layer_name, [walked(v, f) for v, f in zip(vs, fields)])
    proof = "ap %s (sym %s) ∙ fold-roll-%s %s %s %s" % (function, applied(module + ".rolls-" + variant, vs), kind, RESULTS, RULES, layer)
    return vs, binders, tree, result, proof


def equation(name, function, rule, made):
    """What a walk over a node is by the rule, under this name."""
    vs, binders, tree, result, proof = made
    text = "pub %s : %s%s %s ≡ %s %s\nunfolding %s\n" % (name, binders + " → " if binders else "", function, tree, rule, result, WALKS)
    return text + "%s = %s\n\n" % (" ".join([name] + vs), proof)


def whole(module, kind, function, rule, variants, ruleset):
    text, names = "", []
    for variant, layer_name, fields in variants:
        name = "%s_%s" % (function, variant.lower())
        text += equation(name, function, rule, parts(module, kind, function, variant, layer_name, fields))
        names.append(name)
    return text + "pub ruleset %s = (%s)\n\n" % (ruleset, ", ".join(names))


def pointwise(module, kind, function, rule, variants, arguments, walk, ruleset, pick):
    text, names = "", []
    for variant, layer_name, fields in variants:
        name = "%s_%s" % (function, variant.lower())
        made = parts(module, kind, function, variant, layer_name, fields)
        vs, binders, tree, result, _ = made
        text += equation("at_" + name, function, rule, made)
        given = " ".join("(%s : %s)" % a for a in arguments)
        xs = " ".join(a[0] for a in arguments)
        binders = binders + " " + given if binders else given
        text += "pub %s : %s → (%s %s)%s %s ≡ %s %s %s\n" % (name, binders, function, tree, pick, xs, walk, result, xs)
        text += "%s = ap (λ w. w%s %s) (%s)\n\n" % (" ".join([name] + vs + [a[0] for a in arguments]), pick, xs, " ".join(["at_" + name] + vs))
        names.append(name)
    return text + "pub ruleset %s = (%s)\n\n" % (ruleset, ", ".join(names))


def of_struct(kind, function, value, arguments, walk, pick, note):
    opened = "(out-%s x)" % kind
    fold = "fold_out-%s %s %s x" % (kind, RESULTS, RULES)
    given = " ".join("(%s : %s)" % a for a in arguments)
    xs = " ".join(a[0] for a in arguments)
    text = "-- %s\npub at_%s : (x : %s) → %s x ≡ %s\nunfolding %s\nat_%s x = %s\n\n" % (
        note, function, kind, function, value.replace("$", opened), WALKS, function, fold)
    if walk:
        text += "pub %s_walk : (x : %s) %s → (%s x)%s %s ≡ %s %s\n" % (function, kind, given, function, pick, xs, walk.replace("$", opened), xs)
        text += "%s_walk x %s = ap (λ w. w%s %s) (at_%s x)\n\n" % (function, xs, pick, xs, function)
    return text


PARTS = """-- one declarator, by its parts
pub by_init : (line : ℕ) (b : Base) (g : Stage) (x : Init) (s : State)
    → declare_one line b g (init x) s ≡ declare_by line b g (shape (out-Init x).declarator) (initializer (out-Init x).value) s
by_init line b g x s = ap (λ i. declare_one line b g i s) (at_init x)

pub by_declaration : (x : Declaration) (g : Stage) (s : State)
    → declaration_walk (declaration x) g s ≡ declare_each (out-Declaration x).line (out-Declaration x).base g (map init (out-Declaration x).inits) s
by_declaration x g s = ap (λ d. declaration_walk d g s) (at_declaration x)

pub ruleset types = (shape_walk, named_walk, parameter_walk, by_init, by_declaration)

"""


def empties(variants):
    text, names = "", []
    for variant, layer_name, fields in variants:
        vs, binders, tree, result, proof = parts("st", "Stmt", "item", variant, layer_name, fields)
        name = "empty_%s" % variant.lower()
        text += "pub %s : %s(item %s).is_empty ≡ %s\n%s = ap (λ w. w.is_empty) (%s)\n\n" % (
            name, binders + " → " if binders else "", tree, "true" if variant == "Empty" else "false", " ".join([name] + vs),
            " ".join(["at_item_" + variant.lower()] + vs))
        names.append(name)
    return text + "pub ruleset empties = (%s)\n" % ", ".join(names)


def main():
    stage, around = [("g", "Stage"), ("s", "State")], [("g", "Around"), ("s", "State")]
    text = HEAD
    text += pointwise("e", "Expr", "node", "expr_rule", EXPRESSIONS, stage, "expr_walk", "expressions", ".walk")
    text += pointwise("st", "Stmt", "item", "stmt_rule", STATEMENTS, around, "statement_walk", "statements", ".walk")
    text += whole("oe", "OptionalExpr", "optional", "optional_rule", OPTIONALS, "optionals")
    text += whole("iz", "Initializer", "initializer", "start_rule", INITIALIZERS, "initializers")
    text += pointwise("sx", "Suffix", "suffix", "suffix_walk", SUFFIXES, stage, "suffix_steps", "suffixes", ".walk")
    text += whole("co", "Core", "core", "core_rule", CORES, "cores")
    text += of_struct("Declarator", "shape", "declarator_of (core $.core) (map suffix $.suffixes) $.prefixes", stage,
                      "declarator_walk (core $.core) (map suffix $.suffixes) $.prefixes", ".walk", "a declarator")
    text += of_struct("Typename", "named", "typename_of $.base (shape $.declarator)", [("line", "ℕ")] + stage,
                      "typename_walk $.base (shape $.declarator)", ".walk", "a type name")
    text += of_struct("Parameter", "parameter", "record { staged = (shape $.declarator).declared.staged; walk = parameter_walk $.line $.base (shape $.declarator) }",
                      stage, "parameter_walk $.line $.base (shape $.declarator)", ".walk", "a parameter")
    text += of_struct("Init", "init", "record { shape = shape $.declarator; start = initializer $.value }", [], "", "", "a declarator and its initializer")
    text += of_struct("Declaration", "declaration", "record { line = $.line; base = $.base; inits = map init $.inits }", [], "", "", "a declaration")
    text += PARTS
    text += empties(STATEMENTS)
    text = text.replace("typename_walk, parameter_walk, declarator_walk,", "declarator_of, typename_of, typename_walk, parameter_walk as parameter_steps, declarator_walk,")
    text = text.replace("≡ parameter_walk (out", "≡ parameter_steps (out")
    text = text.replace("walk = parameter_walk (out", "walk = parameter_steps (out")
    with open("crates/check_laws/proofs/Equations.antt", "w") as file:
        file.write(text)


main()
