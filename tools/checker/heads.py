"""Writes crates/check_globals/proofs/Heads.antt: the parameters of a declarator's function, by its parts.

Run it at the top of the checkout, after a change of the tree's types.
"""

TYPES = "Core Expr Initializer OptionalExpr Stmt Suffix Declaration Declarator Init Parameter Typename".split()
UNIT = "(Unit {0})"
RESULTS = "Inner %s %s %s %s (List Given) %s Head %s Given %s" % ((UNIT,) * 7)
RULES = "inner_rule nothing nothing nothing nothing list_rule nothing head_rule nothing given_rule nothing"
WALKS = "inner nothing nothing nothing nothing list nothing head nothing written nothing"
FORM_RESULTS = "Declared Written %s %s %s Bool %s Declared %s Bool Bool" % ((UNIT,) * 5)
FORM_RULES = ("forms.core_rule forms.expr_rule nothing nothing nothing forms.suffix_rule nothing forms.declarator_rule nothing "
              "forms.parameter_rule forms.typename_rule")
FORMS = ("forms.declared_core forms.written nothing nothing nothing forms.is_staged_suffix nothing forms.declared nothing "
         "forms.is_staged_parameter forms.is_integer_name")
AGREES = {"Core": "CoreAgrees", "Declarator": "DeclaratorAgrees"}
FUNCTION = {"Core": "inner", "Declarator": "head"}
FORM = {"Core": "forms.declared_core", "Declarator": "forms.declared"}
RULE = {"Core": ("inner_rule", "forms.core_rule"), "Declarator": ("head_rule", "forms.declarator_rule")}
KNOWN = " ".join("Known%s" % t for t in TYPES)
ALL = " ".join(TYPES)
UNFOLD = "unfolding inner head list written"
FORM_UNFOLD = ("unfolding forms.written forms.declared forms.declared_core forms.is_staged_suffix forms.is_staged_parameter "
               "forms.is_integer_name")

HEAD = """-- The parameters of the function that a declarator declares, by the parts of the declarator. Written by tools/checker/heads.py.
use Rattle.std.proofs.Common.{◌≡◌, ℕ, Bool, List, [], ◌∷◌, map, refl, ap, sym, ◌∙◌, subst}
use Rattle.check_forms.specs.Forms as forms
use Rattle.check_forms.specs.Forms.{Written, Declared}
use Rattle.tick_tree.specs.declared.syntax.Core.TheVariants as co
use Rattle.tick_tree.specs.declared.syntax.Suffix.TheVariants as sx
use Rattle.tick_tree.specs.declared.syntax.Declarator.{out-Declarator}
use Rattle.tick_tree.specs.declared.syntax.Parameter.{out-Parameter}
"""


def variant(function, kind, module, name, layer, fields):
    vs = "a b".split()[:len(fields)]
    binders = " ".join("(%s : %s)" % (v, f[0]) for v, f in zip(vs, fields))
    tree = "(%s.%s %s)" % (module, name, " ".join(vs)) if vs else "%s.%s" % (module, name)
    rolls = "(%s.rolls-%s %s)" % (module, name, " ".join(vs)) if vs else "%s.rolls-%s" % (module, name)
    lay = "(%s-F.%s %s)" % (kind, layer, " ".join(vs)) if vs else "%s-F.%s" % (kind, layer)
    result = "(%s-F.%s %s)" % (kind, layer, " ".join(f[1].replace("$", v) for v, f in zip(vs, fields))) if vs else lay
    rule = {"Core": "inner_rule", "Suffix": "list_rule"}[kind]
    lemma = "%s_%s" % (function, name.lower())
    text = "pub %s : %s%s %s ≡ %s %s\n%s\n" % (lemma, binders + " → " if binders else "", function, tree, rule, result, UNFOLD)
    text += "%s = ap %s (sym %s) ∙ fold-roll-%s %s %s %s\n\n" % (" ".join([lemma] + vs), function, rolls, kind, RESULTS, RULES, lay)
    return text, lemma


def main():
    text = HEAD
    for t in TYPES:
        text += "use Rattle.tick_tree.specs.declared.syntax.%s.{%s%s}\n" % (t, t, ", roll-%s" % t if t in AGREES else "")
    text += "use Rattle.tick_tree.specs.declared.syntax.Core.TheOpen.{%s}\n" % ", ".join(t + "-F" for t in TYPES)
    text += "use Rattle.tick_tree.specs.declared.syntax.Core.TheFolds.{%s, %s, %s, fold-roll-Suffix, fold_out-Declarator, fold_out-Parameter}\n" % (
        ", ".join("ind-" + t for t in AGREES), ", ".join("map-" + t for t in AGREES), ", ".join("fold-roll-" + t for t in AGREES))
    text += "use Rattle.check_globals.specs.Functions.{Given, given}\n"
    text += ("use Rattle.check_globals.specs.Parameters.{Head, Inner, nothing, inner_rule, head_rule, "
             "head_of, first_of, list_rule, given_rule, "
             "inner, head, list, written, parameters_of}\n\n")
    names = []
    for args in (("Absent", "Core::Absent", []), ("Name", "Core::Name", [("ℕ", "$"), ("(List ℕ)", "$")]), ("Paren", "Core::Paren", [("Declarator", "(head $)")])):
        part, name = variant("inner", "Core", "co", *args)
        text += part
        names.append(name)
    text += "pub ruleset cores = (%s)\n\n" % ", ".join(names)
    text += """-- what a declarator is by its parts
opened : (d : Declarator) → head d ≡ head_of (inner (out-Declarator d).core) (map list (out-Declarator d).suffixes)
%s
opened d = fold_out-Declarator %s %s d

pub by_core : (ps : List Given) (d : Declarator) → ps ≡ (inner (out-Declarator d).core).list (first_of (map list (out-Declarator d).suffixes)) → ps ≡ parameters_of d
by_core ps d h = h ∙ ap (λ x. x.list) (sym (opened d))

""" % (UNFOLD, RESULTS, RULES)
    text += """-- ---- the name is that of check_forms

abbrev CoreAgrees : Core → Type 0
CoreAgrees c = (inner c).name ≡ (forms.declared_core c).name

abbrev DeclaratorAgrees : Declarator → Type 0
DeclaratorAgrees d = (head d).name ≡ (forms.declared d).name

abbrev Any : {A : Type 0} → A → Type 0
Any x = Unit {0}

"""
    for t in TYPES:
        text += "abbrev Known%s : Type 0\nKnown%s = (x : %s) × %s x\n\n" % (t, t, t, AGREES.get(t, "Any"))
    for t in AGREES:
        low = t.lower()
        y = "(map-%s %s %s %s y)" % (t, KNOWN, ALL, " ".join(["(λ k. k.0)"] * 11))
        text += "walk_%s : (x : %s-F %s) → %s (roll-%s x) ≡ %s (map-%s %s %s %s x)\n%s\nwalk_%s x = fold-roll-%s %s %s x\n\n" % (
            low, t, ALL, FUNCTION[t], t, RULE[t][0], t, ALL, RESULTS, WALKS, UNFOLD, low, t, RESULTS, RULES)
        text += "form_%s : (x : %s-F %s) → %s (roll-%s x) ≡ %s (map-%s %s %s %s x)\n%s\nform_%s x = fold-roll-%s %s %s x\n\n" % (
            low, t, ALL, FORM[t], t, RULE[t][1], t, ALL, FORM_RESULTS, FORMS, FORM_UNFOLD, low, t, FORM_RESULTS, FORM_RULES)
        text += "%s_layer : (y : %s-F %s) → (%s (map-%s %s %s %s %s)).name ≡ (%s (map-%s %s %s %s %s)).name\n" % (
            low, t, KNOWN, RULE[t][0], t, ALL, RESULTS, WALKS, y, RULE[t][1], t, ALL, FORM_RESULTS, FORMS, y)
        if t == "Core":
            text += "core_layer Core-F.Core::Absent = refl\ncore_layer (Core-F.Core::Name n x) = refl\ncore_layer (Core-F.Core::Paren d) = d.1\n\n"
        else:
            text += "declarator_layer y = y.core.1\n\n"
        text += "%s_step : (x : %s-F %s) (y : %s-F %s) → %s ≡ x → %s (roll-%s x)\n" % (low, t, ALL, t, KNOWN, y, AGREES[t], t)
        text += "%s_step x y is = subst (λ z. %s (roll-%s z)) is (ap (λ w. w.name) (walk_%s %s) ∙ %s_layer y ∙ sym (ap (λ w. w.name) (form_%s %s)))\n\n" % (
            low, AGREES[t], t, low, y, low, low, y)
    motives = " ".join(AGREES.get(t, "Any") for t in TYPES)
    steps = " ".join("%s_step" % t.lower() if t in AGREES else "(λ x y is. tt)" for t in TYPES)
    text += "name_agrees : (d : Declarator) → DeclaratorAgrees d\nname_agrees = ind-Declarator %s %s\n\n" % (motives, steps)
    text += """-- a parameter of a list, as it is written
given_agrees : (p : Parameter) → given p ≡ written p
%s
given_agrees p = ap (λ n. ((out-Parameter p).line, n)) (sym (name_agrees (out-Parameter p).declarator)) ∙ sym (fold_out-Parameter %s %s p)

pub givens_agree : (ps : List Parameter) → map given ps ≡ map written ps
givens_agree [] = refl
givens_agree (p ∷ ps) = ap (λ g. g ∷ map given ps) (given_agrees p) ∙ ap (λ gs. written p ∷ gs) (givens_agree ps)

""" % (UNFOLD, RESULTS, RULES)
    names = []
    for args in (("Array", "Array", [("OptionalExpr", "(nothing $)")]), ("Unlisted", "Unlisted", []), ("Nothing", "Nothing", []),
                 ("Listed", "Listed", [("(List Parameter)", "(map written $)")])):
        part, name = variant("list", "Suffix", "sx", *args)
        text += part
        names.append(name)
    text += "pub ruleset suffixes = (%s, givens_agree)\n" % ", ".join(names)
    open("crates/check_globals/proofs/Heads.antt", "w").write(text)


main()
