"""Writes crates/check_laws/proofs/Written.antt: the fold of the walk knows of each node how it is
written as check_forms does.

Run it at the top of the checkout, after a change of the tree's types or of the folds' rules.
"""
import sys

TYPES = "Core Expr Initializer OptionalExpr Stmt Suffix Declaration Declarator Init Parameter Typename".split()
WALKS = dict(zip(TYPES, "core node initializer optional item suffix declaration shape init parameter named".split()))
RESULTS = "Shape Node Start (Option Node) Item SuffixWalk Declarations Shape InitParts TypeWalk Named"
RULES = ("core_rule expr_rule start_rule optional_rule stmt_rule suffix_walk declaration_rule declarator_rule init_rule "
         "parameter_rule typename_rule")
UNIT = "(Unit {0})"
FORM_RESULTS = "Declared Written %s %s %s Bool %s Declared %s Bool Bool" % ((UNIT,) * 5)
FORM_RULES = ("forms.core_rule forms.expr_rule nothing nothing nothing forms.suffix_rule nothing forms.declarator_rule nothing "
              "forms.parameter_rule forms.typename_rule")
FORMS = ("forms.declared_core forms.written nothing nothing nothing forms.is_staged_suffix nothing forms.declared nothing "
         "forms.is_staged_parameter forms.is_integer_name")
AGREES = {"Core": "CoreAgrees", "Expr": "ExprAgrees", "Suffix": "SuffixAgrees", "Declarator": "DeclaratorAgrees",
          "Parameter": "ParameterAgrees", "Typename": "TypenameAgrees"}
KNOWN = " ".join("Known%s" % t for t in TYPES)
FIRSTS = " ".join(["(λ k. k.0)"] * 11)
ALL = " ".join(TYPES)
UNFOLD = ("unfolding %s forms.written forms.declared forms.declared_core forms.is_staged_suffix forms.is_staged_parameter "
          "forms.is_integer_name") % " ".join(WALKS.values())

HEAD = """-- What the walk's fold knows of the way in which a part is written is what check_forms says of it. Written by tools/checker/written.py.
use Rattle.std.proofs.Common.{◌≡◌, ℕ, Bool, true, false, List, [], ◌∷◌, map, refl, ap, sym, ◌∙◌, subst}
use Rattle.std.specs.Prelude.{◌&&◌, ◌||◌, Option, Some, None, is_some}
use Rattle.check_forms.specs.Forms as forms
use Rattle.check_forms.specs.Forms.{Written, Declared, nothing, Name}
"""


def firsts(t, x):
    return "(map-%s %s %s %s %s)" % (t, KNOWN, ALL, FIRSTS, x)


def main():
    imports = sys.argv[1] if len(sys.argv) > 1 else ""
    text = HEAD
    for t in TYPES:
        text += "use Rattle.tick_tree.specs.declared.syntax.%s.{%s}\n" % (t, t)
    text += "use Rattle.tick_tree.specs.declared.syntax.Core.TheOpen.{%s}\n" % ", ".join(t + "-F" for t in TYPES)
    text += "use Rattle.tick_tree.specs.declared.syntax.Core.TheFolds.{%s, %s, %s}\n" % (
        ", ".join("ind-" + t for t in AGREES), ", ".join("map-" + t for t in AGREES), ", ".join("fold-roll-" + t for t in AGREES))
    for t in AGREES:
        text += "use Rattle.tick_tree.specs.declared.syntax.%s.{roll-%s}\n" % (t, t)
    text += imports or ("use Rattle.check_rules.specs.ExpressionRules.{Node, Named, Shape, Item}\n"
                        "use Rattle.check_rules.specs.Walk.{Start, InitParts, Declarations, SuffixWalk, TypeWalk, core_rule, expr_rule, start_rule, "
                        "optional_rule, stmt_rule, suffix_walk, declaration_rule, declarator_rule, init_rule, parameter_rule, typename_rule, written_rule, any_suffix, any_parameter, %s}\n"
                        % ", ".join(WALKS.values()))
    text += """
abbrev CoreAgrees : Core → Type 0
CoreAgrees c = (core c).declared ≡ forms.declared_core c

abbrev ExprAgrees : Expr → Type 0
ExprAgrees e = (node e).written ≡ forms.written e

abbrev SuffixAgrees : Suffix → Type 0
SuffixAgrees s = (suffix s).staged ≡ forms.is_staged_suffix s

abbrev ParameterAgrees : Parameter → Type 0
ParameterAgrees p = (parameter p).staged ≡ forms.is_staged_parameter p

abbrev DeclaratorAgrees : Declarator → Type 0
DeclaratorAgrees d = (shape d).declared ≡ forms.declared d

abbrev TypenameAgrees : Typename → Type 0
TypenameAgrees t = (named t).integer ≡ forms.is_integer_name t

abbrev Any : {A : Type 0} → A → Type 0
Any x = Unit {0}

"""
    for t in TYPES:
        text += "abbrev Known%s : Type 0\nKnown%s = (x : %s) × %s x\n\n" % (t, t, t, AGREES.get(t, "Any"))
    text += """nil_map : {A B : Type 0} → (f : A → B) (xs : List A) → forms.is_nil (map f xs) ≡ forms.is_nil xs
nil_map f [] = refl
nil_map f (x ∷ xs) = refl

staged_suffixes : (ss : List KnownSuffix) → any_suffix (map suffix (map (λ k. k.0) ss)) ≡ forms.any (map forms.is_staged_suffix (map (λ k. k.0) ss))
staged_suffixes [] = refl
staged_suffixes (s ∷ ss) =
    ap (λ b. b || any_suffix (map suffix (map (λ k. k.0) ss))) s.1
    ∙ ap (λ b. forms.is_staged_suffix s.0 || b) (staged_suffixes ss)

staged_parameters : (ps : List KnownParameter) → any_parameter (map parameter (map (λ k. k.0) ps)) ≡ forms.any (map forms.is_staged_parameter (map (λ k. k.0) ps))
staged_parameters [] = refl
staged_parameters (p ∷ ps) =
    ap (λ b. b || any_parameter (map parameter (map (λ k. k.0) ps))) p.1
    ∙ ap (λ b. forms.is_staged_parameter p.0 || b) (staged_parameters ps)

"""
    for t in AGREES:
        low = t.lower()
        rule = {"Suffix": "suffix_walk"}.get(t, "%s_rule" % low)
        form_rule = "%s_rule" % low
        form = {"Core": "forms.declared_core", "Expr": "forms.written", "Suffix": "forms.is_staged_suffix", "Declarator": "forms.declared",
                "Parameter": "forms.is_staged_parameter", "Typename": "forms.is_integer_name"}[t]
        text += "walk_%s : (x : %s-F %s) → %s (roll-%s x) ≡ %s (map-%s %s %s %s x)\n%s\nwalk_%s x = fold-roll-%s %s %s x\n\n" % (
            low, t, ALL, WALKS[t], t, rule, t, ALL, RESULTS, " ".join(WALKS.values()), UNFOLD, low, t, RESULTS, RULES)
        text += "form_%s : (x : %s-F %s) → %s (roll-%s x) ≡ forms.%s (map-%s %s %s %s x)\n%s\nform_%s x = fold-roll-%s %s %s x\n\n" % (
            low, t, ALL, form, t, form_rule, t, ALL, FORM_RESULTS, FORMS, UNFOLD, low, t, FORM_RESULTS, FORM_RULES)
        pick = {"Core": "declared", "Expr": "written", "Suffix": "staged", "Declarator": "declared", "Parameter": "staged", "Typename": "integer"}[t]
        y = firsts(t, "y")
        text += "%s_layer : (y : %s-F %s) → (%s (map-%s %s %s %s %s)).%s ≡ forms.%s (map-%s %s %s %s %s)\n" % (
            low, t, KNOWN, rule, t, ALL, RESULTS, " ".join(WALKS.values()), y, pick, form_rule, t, ALL, FORM_RESULTS, FORMS, y)
        if t == "Core":
            text += "core_layer Core-F.Core::Absent = refl\ncore_layer (Core-F.Core::Name n x) = refl\ncore_layer (Core-F.Core::Paren d) = d.1\n\n"
        elif t == "Expr":
            text += """expr_layer (Expr-F.Expr::Name n x) = refl
expr_layer (Expr-F.Number n u) = refl
expr_layer (Expr-F.Character n) = refl
expr_layer (Expr-F.String x) = refl
expr_layer (Expr-F.Expr::Paren a) = a.1
expr_layer (Expr-F.Compile n a t) = refl
expr_layer (Expr-F.Expr::Local n t) = refl
expr_layer (Expr-F.Param n t a) = refl
expr_layer (Expr-F.Index n p) = refl
expr_layer (Expr-F.Call n a xs) = refl
expr_layer (Expr-F.Step n o a) = refl
expr_layer (Expr-F.Unary n o a) = ap (λ w. forms.nameless w.constant) a.1
expr_layer (Expr-F.Tick n a) = refl
expr_layer (Expr-F.TickBlock n ss) = refl
expr_layer (Expr-F.Cast n t a) = ap (λ w. forms.nameless ((named t.0).integer && w.constant)) a.1 ∙ ap (λ b. forms.nameless (b && (forms.written a.0).constant)) t.1
expr_layer (Expr-F.Sizeof n t) = refl
expr_layer (Expr-F.Binary n o p) = ap (λ w. forms.nameless (forms.is_strict o && w.constant && (node p.1.0).written.constant)) p.0.1
    ∙ ap (λ w. forms.nameless (forms.is_strict o && (forms.written p.0.0).constant && w.constant)) p.1.1
expr_layer (Expr-F.Choice n a c d) = refl
expr_layer (Expr-F.Assign n p) = refl
expr_layer (Expr-F.Modify n o p) = refl
expr_layer (Expr-F.Comma n p) = refl

"""
        elif t == "Declarator":
            text += """declarator_layer y =
    ap (λ c. record {
      plain = forms.is_nil y.prefixes && c.plain && forms.is_nil (map suffix (map (λ k. k.0) y.suffixes));
      name = c.name;
      staged = forms.any_staged_prefix y.prefixes || c.staged || any_suffix (map suffix (map (λ k. k.0) y.suffixes));
    }) y.core.1
    ∙ ap (λ z. record {
      plain = forms.is_nil y.prefixes && (forms.declared_core y.core.0).plain && z;
      name = (forms.declared_core y.core.0).name;
      staged = forms.any_staged_prefix y.prefixes || (forms.declared_core y.core.0).staged || any_suffix (map suffix (map (λ k. k.0) y.suffixes));
    }) (nil_map suffix (map (λ k. k.0) y.suffixes) ∙ sym (nil_map forms.is_staged_suffix (map (λ k. k.0) y.suffixes)))
    ∙ ap (λ z. record {
      plain = forms.is_nil y.prefixes && (forms.declared_core y.core.0).plain && forms.is_nil (map forms.is_staged_suffix (map (λ k. k.0) y.suffixes));
      name = (forms.declared_core y.core.0).name;
      staged = forms.any_staged_prefix y.prefixes || (forms.declared_core y.core.0).staged || z;
    }) (staged_suffixes y.suffixes)

"""
        elif t == "Suffix":
            text += """suffix_layer (Suffix-F.Array e) = refl
suffix_layer Suffix-F.Unlisted = refl
suffix_layer Suffix-F.Nothing = refl
suffix_layer (Suffix-F.Listed ps) = staged_parameters ps

"""
        elif t == "Parameter":
            text += "parameter_layer y = ap (λ c. c.staged) y.declarator.1\n\n"
        else:
            text += "typename_layer y = ap (λ c. forms.is_some_type y.base && c.plain) y.declarator.1\n\n"
        text += "%s_step : (x : %s-F %s) (y : %s-F %s) → %s ≡ x → %s (roll-%s x)\n" % (low, t, ALL, t, KNOWN, y, AGREES[t], t)
        text += "%s_step x y is = subst (λ z. %s (roll-%s z)) is (ap (λ w. w.%s) (walk_%s %s) ∙ %s_layer y ∙ sym (form_%s %s))\n\n" % (
            low, AGREES[t], t, pick, low, y, low, low, y)
    motives = " ".join(AGREES.get(t, "Any") for t in TYPES)
    steps = " ".join("%s_step" % t.lower() if t in AGREES else "(λ x y is. tt)" for t in TYPES)
    names = {t: "%s_agrees" % t.lower() for t in AGREES}
    for t in AGREES:
        text += "pub %s : (x : %s) → %s x\n%s = ind-%s %s %s\n\n" % (names[t], t, AGREES[t], names[t], t, motives, steps)
    text += """-- as a function asks it
pub constant_agrees : (e : Expr) → (node e).written.constant ≡ forms.has_form e
constant_agrees e = ap (λ w. w.constant) (expr_agrees e)

pub name_agrees : (e : Expr) → (node e).written.name ≡ forms.name_of e
name_agrees e = ap (λ w. w.name) (expr_agrees e)

pub string_agrees : (e : Expr) → (node e).written.string ≡ forms.string_of e
string_agrees e = ap (λ w. w.string) (expr_agrees e)

pub declared_agrees : (d : Declarator) → (shape d).declared.name ≡ forms.declared_name d
declared_agrees d = ap (λ w. w.name) (declarator_agrees d)

pub staged_agrees : (d : Declarator) → (shape d).declared.staged ≡ forms.is_staged d
staged_agrees d = ap (λ w. w.staged) (declarator_agrees d)

pub ruleset forms_of = (constant_agrees, name_agrees, string_agrees, declared_agrees, staged_agrees)
"""
    open("proofs/Written.antt" if imports else "crates/check_laws/proofs/Written.antt", "w").write(text)


main()
