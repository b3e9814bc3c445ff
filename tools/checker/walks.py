"""Writes the inductions over the walk: crates/wf_walk/specs/Asked.antt and proofs/Induction.antt, and
crates/wf_programs/proofs/Trees.antt.

Run it at the top of the checkout, after a change of the tree's types or of the fold's rules; then `rt tidy` in both crates.
"""
import re

TYPES = "Core Expr Initializer OptionalExpr Stmt Suffix Declaration Declarator Init Parameter Typename".split()
WALK_OF = dict(zip(TYPES, "core node initializer optional item suffix declaration shape init parameter named".split()))
RULE_OF = dict(zip(TYPES, "core_rule expr_rule start_rule optional_rule stmt_rule suffix_walk declaration_rule declarator_rule init_rule parameter_rule typename_rule".split()))
FIELD_OF = dict(zip(TYPES, "shape node start optional item suffix declarations shape init parameter named".split()))
LAW_OF = dict(zip(TYPES, "core expr initializer optional stmt suffix declaration declarator init parameter typename".split()))
RESULTS = "Shape Node Start (Option Node) Item SuffixWalk Declarations Shape InitParts TypeWalk Named"
TREES = " ".join(TYPES)
ALL_RULES = " ".join(RULE_OF[t] for t in TYPES)
ALL_WALKS = " ".join(WALK_OF[t] for t in TYPES)
KNOWN = " ".join(f"(Known{t} q)" for t in TYPES)
# The parts of each layer: its pattern, and each part with what is asked of it; a * stands before a list of parts.
PARTS = {
    "Core": ["Core-F.Core::Absent", "(Core-F.Core::Name n text)", "(Core-F.Core::Paren d): shape d"],
    "Expr": ["(Expr-F.Expr::Name line name)", "(Expr-F.Number n unsigned)", "(Expr-F.Character n)", "(Expr-F.String bytes)",
        "(Expr-F.Expr::Paren a): node a", "(Expr-F.Compile line a t): node a, named t", "(Expr-F.Expr::Local line t): named t",
        "(Expr-F.Param line t a): named t, node a", "(Expr-F.Index line ab): node ab.0, node ab.1",
        "(Expr-F.Call line a list): node a, *node list", "(Expr-F.Step line op a): node a", "(Expr-F.Unary line op a): node a",
        "(Expr-F.Tick line a): node a", "(Expr-F.TickBlock line items): *item items", "(Expr-F.Cast line t a): named t, node a",
        "(Expr-F.Sizeof line t): named t", "(Expr-F.Binary line op ab): node ab.0, node ab.1",
        "(Expr-F.Choice line c a b): node c, node a, node b", "(Expr-F.Assign line ab): node ab.0, node ab.1",
        "(Expr-F.Modify line op ab): node ab.0, node ab.1", "(Expr-F.Comma line ab): node ab.0, node ab.1"],
    "Initializer": ["Initializer-F.Initializer::Absent", "(Initializer-F.Value e): node e", "(Initializer-F.List es comma): *node es"],
    "OptionalExpr": ["OptionalExpr-F.OptionalExpr::Absent", "(OptionalExpr-F.Present e): node e"],
    "Stmt": ["Stmt-F.Empty", "(Stmt-F.Expr e): node e", "(Stmt-F.Block items): *item items", "(Stmt-F.Stmt::Local d): declarations d",
        "(Stmt-F.If line c i): node c, item i", "(Stmt-F.IfElse line c i j): node c, item i, item j", "(Stmt-F.While line c i): node c, item i",
        "(Stmt-F.Do line i c): item i, node c", "(Stmt-F.For line first c s i): item first, optional c, optional s, item i",
        "(Stmt-F.Switch line e items): node e, *item items", "(Stmt-F.Case line e): node e", "(Stmt-F.Default line)", "(Stmt-F.Break line)",
        "(Stmt-F.Continue line)", "(Stmt-F.Return line e): optional e"],
    "Suffix": ["(Suffix-F.Array e): optional e", "Suffix-F.Unlisted", "Suffix-F.Nothing", "(Suffix-F.Listed ps): *parameter ps"],
    "Declaration": ["d: *init d.inits"],
    "Declarator": ["d: shape d.core, *suffix d.suffixes"],
    "Init": ["i: shape i.declarator, start i.value"],
    "Parameter": ["p: shape p.declarator"],
    "Typename": ["t: shape t.declarator"],
}


def productions(kind):
    """Each pattern of a layer with its parts: what is asked of one, its name, and whether it is a list of them."""
    for production in PARTS[kind]:
        pattern, _, parts = re.fullmatch(r"(.*?)(: (.*))?", production).groups()
        parts = [it.split() for it in parts.split(", ")] if parts else []
        yield pattern, [(asked.lstrip("*"), name, asked.startswith("*")) for asked, name in parts]


def asked_of(parts):
    """What is asked of the parts of a layer."""
    return " × ".join(f"EachPart q.{asked} {name}" if is_list else f"q.{asked} {name}" for asked, name, is_list in parts) or "Unit {0}"


def known_of(parts):
    """That it holds of them, of trees of which it holds."""
    known = [f"each {asked} q.{asked} {name}" if is_list else f"{name}.1" for asked, name, is_list in parts]
    return "tt" if not known else known[0] if len(known) == 1 else f"({', '.join(known)})"


# The names of variables in the patterns of the lemmas, where they are others than in the definitions.
IN_LEMMAS = {"line": "n", "op": "o", "unsigned": "u", "name": "text"}


def in_lemma(pattern, parts):
    """A pattern and its parts as the lemmas write them; a record is `y` there."""
    if re.fullmatch(r"[a-z]", pattern):
        return "y", [(asked, "y" + name[1:], is_list) for asked, name, is_list in parts]
    return re.sub(r"(?<= )[a-z]+\b", lambda it: IN_LEMMAS.get(it[0], it[0]), pattern), parts


text = """-- What each rule of the walk keeps holds of the walk over each tree: an induction over the syntax tree, once for all that is asked. Written by
-- tools/checker/walks.py.
use Rattle.std.proofs.Common.{◌≡◌, ℕ, List, [], ◌∷◌, map, refl, ap, sym, ◌∙◌, subst, Option}
"""
for t in TYPES: text+=f"use Rattle.tick_tree.specs.declared.syntax.{t}.{{{t}, roll-{t}}}\n"
text+="use Rattle.tick_tree.specs.declared.syntax.Core.TheOpen.{%s}\n"%", ".join(t+"-F" for t in TYPES)
text+="use Rattle.tick_tree.specs.declared.syntax.Core.TheFolds.{%s}\n"%", ".join([f"ind-{t}" for t in TYPES]+[f"map-{t}" for t in TYPES]+[f"fold-roll-{t}" for t in TYPES])
text+="use Rattle.check_rules.specs.ExpressionRules.{Node, Named, Shape, Item}\n"
text+="use Rattle.check_rules.specs.Walk.{Start, InitParts, Declarations, SuffixWalk, TypeWalk, %s, %s, %s}\n"%(", ".join(t+"-W" for t in TYPES),", ".join(RULE_OF[t] for t in TYPES),", ".join(WALK_OF[t] for t in TYPES))
text+="use Rattle.wf_walk.specs.Parts.{EachPart}\n"
text+="use Rattle.wf_walk.specs.Asked.{Asked, %s, RulesKeep}\n"%", ".join("Every"+t for t in TYPES)
text+="\n-- ---- a tree of which what is asked holds\n\n"
for t in TYPES: text+=f"abbrev Known{t} : Asked → Type 0\nKnown{t} q = (x : {t}) × q.{FIELD_OF[t]} ({WALK_OF[t]} x)\n\n"
text+="-- ---- a layer of trees, of such trees, and of what the walks over them are\n\n"
for t in TYPES:
    text+=f"abbrev {t}-T : Type 0\n{t}-T = {t}-F {TREES}\n\n"
    text+=f"abbrev {t}-K : Asked → Type 0\n{t}-K q = {t}-F {KNOWN}\n\n"
    text+=f"abbrev first{t} : (q : Asked) → {t}-K q → {t}-T\nfirst{t} q y = map-{t} {KNOWN} {TREES} {' '.join(['(λ k. k.0)']*11)} y\n\n"
    text+=f"abbrev walked{t} : {t}-T → {t}-W\nwalked{t} x = map-{t} {TREES} {RESULTS} {ALL_WALKS} x\n\n"
text+="-- ---- the walk over a layer\n\n"
for t in TYPES:
    l=LAW_OF[t]
    text+=f"walk_{l} : (x : {t}-T) → {WALK_OF[t]} (roll-{t} x) ≡ {RULE_OF[t]} (walked{t} x)\nunfolding {ALL_WALKS}\nwalk_{l} x = fold-roll-{t} {RESULTS} {ALL_RULES} x\n\n"
text+="""-- ---- its parts

each : {A B : Type 0} (f : A → B) (P : B → Type 0) (ys : List ((x : A) × P (f x))) → EachPart P (map f (map (λ k. k.0) ys))
each f P [] = tt
each f P (y ∷ ys) = (y.1, each f P ys)

"""
for t in TYPES:
    l=LAW_OF[t]
    text+=f"parts_{l} : (q : Asked) (y : {t}-K q) → Every{t} q (walked{t} (first{t} q y))\n"
    for production in productions(t):
        pattern, parts = in_lemma(*production)
        text+=f"parts_{l} q {pattern} = {known_of(parts)}\n"
    text+="\n"
text+="-- ---- a layer, of which this is given\n\n"
for t in TYPES:
    l=LAW_OF[t]
    text+=f"pub step_{l} : (q : Asked) (G : {t}-W → Type 0) → ((x : {t}-W) → Every{t} q x → G x → q.{FIELD_OF[t]} ({RULE_OF[t]} x)) → (x : {t}-T) (y : {t}-K q) → first{t} q y ≡ x → G (walked{t} x) → q.{FIELD_OF[t]} ({WALK_OF[t]} (roll-{t} x))\n"
    text+=f"step_{l} q G rule x y is given = subst (λ w. q.{FIELD_OF[t]} w) (sym (walk_{l} x)) (rule (walked{t} x) (subst (λ z. Every{t} q (walked{t} z)) is (parts_{l} q y)) given)\n\n"
text+="-- ---- trees\n\n"
mot=" ".join(f"(λ x. q.{FIELD_OF[t]} ({WALK_OF[t]} x))" for t in TYPES)
st=" ".join(f"(λ x y is. step_{LAW_OF[t]} q (λ w. Unit {{0}}) (λ w h u. k.{LAW_OF[t]} w h) x y is tt)" for t in TYPES)
for t in TYPES:
    text+=f"pub holds_{LAW_OF[t]} : (q : Asked) → RulesKeep q → (x : {t}) → q.{FIELD_OF[t]} ({WALK_OF[t]} x)\nholds_{LAW_OF[t]} q k = ind-{t} {mot} {st}\n\n"
text=text.replace("abbrev Known","abbrev pub Known").replace("abbrev first","abbrev pub first").replace("abbrev walked","abbrev pub walked")
for t in TYPES:
    text=text.replace(f"abbrev {t}-T","abbrev pub "+t+"-T").replace(f"abbrev {t}-K","abbrev pub "+t+"-K").replace(f"\nwalk_{LAW_OF[t]} : ",f"\npub walk_{LAW_OF[t]} : ")
open("crates/wf_walk/proofs/Induction.antt", "w").write(text.rstrip("\n")+"\n")
# specs
definitions = """-- What is asked of each value that the walk makes of a part of a tree, and of the parts of a layer.
use Rattle.std.specs.Prelude.{ℕ, List, Option}
use Rattle.tick_tree.specs.declared.syntax.Core.TheOpen.{%s}
use Rattle.check_rules.specs.ExpressionRules.{Node, Named, Shape, Item}
use Rattle.check_rules.specs.Walk.{Start, InitParts, Declarations, SuffixWalk, TypeWalk, %s, %s}
use Rattle.wf_walk.specs.Parts.{EachPart}

pub record Asked : Type 1 where
  pub shape : Shape → Type 0
  pub node : Node → Type 0
  pub start : Start → Type 0
  pub optional : Option Node → Type 0
  pub item : Item → Type 0
  pub suffix : SuffixWalk → Type 0
  pub declarations : Declarations → Type 0
  pub init : InitParts → Type 0
  pub parameter : TypeWalk → Type 0
  pub named : Named → Type 0

-- ---- the parts of a layer

"""%(", ".join(t+"-F" for t in TYPES),", ".join(t+"-W" for t in TYPES),", ".join(RULE_OF[t] for t in TYPES))
for t in TYPES:
    definitions += f"abbrev pub Every{t} : Asked → {t}-W → Type 0\n"
    for pattern, parts in productions(t):
        definitions += f"Every{t} q {pattern} = {asked_of(parts)}\n"
    definitions += "\n"
definitions += "-- each rule of the walk keeps what is asked\npub record RulesKeep (q : Asked) : Type 0 where\n"
for t in TYPES: definitions += f"  pub {LAW_OF[t]} : (x : {t}-W) → Every{t} q x → q.{FIELD_OF[t]} ({RULE_OF[t]} x)\n"
open("crates/wf_walk/specs/Asked.antt", "w").write(definitions)

# the law on small trees
WEIGHT_OF = dict(zip(TYPES, "core_weight weight initializer_weight optional_weight statement_weight suffix_weight declaration_weight declarator_weight init_weight parameter_weight typename_weight".split()))
SMALL_OF = dict(zip(TYPES, "core_small expr_small initializer_small optional_small stmt_small suffix_small declaration_small declarator_small init_small parameter_small typename_small".split()))
text = """-- The law on small trees: an induction over their parts, each of which is small. Written by tools/checker/walks.py.
use Rattle.std.proofs.Common.{◌≡◌, ℕ, ◌≤◌, List}
"""
for t in TYPES: text+=f"use Rattle.tick_tree.specs.declared.syntax.{t}.{{{t}, roll-{t}}}\n"
text+="use Rattle.check_rules.specs.Walk.{%s}\n"%", ".join(WALK_OF[t] for t in TYPES)
text+="use Rattle.tick_tree.specs.Weights.{%s}\n"%", ".join(WEIGHT_OF[t] for t in TYPES)
text+="use Rattle.syntax_size.proofs.Small.{%s}\n"%", ".join(SMALL_OF[t] for t in TYPES)
text+="use Rattle.wf_walk.proofs.Induction.{%s, %s, %s, %s}\n"%(", ".join(t+"-T" for t in TYPES),", ".join(t+"-K" for t in TYPES),", ".join("first"+t for t in TYPES),", ".join("step_"+LAW_OF[t] for t in TYPES))
text+="use Rattle.check_rules.specs.Bounds.{count_bound}\n"
text+="use Rattle.wf_programs.specs.Good.{good, FewExpr}\nuse Rattle.wf_programs.specs.Small.{SmallAreGood}\nuse Rattle.wf_programs.proofs.Few.{few_expr}\nuse Rattle.wf_programs.proofs.Rules.{%s}\n"%", ".join("good_"+LAW_OF[t] for t in TYPES)
text+="\n-- ---- a layer of a small tree\n\n"
for t in TYPES:
    l=LAW_OF[t]
    sig=f"{l} : (many : List ℕ) (x : {t}-T) (y : {t}-K (good many)) → first{t} (good many) y ≡ x → {WEIGHT_OF[t]} (roll-{t} x) ≤ count_bound → (good many).{FIELD_OF[t]} ({WALK_OF[t]} (roll-{t} x))\n"
    text+="at_"+sig
    if t=="Expr": body=f"step_{l} (good many) FewExpr (good_expr many) x y is (few_expr x h)"
    else: body=f"step_{l} (good many) (λ w. Unit {{0}}) (λ w p u. good_{l} many w p) x y is tt"
    text+=f"at_{l} many x y is h = {body}\n\n"
text+="-- ---- trees\n\n"
preds=" ".join(f"(λ x. (good many).{FIELD_OF[t]} ({WALK_OF[t]} x))" for t in TYPES)
steps=" ".join(f"(at_{LAW_OF[t]} many)" for t in TYPES)
for t in ["Expr","Stmt","Declarator","Initializer","Declaration"]:
    l=LAW_OF[t]
    text+=f"small_{l} : (many : List ℕ) (x : {t}) → {WEIGHT_OF[t]} x ≤ count_bound → (good many).{FIELD_OF[t]} ({WALK_OF[t]} x)\n"
    text+=f"small_{l} many = {SMALL_OF[t]} count_bound {preds} {steps}\n\n"
text+="""pub small_are_good : (many : List ℕ) → SmallAreGood many
small_are_good many = record {
  node = small_expr many;
  item = small_stmt many;
  shape = small_declarator many;
  start = small_initializer many;
  declaration = small_declaration many;
}
"""
open("crates/wf_programs/proofs/Trees.antt", "w").write(text)
