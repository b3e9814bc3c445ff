#!/usr/bin/env python3
"""weights.py CRATES: writes crates/tick_tree (specs/Weights): the fold that counts the nodes of a tree; crates/syntax_size (specs/Layers,
proofs/Folds, proofs/Small): its equations, and the induction over small trees; and crates/wf_growth_rules (proofs/Layers, proofs/Tree)
and crates/wf_growth (proofs/Given): that the walk over a part makes nothing grow by more than its nodes. Run it with `crates` at the
top of the checkout, then `rt check --fix-imports` and `rt fmt` in these crates."""
import sys
T = ["Core", "Expr", "Initializer", "OptionalExpr", "Stmt", "Suffix", "Declaration", "Declarator", "Init", "Parameter", "Typename"]
WALK = dict(zip(T, "core node initializer optional item suffix declaration shape init parameter named".split()))
VALUE = dict(zip(T, ["Shape", "Node", "Start", "(Option Node)", "Item", "SuffixWalk", "Declarations", "Shape", "InitParts", "TypeWalk", "Named"]))
WRULE = dict(zip(T, "core_rule expr_rule start_rule optional_rule stmt_rule suffix_walk declaration_rule declarator_rule init_rule parameter_rule typename_rule".split()))
WEIGHT = dict(zip(T, "core_weight weight initializer_weight optional_weight statement_weight suffix_weight declaration_weight declarator_weight init_weight parameter_weight typename_weight".split()))
NRULE = dict(zip(T, "core_nodes expr_nodes initializer_nodes optional_nodes statement_nodes suffix_nodes declaration_nodes declarator_nodes init_nodes parameter_nodes typename_nodes".split()))
LIGHT = dict(zip(T, "LightShape LightNode LightStart LightOptional LightItem LightSuffixWalk LightDeclarations LightShape LightInit LightTypeWalk LightNamed".split()))

nat = " ".join(["ℕ"] * 11)
trees = " ".join(T)
values = " ".join(VALUE[t] for t in T)
known = " ".join("Known" + t for t in T)
walks = " ".join(WALK[t] for t in T)
wrules = " ".join(WRULE[t] for t in T)
weights = " ".join(WEIGHT[t] for t in T)
nrules = " ".join(NRULE[t] for t in T)
fronts = " ".join(["(λ k. k.0)"] * 11)

spec = f"""-- The weight of a part of a tree: the number of its nodes, where a prefix of a declarator is none. The counts that the checker's walk
-- keeps grow by at most the weight of what is walked. Written by tools/checker/weights.py.
use Rattle.std.specs.Prelude.{{ℕ, ◌+◌, List, [], ◌∷◌, map}}
""" + "".join(f"use Rattle.tick_tree.specs.declared.syntax.{t}.{{{t}}}\n" for t in T) + f"""use Rattle.tick_tree.specs.declared.syntax.External.{{External}}
use Rattle.tick_tree.specs.declared.syntax.External.TheVariants as ext
use Rattle.tick_tree.specs.Items.{{TreeItems}}
use Rattle.tick_tree.specs.declared.syntax.Core.TheOpen.{{{", ".join(t + "-F" for t in T)}}}
use Rattle.tick_tree.specs.declared.syntax.Core.TheFolds.{{{", ".join("fold-" + t for t in T)}}}

abbrev pub total : List ℕ → ℕ
total [] = 0
total (n ∷ ns) = n + total ns

-- ---- a layer of the tree, with the weights of its parts in their places

""" + "\n".join(f"abbrev pub {t}-N : Type 0\n{t}-N = {t}-F {nat}\n" for t in T) + """
abbrev pub core_nodes : Core-N → ℕ
core_nodes Core-F.Core::Absent = 1
core_nodes (Core-F.Core::Name n text) = 1
core_nodes (Core-F.Core::Paren d) = 1 + d

abbrev pub expr_nodes : Expr-N → ℕ
expr_nodes (Expr-F.Expr::Name n text) = 1
expr_nodes (Expr-F.Number n u) = 1
expr_nodes (Expr-F.Character n) = 1
expr_nodes (Expr-F.String text) = 1
expr_nodes (Expr-F.Expr::Paren a) = 1 + a
expr_nodes (Expr-F.Compile n a t) = 1 + (a + t)
expr_nodes (Expr-F.Expr::Local n t) = 1 + t
expr_nodes (Expr-F.Param n t a) = 1 + (t + a)
expr_nodes (Expr-F.Index n ab) = 1 + (ab.0 + ab.1)
expr_nodes (Expr-F.Call n a list) = 1 + (a + total list)
expr_nodes (Expr-F.Step n op a) = 1 + a
expr_nodes (Expr-F.Unary n op a) = 1 + a
expr_nodes (Expr-F.Tick n a) = 1 + a
expr_nodes (Expr-F.TickBlock n items) = 1 + total items
expr_nodes (Expr-F.Cast n t a) = 1 + (t + a)
expr_nodes (Expr-F.Sizeof n t) = 1 + t
expr_nodes (Expr-F.Binary n op ab) = 1 + (ab.0 + ab.1)
expr_nodes (Expr-F.Choice n c a b) = 1 + (c + (a + b))
expr_nodes (Expr-F.Assign n ab) = 1 + (ab.0 + ab.1)
expr_nodes (Expr-F.Modify n op ab) = 1 + (ab.0 + ab.1)
expr_nodes (Expr-F.Comma n ab) = 1 + (ab.0 + ab.1)

abbrev pub initializer_nodes : Initializer-N → ℕ
initializer_nodes Initializer-F.Initializer::Absent = 1
initializer_nodes (Initializer-F.Value e) = 1 + e
initializer_nodes (Initializer-F.List es comma) = 1 + total es

abbrev pub optional_nodes : OptionalExpr-N → ℕ
optional_nodes OptionalExpr-F.OptionalExpr::Absent = 1
optional_nodes (OptionalExpr-F.Present e) = 1 + e

abbrev pub statement_nodes : Stmt-N → ℕ
statement_nodes Stmt-F.Empty = 1
statement_nodes (Stmt-F.Expr e) = 1 + e
statement_nodes (Stmt-F.Block items) = 1 + total items
statement_nodes (Stmt-F.Stmt::Local d) = 1 + d
statement_nodes (Stmt-F.If n c i) = 1 + (c + i)
statement_nodes (Stmt-F.IfElse n c i j) = 1 + (c + (i + j))
statement_nodes (Stmt-F.While n c i) = 1 + (c + i)
statement_nodes (Stmt-F.Do n i c) = 1 + (i + c)
statement_nodes (Stmt-F.For n first c s i) = 1 + (first + (c + (s + i)))
statement_nodes (Stmt-F.Switch n e items) = 1 + (e + total items)
statement_nodes (Stmt-F.Case n e) = 1 + e
statement_nodes (Stmt-F.Default n) = 1
statement_nodes (Stmt-F.Break n) = 1
statement_nodes (Stmt-F.Continue n) = 1
statement_nodes (Stmt-F.Return n e) = 1 + e

abbrev pub suffix_nodes : Suffix-N → ℕ
suffix_nodes (Suffix-F.Array e) = 1 + e
suffix_nodes Suffix-F.Unlisted = 1
suffix_nodes Suffix-F.Nothing = 1
suffix_nodes (Suffix-F.Listed ps) = 1 + total ps

abbrev pub declaration_nodes : Declaration-N → ℕ
declaration_nodes d = 1 + total d.inits

abbrev pub declarator_nodes : Declarator-N → ℕ
declarator_nodes d = 1 + (d.core + total d.suffixes)

abbrev pub init_nodes : Init-N → ℕ
init_nodes i = 1 + (i.declarator + i.value)

abbrev pub parameter_nodes : Parameter-N → ℕ
parameter_nodes p = 1 + p.declarator

abbrev pub typename_nodes : Typename-N → ℕ
typename_nodes t = 1 + t.declarator

-- ---- the weight of each type of the tree

""" + "\n".join(f"unfoldable pub {WEIGHT[t]} : {t} → ℕ\n{WEIGHT[t]} = fold-{t} {nat} {nrules}\n" for t in T) + """
-- ---- programs

abbrev pub item_weight : External → ℕ
item_weight (ext.Function n b d items) = 1 + (declarator_weight d + total (map statement_weight items))
item_weight (ext.Declaration d) = 1 + declaration_weight d

abbrev pub tree_weight : TreeItems → ℕ
tree_weight t = 1 + total (map item_weight t.items)
"""

LAYERS = f"Rattle.syntax_size.specs.Layers.{{{', '.join(t + '-T' for t in T)}, {', '.join('weighed-' + t for t in T)}}}"
TREES = "".join(f"use Rattle.tick_tree.specs.declared.syntax.{t}.{{{t}}}\n" for t in T)
ROLLS = "".join(f"use Rattle.tick_tree.specs.declared.syntax.{t}.{{{t}, roll-{t}}}\n" for t in T)
LAW = dict(zip(T, "core expression initializer optional statement suffix declaration declarator init parameter typename".split()))

shapes = """-- A layer of each type of the tree, and the weights of its parts in their places. Written by tools/checker/weights.py.
use Rattle.std.specs.Prelude.{◌≡◌, ℕ}
""" + ROLLS + f"""use Rattle.tick_tree.specs.declared.syntax.Core.TheOpen.{{{", ".join(t + "-F" for t in T)}}}
use Rattle.tick_tree.specs.declared.syntax.Core.TheFolds.{{{", ".join("map-" + t for t in T)}}}
use Rattle.tick_tree.specs.Weights.{{{", ".join(t + "-N" for t in T)}, {", ".join(NRULE[t] for t in T)}, {", ".join(WEIGHT[t] for t in T)}}}

""" + "\n".join(f"""abbrev pub {t}-T : Type 0
{t}-T = {t}-F {trees}

abbrev pub weighed-{t} : {t}-T → {t}-N
weighed-{t} = map-{t} {trees} {nat} {weights}
""" for t in T) + """
-- a node weighs one more than its parts together, and so more than each
pub record NodesWeighMore : Type 0 where
""" + "".join(f"  pub {LAW[t]} : (x : {t}-T) → {WEIGHT[t]} (roll-{t} x) ≡ {NRULE[t]} (weighed-{t} x)\n" for t in T)

folds = """-- The weight of a node by those of its parts. Written by tools/checker/weights.py.
use Rattle.std.proofs.Common.{◌≡◌, ℕ}
""" + ROLLS + f"""use Rattle.tick_tree.specs.declared.syntax.Core.TheFolds.{{{", ".join("fold-roll-" + t for t in T)}}}
use Rattle.tick_tree.specs.Weights.{{{", ".join(NRULE[t] for t in T)}, {", ".join(WEIGHT[t] for t in T)}}}
use {LAYERS}

""" + "\n".join(f"""pub weigh-{t} : (x : {t}-T) → {WEIGHT[t]} (roll-{t} x) ≡ {NRULE[t]} (weighed-{t} x)
unfolding {weights}
weigh-{t} x = fold-roll-{t} {nat} {nrules} x
""" for t in T)

weighanswer = f"""use Rattle.syntax_size.proofs.Folds.{{{", ".join("weigh-" + t for t in T)}}}
use Rattle.syntax_size.proofs.nodes_weigh_more.Goals as goal

pub returns : goal.returns
returns c = record {{ {"; ".join(LAW[t] + " = weigh-" + t for t in T)} }}
"""

walkfolds = """-- The walk over a node by those over its parts. Written by tools/checker/weights.py.
use Rattle.std.proofs.Common.{◌≡◌}
use Rattle.std.specs.Prelude.{Option}
""" + ROLLS + f"""use Rattle.tick_tree.specs.declared.syntax.Core.TheFolds.{{{", ".join("map-" + t for t in T)}, {", ".join("fold-roll-" + t for t in T)}}}
use Rattle.check_rules.specs.ExpressionRules.{{Node, Named, Shape, Item}}
use Rattle.check_rules.specs.Walk.{{Start, InitParts, Declarations, SuffixWalk, TypeWalk, {", ".join(t + "-W" for t in T)}, {", ".join(WRULE[t] for t in T)}, {", ".join(WALK[t] for t in T)}}}
use {LAYERS}

""" + "\n".join(f"""abbrev pub walked-{t} : {t}-T → {t}-W
walked-{t} = map-{t} {trees} {values} {walks}

pub walk-{t} : (x : {t}-T) → {WALK[t]} (roll-{t} x) ≡ {WRULE[t]} (walked-{t} x)
unfolding {walks}
walk-{t} x = fold-roll-{t} {values} {wrules} x
""" for t in T)

root = sys.argv[1]
def write(name, text):
    open(f"{root}/{name}.antt", "w").write(text)
write("tick_tree/specs/Weights", spec)
write("syntax_size/specs/Layers", shapes)
write("syntax_size/proofs/Folds", folds)
write("syntax_size/proofs/nodes_weigh_more/Answers", weighanswer)
write("wf_growth_rules/proofs/Layers", walkfolds)

layers = """-- The walk over each part of a tree makes nothing grow by more than the weight of the part: an induction over the types of the tree.
-- Written by tools/checker/weights.py.
use Rattle.std.proofs.Common.{◌≡◌, ℕ, ◌+◌, ◌≤◌, List, [], ◌∷◌, map, refl, sym, subst, Some, None, arith}
""" + "".join(f"use Rattle.tick_tree.specs.declared.syntax.{t}.{{{t}, roll-{t}}}\n" for t in T) + f"""use Rattle.tick_tree.specs.declared.syntax.Core.TheOpen.{{{", ".join(t + "-F" for t in T)}}}
use Rattle.tick_tree.specs.declared.syntax.Core.TheFolds.{{{", ".join("map-" + t for t in T)}, {", ".join("ind-" + t for t in T)}}}
use Rattle.check_operands.specs.Operands as nodes
use Rattle.check_rules.specs.StatementRules as statement_rules
use Rattle.check_rules.specs.Walk.{{type_walks}}
use Rattle.check_rules.specs.Walk.{{{", ".join(WRULE[t] for t in T)}, {", ".join(WALK[t] for t in T)}}}
use Rattle.wf_growth_rules.specs.Light.{{LightNode, LightShape, LightItem, LightNamed, LightOptional, absent, present, Each, none, more}}
use Rattle.wf_growth_rules.proofs.Walks.{{weak, pure_light, lift_light}}
use Rattle.wf_growth_rules.proofs.States.{{named_light}}
use Rattle.wf_growth_rules.proofs.Expressions as e
use Rattle.wf_growth_rules.proofs.Statements as s
use Rattle.wf_growth_rules.specs.Parts.{{LightSuffixWalk, LightTypeWalk, LightStart, nothing, value, values, LightInit, LightDeclarations}}
use Rattle.tick_tree.specs.Weights.{{total, {", ".join(NRULE[t] for t in T)}, {", ".join(WEIGHT[t] for t in T)}}}
use Rattle.wf_growth_rules.proofs.Declarations as d
use Rattle.wf_growth_rules.proofs.Layers.{{{", ".join("walked-" + t for t in T)}, {", ".join("walk-" + t for t in T)}}}
use Rattle.syntax_size.proofs.Folds.{{{", ".join("weigh-" + t for t in T)}}}
use {LAYERS}

-- ---- what is shown of each part

""" + "\n".join(f"""abbrev pub {t}Light : {t} → Type 0
{t}Light x = {LIGHT[t]} ({WEIGHT[t]} x) ({WALK[t]} x)

abbrev Known{t} : Type 0
Known{t} = (x : {t}) × {t}Light x
""" for t in T) + "\n" + "\n".join(f"""abbrev {t}-K : Type 0
{t}-K = {t}-F {known}

abbrev front-{t} : {t}-K → {t}-T
front-{t} = map-{t} {known} {trees} {fronts}
""" for t in T) + """
each_known : {A B : Type 0} (P : ℕ → B → Type 0) (weigh : A → ℕ) (walk : A → B) (ks : List ((x : A) × P (weigh x) (walk x))) → Each P (total (map weigh (map (λ k. k.0) ks))) (map walk (map (λ k. k.0) ks))
each_known P weigh walk [] = none
each_known P weigh walk (k ∷ ks) = more k.1 (each_known P weigh walk ks)

nodes_known : (ks : List KnownExpr) → Each LightNode (total (map weight (map (λ k. k.0) ks))) (map node (map (λ k. k.0) ks))
nodes_known ks = each_known LightNode weight node ks

items_known : (ks : List KnownStmt) → Each LightItem (total (map statement_weight (map (λ k. k.0) ks))) (map item (map (λ k. k.0) ks))
items_known ks = each_known LightItem statement_weight item ks

-- ---- the layers

""" + "\n".join(f"""layer-{t} : (y : {t}-K) → {LIGHT[t]} ({NRULE[t]} (weighed-{t} (front-{t} y))) ({WRULE[t]} (walked-{t} (front-{t} y)))
@{t}@
""" for t in T) + "\n-- ---- the induction\n\n" + "\n".join(f"""step-{t} : (x : {t}-T) (y : {t}-K) → front-{t} y ≡ x → {t}Light (roll-{t} x)
step-{t} x y is =
    subst (λ z. {t}Light (roll-{t} z)) is
        (subst (λ w. {LIGHT[t]} w ({WALK[t]} (roll-{t} (front-{t} y)))) (sym (weigh-{t} (front-{t} y)))
            (subst (λ v. {LIGHT[t]} ({NRULE[t]} (weighed-{t} (front-{t} y))) v) (sym (walk-{t} (front-{t} y))) (layer-{t} y)))
""" for t in T) + "\n" + "\n".join(f"""pub {t.lower()}_light : (x : {t}) → {t}Light x
{t.lower()}_light = ind-{t} {" ".join(u + "Light" for u in T)} {" ".join("step-" + u for u in T)}
""" for t in T)

cases = {
"Core": """layer-Core Core-F.Core::Absent = record { at = λ g. weak 1 (pure_light []) (omega arith) }
layer-Core (Core-F.Core::Name n x) = record { at = λ g. weak 1 (pure_light []) (omega arith) }
layer-Core (Core-F.Core::Paren d) = record { at = λ g. weak _ (d.1.at g) (omega arith) }""",
"Expr": """layer-Expr (Expr-F.Expr::Name n x) = record { at = λ g. named_light n g x }
layer-Expr (Expr-F.Number n u) = record { at = λ g. weak 1 (pure_light (nodes.number n u)) (omega arith) }
layer-Expr (Expr-F.Character n) = record { at = λ g. weak 1 (pure_light (nodes.character n)) (omega arith) }
layer-Expr (Expr-F.String x) = record { at = λ g. e.string_light x }
layer-Expr (Expr-F.Expr::Paren a) = record { at = λ g. e.paren_light (node a.0) g a.1 }
layer-Expr (Expr-F.Compile n a t) = record { at = λ g. e.compile_light n (node a.0) (named t.0) g a.1 t.1 }
layer-Expr (Expr-F.Expr::Local n t) = record { at = λ g. e.local_light n (named t.0) g t.1 }
layer-Expr (Expr-F.Param n t a) = record { at = λ g. e.parameter_light n (named t.0) (node a.0) g t.1 a.1 }
layer-Expr (Expr-F.Index n ab) = record { at = λ g. e.index_light n (node ab.0.0) (node ab.1.0) g ab.0.1 ab.1.1 }
layer-Expr (Expr-F.Call n a xs) = record { at = λ g. e.call_light n (node a.0) _ g a.1 (nodes_known xs) }
layer-Expr (Expr-F.Step n o a) = record { at = λ g. e.post_light n o (node a.0) g a.1 }
layer-Expr (Expr-F.Unary n o a) = record { at = λ g. e.unary_light n o (node a.0) g a.1 }
layer-Expr (Expr-F.Tick n a) = record { at = λ g. e.tick_light n (node a.0) g a.1 }
layer-Expr (Expr-F.TickBlock n ss) = record { at = λ g. e.tick_block_light n _ g (items_known ss) }
layer-Expr (Expr-F.Cast n t a) = record { at = λ g. e.cast_light n (named t.0) (node a.0) g t.1 a.1 }
layer-Expr (Expr-F.Sizeof n t) = record { at = λ g. e.size_light n (named t.0) g t.1 }
layer-Expr (Expr-F.Binary n o ab) = record { at = λ g. e.binary_light n o (node ab.0.0) (node ab.1.0) g ab.0.1 ab.1.1 }
layer-Expr (Expr-F.Choice n a c d) = record { at = λ g. e.choice_light n (node a.0) (node c.0) (node d.0) g a.1 c.1 d.1 }
layer-Expr (Expr-F.Assign n ab) = record { at = λ g. e.assign_light n (node ab.0.0) (node ab.1.0) g ab.0.1 ab.1.1 }
layer-Expr (Expr-F.Modify n o ab) = record { at = λ g. e.modify_light n o (node ab.0.0) (node ab.1.0) g ab.0.1 ab.1.1 }
layer-Expr (Expr-F.Comma n ab) = record { at = λ g. e.comma_light (node ab.0.0) (node ab.1.0) g ab.0.1 ab.1.1 }""",
"Initializer": """layer-Initializer Initializer-F.Initializer::Absent = nothing
layer-Initializer (Initializer-F.Value a) = value (record { at = λ g. weak _ (a.1.at g) (omega arith) })
layer-Initializer (Initializer-F.List xs comma) = values (omega arith) (nodes_known xs)""",
"OptionalExpr": """layer-OptionalExpr OptionalExpr-F.OptionalExpr::Absent = absent
layer-OptionalExpr (OptionalExpr-F.Present a) = present (record { at = λ g. weak _ (a.1.at g) (omega arith) })""",
"Stmt": """layer-Stmt Stmt-F.Empty = record { at = λ a. weak 1 (pure_light statement_rules.empty) (omega arith) }
layer-Stmt (Stmt-F.Expr x) = record { at = λ a. s.alone_light (node x.0) a x.1 }
layer-Stmt (Stmt-F.Block ss) = record { at = λ a. s.block_alone_light _ a (items_known ss) }
layer-Stmt (Stmt-F.Stmt::Local x) = record { at = λ a. weak _ (d.declaration_light (declaration x.0) a.stage x.1) (omega arith) }
layer-Stmt (Stmt-F.If n x i) = record { at = λ a. s.if_then_light n (node x.0) (item i.0) a x.1 i.1 }
layer-Stmt (Stmt-F.IfElse n x i j) = record { at = λ a. s.if_else_light n (node x.0) (item i.0) (item j.0) a x.1 i.1 j.1 }
layer-Stmt (Stmt-F.While n x i) = record { at = λ a. s.while_light n (node x.0) (item i.0) a x.1 i.1 }
layer-Stmt (Stmt-F.Do n i x) = record { at = λ a. s.do_light n (item i.0) (node x.0) a i.1 x.1 }
layer-Stmt (Stmt-F.For n i x y j) = record { at = λ a. s.for_light n (item i.0) (optional x.0) (optional y.0) (item j.0) a i.1 x.1 y.1 j.1 }
layer-Stmt (Stmt-F.Switch n x ss) = record { at = λ a. s.switch_light n (node x.0) _ a x.1 (items_known ss) }
layer-Stmt (Stmt-F.Case n x) = record { at = λ a. s.case_light n (node x.0) a x.1 }
layer-Stmt (Stmt-F.Default n) = record { at = λ a. weak 1 (s.default_light n a) (omega arith) }
layer-Stmt (Stmt-F.Break n) = record { at = λ a. weak 1 (lift_light _) (omega arith) }
layer-Stmt (Stmt-F.Continue n) = record { at = λ a. weak 1 (lift_light _) (omega arith) }
layer-Stmt (Stmt-F.Return n x) = record { at = λ a. s.returning_light n (optional x.0) a x.1 }""",
"Suffix": """layer-Suffix (Suffix-F.Array x) = record { at = λ g. s.length_light (optional x.0) g x.1 }
layer-Suffix Suffix-F.Unlisted = record { at = λ g. weak 1 (pure_light _) (omega arith) }
layer-Suffix Suffix-F.Nothing = record { at = λ g. weak 1 (pure_light _) (omega arith) }
layer-Suffix (Suffix-F.Listed ps) = record { at = λ g. s.list_light (type_walks (map parameter (map (λ k. k.0) ps))) g (d.each_parameter (map parameter (map (λ k. k.0) ps)) (each_known LightTypeWalk parameter_weight parameter ps)) }""",
"Declaration": """layer-Declaration y = record { sum = _; inits = each_known LightInit init_weight init y.inits; is = omega arith }""",
"Declarator": """layer-Declarator y = d.declarator_light (core y.core.0) _ y.prefixes y.core.1 (each_known LightSuffixWalk suffix_weight suffix y.suffixes)""",
"Init": """layer-Init y = record { shape_weight = _; start_weight = _; shape = y.declarator.1; start = y.value.1; is = omega arith }""",
"Parameter": """layer-Parameter y = d.parameter_light y.line y.base (shape y.declarator.0) y.declarator.1""",
"Typename": """layer-Typename y = d.typename_light y.base (shape y.declarator.0) y.declarator.1""",
}
for t in T:
    layers = layers.replace(f"@{t}@", cases[t])
write("wf_growth_rules/proofs/Tree", layers)

# ---- the parameters of a declarator
P = dict(Core="Inner", Suffix="(List Given)", Declarator="Head", Parameter="Given")
PV = " ".join(P.get(t, "(Unit {0})") for t in T)
PW = dict(Core="inner", Suffix="list", Declarator="head", Parameter="written")
pwalks = " ".join(PW.get(t, "nothing") for t in T)
PR = dict(Core="inner_rule", Suffix="list_rule", Declarator="head_rule", Parameter="given_rule")
prules = " ".join(PR.get(t, "nothing") for t in T)
FEW = dict(Core="FewInner", Suffix="FewListed", Declarator="FewHead", Parameter="OneNode")
few = lambda t: FEW.get(t, "Any")
fknown = " ".join(f"(({'x'} : {t}) × {few(t)} x)" for t in T)
params = """-- A declarator has no more parameters than nodes. Written by tools/checker/weights.py.
use Rattle.std.proofs.Common.{◌≡◌, ℕ, ◌+◌, ◌≤◌, List, [], ◌∷◌, map, length, refl, ap, sym, subst, arith}
""" + "".join(f"use Rattle.tick_tree.specs.declared.syntax.{t}.{{{t}, roll-{t}}}\n" for t in T) + f"""use Rattle.tick_tree.specs.declared.syntax.Core.TheOpen.{{{", ".join(t + "-F" for t in T)}}}
use Rattle.tick_tree.specs.declared.syntax.Core.TheFolds.{{{", ".join("map-" + t for t in T)}, ind-Declarator, fold-roll-Core, fold-roll-Suffix, fold-roll-Declarator}}
use Rattle.check_globals.specs.Functions.{{Given}}
use Rattle.check_globals.specs.Parameters.{{Head, Inner, nothing, first_of, inner_rule, head_rule, list_rule, given_rule, inner, head, list, written, parameters_of}}
use Rattle.tick_tree.specs.Weights.{{total, {", ".join(NRULE[t] for t in T)}, {", ".join(WEIGHT[t] for t in T)}}}
use Rattle.syntax_size.proofs.Folds.{{weigh-Core, weigh-Suffix, weigh-Declarator, weigh-Parameter}}
use {LAYERS}

abbrev Any : {{A : Type 0}} → A → Type 0
Any x = Unit {{0}}

-- where the suffix behind it has this many parameters
FewInner : Core → Type 0
FewInner c = (gs : List Given) (n : ℕ) → length gs ≤ n → length ((inner c).list gs) ≤ core_weight c + n

abbrev FewListed : Suffix → Type 0
FewListed s = length (list s) ≤ suffix_weight s

abbrev FewHead : Declarator → Type 0
FewHead d = length (head d).list ≤ declarator_weight d

abbrev OneNode : Parameter → Type 0
OneNode p = 1 ≤ parameter_weight p

""".replace("\nFewInner", "\nabbrev FewInner", 1) + "\n".join(f"""abbrev {t}-G : Type 0
{t}-G = {t}-F {fknown}

abbrev front-{t} : {t}-G → {t}-T
front-{t} = map-{t} {fknown} {trees} {fronts}

given-{t} : (x : {t}-T) → {PW[t]} (roll-{t} x) ≡ {PR[t]} (map-{t} {trees} {PV} {pwalks} x)
unfolding inner head list written
given-{t} x = fold-roll-{t} {PV} {prules} x
""" for t in ["Core", "Suffix", "Declarator"]) + f"""
-- ---- the layers

layer-Core : (y : Core-G) (gs : List Given) (n : ℕ) → length gs ≤ n → length ((inner_rule (map-Core {trees} {PV} {pwalks} (front-Core y))).list gs) ≤ core_nodes (weighed-Core (front-Core y)) + n
layer-Core Core-F.Core::Absent gs n h = omega arith
layer-Core (Core-F.Core::Name line x) gs n h = omega arith
layer-Core (Core-F.Core::Paren d) gs n h = omega (arith, d.1)

written_few : (ps : List ((p : Parameter) × OneNode p)) → length (map written (map (λ k. k.0) ps)) ≤ total (map parameter_weight (map (λ k. k.0) ps))
written_few [] = omega arith
written_few (p ∷ ps) = omega (arith, p.1, written_few ps)

layer-Suffix : (y : Suffix-G) → length (list_rule (map-Suffix {trees} {PV} {pwalks} (front-Suffix y))) ≤ suffix_nodes (weighed-Suffix (front-Suffix y))
layer-Suffix (Suffix-F.Array e) = omega arith
layer-Suffix Suffix-F.Unlisted = omega arith
layer-Suffix Suffix-F.Nothing = omega arith
layer-Suffix (Suffix-F.Listed ps) = omega (arith, written_few ps)

first_few : (ss : List ((s : Suffix) × FewListed s)) → length (first_of (map list (map (λ k. k.0) ss))) ≤ total (map suffix_weight (map (λ k. k.0) ss))
first_few [] = omega arith
first_few (s ∷ ss) = omega (arith, s.1)

layer-Declarator : (y : Declarator-G) → length (head_rule (map-Declarator {trees} {PV} {pwalks} (front-Declarator y))).list ≤ declarator_nodes (weighed-Declarator (front-Declarator y))
layer-Declarator y = omega (arith, y.core.1 (first_of (map list (map (λ k. k.0) y.suffixes))) (total (map suffix_weight (map (λ k. k.0) y.suffixes))) (first_few y.suffixes))

-- ---- the induction

step-Core : (x : Core-T) (y : Core-G) → front-Core y ≡ x → FewInner (roll-Core x)
step-Core x y is =
    subst (λ z. FewInner (roll-Core z)) is
        (λ gs n h. subst (λ w. length ((inner (roll-Core (front-Core y))).list gs) ≤ w + n) (sym (weigh-Core (front-Core y)))
            (subst (λ (v : Inner). length (v.list gs) ≤ core_nodes (weighed-Core (front-Core y)) + n) (sym (given-Core (front-Core y))) (layer-Core y gs n h)))

step-Suffix : (x : Suffix-T) (y : Suffix-G) → front-Suffix y ≡ x → FewListed (roll-Suffix x)
step-Suffix x y is =
    subst (λ z. FewListed (roll-Suffix z)) is
        (subst (λ w. length (list (roll-Suffix (front-Suffix y))) ≤ w) (sym (weigh-Suffix (front-Suffix y)))
            (subst (λ (v : List Given). length v ≤ suffix_nodes (weighed-Suffix (front-Suffix y))) (sym (given-Suffix (front-Suffix y))) (layer-Suffix y)))

step-Declarator : (x : Declarator-T) (y : Declarator-G) → front-Declarator y ≡ x → FewHead (roll-Declarator x)
step-Declarator x y is =
    subst (λ z. FewHead (roll-Declarator z)) is
        (subst (λ w. length (head (roll-Declarator (front-Declarator y))).list ≤ w) (sym (weigh-Declarator (front-Declarator y)))
            (subst (λ (v : Head). length v.list ≤ declarator_nodes (weighed-Declarator (front-Declarator y))) (sym (given-Declarator (front-Declarator y))) (layer-Declarator y)))

-- each parameter is a node
step-Parameter : (x : Parameter-T) → OneNode (roll-Parameter x)
step-Parameter x = rw (weigh-Parameter x) (omega arith)

pub parameters_few : (d : Declarator) → length (parameters_of d) ≤ declarator_weight d
parameters_few = ind-Declarator {" ".join(few(t) for t in T)} {" ".join("(λ x y is. step-Parameter x)" if t == "Parameter" else "step-" + t if t in FEW else "(λ x y is. tt)" for t in T)}
"""
write("wf_growth/proofs/Given", params)

# ---- induction over what is small
LO = dict(zip(T, "core expr initializer optional stmt suffix declaration declarator init parameter typename".split()))
small = """-- Induction over the parts of a tree that is small: what is shown of a node by its parts, where the node weighs no more than a limit, holds
-- of each tree that does, since each part weighs less than its node. Written by tools/checker/weights.py.
use Rattle.std.proofs.Common.{◌≡◌, ℕ, ◌+◌, ◌≤◌, List, [], ◌∷◌, map, refl, ap, sym, subst, ◌∙◌, arith}
""" + "".join(f"use Rattle.tick_tree.specs.declared.syntax.{t}.{{{t}, roll-{t}}}\n" for t in T) + f"""use Rattle.tick_tree.specs.declared.syntax.Core.TheOpen.{{{", ".join(t + "-F" for t in T)}}}
use Rattle.tick_tree.specs.declared.syntax.Core.TheFolds.{{{", ".join("map-" + t for t in T)}, {", ".join("ind-" + t for t in T)}}}
use Rattle.tick_tree.specs.Weights.{{total, {", ".join(NRULE[t] for t in T)}, {", ".join(WEIGHT[t] for t in T)}}}
use Rattle.syntax_size.proofs.Folds.{{{", ".join("weigh-" + t for t in T)}}}
use {LAYERS}

-- parts of a list
pub record Lowered {{A : Type 0}} (P : A → Type 0) (xs : List A) : Type 0 where
  pub parts : List ((x : A) × P x)
  pub is : map (λ k. k.0) parts ≡ xs

lower : {{A : Type 0}} (P : A → Type 0) (limit : ℕ) (weigh : A → ℕ) (ks : List ((x : A) × (weigh x ≤ limit → P x))) → total (map weigh (map (λ k. k.0) ks)) ≤ limit → Lowered P (map (λ k. k.0) ks)
lower P limit weigh [] h = record {{ parts = []; is = refl }}
lower P limit weigh (k ∷ ks) h =
    let rest = lower P limit weigh ks (omega arith) in
    record {{ parts = (k.0, k.1 (omega arith)) ∷ rest.parts; is = ap (λ l. k.0 ∷ l) rest.is }}

module _ (limit : ℕ) {" ".join(f"(P{t} : {t} → Type 0)" for t in T)} where
"""
pk = " ".join(f"((x : {t}) × P{t} x)" for t in T)
qk = " ".join(f"((x : {t}) × ({WEIGHT[t]} x ≤ limit → P{t} x))" for t in T)
PARAMS = " ".join(f"P{t}" for t in T)
body = ""
for t in T:
    body += f"""
pub {t}-P : Type 0
{t}-P = {t}-F {pk}

pub parts-{t} : {t}-F {pk} → {t}-T
parts-{t} = map-{t} {pk} {trees} {fronts}

{t}-Q : Type 0
{t}-Q = {t}-F {qk}

small-{t} : {t}-F {qk} → {t}-T
small-{t} = map-{t} {qk} {trees} {fronts}

-- what is shown of a node by its parts
pub Step{t} : Type 0
Step{t} = (x : {t}-T) (y : {t}-F {pk}) → parts-{t} y ≡ x → {WEIGHT[t]} (roll-{t} x) ≤ limit → P{t} (roll-{t} x)
"""
for t in T:
    for name in [f"{t}-P : T", f"parts-{t} : ", f"{t}-Q : T", f"small-{t} : ", f"Step{t} : T"]:
        body = body.replace("\npub " + name, "\nabbrev pub " + name).replace("\n" + name, "\nabbrev " + name)

def lowered(v):
    return f"({v}.0, {v}.1 (omega arith))"
def arg(kind, v):
    return {"p": v, "k": lowered(v), "2": f"({lowered(v + '.0')}, {lowered(v + '.1')})"}.get(kind, f"{v}z.parts")
def one(con, args):
    """args: list of (name, kind) with kind in 'k' (part), '2' (a pair of parts), 'p' (plain), or a type's name (a list of that type's parts)"""
    pat = f"({con} {' '.join(a for a, k in args)})" if args else con
    lists = [(a, k) for a, k in args if k not in "k2p"]
    lets = "".join(f"let {a}z = lower P{k} limit {WEIGHT[k]} {a} (omega arith) in " for a, k in lists)
    val = " ".join(arg(k, a) for a, k in args)
    val = f"({con} {val})" if args else con
    if lists:
        a, k = lists[0]
        whole = " ".join(f"{x}.0" if kk == "k" else x if kk == "p" else "l" for x, kk in args)
        eq = f"ap (λ (l : List {k}). {con} {whole}) {a}z.is"
    else:
        eq = "refl"
    return pat, f"{lets}record {{ layer = {val}; is = {eq} }}"

CONS = {
"Core": [("Core-F.Core::Absent", ""), ("Core-F.Core::Name", "n:p x:p"), ("Core-F.Core::Paren", "d:k")],
"Expr": [("Expr-F.Expr::Name", "n:p x:p"), ("Expr-F.Number", "n:p u:p"), ("Expr-F.Character", "n:p"), ("Expr-F.String", "x:p"), ("Expr-F.Expr::Paren", "a:k"),
    ("Expr-F.Compile", "n:p a:k t:k"), ("Expr-F.Expr::Local", "n:p t:k"), ("Expr-F.Param", "n:p t:k a:k"), ("Expr-F.Index", "n:p ab:2"), ("Expr-F.Call", "n:p a:k xs:Expr"),
    ("Expr-F.Step", "n:p o:p a:k"), ("Expr-F.Unary", "n:p o:p a:k"), ("Expr-F.Tick", "n:p a:k"), ("Expr-F.TickBlock", "n:p xs:Stmt"), ("Expr-F.Cast", "n:p t:k a:k"),
    ("Expr-F.Sizeof", "n:p t:k"), ("Expr-F.Binary", "n:p o:p ab:2"), ("Expr-F.Choice", "n:p a:k c:k d:k"), ("Expr-F.Assign", "n:p ab:2"), ("Expr-F.Modify", "n:p o:p ab:2"),
    ("Expr-F.Comma", "n:p ab:2")],
"Initializer": [("Initializer-F.Initializer::Absent", ""), ("Initializer-F.Value", "a:k"), ("Initializer-F.List", "xs:Expr comma:p")],
"OptionalExpr": [("OptionalExpr-F.OptionalExpr::Absent", ""), ("OptionalExpr-F.Present", "a:k")],
"Stmt": [("Stmt-F.Empty", ""), ("Stmt-F.Expr", "a:k"), ("Stmt-F.Block", "xs:Stmt"), ("Stmt-F.Stmt::Local", "d:k"), ("Stmt-F.If", "n:p a:k i:k"), ("Stmt-F.IfElse", "n:p a:k i:k j:k"),
    ("Stmt-F.While", "n:p a:k i:k"), ("Stmt-F.Do", "n:p i:k a:k"), ("Stmt-F.For", "n:p i:k a:k c:k j:k"), ("Stmt-F.Switch", "n:p a:k xs:Stmt"), ("Stmt-F.Case", "n:p a:k"),
    ("Stmt-F.Default", "n:p"), ("Stmt-F.Break", "n:p"), ("Stmt-F.Continue", "n:p"), ("Stmt-F.Return", "n:p a:k")],
"Suffix": [("Suffix-F.Array", "a:k"), ("Suffix-F.Unlisted", ""), ("Suffix-F.Nothing", ""), ("Suffix-F.Listed", "xs:Parameter")],
}
RECS = {
"Declaration": ("record { line = y.line; base = y.base; inits = z.parts }", "inits", "Init", "record { line = y.line; base = y.base; inits = l }"),
"Declarator": ("record { prefixes = y.prefixes; core = (y.core.0, y.core.1 (omega arith)); suffixes = z.parts }", "suffixes", "Suffix", "record { prefixes = y.prefixes; core = y.core.0; suffixes = l }"),
"Init": ("record { declarator = (y.declarator.0, y.declarator.1 (omega arith)); value = (y.value.0, y.value.1 (omega arith)) }", None, None, None),
"Parameter": ("record { line = y.line; base = y.base; declarator = (y.declarator.0, y.declarator.1 (omega arith)) }", None, None, None),
"Typename": ("record { base = y.base; declarator = (y.declarator.0, y.declarator.1 (omega arith)) }", None, None, None),
}
for t in T:
    body += f"""
record Small{t} (x : {t}-T) : Type 0 where
  layer : {t}-F {pk}
  is : parts-{t} layer ≡ x

lower-{t} : (y : {t}-F {qk}) → {NRULE[t]} (weighed-{t} (small-{t} y)) ≤ limit → Small{t} (small-{t} y)
"""
    if t in CONS:
        for con, args in CONS[t]:
            a = [tuple(x.split(":")) for x in args.split()]
            pat, val = one(con, a)
            body += f"lower-{t} {pat} h = {val}\n"
    else:
        val, lst, k, back = RECS[t]
        if lst:
            body += f"lower-{t} y h = let z = lower P{k} limit {WEIGHT[k]} y.{lst} (omega arith) in record {{ layer = {val}; is = ap (λ (l : List {k}). {back}) z.is }}\n"
        else:
            body += f"lower-{t} y h = record {{ layer = {val}; is = refl }}\n"
    body += f"""
step-{t} : Step{t} → (x : {t}-T) (y : {t}-F {qk}) → small-{t} y ≡ x → {WEIGHT[t]} (roll-{t} x) ≤ limit → P{t} (roll-{t} x)
step-{t} step x y is h =
    let z = lower-{t} y (subst (λ w. w ≤ limit) (weigh-{t} (small-{t} y)) (subst (λ v. {WEIGHT[t]} (roll-{t} v) ≤ limit) (sym is) h)) in
    step x z.layer (z.is ∙ is) h
"""
steps = " ".join(f"(s{t} : Step{t})" for t in T)
qs = " ".join(f"(λ x. {WEIGHT[t]} x ≤ limit → P{t} x)" for t in T)
ss = " ".join(f"(step-{t} s{t})" for t in T)
for t in T:
    body += f"""
pub {LO[t]}_small : {steps} → (x : {t}) → {WEIGHT[t]} x ≤ limit → P{t} x
{LO[t]}_small {" ".join("s" + u for u in T)} = ind-{t} {qs} {ss}
"""
small += "\n".join(("  " + l) if l else l for l in body.split("\n")).rstrip() + "\n"
write("syntax_size/proofs/Small", small)
