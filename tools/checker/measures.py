"""Writes crates/check_walk/proofs/+walk/Invariants.antt: the measures of the functions of the walk, and the invariants of its loops.

Run it at the top of the checkout, after a change of a function of the cycle.
"""
import re,os
B='crates/check_walk/'
R=dict(expression=0,core=0,suffix=0,statement=0,optional=0,length=0,begin=0,returned=0,
suffixes=1,declarator=2,typename=3,parameter=3,each_parameter=4,parameters=5,
elements=1,begin_list=2,declared_local=5,locals=6,
items=2,item_behind=1,block=3,tick_block=4,body_of=1,tested=2,branches=3,done_first=2,
for_rest=2,for_block=4,for_all=5,switch_block=3,switch=5,case=1,
unary=1,post=1,named=4,compile=4,typed=4,pair=2,choice=2,
arguments=1,plain_call=2,call=3,tick_expression=1)
TREE={'&Expr':'size-Expr','&syntax::Stmt':'size-Stmt','&OptionalExpr':'size-OptionalExpr','&Initializer':'size-Initializer'}
out='''use Rattle.std.proofs.Common.{◌≡◌, map, ℕ, ◌+◌, ◌*◌, max, drop, []}
use Rattle.std.specs.Prelude.{None}
use Rattle.check_operands.specs.Calls as calls
use Rattle.tick_tree.specs.declared.syntax.Expr.{size-Expr}
use Rattle.tick_tree.specs.declared.syntax.OptionalExpr.{size-OptionalExpr}
use Rattle.tick_tree.specs.declared.syntax.Stmt.{size-Stmt}
use Rattle.check_rules.specs.StatementRules as statements
use Rattle.check_rules.specs.Walk as spec
use Rattle.check_laws.proofs.Loops.{after}
use Rattle.check_walk.proofs.+walk.Given as goal

-- each function takes the parts of a value, or passes a value on to one of a lower rank
'''
for f in ('expressions','types','declarations','statements'):
    s=open(B+'src/%s.rt'%f).read().replace('&(Expr, Expr)','&Parts')
    for m in re.finditer(r'#\[cycle\(walk\)\]\n(?:#\[tactic[^\n]*\n)?(?:pub )?fn (\w+)\(([^)]*)\)',s):
        name=m.group(1)
        ps=[x.strip().split(': ') for x in m.group(2).replace('\n',' ').split(',') if x.strip()]
        tr=[(v,t) for v,t in ps if t in TREE or t in('&Parts','&Typename','&[Expr]','&[syntax::Stmt]','&[Stmt]','&[Suffix]','&[Parameter]','&[Init]','&Core','&Suffix','&Declarator','&Parameter','&Init','&Initializer','&Declaration')]
        # (a type is a tree, too: the size is that of the list)
        if len(tr)==1 and name not in ('elements', 'begin_list', 'pair', 'item_behind'): e='goal.size-%s::%s l'%(f,name)
        else:
            ms=[]
            for v,t in tr:
                if t in TREE: ms.append('(%s l.%s.now)'%(TREE[t],v))
                elif t=='&Parts': ms.append('(max (size-Expr l.%s.now.0) (size-Expr l.%s.now.1))'%(v,v))
                elif t=='&Declarator': ms.append('(goal.size-types::declarator (record { the-lifetimes = ([], ([], tt {0})); alloc = l.alloc; state = l.state; stage = l.stage; d = l.%s }))'%v)
                elif t=='&Typename': ms.append('(goal.size-types::typename (record { the-lifetimes = ([], ([], tt {0})); alloc = l.alloc; state = l.state; line = l.line; stage = l.stage; t = l.%s }))'%v)
                elif t=='&[Expr]': ms.append('(goal.size-expressions::arguments (record { the-lifetimes = ([], ([], tt {0})); alloc = l.alloc; state = l.state; stage = l.stage; list = l.%s }))'%v)
                elif t=='&[syntax::Stmt]': ms.append('(goal.size-statements::items (record { the-lifetimes = ([], ([], tt {0})); alloc = l.alloc; state = l.state; around = l.around; list = l.%s }))'%v)
                else: raise Exception(name+t)
            e=ms[-1]
            for x in reversed(ms[:-1]): e='(max %s %s)'%(x,e)
        r=R[name]
        full='%s::%s'%(f,name)
        out+='abbrev pub decreases-%s : goal.decreases-%s\ndecreases-%s l = 8 * %s%s\n\n'%(full,full,full,e if e.startswith('(') else '('+e+')',' + %d'%r if r else '')
out+='''-- the parts so far, and those to come

abbrev pub invariant-expressions::arguments-loop-e : goal.invariant-expressions::arguments-loop-e
invariant-expressions::arguments-loop-e l = spec.arguments (drop l.e-index l.list) l.found l.stage l.state ≡ spec.arguments l.list calls.no_arguments l.stage l.fn.state

abbrev pub invariant-types::suffixes-loop-s : goal.invariant-types::suffixes-loop-s
invariant-types::suffixes-loop-s l =
    statements.each_step (spec.suffix_walks (map spec.suffix (drop l.s-index l.list))) l.steps l.stage l.state ≡ statements.each_step (spec.suffix_walks (map spec.suffix l.list)) l.fn.steps l.stage l.fn.state

abbrev pub invariant-types::each_parameter-loop-p : goal.invariant-types::each_parameter-loop-p
invariant-types::each_parameter-loop-p l =
    after l.types (statements.each_type (spec.type_walks (map spec.parameter (drop l.p-index l.list))) l.stage l.state) ≡ statements.each_type (spec.type_walks (map spec.parameter l.list)) l.stage l.fn.state

abbrev pub invariant-declarations::elements-loop-e : goal.invariant-declarations::elements-loop-e
invariant-declarations::elements-loop-e l =
    spec.elements (map spec.node (drop l.e-index l.list)) l.t l.broken l.stage l.state ≡ spec.elements (map spec.node l.list) l.t None l.stage l.fn.state

abbrev pub invariant-statements::items-loop-s : goal.invariant-statements::items-loop-s
invariant-statements::items-loop-s l = after l.nodes (spec.items (drop l.s-index l.list) l.around l.state) ≡ spec.items l.list l.around l.fn.state

abbrev pub invariant-declarations::locals-loop-init : goal.invariant-declarations::locals-loop-init
invariant-declarations::locals-loop-init l =
    after l.nodes (spec.declare_each l.line l.base l.stage (map spec.init (drop l.init-index l.list)) l.state)
    ≡ spec.declare_each l.line l.base l.stage (map spec.init l.list) l.fn.state
'''
os.makedirs(B+'proofs/+walk',exist_ok=True)
open(B+'proofs/+walk/Invariants.antt','w').write(out)
