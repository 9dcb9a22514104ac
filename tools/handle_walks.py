"""Writes the proofs of the six functions of a handle that reach its address, for a new handle of rpkirtr_c; rt tidy drops the imports
that are not used.

handle_walks.py HANDLE VALUE FOLDER, as in handle_walks.py router.RouterHandle session.Session crates/rpkirtr_c. VALUE is the type of which the handle's block has a value."""
import os, sys
handle, held, base = sys.argv[1:4]
crate = 'rpkirtr_c'
USES = f'''use Rattle.std.specs.contracts.alloc.Global as heap
use Rattle.std.proofs.alloc.Global.TheLaws as heap_laws
use Rattle.std.specs.contracts.impls.GlobalAllocator.TheImpl as heap_impl
use Rattle.{crate}.specs.contracts.{held} as held
use Rattle.{crate}.proofs.{held}.TheLaws as held_laws
'''
E = '''abbrev E : Bx
E = record { row = held.the_row; laws = held_laws.the_row_laws; al = record { row = heap.the_row; laws = heap_laws.the_row_laws; g = heap_impl.ghosts; d = heap_impl.dict; drops = heap_impl.dict } }
'''

def moved(fname, opens):
    loose = 'loose.the_row held.the_row heap.the_row heap_impl.ghosts'
    frm, to = ('handle.the_row', loose) if opens else (loose, 'handle.the_row')
    return f"""-- `{fname}` hands on what the struct owns: both own the same, at one layout.
use Rattle.std.proofs.Common.{{◌≡◌, List, [], ◌∷◌, ◌++◌, refl, ap, true, false}}
use Rattle.std.specs.Prelude.{{Some, is_none}}
use mir.Syntax.{{Fn}}
use mir.Val.{{Val}}
use base.Logic.{{SProp, emp, id⊢}}
use base.Fml.{{Fml, ftrue}}
use prog.Wp.{{WpFn}}
use contract.Monad.{{fact, fact_i}}
use contract.Running.{{tables}}
use types.Kit.{{‵, raw, ◌⊛◌, prop, ◌$◌, ◌∵◌, !, qed, by, move, drop, use0, use1, split, regoal, fsplit, fjoin}}
use types.Part.{{agg, sub, whole}}
use types.Run.{{stop, fld, of_opd, no_more, and_then, returns, enter}}
use types.ByLocal.{{alloc_all, pass_all, free_all, look_at, get, get_in, sets}}
use denote.RattleType.{{owns}}
use denote.Signature.{{types_at, plain}}
use denote.Steps.{{nothing, heard}}
use denote.Triple.Entry.{{alive}}
use denote.Triple.Walked.{{Stays, stay_dropped, walk_of}}
use Rattle.core.proofs.alloc.Calls.{{Goes-blank, token}}
use Rattle.std_alloc.specs.Box.Ownership.{{box_owns}}
use Rattle.std_alloc.proofs.BoxSteps.Form.{{Bx, X, D, B, R, word, box_typed}}
use Rattle.std_alloc.proofs.BoxSteps.Steps.{{box_out, box_in}}
use Rattle.std.proofs.raw_atomic.Walks.{{proved_at, leaves}}
{USES}use Rattle.{crate}.specs.Held.{{held as held_at, is_live}}
use Rattle.{crate}.proofs.Handles.{{live_owns, owns_live, the, the_is}}
use Rattle.{crate}.specs.contracts.loose.Loose as loose
use Rattle.{crate}.specs.contracts.{handle} as handle
{names(fname)}
pub {fname}_spec : {{M : Type 1}} → statement M
{fname}_spec 𝓤 𝓛 𝓜 𝓡 wired =
    let H = 𝓛.H in let En = ended in let c = clauses 𝓛 𝓜.mem 𝓡.returns in let fn : Fn = code.function in let 𝓣 = tables 𝓤 H 𝓜 𝓡 𝓡.env in
    let From = {frm} in let To = {to} in
    let hs : Stays En.signature.params En.kept = (stay_dropped (plain (λ _. From)) En.kept.0, tt) in
    proved_at 𝓛 En hs c 𝓜 𝓡 (Goes-blank 𝓛 0 (plain (λ _. From)) En.kept.0 (λ κs x f. tt), tt) #self fn (code.unfolded 𝓤 H 𝓜 𝓡 wired) (λ z are.
    let Post : Val → SProp 𝓤 = (walk_of 𝓛 En hs c).post z in let v = z.0.3.0 in
    let Block : X E → Fml = λ x. box_owns (token E.al v.alloc) (R E) v.at x in
    qed 𝓛 ((raw (alive 𝓛 En.signature z.0.0 z.0.1) ⊛ ‵ (owns (types_at En.signature.params z.0.0) z.0.3 z.0.4)) ∷ {'raw (fact 𝓤 (is_none v.value ≡ false))' if opens else '‵ ftrue'} ∷ []) ∵ move ! (1 ∷ []) $ {'heard ! (is_none v.value ≡ false) (λ on. ' if opens else 'drop ! $ '}split ! $ move ! (1 ∷ []) $ fsplit ! $ move ! (1 ∷ []) $ drop ! $
    {'use1 𝓛 (‵ ((handle.the_row).own_val v z.0.4.0)) (id⊢ 𝓤 _) $ fsplit ! $ move ! (1 ∷ []) $ use1 𝓛 (‵ (Block (the v.value on))) (live_owns 𝓛 v.at v.value Block on) $ move ! (1 ∷ []) $ fjoin ! $ ' if opens else ''}
    let x : X E = {'the v.value on' if opens else 'v.value'} in
    let d : D E = record {{ ptr = v.at; alloc = v.alloc; value = x }} in let made : To.Denot = record {{ at = v.at; alloc = v.alloc; value = {'x' if opens else 'Some x'} }} in
    let Says = {'Some x ≡ v.value' if opens else 'Some x ≡ Some x'} in
    use1 𝓛 (‵ ((B E).own_val d z.0.4.0)) (id⊢ 𝓤 _) $
    box_out E ! d z.0.4.0 (λ b o h e ws fits. box_in E ! d b o x e refl $
    let w : Val = word E h b o in let typed = box_typed E h b o fits in
    regoal ! (λ (us : List Val). prop (WpFn 𝓤 H 𝓣.C 𝓣.Λ fn (us ++ []) Post)) ws refl $
    enter ! 𝓣.C 𝓣.Λ fn (w ∷ []) Post $ alloc_all ! (λ l. pass_all ! refl (typed, tt) $
    sets ! (of_opd ! (get_in ! (fld ! refl (stop !)) (sub ! 0 refl (whole !)))) refl (tt, tt) $ sets ! (of_opd ! (get_in ! (fld ! refl (stop !)) (sub ! 1 refl (whole !)))) refl fits $
    sets ! (of_opd ! (get ! refl)) refl (tt, tt) $ sets ! (agg ! (and_then ! (get ! refl) (and_then ! (get ! refl) (no_more !)))) refl typed $
    returns ! (look_at ! 0 refl) $ free_all ! refl $ {'' if opens else 'fsplit ! $ move ! (1 ∷ []) $ use1 𝓛 (‵ (held_at v.at (Some x) Block)) (owns_live 𝓛 v.at x Block (ap is_live e)) $ move ! (1 ∷ []) $ fjoin ! $ '}use1 𝓛 (‵ (To.own_val made (w ∷ []))) (id⊢ 𝓤 _) $
    use0 𝓛 (raw (fact 𝓤 Says)) (fact_i 𝓤 Says (emp 𝓤) {'(the_is v.value on)' if opens else 'refl'}) $ nothing ! $ nothing ! $ fjoin ! $ move ! (3 ∷ 0 ∷ 2 ∷ 1 ∷ []) $
    by ! (leaves 𝓛 En hs c z w made (tt, tt) (tt, tt)))){')' if opens else ''})
"""
HEAD = f"""use Rattle.std.proofs.Common.{{◌≡◌, List, [], ◌∷◌, ◌++◌, refl, sym, ap, ◌∙◌, subst, Bool, true, false, not, ◌&&◌}}
use Rattle.std.specs.Prelude.{{Some, None, is_none}}
use mir.Syntax.{{Fn, ty_ptr}}
use mir.Val.{{Val, vnull, vbool, vstruct, vnil, vcons, of_list, has_ty, WT}}
use lib.Dec.{{T, lit<}}
use base.Logic.{{SProp, emp, id⊢, via, snd∗, guard_i}}
use base.Fml.{{Fml, ftrue, feq, fsep}}
use prog.Wp.{{WpFn}}
use contract.Monad.{{fact, fact_i, fact_use}}
use contract.Running.{{tables}}
use types.Logic.{{sem}}
use types.Kit.{{‵, raw, ◌⊛◌, given, prop, ◌$◌, ◌∵◌, !, qed, by, move, drop, use0, use1, split, learn, regoal, fsplit, fjoin, fpick, fpack, feq_l, feq_i}}
use types.Part.{{agg, sub, whole}}
use types.Run.{{stop, fld, bin, lit, of_opd, no_more, and_then, returns, enter}}
use types.ByLocal.{{alloc_all, pass_all, free_all, look_at, get, get_in, is, sets}}
use denote.RattleType.{{owns, Valss}}
use denote.Builtin.{{bool}}
use denote.RawPtr.{{Ptr, RawPtr, null_ptr, ptr_val, Testable, tests_null}}
use denote.Signature.{{types_at, plain}}
use denote.Steps.{{nothing}}
use denote.Struct.Struct.{{within}}
use denote.Struct.Owning.{{shape, to}}
use denote.Triple.Entry.{{alive}}
use denote.Triple.Walked.{{Stays, stay_dropped, walk_of}}
use Rattle.core.proofs.alloc.Calls.{{Goes-blank, handle_tells, token, α}}
use denote.Memory.{{lone}}
use Rattle.std_alloc.proofs.BoxSteps.Form.{{Bx, X, R, τ}}
use Rattle.std_alloc.specs.Box.Ownership.{{box_owns}}
use Rattle.std_alloc.proofs.ResultValues.{{and_tt}}
use Rattle.std.proofs.raw_atomic.Walks.{{proved_at, leaves}}
{USES}use Rattle.{crate}.specs.Held.{{held as held_at, is_live}}
use Rattle.{crate}.specs.contracts.{handle} as handle
"""
def names(fname): return f"""use Rattle.{crate}.specs.contracts.{handle}.{fname}.{{ended, clauses}}
use Rattle.{crate}.specs.contracts.{handle}.{fname}.Key.{{name as #self}}
use Rattle.{crate}.proofs.{handle}.{fname}.Statement.{{statement}}
use Rattle.{crate}.proofs.{handle}.{fname}.Code as code

{E}"""
# from [what the allocator owns; what is held], what the handle owns at the machine value `w`
def closes(p, a, made):
    return f"""nothing ! $ move ! (1 ∷ 0 ∷ []) $ fjoin ! $ feq_i ! (List Val) (ptr_val {p} ∷ []) (ptr_val {p} ∷ []) refl $ fjoin ! $
    feq_i ! (List Val) (w ∷ []) (w ∷ []) refl $ fjoin ! $
    fpack ! (Valss (RawPtr ∷ heap.the_row ∷ [])) (within (shape handle.the_type) (to handle.the_type {made}) (w ∷ [])) (ptr_val {p} ∷ [], (h ∷ [], tt)) $ fjoin ! $
    use1 𝓛 (‵ ((handle.the_row).own_val {made} (w ∷ []))) (id⊢ 𝓤 _) $"""
def start(fname, frm, going):
    return f"""
pub {fname}_spec : {{M : Type 1}} → statement M
{fname}_spec 𝓤 𝓛 𝓜 𝓡 wired =
    let H = 𝓛.H in let En = ended in let c = clauses 𝓛 𝓜.mem 𝓡.returns in let fn : Fn = code.function in let 𝓣 = tables 𝓤 H 𝓜 𝓡 𝓡.env in
    let From = {frm} in
    let hs : Stays En.signature.params En.kept = (stay_dropped (plain (λ _. From)) En.kept.0, tt) in
    proved_at 𝓛 En hs c 𝓜 𝓡 ({going}, tt) #self fn (code.unfolded 𝓤 H 𝓜 𝓡 wired) (λ z are.
    let Post : Val → SProp 𝓤 = (walk_of 𝓛 En hs c).post z in let v = z.0.3.0 in
    qed 𝓛 ((raw (alive 𝓛 En.signature z.0.0 z.0.1) ⊛ ‵ (owns (types_at En.signature.params z.0.0) z.0.3 z.0.4)) ∷ ‵ ftrue ∷ []) ∵ move ! (1 ∷ []) $ drop ! $ split ! $ move ! (1 ∷ []) $ fsplit ! $ move ! (1 ∷ []) $ drop ! $
"""
def empty():
    return f"""-- `empty` makes the null address, at which nothing is owned.
{HEAD}{names('empty')}{start('empty', 'heap.the_row', 'Goes-blank 𝓛 0 (plain (λ _. From)) En.kept.0 (λ κs x f. tt)')}    handle_tells E.al ! v z.0.4.0 (λ h eh fits.
    let w : Val = vstruct (vcons vnull (vcons h vnil)) in let made : (handle.the_row).Denot = record {{ at = null_ptr; alloc = v; value = None }} in
    regoal ! (λ (us : List Val). prop (WpFn 𝓤 H 𝓣.C 𝓣.Λ fn (us ++ []) Post)) eh refl $
    enter ! 𝓣.C 𝓣.Λ fn (h ∷ []) Post $ alloc_all ! (λ l. pass_all ! refl (fits, tt) $
    sets ! (agg ! (and_then ! (lit ! tt) (and_then ! (get ! refl) (no_more !)))) refl (and_tt (has_ty (α E.al) h) fits.0, (record {{ fits = lit< tt }}, (fits.1, tt))) $
    returns ! (look_at ! 0 refl) $ free_all ! refl $ nothing ! $ move ! (1 ∷ []) $
    {closes('null_ptr', 'v', 'made')}
    use0 𝓛 (raw (fact 𝓤 (made.value ≡ None))) (fact_i 𝓤 (made.value ≡ None) (emp 𝓤) refl) $ nothing ! $ nothing ! $ fjoin ! $ move ! (3 ∷ 0 ∷ 2 ∷ 1 ∷ []) $
    by ! (leaves 𝓛 En hs c z w made (tt, tt) (tt, tt)))))
"""
def looked():
    return f"""-- `looked` tests the address, and hands on what the struct owns.
{HEAD}use denote.Struct.Tuple.{{Tuple}}
use denote.Plain.{{bool_Makes, bool_vals}}
use denote.Steps.{{owned}}
use denote.Struct.Declared as declared
use Rattle.std.proofs.GlobalToken.{{dealloc_token-Testable}}
use mir.Raw.{{raw as bare}}
use Rattle.core.specs.Ptr.{{points_to}}
use Rattle.{crate}.proofs.Handles.{{both, held_tests, tests, typed}}
{names('looked')}{start('looked', 'handle.the_row', 'Goes-blank 𝓛 0 (plain (λ _. From)) En.kept.0 (λ κs x f. tt)')}    let Block : X E → Fml = λ x. box_owns (token E.al v.alloc) (R E) v.at x in let Learned = Testable v.at × (not (is_live v.at) ≡ is_none v.value) in
    use1 𝓛 (‵ (From.own_val v z.0.4.0)) (id⊢ 𝓤 _) $ fsplit ! $ move ! (1 ∷ []) $
    use1 𝓛 (given Learned (‵ (held_at v.at v.value Block)))
    (fact_use 𝓤 Learned (held_tests 𝓛 v.at v.value Block (λ x. via 𝓤 (sem 𝓛 (token E.al v.alloc (bare (τ E)) v.at)) (snd∗ 𝓤 (sem 𝓛 (points_to (R E) v.at x)) (sem 𝓛 (token E.al v.alloc (bare (τ E)) v.at))) (dealloc_token-Testable 𝓛 v.alloc (bare (τ E)) v.at)))
    (λ p. guard_i 𝓤 Learned (sem 𝓛 (held_at v.at v.value Block)) p)) $ learn ! (λ may. move ! (1 ∷ []) $
    fpick ! (λ vss. fsplit ! $ feq_l ! (λ ev. fsplit ! $ feq_l ! (λ ep. fsplit ! $ handle_tells E.al ! v.alloc vss.1.0 (λ h eh fits. move ! (1 ∷ []) $ drop ! $
    let p = ptr_val v.at in let w : Val = vstruct (vcons p (vcons h vnil)) in let y : Bool = is_none v.value in let u : Val = vstruct (vcons w (vcons (vbool y) vnil)) in
    let ws : z.0.4.0 ≡ w ∷ [] = subst (λ (us : List Val). z.0.4.0 ≡ vstruct (of_list (p ∷ (us ++ []))) ∷ []) eh (subst (λ (ps : List Val). z.0.4.0 ≡ vstruct (of_list (ps ++ (vss.1.0 ++ []))) ∷ []) ep ev) in
    let good = typed v.at in
    let τh = lone (handle.the_row).mir in let fine : T (has_ty τh w) × WT w = (both (has_ty ty_ptr p) (has_ty (α E.al) h && true) good.0 (and_tt (has_ty (α E.al) h) fits.0), (good.1, (fits.1, tt))) in
    regoal ! (λ (us : List Val). prop (WpFn 𝓤 H 𝓣.C 𝓣.Λ fn (us ++ []) Post)) ws refl $
    enter ! 𝓣.C 𝓣.Λ fn (w ∷ []) Post $ alloc_all ! (λ l. pass_all ! refl (fine, tt) $
    sets ! (of_opd ! (get_in ! (fld ! refl (stop !)) (sub ! 0 refl (whole !)))) refl good $ sets ! (of_opd ! (get_in ! (fld ! refl (stop !)) (sub ! 1 refl (whole !)))) refl fits $
    sets ! (is ! (bin ! (get ! refl) (lit ! tt) (tests_null v.at may.0)) (tests v.at ∙ ap vbool may.1)) refl (tt, tt) $
    sets ! (agg ! (and_then ! (get ! refl) (and_then ! (get ! refl) (no_more !)))) refl fine $
    sets ! (agg ! (and_then ! (get ! refl) (and_then ! (get ! refl) (no_more !)))) refl (and_tt (has_ty τh w) fine.0, (fine.1, (tt, tt))) $
    returns ! (look_at ! 0 refl) $ free_all ! refl $
    {closes('v.at', 'v.alloc', 'v')}
    nothing ! $ owned ! bool _ (bool_Makes 𝓛) y (vbool y ∷ []) refl $ fjoin ! $ move ! (1 ∷ 0 ∷ []) $ fjoin ! $ feq_i ! (List Val) (u ∷ []) (u ∷ []) refl $ fjoin ! $
    fpack ! (Valss (handle.the_row ∷ bool ∷ [])) (λ vss. fsep (feq (List Val) (u ∷ []) (vstruct (of_list (vss.0 ++ (vss.1.0 ++ []))) ∷ [])) (fsep ((handle.the_row).own_val v vss.0) (fsep (bool.own_val y vss.1.0) ftrue))) (w ∷ [], (vbool y ∷ [], tt)) $
    use1 𝓛 (‵ ((Tuple (handle.the_row ∷ bool ∷ [])).own_val (v, y) (u ∷ []))) (id⊢ 𝓤 _) $
    let Says = (v ≡ v) × (y ≡ is_none v.value) in
    use0 𝓛 (raw (fact 𝓤 Says)) (fact_i 𝓤 Says (emp 𝓤) (refl, refl)) $ nothing ! $ nothing ! $ fjoin ! $ move ! (3 ∷ 0 ∷ 2 ∷ 1 ∷ []) $
    by ! (leaves 𝓛 En hs c z u (v, y) (tt, tt) (tt, tt)))))))))
"""

SEEN = f"""use Rattle.std.proofs.Common.{{◌≡◌, ℕ, List, [], ◌∷◌, ◌++◌, refl, ap, ◌∙◌, subst, Bool, true, false, not, ◌&&◌}}
use Rattle.std.specs.Prelude.{{Some, is_none}}
use seplogic.Ra.Ura.{{Ura}}
use base.Fraction.{{full_share}}
use mir.Syntax.{{Fn, named, ty_ptr}}
use mir.Val.{{Val, vptr, vbool, vstruct, vnil, vcons, of_list, has_ty, WT}}
use lib.Dec.{{T}}
use base.Logic.{{SProp, ent, sep, id⊢, via, snd∗, guard_i}}
use base.Fml.{{GName, Fml, ftrue, fsep, flft}}
use prog.Wp.{{WpFn, Env}}
use contract.Monad.{{fact, fact_use}}
use contract.Running.{{tables}}
use types.Logic.{{Logic, sem}}
use types.Kit.{{‵, raw, ◌⊛◌, some, later, given, at_ret, ◌$◌, ◌∵◌, !, qed, done, move, keep, drop, use1, split, split3, join, learn, rewrite, fsplit, fsplit3, fjoin, fpick, fpack, feq_l, feq_i, pick, await, suffices, frame, group}}
use types.Part.{{sub, whole, look_in}}
use types.Run.{{stop, fld, bin, lit, load, addr, of_opd, first, blocks, exec, returns, enter}}
use types.ByLocal.{{alloc_all, pass_all, free_all, look_at, get, through, is, sets, sets_last, env}}
use denote.RattleType.{{RattleType, Valss}}
use denote.Builtin.{{bool}}
use denote.Follow.{{follows, Part, lends_Part}}
use denote.Memory.{{lone, mem, cell_at, part_at, part_of}}
use denote.Plain.{{bool_Makes}}
use denote.RawPtr.{{RawPtr, Testable, block_ptr, ptr_val, tests_null}}
use denote.Ref.{{MutRef, mut_vals, mut_Tells}}
use denote.Signature.{{plain, mut_ref_to}}
use denote.Steps.{{nothing, owned, opens, closes, heard}}
use denote.Struct.Struct.{{within}}
use denote.Struct.Owning.{{shape, to}}
use denote.Triple.Walked.{{Stays, stay_dropped, stay_ref, Goes-ref, Goes-spent_ref, walk_of, says, ends_at}}
use Rattle.core.specs.Ptr.{{points_to}}
use Rattle.core.proofs.alloc.Calls.{{token, handle_tells, α}}
use Rattle.std_alloc.proofs.BoxSteps.Form.{{Bx, X, D, B, R, τ, word, handle as handled}}
use Rattle.std_alloc.proofs.BoxSteps.Steps.{{box_out, box_in}}
use Rattle.std_alloc.proofs.ResultValues.{{and_tt}}
use Rattle.std_alloc.proofs.VecSteps.Shapes.{{after}}
use Rattle.std_alloc.specs.Box.Ownership.{{box_owns}}
use Rattle.std.proofs.GlobalToken.{{dealloc_token-Testable}}
use Rattle.std.proofs.raw_atomic.Walks.{{proved}}
use mir.Raw.{{raw as bare}}
{USES}use Rattle.{crate}.specs.Held.{{held as held_at, is_live}}
use Rattle.{crate}.proofs.Handles.{{both, held_tests, live_owns, owns_live, tests, the, the_is, typed}}
use Rattle.{crate}.specs.contracts.{handle} as handle
"""

# the reference that is passed is opened: [its cell; what the handle owns; the open borrow; its two names; ..]
def opened(fname, stay, going, requires, learns):
    return f"""
pub {fname}_spec : {{M : Type 1}} → statement M
{fname}_spec 𝓤 𝓛 𝓜 𝓡 wired =
    let H = 𝓛.H in let En = ended in let c = clauses 𝓛 𝓜.mem 𝓡.returns in let fn : Fn = code.function in let 𝓣 = tables 𝓤 H 𝓜 𝓡 𝓡.env in
    let hs : Stays En.signature.params En.kept = ({stay}, tt) in
    proved 𝓛 En hs c 𝓜 𝓡 ({going}, tt) #self fn (code.unfolded 𝓤 H 𝓜 𝓡 wired)
    (λ κs. (mut_vals, tt)) (λ κs. (mut_Tells (named 0) κs.0 From, tt)) (λ κs qs bounds a g are.
    let κ = κs.0 in let q = qs.0 in let r = a.0 in let b = r.ref_ptr.0 in let o = r.ref_ptr.1 in let γ = r.ghost_name in let v = r.now in
    let y : (walk_of 𝓛 En hs c).Ghost = ((κs, qs, bounds, a, (mut_vals r, tt)), tt) in let Post : Val → SProp 𝓤 = (walk_of 𝓛 En hs c).post y in
    let Block : X E → Fml = λ x. box_owns (token E.al v.alloc) (R E) v.at x in
    qed 𝓛 (((‵ (flft κ q) ⊛ ‵ ftrue) ⊛ ‵ ((MutRef (named 0) κ From).own_val r (mut_vals r)) ⊛ ‵ ftrue) ∷ {requires} ∷ []) ∵ move ! (1 ∷ []) $ {learns}split ! $ split ! $ move ! (2 ∷ []) $ split ! $ keep ! (0 ∷ 2 ∷ []) $
    enter ! _ _ _ _ _ $ alloc_all ! (λ l. pass_all ! refl ((tt, tt), tt) $
    fsplit3 ! $ move ! (1 ∷ 2 ∷ 3 ∷ []) $ opens ! tt From b o (λ vs. move ! (1 ∷ []) $
    use1 𝓛 (‵ (From.own_val v vs)) (id⊢ 𝓤 _) $ fsplit ! $ move ! (1 ∷ []) $
"""

FROM = """
abbrev From : RattleType
From = handle.the_row
"""

def is_empty():
    return f"""-- `is_empty` tests the address, and leaves the handle as it is.
{SEEN}{names('is_empty')}{FROM}{opened('is_empty', 'stay_ref (0 ∷ []) tt (plain (λ _. From))', 'Goes-ref 𝓛 1 0 tt (plain (λ _. From))', '‵ ftrue', 'drop ! $ ')}    let Learned = Testable v.at × (not (is_live v.at) ≡ is_none v.value) in
    use1 𝓛 (given Learned (‵ (held_at v.at v.value Block)))
    (fact_use 𝓤 Learned (held_tests 𝓛 v.at v.value Block (λ x. via 𝓤 (sem 𝓛 (token E.al v.alloc (bare (τ E)) v.at)) (snd∗ 𝓤 (sem 𝓛 (points_to (R E) v.at x)) (sem 𝓛 (token E.al v.alloc (bare (τ E)) v.at))) (dealloc_token-Testable 𝓛 v.alloc (bare (τ E)) v.at)))
    (λ p. guard_i 𝓤 Learned (sem 𝓛 (held_at v.at v.value Block)) p)) $ learn ! (λ may. move ! (1 ∷ []) $
    fpick ! (λ vss. fsplit ! $ feq_l ! (λ ev. fsplit ! $ feq_l ! (λ ep. fsplit ! $ handle_tells E.al ! v.alloc vss.1.0 (λ h eh fits. move ! (1 ∷ []) $ drop ! $
    let p = ptr_val v.at in let w : Val = vstruct (vcons p (vcons h vnil)) in let t : Bool = is_none v.value in
    let ws : vs ≡ w ∷ [] = subst (λ (us : List Val). vs ≡ vstruct (of_list (p ∷ (us ++ []))) ∷ []) eh (subst (λ (ps : List Val). vs ≡ vstruct (of_list (ps ++ (vss.1.0 ++ []))) ∷ []) ep ev) in
    -- [the allocator; what is held; the cell; the open borrow; its two names]
    rewrite ! 2 (λ (us : List Val). ‵ (cell_at full_share From.mir us b o)) ws refl $
    sets ! (of_opd ! (load ! (through ! refl (fld ! refl (stop !))) (look_in ! 2 (sub ! 0 refl (whole !))))) refl (typed v.at) $
    sets ! (is ! (bin ! (get ! refl) (lit ! tt) (tests_null v.at may.0)) (tests v.at ∙ ap vbool may.1)) refl (tt, tt) $
    {closes('v.at', 'v.alloc', 'v')}
    move ! (1 ∷ 0 ∷ []) $ closes ! tt From v (w ∷ []) b o $
    returns ! (look_at ! 0 refl) $ free_all ! refl $ keep ! (3 ∷ 0 ∷ 1 ∷ 2 ∷ []) $
    suffices ! _ (ends_at 𝓛 En hs c y (vbool t) t (v, tt) (tt, tt)) $ says ! (refl, refl) $
    group ! 3 $ nothing ! $ move ! (1 ∷ 0 ∷ []) $ join ! $ nothing ! $ move ! (2 ∷ 0 ∷ []) $ join ! $ frame ! $ frame ! $
    owned ! bool _ (bool_Makes 𝓛) t (vbool t ∷ []) refl $ done !))))))))
"""

def value():
    return f"""-- `value` lends the block, and the handle ends with the last value in it.
{SEEN}{names('value')}{FROM}
module _ {{M : Type 1}} {{𝓤 : Ura M}} (𝓛 : Logic 𝓤) (v : From.Denot) (b o pb po : ℕ) (h : Val) where
  -- all of the handle but its value
  abbrev Rest : Fml
  Rest = fsep (fsep (token E.al v.alloc (bare (τ E)) (block_ptr pb po)) (handled E v.alloc h)) (cell_at full_share From.mir (word E h pb po ∷ []) b o)

  abbrev with : X E → From.Denot
  with w = record {{ at = v.at; alloc = v.alloc; value = Some w }}

  back : v.at ≡ block_ptr pb po → (w : X E) → ent 𝓤 (sep 𝓤 (sem 𝓛 ((mem held.the_row).own_at w pb po)) (sem 𝓛 Rest)) (sem 𝓛 ((mem From).own_at (with w) b o))
  unfolding part_of
  back e w =
      let Block : X E → Fml = λ x. box_owns (token E.al v.alloc) (R E) v.at x in let d : D E = record {{ ptr = v.at; alloc = v.alloc; value = w }} in let m : Val = word E h pb po in
      qed 𝓛 (‵ (part_at (R E) full_share w pb po) ∷ ‵ Rest ∷ []) ∵ move ! (1 ∷ []) $ fsplit ! $ fsplit ! $ move ! (3 ∷ []) $
      box_in E ! d pb po w e refl $ fsplit ! $ move ! (1 ∷ []) $ use1 𝓛 (‵ (held_at v.at (Some w) Block)) (owns_live 𝓛 v.at w Block (ap is_live e)) $ move ! (1 ∷ []) $ fjoin ! $
      use1 𝓛 (‵ (From.own_val (with w) (m ∷ []))) (id⊢ 𝓤 _) $ move ! (1 ∷ 0 ∷ []) $ fjoin ! $
      fpack ! (List Val) (λ us. fsep (cell_at full_share From.mir us b o) (From.own_val (with w) us)) (m ∷ []) $ done !
{opened('value', 'stay_dropped (mut_ref_to (0 ∷ []) tt (plain (λ _. From))) En.kept.0', 'Goes-spent_ref 𝓛 1 (0 ∷ []) tt (plain (λ _. From))', 'raw (fact 𝓤 (is_none v.value ≡ false))', 'heard ! (is_none v.value ≡ false) (λ on. ')}    use1 𝓛 (‵ (Block (the v.value on))) (live_owns 𝓛 v.at v.value Block on) $ move ! (1 ∷ []) $ fjoin ! $
    let x : X E = the v.value on in let d : D E = record {{ ptr = v.at; alloc = v.alloc; value = x }} in
    use1 𝓛 (‵ ((B E).own_val d vs)) (id⊢ 𝓤 _) $ box_out E ! d vs (λ pb po h e ws fits. move ! (1 ∷ 2 ∷ []) $ fjoin ! $ move ! (1 ∷ []) $
    -- [the value; the rest of the block; the cell; the open borrow; its two names]
    rewrite ! 2 (λ (us : List Val). ‵ (cell_at full_share From.mir us b o)) ws refl $
    let En' : Env 𝓤 H = env fn.locals l in let rest = Rest 𝓛 v b o pb po h in let F = with 𝓛 v b o pb po h in
    first ! $ blocks ! $
    sets ! (of_opd ! (load ! (through ! refl (fld ! refl (stop !))) (look_in ! 2 (sub ! 0 refl (whole !))))) refl (tt, tt) $
    sets ! (of_opd ! (get ! refl)) refl (tt, tt) $ sets_last ! (addr ! (through ! refl (stop !))) refl (tt, tt) $
    exec ! 𝓣.C 𝓣.Λ En' (after 1 fn.body) (at_ret En' Post) $ sets ! (of_opd ! (get ! refl)) refl (tt, tt) $
    move ! (1 ∷ 2 ∷ []) $ fjoin ! $ move ! (2 ∷ 3 ∷ 4 ∷ 1 ∷ 0 ∷ []) $ group ! 5 $
    use1 𝓛 (later (some (λ (γ' : GName). raw (Part 𝓛 From held.the_row F (named 0) κ q b o pb po γ (sem 𝓛 rest) (back 𝓛 v b o pb po h e) x γ'))))
    (lends_Part 𝓛 From held.the_row F (named 0) κ q b o pb po γ (sem 𝓛 rest) (back 𝓛 v b o pb po h e) (From.coded.code v) (From.coded.code v) x) $ await ! tt $ pick ! (λ γ'.
    returns ! (look_at ! 0 refl) $ free_all ! refl $ keep ! (0 ∷ []) $
    use1 𝓛 (‵ ((MutRef (named 0) κ held.the_row).own_val (record {{ ref_ptr = (pb, po); ghost_name = γ'; now = x }}) (vptr pb po ∷ [])) ⊛ ‵ (flft κ q) ⊛ ‵ (follows From held.the_row γ γ' F)) (id⊢ 𝓤 _) $ split3 ! $
    suffices ! _ (ends_at 𝓛 En hs c y (vptr pb po) (record {{ ref_ptr = (pb, po); ghost_name = γ'; now = x }}) (tt, tt) (tt, tt)) $
    nothing ! $ nothing ! $ fjoin ! $ join ! $ nothing ! $ move ! (2 ∷ 0 ∷ []) $ join ! $ join ! $ frame ! $ says ! (the_is v.value on) $ done !))))))
"""

if __name__ == '__main__':
    for fname, text in (('of', moved('of', False)), ('into_loose', moved('into_loose', True)), ('empty', empty()), ('looked', looked()), ('is_empty', is_empty()), ('value', value())):
        p = f'{base}/proofs/{handle.replace(".", "/")}/{fname}'
        os.makedirs(p, exist_ok=True)
        open(p + '/Proof.antt', 'w').write(text)
