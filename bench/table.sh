#!/usr/bin/env bash
# Times the execution table: a pair of a token taken and given back, a look, a chunk's way over an
# edge in one thread (look, push, mark; look, lift, pull, want, mark), and the same between two
# threads. It is no test. The program (table.rattle) is proved and built in a temporary copy of the
# crates, with the lemmas that the tests of the execution table have.
set -euo pipefail
here=$(cd "$(dirname "${BASH_SOURCE[0]}")" && pwd)
copy=$(mktemp -d)
trap 'rm -rf "$copy"' EXIT
cp "$here/../HANDLES" "$here/../crates.txt" "$copy"
cp -r "$here/../crates" "$copy"
echo 'table_bench: chunk_data query_model core_laws exec_core exec_table port_word atomic_table' \
    'task_queue crossbeam_queue crossbeam_utils csv' >>"$copy/crates.txt"
crate=$copy/crates/table_bench
mkdir -p "$crate/src" "$crate/specs"
for f in two_nodes begin sees gives takes edge give_all take_all tokens looks; do
    mkdir -p "$crate/proofs/$f"
done
cp "$here/table.rattle" "$crate/src/main.rt"
printf 'pub mod NamedCells\npub mod TableRows\n' >"$crate/specs/Lib.antt"
printf 'pub mod Fitting\npub mod TableRows\n' >"$crate/proofs/Lib.antt"
# FILE FROM: a file that the tests have
shared() {
    sed 's/exec_tests.proofs.table_tests/table_bench.proofs/; s/exec_tests/table_bench/' \
        "$copy/crates/exec_tests/$2" >"$crate/$1"
}
shared specs/NamedCells.antt specs/NamedCells.antt
shared specs/TableRows.antt specs/TableRows.antt
shared proofs/TableRows.antt proofs/TableRows.antt
shared proofs/Fitting.antt proofs/Fitting.antt
shared proofs/sees/Answers.antt proofs/table_tests/sees/Answers.antt
shared proofs/sees/Invariants.antt proofs/table_tests/sees/Invariants.antt
# FUNCTION NODE SEAT: the invariant of its loop, which keeps the seat held
kept() {
    cat >"$crate/proofs/$1/Invariants.antt" <<END
use Rattle.table_bench.proofs.TableRows.{IsHeld}
use Rattle.table_bench.proofs.$1.Given as goal

abbrev pub invariant-loop : goal.invariant-loop
invariant-loop l = IsHeld $2 1 l.table l.$3
END
}
kept give_all 0 zero
kept take_all 1 one
kept tokens 1 seat
kept looks 1 seat
cat >"$crate/proofs/two_nodes/Answers.antt" <<'END'
use Rattle.std.specs.Option.{option_to_list}
use Rattle.table_bench.proofs.TableRows.{ap, dealt_are_open as dealt, ◌++◌, ◌∙◌}
use Rattle.table_bench.proofs.two_nodes.Goals as goal

pub returns : goal.returns
returns g c = let m = c.in-Ok-make.ensures in let both = dealt c.in-Ok-make.made.table _ _ _ _ _
    (m.key ∙ (λ i. record {
      nodes = 2;
      wires = (c.from_vec.ensures ∙ c.in-Ok.ensures.items) i;
      reserves = c.new.ensures i;
      workers = 1;
    })) (c.pop.ensures.items ∙ ap (λ r. c.pop.new.self.items ++ option_to_list r)
    c.unwrap-one.ensures) (c.pop-2.ensures.items
    ∙ ap (λ r. c.pop-2.new.self.items ++ option_to_list r) c.unwrap-zero.ensures)
    m.nodes.0 m.nodes.1 in record { zero = both.0; one = both.1 }
END
cat >"$crate/proofs/begin/Answers.antt" <<'END'
use Rattle.core_laws.specs.declared.types.Step.TheVariants as step
use Rattle.table_bench.proofs.TableRows.{Charged, Want, ap, begin_keeps_token as begun, can, can-act, marked_of, marked_peer, refl, rules, stepped, ◌≡◌}
use Rattle.table_bench.proofs.begin.Goals as goal

pub sees-requires : goal.sees-requires
sees-requires c = (1, 1, begun c.requires.1 c.token_in.ensures c.begin.ensures (search rules))

pub want-requires-clause-ready : goal.want-requires-clause-ready
want-requires-clause-ready c = can-act (c.sees.ensures.saw c.if-not-sees.false 1 1
    (begun c.requires.1 c.token_in.ensures c.begin.ensures (search rules))) Want refl

pub mark-requires-clause-ready : goal.mark-requires-clause-ready
mark-requires-clause-ready c = can (stepped (c.sees.ensures.saw c.if-not-sees.false 1 1
    (begun c.requires.1 c.token_in.ensures c.begin.ensures (search rules))).is c.want.ensures refl)
    (step.Mark 0) refl

pub token_in-requires-2-clause-ready : goal.token_in-requires-2-clause-ready
token_in-requires-2-clause-ready c = let q : c.mark.result ≡ Charged = search rules in
    can (stepped (stepped (c.sees.ensures.saw c.if-not-sees.false 1 1
    (begun c.requires.1 c.token_in.ensures c.begin.ensures (search rules))).is c.want.ensures refl)
    c.mark.ensures (ap (λ r. marked_peer (marked_of r)) q)) step.TokenIn refl

pub returns : goal.returns
returns c = λ t. let q : c.mark.result ≡ Charged = search rules in let is = stepped (stepped
    (stepped (c.sees.ensures.saw c.if-not-sees.false 1 1
    (begun c.requires.1 c.token_in.ensures c.begin.ensures (search rules))).is c.want.ensures refl)
    c.mark.ensures (ap (λ r. marked_peer (marked_of r)) q)) c.token_in-2.ensures refl in (
      begun c.requires.0 c.token_in-3.ensures c.begin-2.ensures (search rules),
      record { flags = _; unlooked = _; only = refl; is = is },
    )
END
cat >"$crate/proofs/gives/Answers.antt" <<'END'
use Rattle.core_laws.specs.declared.types.Step.TheVariants as step
use Rattle.table_bench.proofs.TableRows.{AlreadyDue, Push, and_from, ap, arith, can, can-act, end_of_view, eqb, in-hand, length, marked_of, marked_peer, may-push, refl, rules, stepped, sym, true, view, ◌≡◌, ◌∙◌}
use Rattle.table_bench.proofs.gives.Goals as goal

pub push-requires-clause-ready : goal.push-requires-clause-ready
push-requires-clause-ready c = let j = length (end_of_view (view c.sees.new.seat) 0).chunks in
    and_from _ _ (can-act (c.sees.ensures.saw c.if-not-sees.false 0 1 c.requires) (Push j) refl)
    (let z : eqb j j ≡ true = grind arith in z)

pub push-requires-clause-slot : goal.push-requires-clause-slot
push-requires-clause-slot c = let w = c.sees.ensures.saw c.if-not-sees.false 0 1 c.requires in
    may-push _ (in-hand w.is ∙ (sym c.has_slot.ensures ∙ c.if-not-has_slot.false)) w.fits

pub mark-requires-clause-ready : goal.mark-requires-clause-ready
mark-requires-clause-ready c = can (stepped (c.sees.ensures.saw c.if-not-sees.false 0 1
    c.requires).is c.push.ensures refl) (step.Mark 0) refl

pub returns : goal.returns
returns c = λ t. let q : c.mark.result ≡ AlreadyDue = search rules in let is = stepped (stepped
    (c.sees.ensures.saw c.if-not-sees.false 0 1 c.requires).is c.push.ensures refl) c.mark.ensures
    (ap (λ r. marked_peer (marked_of r)) q) in
    record { flags = _; unlooked = _; only = refl; is = is }
END
cat >"$crate/proofs/takes/Answers.antt" <<'END'
use Rattle.core_laws.specs.Views.{flags_at, is_end, knows}
use Rattle.port_word.specs.Pictures.{no_wire}
use Rattle.core_laws.specs.Steps.{allows, nothing}
use Rattle.core_laws.specs.declared.types.Step.TheVariants as step
use Rattle.exec_table.proofs.Known.{wire-made}
use Rattle.exec_table.specs.CoreNames.{NodeState, Wire}
use Rattle.exec_table.specs.Seats.{IsSeatOf, MakesStep}
use Rattle.exec_table.specs.declared.rule.ExecTable.{ExecTable}
use Rattle.exec_table.specs.declared.rule.NodeSeat.{NodeSeat}
use Rattle.exec_table.specs.declared.types.NodeView.{NodeView}
use Rattle.std.proofs.Common.{None, Some, get_or, length, true, false, [], ◌&&◌, arith}
use Rattle.table_bench.specs.TableRows.{Is, Saw, node, one_wire, seen_as}
use Rattle.table_bench.proofs.TableRows.{AlreadyDue, Pull, Want, ap, can, can-act, can_act, end_of_view, in-hand, marked_of, marked_peer, may-lift, refl, rules, stepped, subst, sym, view, ◌≡◌, ◌∙◌}
use Rattle.table_bench.proofs.takes.Goals as goal

pub lift-chunk-requires-clause-slot : goal.lift-chunk-requires-clause-slot
lift-chunk-requires-clause-slot c = let w = c.sees.ensures.saw c.if-not-sees.false 1 1 c.requires in
    may-lift _ (in-hand w.is ∙ (sym c.has_slot.ensures ∙ c.if-not-has_slot.false)) w.fits

pub pull-requires-clause-ready : goal.pull-requires-clause-ready
pull-requires-clause-ready c = subst (λ x. can_act Pull x 0 ≡ true)
    (sym c.lift-chunk.ensures.view) (can-act (c.sees.ensures.saw c.if-not-sees.false 1 1 c.requires)
    Pull refl)

-- after a chunk was lifted and pulled
pulled : {t : ExecTable} {s lifted new : NodeSeat} → Saw 1 1 (seen_as true true) t s
    → IsSeatOf t lifted → view lifted ≡ view s → MakesStep t lifted new (step.Pull 0) None nothing
    → Is 1 (node true 1 (seen_as true false) [] true) t new
pulled {t = t} {lifted = lifted} w of same m = let is : Is 1 (node true 1
    (seen_as true true) [] false) t lifted = record {
      pair = w.is.pair;
      seat = of;
      number = ap (λ (v : NodeView). v.number) same ∙ w.is.number;
      state = ap (λ (v : NodeView). v.state) same ∙ w.is.state;
    } in stepped is m refl

wants : {t : ExecTable} {lifted new : NodeSeat} → IsSeatOf t lifted
    → MakesStep t lifted new (step.Pull 0) None nothing
    → Is 1 (node true 1 (seen_as true false) [] true) t new → can_act Want (view new) 0 ≡ true
wants of m is = let wire = wire-made of m 0 (ap (λ (z : NodeState). knows 0 z.seen) is.state)
    (let l = ap (λ z. length z.wires) is.pair in omega (arith, l))
    ∙ ap (λ z. Some (get_or z.wires 0 no_wire)) is.pair in
    λ i. (((is.state i).held && knows 0 (is.state i).seen) && is_end true (is.number i) (wire i))
    && allows Want (flags_at 0 (is.state i).seen)

pub want-requires-clause-ready : goal.want-requires-clause-ready
want-requires-clause-ready c = let l = c.lift-chunk.ensures in wants l.seat c.pull.ensures
    (pulled (c.sees.ensures.saw c.if-not-sees.false 1 1 c.requires) l.seat l.view c.pull.ensures)

pub mark-requires-clause-ready : goal.mark-requires-clause-ready
mark-requires-clause-ready c = let l = c.lift-chunk.ensures in can (stepped (pulled
    (c.sees.ensures.saw c.if-not-sees.false 1 1 c.requires) l.seat l.view c.pull.ensures)
    c.want.ensures refl) (step.Mark 0) refl

pub returns : goal.returns
returns c = let l = c.lift-chunk.ensures in let q : c.mark.result ≡ AlreadyDue = search rules in
    let is = stepped (stepped (pulled (c.sees.ensures.saw c.if-not-sees.false 1 1 c.requires) l.seat
    l.view c.pull.ensures) c.want.ensures refl) c.mark.ensures
    (ap (λ r. marked_peer (marked_of r)) q) in
    record { flags = _; unlooked = _; only = refl; is = is }
END
cat >"$crate/proofs/edge/Invariants.antt" <<'END'
use Rattle.table_bench.proofs.TableRows.{IsHeld}
use Rattle.table_bench.proofs.edge.Given as goal

abbrev pub invariant-loop : goal.invariant-loop
invariant-loop l = IsHeld 0 1 l.table l.zero × IsHeld 1 1 l.table l.one
END
(cd "$crate" && rt run -- token 1) >"$copy/log" 2>&1 || { cat "$copy/log" >&2; exit 1; }
program=$crate/out/table_bench

# WAY COUNT: the fastest of seven runs, in nanoseconds
time_of() {
    local best=999999 seconds
    for _ in 1 2 3 4 5 6 7; do
        seconds=$( { /usr/bin/time -f %e "$program" "$1" "$2"; } 2>&1)
        if awk "BEGIN { exit !($seconds < $best) }"; then best=$seconds; fi
    done
    awk -v s="$best" -v n="$2" -v way="$1" 'BEGIN { printf "%-8s %6.1f ns\n", way, s * 1e9 / n }'
}

time_of token 100000000
time_of look 100000000
time_of edge 20000000
time_of threads 5000000
