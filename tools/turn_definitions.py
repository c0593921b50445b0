"""Turns definitions together with the code that follows them, and shows which of them the law of worlds refuses, and at which lemma.

    python3 tools/turn_definitions.py [--below] [--room FOLDER] [NAME..] [NAME+NAME..]

A wrong body is refused by its contract. Here the contract is wrong too, so that the crates below are proved as before; then the law over
any order of acts must fail.

Each turn is made on a copy of its own, of the crates that the law stands on. What `rt check` keeps in `out/` is copied with them, so that
what a turn doesn't touch isn't proved again: prove the crates up to `ipcz_world` before. `--room` keeps the copies in a folder, from which
the next try of the same turn goes on, each with what the law's check said in `crates/law.txt`. `--below` checks only the crates below the
law, for who writes a turn. Names joined by `+` are turned at once, which saves time if each fails at a lemma of its own. Two calls may run
side by side. The gate asks the law alone, of a third of the turns (`try_turns.py`).

If a proof says a definition a second time, the turn may change that text too. A turn counts as refused only if a lemma fails that says that
the law holds: one whose statement ends in a group of the invariant or in a fact that is kept beside it, or one in the folder of
the laws themselves, or one of the few by which the law reads the tables of acts. Else what fails only says a definition a second time, and is
named as a copy of its text.
"""
import argparse
import os
import re
import shutil
import subprocess
import sys
import tempfile
import time

# A file, a text that stands in it once, and what it becomes.
Edit = tuple[str, str, str]

HERE = os.path.dirname(os.path.dirname(os.path.abspath(__file__)))
LAW = "ipcz_world"
SPEC, CODE = "ipcz_router/specs/Bypass.antt", "ipcz_router/src/router/bypass.rt"
EFFECTS, TURNING = "ipcz_router/specs/ActEffects.antt", "ipcz_router/src/router/turns.rt"
FAST_PATH, PASSING = "ipcz_router/src/router/fast_path.rt", "ipcz_router/src/router/passing.rt"
MOVES, MOVING = "ipcz_router/specs/Calls.antt", "ipcz_router/src/router/calls.rt"
QUEUES = "ipcz_router/specs/Acts.antt"
TABLE = "ipcz_router/specs/ActTable.antt"
ROUTER, ROUTING = "ipcz_router/specs/Router.antt", "ipcz_router/src/router.rt"
ANSWERS, ANSWERING = "ipcz_world/specs/WordAnswers.antt", "ipcz_world/src/word_answers.rt"
UPDATES = "ipcz_world/proofs/facts/Updates.antt"
HANDS = "ipcz_node/specs/Hands.antt"
LEAVING, LEFT, NODE_ACTING = "ipcz_node/specs/Acts.antt", "ipcz_node/proofs/Leaving.antt", "ipcz_node/src/state/acts.rt"
HEARING, HEARD = "ipcz_router/specs/Hearing.antt", "ipcz_router/src/router/hearing.rt"
# proofs that say a definition a second time
ACTED, WORD_ACTS = "ipcz_world/proofs/acts/ActedWords.antt", "ipcz_world/proofs/acts/WordActs.antt"
ROUTER_WAKERS, WORD_WAKERS = "ipcz_world/proofs/lawful/RouterWakers.antt", "ipcz_world/proofs/lawful/WordWakers.antt"
STEP_WAKERS, GOING, AGREEING = (
    "ipcz_world/proofs/lawful/StepWakers.antt",
    "ipcz_world/proofs/lawful/Acting.antt",
    "ipcz_world/proofs/runs/FlagsAgree.antt",
)
WAKING = "ipcz_world/proofs/acts/Waking.antt"
STOPPING, HANDLING = "ipcz_world/proofs/acts/StopProxying.antt", "ipcz_world/proofs/acts/Handling.antt"
ACT_RANKS = "ipcz_world/proofs/lawful/NodeActs.antt"
HAND_RANKS, WORTHS = "ipcz_world/proofs/lawful/NodeHands.antt", "ipcz_world/proofs/lawful/RouterWorths.antt"
CHOOSING, HAPPENINGS = "ipcz_node/proofs/Choosing.antt", "ipcz_node/proofs/Happenings.antt"
ROUTER_ACTS = "ipcz_world/proofs/code/RouterActs.antt"
PEERS = [f"ipcz_world/proofs/acts/BypassPeer{part}.antt" for part in ("", "Around", "Links", "Messages", "Numbers", "Records", "Stages")]
LONE = "ipcz_router/proofs/LoneRouters.antt"
NEXT, NEXT_AT = "ipcz_router/proofs/NextActs.antt", "ipcz_router/proofs/router/Router/next_at_terminal/Answers.antt"
IF_WAKE = "        if self.is_possible(RouterAct::Wake) {\n            return RouterAct::Wake;\n        }\n"
NEXT_IS = "next_act r ≡ (if is_possible r Mark then Mark else if is_possible r Wake then Wake else Rest)"
WAKES = "sym c.is_possible-2.ensures ∙ c.if-is_possible-2.{} in\n    sym (rw "
SENT = "sent = messages.AcceptBypass o (opposite r.end.side) fresh r.out_queue.current"
SENDING = "use Rattle.ipcz_router.specs.declared.sending.Sending.{Sending}"
REACH = (SPEC, SENDING, f"use Rattle.ipcz_seq.specs.Queue.{{reach}}\n{SENDING}")

# each turn: the file below crates/, a text that stands in it once, and the text in its place
TURNS = {
    # where items go, and how long links are
    "a_moved_terminal_gets_from_the_reach": [
        (MOVES, "next_in = r.in_queue.current", "next_in = reach r.in_queue"),
        (MOVING, "next_in: self.in_queue.current(),", "next_in: self.in_queue.reach(),"),
    ],
    "an_accept_gives_the_reach_as_its_length": [
        REACH,
        (SPEC, "fresh r.out_queue.current }", "fresh (reach r.out_queue) }"),
        (CODE, "            length: self.out_queue.current(),", "            length: self.out_queue.reach(),"),
        *[(file, SENT, SENT.replace("r.out_queue.current", "(Rattle.ipcz_seq.specs.Queue.reach r.out_queue)")) for file in PEERS],
    ],
    "an_accept_names_the_side_of_its_own_router": [
        (SPEC, "AcceptBypass old (opposite r.end.side)", "AcceptBypass old r.end.side"),
        (CODE, "            side: self.end.side.opposite(),", "            side: self.end.side,"),
        *[(file, SENT, SENT.replace("(opposite r.end.side)", "r.end.side")) for file in PEERS],
    ],
    "a_link_decays_up_to_the_reach": [
        REACH,
        (SPEC, "(central_end fresh side other)) r.out_queue.current", "(central_end fresh side other)) (reach r.out_queue)"),
        (CODE, "set_length_to(self.out_queue.current());", "set_length_to(self.out_queue.reach());"),
    ],
    "a_stop_has_its_lengths_swapped": [
        (SPEC, "(opposite side) old r.out_queue.current length", "(opposite side) old length r.out_queue.current"),
        (UPDATES, "(opposite side) old r.out_queue.current length", "(opposite side) old length r.out_queue.current"),
        (
            CODE,
            "            in_length: self.out_queue.current(),\n            out_length: length,",
            "            in_length: length,\n            out_length: self.out_queue.current(),",
        ),
        (
            HAND_RANKS,
            "(messages.StopProxying (opposite side) old r.out_queue.current length)",
            "(messages.StopProxying (opposite side) old length r.out_queue.current)",
        ),
    ],
    "a_proxy_has_its_outward_lengths_swapped": [
        (
            SPEC,
            "      outward = set_length_from (set_length_to r.outward out_length) in_length;",
            "      outward = set_length_from (set_length_to r.outward in_length) out_length;",
        ),
        (
            CODE,
            "        self.outward.set_length_to(out_length);\n        self.outward.set_length_from(in_length);",
            "        self.outward.set_length_to(in_length);\n        self.outward.set_length_from(out_length);",
        ),
    ],
    "a_will_stop_names_the_side_of_its_proxy": [
        (SPEC, "ProxyWillStop e.link (opposite e.side) in_length", "ProxyWillStop e.link e.side in_length"),
        (UPDATES, "ProxyWillStop inner.link (opposite inner.side) in_length", "ProxyWillStop inner.link inner.side in_length"),
        (CODE, "            side: link.side.opposite(),\n            in_length", "            side: link.side,\n            in_length"),
        (STOPPING, "ProxyWillStop e.link (opposite e.side) in_length", "ProxyWillStop e.link e.side in_length"),
        (HANDLING, "ProxyWillStop fit.1.link (opposite fit.1.side) in_length", "ProxyWillStop fit.1.link fit.1.side in_length"),
        (HAND_RANKS, "ProxyWillStop e.link (opposite e.side) in_length", "ProxyWillStop e.link e.side in_length"),
    ],
    # who is looked at again
    "a_bypassed_router_is_not_flagged": [
        (SPEC, "r.end.side target)) { flagged = true }", "r.end.side target)) { flagged = r.flagged }"),
        (SPEC, "fresh side sender) length)) { flagged = true }", "fresh side sender) length)) { flagged = r.flagged }"),
        (CODE, "fresh side other)) { flagged = true } }", "fresh side other)) { flagged = self.old.router.flagged } }"),
        (CODE, "        self.flagged = true;\n", ""),
    ],
    "a_proxy_told_to_stop_is_not_flagged": [
        (SPEC, "    rouse (record r {\n      outward = set_length_from", "    record r {\n      outward = set_length_from"),
        (SPEC, "out_length) r.inward;\n    })", "out_length) r.inward;\n    }"),
        (
            CODE,
            "        self.outward.set_length_from(in_length);\n        self.rouse();\n        let Some",
            "        self.outward.set_length_from(in_length);\n        let Some",
        ),
    ],
    "an_item_from_outward_is_not_looked_at": [
        (
            MOVES,
            "rouse (record r { in_queue = push_at r.in_queue n item; mark_seen = r.mark_seen || (is_terminal r && is_mark item) })",
            "record r { in_queue = push_at r.in_queue n item; mark_seen = r.mark_seen || (is_terminal r && is_mark item); tried = false }",
        ),
        (MOVING, "&& is_mark);\n        self.rouse();\n", "&& is_mark);\n        self.tried = false;\n"),
        (MOVING, "≡ rouse (record self.old.router {\n", "≡ record self.old.router {\n          tried = false;\n"),
        (MOVING, "is_mark);\n        }) }\n", "is_mark);\n        } }\n"),
        (
            WORTHS,
            "c r true n item = omega (arith, more-rouse c r)",
            "c r true n item = omega (arith, more-rouse c r, worth-most 1 r.flagged)",
        ),
    ],
    "an_item_from_inward_is_not_looked_at": [
        (
            MOVES,
            "accept_from_inward r n item = rouse (record r { out_queue = push_at r.out_queue n item })",
            "accept_from_inward r n item = record r { out_queue = push_at r.out_queue n item; tried = false }",
        ),
        (
            MOVING,
            "self.out_queue.push_ready(n, item);\n        self.rouse();\n",
            "self.out_queue.push_ready(n, item);\n        self.tried = false;\n",
        ),
        (
            MOVING,
            "self.push_out_ready(n, Item::Parcel(parcel));\n        Ok(n)\n",
            "self.push_out_ready(n, Item::Parcel(parcel));\n        self.rouse();\n        Ok(n)\n",
        ),
        (
            WORTHS,
            "c r false n item = omega (arith, more-rouse c r)",
            "c r false n item = omega (arith, more-rouse c r, worth-most 1 r.flagged)",
        ),
    ],
    "a_router_that_is_told_its_length_is_not_flagged": [
        (
            SPEC,
            "proxy_will_stop r in_length = rouse (record r { outward = set_length_from r.outward in_length })",
            "proxy_will_stop r in_length = record r { outward = set_length_from r.outward in_length; tried = false }",
        ),
        (
            CODE,
            "self.outward.set_length_from(in_length);\n        self.rouse();\n        Ok(None)",
            "self.outward.set_length_from(in_length);\n        self.tried = false;\n        Ok(None)",
        ),
        (
            WORTHS,
            "more-will_stop c r n = omega (arith, more-rouse c r)",
            "more-will_stop c r n = omega (arith, more-rouse c r, worth-most 1 r.flagged)",
        ),
    ],
    "an_unlock_unflags_its_router": [
        (EFFECTS, "drop_lock r = record r { holds = false; flagged = true }", "drop_lock r = record r { holds = false; flagged = false }"),
        (
            TURNING,
            "        self.holds = false;\n        self.flagged = true;\n",
            "        self.holds = false;\n        self.flagged = false;\n",
        ),
    ],
    "a_router_rests_at_any_time": [
        (TABLE, "is_possible r act || (is_rest act && is_rest (next_act r))", "is_possible r act || is_rest act"),
        (CHOOSING, "a ≡ acts.Rest → (is_rest a && is_rest a) ≡ true", "a ≡ acts.Rest → is_rest a ≡ true"),
    ],
    "a_router_rests_before_it_wakes": [
        (TABLE, "Mark ∷ Wake ∷ Claim", "Mark ∷ Claim"),
        (TURNING, f"{IF_WAKE}        self.next_to_go()\n", "        self.next_to_go()\n"),
        (TURNING, f"{IF_WAKE}        RouterAct::Rest\n", IF_WAKE.replace("return RouterAct::Wake", "return RouterAct::Rest") + "        RouterAct::Rest\n"),
        (NEXT, f"is_possible r SendOut ≡ false → {NEXT_IS}", "is_possible r SendOut ≡ false → next_act r ≡ (if is_possible r Mark then Mark else Rest)"),
        (NEXT, f"true →\n        {NEXT_IS}", "true →\n        next_act r ≡ (if is_possible r Mark then Mark else Rest)"),
        (LONE, "Leave ∷ Mark ∷ Wake ∷ Claim", "Leave ∷ Mark ∷ Claim"),
        (LONE, "send ∙ rw (mark, wake) refl", "send ∙ rw mark refl"),
        (NEXT_AT, f"≡ true = {WAKES.format('true')}(marks, wakes)", f"≡ true = {WAKES.format('true')}marks"),
        (NEXT_AT, f"≡ false = {WAKES.format('false')}(marks, wakes)", f"≡ false = {WAKES.format('false')}marks"),
    ],
    # who may answer for a bypass
    "a_lock_names_the_node_across": [
        (ROUTER, "source_of r = option_map (λ e. e.other) (inward_edge r).primary", "source_of r = option_map (λ e. e.other) r.outward.primary"),
        (
            ROUTING,
            "        match self.inward {\n            Some(edge) => match edge.primary() {\n                Some(end) => Some(end.other),\n"
            "                None => None,\n            },\n            None => None,\n        }\n",
            "        match self.outward.primary() {\n            Some(end) => Some(end.other),\n            None => None,\n        }\n",
        ),
    ],
    # who has tried for a lock is woken
    "a_mark_tells_nobody_that_the_other_side_waits": [
        (ANSWERS, "tells_waiting x s = has x.waiting (opposite s)", "tells_waiting x s = false"),
        (ANSWERS, "◌+◌, Bool, nat_lt, if", "◌+◌, Bool, false, nat_lt, if"),
        (ANSWERING, "Answer::Marked(marked, other_waits(word, side)),", "Answer::Marked(marked, false),"),
    ],
    "a_wake_stays_in_the_word": [
        (ANSWERS, "woken x s = wake x s", "woken x s = x"),
        (
            WORD_WAKERS,
            "has-without_apart (word_at w i).waiting (opposite t) t\n            (λ e. not_opposite t (sym e)) ∙ waits",
            "waits",
        ),
        (ANSWERING, "let woken = ipcz_word::take_waiting(word, side);", "let woken = word;"),
    ],
    "a_wait_is_only_answered": [
        (
            ANSWERS,
            "word_after x s source acts.Lock = word_by_plan x s source (plan_of x s)",
            "word_after x s source acts.Lock = tried_word x s source (plan_of x s)",
        ),
        (
            ANSWERS,
            "-- the word after an act of a side on it\n",
            "-- the word after a try, where a wait isn't written\nunfoldable pub tried_word : Word → Side → Option ℕ → Plan → Word\n"
            "tried_word x s source Locks = lock x s source\ntried_word x s source Waits = x\ntried_word x s source Refuses = x\n\n"
            "-- the word after an act of a side on it\n",
        ),
        (ANSWERS, "answers.Waiting (bits_of (word_by_plan x s source Waits))", "answers.Refused (bits_of x)"),
        (ANSWERS, "Word.{Word, mark, wake, unlock,", "Word.{Word, mark, wake, lock, unlock,"),
        (UPDATES, "(set_router w k (fail_lock r)) i (wait (word_at w i) r.end.side)", "(set_router w k (fail_lock r)) i (word_at w i)"),
        (ACTED, "try_answer word_by_plan commit on_router", "try_answer tried_word commit on_router"),
        (
            ACTED,
            "use Rattle.ipcz_world.specs.WordAnswers.{word_after, try_answer}",
            "use Rattle.ipcz_world.specs.WordAnswers.{word_after, try_answer, tried_word}",
        ),
        (WORD_ACTS, "x = wait (word_at w i) r.end.side", "x = word_at w i"),
        (ROUTER_WAKERS, "(fail_lock r) i (wait (word_at w i) r.end.side)", "(fail_lock r) i (word_at w i)"),
        (WORD_WAKERS, "x ≡ wait (word_at w i) t → HaveWakersOn i v", "x ≡ word_at w i → HaveWakersOn i v"),
        (
            ANSWERING,
            "WordAnswers.{word_answer, word_after, try_answer, woken}",
            "WordAnswers.{word_answer, word_after, try_answer, tried_word, woken}",
        ),
        (ANSWERING, "≡ word_by_plan (word_of_bits word) side source (plan_of", "≡ tried_word (word_of_bits word) side source (plan_of"),
        (
            ANSWERING,
            "unfolding(crate::specs::WordAnswers::try_answer,",
            "unfolding(crate::specs::WordAnswers::try_answer, crate::specs::WordAnswers::tried_word,",
        ),
        (
            ANSWERING,
            "LockPlan::Wait(waiting) => Answered {\n            answer: Answer::Waiting(waiting),\n            word: waiting,",
            "LockPlan::Wait(_) => Answered {\n            answer: Answer::Refused(word),\n            word,",
        ),
    ],
    "a_flush_finds_the_side_that_sent_it": [
        (EFFECTS, "message = Flush e.link (opposite e.side) }", "message = Flush e.link e.side }"),
        (UPDATES, "tells_wake e = messages.Flush e.link (opposite e.side)", "tells_wake e = messages.Flush e.link e.side"),
        (TURNING, "side: link.side.opposite(),", "side: link.side,"),
        (WAKING, "k.node e.other e.link (opposite e.side) sent", "k.node e.other e.link e.side sent"),
        (WAKING, "side = opposite e.side;", "side = e.side;"),
        (ACT_RANKS, "(messages.Flush e.link (opposite e.side))", "(messages.Flush e.link e.side)"),
    ],
    "a_flush_wakes_nobody": [
        (HANDS, "flushed r = rouse r", "flushed r = r"),
        (HEARING, "(messages.Flush link side) = rouse r", "(messages.Flush link side) = r"),
        (HEARD, "                self.rouse();\n", ""),
    ],
    "a_flush_lets_nobody_try_again": [
        (HANDS, "flushed r = rouse r", "flushed r = record r { flagged = true }"),
        (HEARING, "(messages.Flush link side) = rouse r", "(messages.Flush link side) = record r { flagged = true }"),
        (HEARD, "                self.rouse();\n", "                self.flagged = true;\n"),
        (STEP_WAKERS, "with_router n s (rouse r)", "with_router n s (flushed r)"),
        (STEP_WAKERS, "same_Some (rouse f.0.router)", "same_Some (flushed f.0.router)"),
        (
            GOING,
            "(flushed f.router) (found_tells n _ f e).0\n          (roused f.router _ refl refl refl refl refl refl refl refl refl (λ h. h)))",
            "(flushed f.router) (found_tells n _ f e).0\n          (left-alone f.router _ refl refl refl (λ h. h) refl refl refl refl refl (λ h. h)))",
        ),
        (
            AGREEING,
            "(rouse f.router) law (agreed-roused (law f.serial f.router (found_tells n _ f h).0))",
            "(flushed f.router) law (law f.serial f.router (found_tells n _ f h).0)",
        ),
        (
            HAND_RANKS,
            "(messages.Flush link side)) ≤ node_worth c n + 2\nunfolding handle on_found",
            "(messages.Flush link side)) ≤ node_worth c n + 2\nunfolding handle on_found router_worth",
        ),
        (HAND_RANKS, "with_router n s (rouse r)", "with_router n s (record r { flagged = true })"),
        (HAND_RANKS, "(rouse f.router) 2 e (more-rouse c f.router)", "(record f.router { flagged = true }) 2 e (omega arith)"),
    ],
    "a_message_lets_nobody_try_again": [
        (ROUTER, "rouse r = record r { flagged = true; tried = false }", "rouse r = record r { flagged = true }"),
        (
            ROUTING,
            "self.flagged = true;\n        self.tried = false;\n    }\n\n    // Takes",
            "self.flagged = true;\n    }\n\n    // Takes",
        ),
    ],
    "an_unlock_has_tried": [
        (
            EFFECTS,
            "drop_lock r = record r { holds = false; flagged = true }",
            "drop_lock r = record r { holds = false; flagged = true; tried = true }",
        ),
        (
            TURNING,
            "        self.holds = false;\n        self.flagged = true;\n",
            "        self.holds = false;\n        self.flagged = true;\n        self.tried = true;\n",
        ),
    ],
    "a_claim_without_a_word_has_tried": [
        (EFFECTS, "run_dry r = record r { dry = true }", "run_dry r = record r { tried = true }"),
        (TURNING, "                self.dry = true;\n", "                self.tried = true;\n"),
    ],
    "a_dry_router_has_tried": [
        (EFFECTS, "run_dry r = record r { dry = true }", "run_dry r = record r { dry = true; tried = true }"),
        (TURNING, "                self.dry = true;\n", "                self.dry = true;\n                self.tried = true;\n"),
    ],
    # who may leave a closed pair, and what it leaves behind
    "a_sink_retires_with_items_to_send": [
        (TABLE, "is_done r = is_sink r && (r.mark_dropped && is_drained r.out_queue)", "is_done r = is_sink r && r.mark_dropped"),
        (TURNING, "self.closed && self.out_queue.is_empty()", "self.closed"),
    ],
    "a_sink_retires_before_the_mark_is_discarded": [
        (TABLE, "is_done r = is_sink r && (r.mark_dropped &&", "is_done r = is_sink r && (r.mark_seen &&"),
        (TURNING, "self.mark_dropped && self.inward.is_none()", "self.mark_seen && self.inward.is_none()"),
    ],
    "a_sink_retires_without_the_lock": [
        (TABLE, "can_retire r = is_done r && (r.holds && (is_on_central r && not (decays r)))", "can_retire r = is_done r && (is_on_central r && not (decays r))"),
        (TURNING, "self.is_done() && self.holds && self.is_on_central()", "self.is_done() && self.is_on_central()"),
        (HAPPENINGS, "(second_of_both r.holds _ (second_of_both (is_done r) _ can))", "(second_of_both (is_done r) _ can)"),
        (ROUTER_ACTS, "(λ retires. and_first _ _ (and_second _ _ (and_second _ _ retires)))", "(λ retires. and_first _ _ (and_second _ _ retires))"),
    ],
    "a_proxy_leaves_before_it_has_sent_gone": [
        (TABLE, "(has_no_link r || r.gone_sent)", "(has_no_link r || has_gone_next r)"),
        (TABLE, "Acts.{way_out, way_in}", "Acts.{way_out, way_in, has_gone_next}"),
        (
            TURNING,
            "specs::ActTable::is_possible))]\n    fn can_leave(",
            "specs::ActTable::is_possible, crate::specs::Acts::item_passes))]\n    fn can_leave(",
        ),
        (
            TURNING,
            "        self.inward.is_some() && (self.has_no_link() || self.gone_sent)\n",
            "        let has_gone = match self.in_queue.next() {\n            Some(item) => item.is_gone(),\n            None => false,\n        };\n"
            "        self.inward.is_some() && (self.has_no_link() || has_gone)\n",
        ),
    ],
    "a_sink_that_is_sent_gone_stays": [
        (EFFECTS, "leaves_by r Discard = has_gone_next r", "leaves_by r Discard = false"),
        (LEAVING, "has_left acts.Discard (outputs.Discarded number item) = is_gone_item item\n", ""),
        (NODE_ACTING, "(RouterAct::Discard, Applied::Discarded(_, item)) => item.is_gone(),\n        ", ""),
        (LEFT, "(discard_output number item) ≡ item_passes is_gone_item item\n", "(discard_output number item) ≡ false\n"),
        (LEFT, "use Rattle.std.proofs.Common.{", "use Rattle.std.specs.Prelude.{false}\nuse Rattle.std.proofs.Common.{"),
    ],
    # what an act uses up
    "a_wake_stays_owed": [
        (EFFECTS, "wake_other r = record r { wake_owed = false }", "wake_other r = r"),
        (
            TURNING,
            "    {\n        self.wake_owed = false;\n    }\n",
            "    {\n        let _owed = self.wake_owed;\n    }\n",
        ),
    ],
    "a_rest_leaves_its_router_flagged": [
        (QUEUES, "rest r = record r { flagged = false }", "rest r = r"),
        (TURNING, "                self.flagged = false;\n", ""),
        (PASSING, "        self.flagged = false;\n", "        let _flagged = self.flagged;\n"),
        (FAST_PATH, "        let item = self.send_next();\n        self.flagged = false;\n        item\n", "        self.send_next()\n"),
        (FAST_PATH, "        self.flagged = false;\n        true\n", "        true\n"),
    ],
    "a_claim_without_a_word_is_made_again": [
        (EFFECTS, "run_dry r = record r { dry = true }", "run_dry r = r"),
        (TURNING, "                self.dry = true;\n", ""),
    ],
    "a_try_in_vain_is_made_again": [
        (EFFECTS, "fail_lock r = record r { tried = true }", "fail_lock r = r"),
        (TURNING, "    {\n        self.tried = true;\n    }\n", "    {\n        let _tried = self.tried;\n    }\n"),
    ],
}

# turns that break no promise, so that only contracts and tests refuse them: a side waits at most once on a link, and so a waiting bit that
# stays when the side is woken is never read again
HARMLESS = {"a_wake_stays_in_the_word"}

# what a lemma of the law comes to: the groups of the invariant, what keeps a role and what Controls weighs, and the
# facts that are kept beside the invariant
GROUPS = """
Inv OpenInv Counts Ordered IsOrdered Shape HasShape Roles HasRole BegunRecords Links HasLinks Positions HasPositions Stands Words HasWord Spares BypassRecords
IsBypassRecorded LiveLinks Stages HasStage Controls Moves Terminals HasTerminal EndPlaces HasEndsHere BooksKept RetiredEnds Gones Items Order
ProxyNumbers FreshNumbers HasFreshNumbers Conserved HeldOnce HasNoStrays AreFlagged IsAwake AreAwake IsAgreed AreAgreed FlagsAgree
Knows Keeps ProxyOwes control_weight AreSourced Begins HasWaker HaveWakers HaveWakersOn IsRanked IsOwing IsBounded
""".split()
# and the folder in which each lemma is one
FOLDERS = ("lawful/",)
# The lemmas by which the law reads the tables of acts. An act but rest leaves its router flagged, an item that comes flags it, and if rest comes
# next no act is possible; a sink that retires holds the lock, has discarded its peer's mark and has nothing to send; and a proxy that leaves has
# no link, or has sent Gone.
READINGS = {
    "runs/Flagging.antt": ("apply-flagged", "accept-flagged", "listed-idle", "rest-idle"),
    "acts/Retiring.antt": ("holds", "noted", "drained"),
    "acts/Leaving.antt": ("leave-tells",),
}


def check(folder: str, *more: str) -> tuple[bool, str]:
    """Returns whether the crate is proved, and what the check says."""
    done = subprocess.run(["rt", "check", "--jobs", "1", *more], cwd=folder, stdout=subprocess.PIPE, stderr=subprocess.STDOUT)
    return done.returncode == 0, done.stdout.decode(errors="replace")


def lines_of_the_law() -> dict[str, str]:
    """Returns the lines of `crates.txt` of the law's crate and of those that it stands on."""
    with open(f"{HERE}/crates.txt") as file:
        lines = {line.split(":")[0]: line for line in file}
    found = list[str]()
    left = [LAW]
    while left:
        crate = left.pop()
        found.append(crate)
        left += [name for name in lines[crate].split(":")[1].split() if name in lines and name not in (*found, *left)]
    return {crate: lines[crate] for crate in lines if crate in found}


def copy(room: str) -> str:
    """Copies the crates to a folder, and what is kept of their proofs if it has none, and returns where they are."""
    os.makedirs(f"{room}/crates", exist_ok=True)
    lines = lines_of_the_law()
    with open(f"{room}/crates.txt", "w") as file:
        file.writelines(lines.values())
    for crate in lines:
        kept = f"{room}/crates/{crate}/out"
        ignored = ("out",) if os.path.isdir(kept) else ()
        shutil.copytree(
            f"{HERE}/crates/{crate}", f"{room}/crates/{crate}", ignore=shutil.ignore_patterns(*ignored), dirs_exist_ok=True
        )
    return f"{room}/crates"


def turn(crates: str, edits: list[Edit]) -> None:
    """Makes the edits."""
    for name, old, new in edits:
        path = f"{crates}/{name}"
        with open(path) as file:
            text = file.read()
        if text.count(old) != 1:
            sys.exit(f"{name} has {text.count(old)} times: {old}")
        with open(path, "w") as file:
            file.write(text.replace(old, new))


def conclusion(path: str, line: int, lemma: str) -> str:
    """Returns what the statement of a lemma comes to: the first name behind its last arrow."""
    with open(path) as file:
        lines = file.read().split("\n")
    heads = [i for i in range(min(line, len(lines))) if re.match(rf"\s*(pub )?{re.escape(lemma)} : ", lines[i])]
    if not heads:
        return ""
    at, told = heads[-1], list[str]()
    indent = len(lines[at]) - len(lines[at].lstrip())
    while at < len(lines) and (not told or len(lines[at]) - len(lines[at].lstrip()) > indent):
        told.append(lines[at])
        at += 1
    last = " ".join(told).split(" : ", 1)[1].rsplit("→", 1)[-1]
    return re.match(r"\W*(?:\w+\.)*(\w*)", last)[1]


def failures(crates: str, text: str) -> list[tuple[bool, str]]:
    """Returns the lemmas that fail, each with its file, and whether it is one of the law; those that only depend on others aren't named."""
    found = []
    for name, line, lemma in re.findall(r"\./proofs/(\S+\.antt):(\d+):\d+: error: `([^`]+)`", text):
        ends_in = conclusion(f"{crates}/ipcz_world/proofs/{name}", int(line), lemma)
        is_law = name.startswith(FOLDERS) or lemma in READINGS.get(name, ()) or ends_in in GROUPS
        found.append((is_law, f"`{lemma}` of {name[:-5]}"))
    return list(dict.fromkeys(found))


def verdict(crates: str, edits: list[Edit], only_below: bool) -> str:
    """Returns what became of the crates below and of the law."""
    files = " ".join(name for name, _, _ in edits)
    below = [crate for crate in ("ipcz_router", "ipcz_node") if f"{crate}/" in files or "ipcz_router/" in files]
    for crate in below:
        done, text = check(f"{crates}/{crate}")
        if not done:
            return f"NOT TRIED: {crate} is refused before the law\n{text if only_below else ''}"
    world = f"{crates}/ipcz_world"
    if ANSWERING in files:
        done, text = check(world, "--only", "answer_act")
        if not done:
            return f"NOT TRIED: the code of the link words doesn't follow\n{text if only_below else ''}"
    if only_below:
        return "the crates below follow"
    done, text = check(world)
    with open(f"{crates}/law.txt", "w") as file:
        file.write(text)
    return of_law(crates, done, text)


def of_law(crates: str, done: bool, text: str) -> str:
    """Returns what a check of the law comes to, that said this."""
    if done:
        return "NOT REFUSED"
    found = failures(crates, text)
    laws, copies = [[lemma for is_law, lemma in found if is_law is law] for law in (True, False)]
    beside = f"; copies of its text: {', '.join(copies)}" if copies else ""
    if laws:
        return f"refused by the law at {', '.join(laws)}{beside}"
    return f"NOT REFUSED: only a copy of its text fails, {', '.join(copies) or 'in no lemma'}"


def tried(name: str, room: str, only_below: bool) -> str:
    """Makes a turn in a folder, or several at once, and returns what became of it."""
    edits = [edit for part in name.split("+") for edit in TURNS[part]]
    crates = copy(room)
    turn(crates, edits)
    return verdict(crates, edits, only_below)


def main() -> None:
    parser = argparse.ArgumentParser(description=__doc__, formatter_class=argparse.RawDescriptionHelpFormatter)
    parser.add_argument("--below", action="store_true")
    parser.add_argument("--room")
    parser.add_argument("names", nargs="*")
    asked = parser.parse_args()
    wrong = 0
    for name in asked.names or TURNS:
        begun = time.monotonic()
        if asked.room:
            said = tried(name, f"{asked.room}/{name}", asked.below)
        else:
            with tempfile.TemporaryDirectory() as room:
                said = tried(name, room, asked.below)
        wanted = "the crates below" if asked.below else "NOT REFUSED" if name in HARMLESS else "refused"
        wrong += not said.startswith(wanted)
        print(f"{name}, {(time.monotonic() - begun) / 60:.1f} minutes: {said}", flush=True)
    sys.exit(1 if wrong else 0)


if __name__ == "__main__":
    main()
