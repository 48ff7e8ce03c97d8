#!/usr/bin/env python3
"""Wrong definitions in dn_types and in the crates in BASES, each with a law in dn_laws that the definition violates.

Prints the rows by number. Each row changes one line of a crate's specs, or a few. refuted_laws.py has the prover refute its law, at the example in tools/laws/refuted.
"""

import contextlib
import sys
from collections.abc import Iterator
from pathlib import Path
from typing import Any, Union

from law_crates import Base

# Texts of the rows in which what a command is told isn't what is done, and of those in which the clock goes otherwise.
SETTING_AFTER = "-- What is in force for a command's subject once"
OBEYED_AS_TOLD = "(setting_after (command_reply (settings calls)"
OBEYED_OTHERWISE = "(setting_after (obeyed (settings calls)"
TOLD = "reply_to_command calls command = command_reply (settings calls)"
TOLD_OTHERWISE = "reply_to_command calls command = obeyed (settings calls)"
IMPORTS_TOLD = "Configuration.{settings, reply_to_command}"
IMPORTS_BOTH = "Configuration.{settings, queue_numbers, command_reply}"
REPLIED = "counted_reply rule calls (Configure command) = reply_to_command calls command"
REPLIED_ALONE = "counted_reply rule calls (Configure command) = " "command_reply (settings calls) (queue_numbers calls) command"
NEVER_OBEYED = """abbrev pub obeyed : Settings → List ℕ → Command → Reply
obeyed settings queues command = NoSuchPipe

"""
OBEYED_ONCE = """abbrev pub once : Bool → Reply → Reply
once true Configured = NoSuchPipe
once there r = r

abbrev pub obeyed : Settings → List ℕ → Command → Reply
obeyed settings queues command = once (is_some (settings (subject command))) (command_reply settings queues command)

"""
NAMED = ("(Submit target packet moment) = moment", "(Advance moment) = moment", "(Collect moment) = moment")
AT_NAMED = "max (effective_moment calls) moment"
TICKED = """abbrev pub ticked : ℕ → ℕ
ticked moment = moment / 1000000 * 1000000

"""

Text = Union[str, tuple[str, ...]]
Row = tuple[str, Text, Any, Any, str, str]

# What is wrong, the file, the right text, the wrong text (or as many of each as there are places to change), and the
# function and the clause of the law that is false of it. A row of several files has a tuple of each of the first three.
# fmt: off
ROWS: list[Row] = [
    ('weights count for nothing', 'Flows', 'pipe = pipe; weight = weight;', 'pipe = pipe; weight = 1;', 'laws_of_shares', 'tags'),
    ('a cost is the bare length', 'Wf2q', 'scaled len weight = len * 65536 / weight', 'scaled len weight = len', 'laws_of_shares', 'tags'),
    ('every start tag is 0', 'Wf2q', 'cond was_empty (max last_finish_tag virtual_time) last_finish_tag', '0', 'laws_of_shares', 'tags'),
    ('a packet joins a backlog at virtual time', 'Wf2q', 'cond was_empty (max last_finish_tag virtual_time) last_finish_tag', 'max last_finish_tag virtual_time',
     'laws_of_shares', 'tags'),
    ('virtual time never grows', 'Wf2q', '= raised virtual_time hs + scaled len (weight_sum hs)', '= virtual_time', 'laws_of_shares', 'grows'),
    ('the sum of weights counts heads', 'Wf2q', '= h.weight + weight_sum hs', '= 1 + weight_sum hs', 'laws_of_shares', 'grows'),
    ('virtual time is raised to the first head', 'Wf2q', 'max virtual_time (least_start_tag h.start_tag hs)',
     'max virtual_time h.start_tag', 'laws_of_shares', 'raised'),
    ('virtual time is raised to the greatest start tag', 'Wf2q', 'min h.start_tag (least_start_tag most hs)',
     'max h.start_tag (least_start_tag most hs)', 'laws_of_shares', 'raised'),
    ('a head is eligible strictly before virtual time', 'Wf2q', '= nat_le h.start_tag virtual_time', '= nat_lt h.start_tag virtual_time', 'laws_of_the_pick', 'there'),
    ('the pick is by start tag', 'Wf2q', 'nat_lt a.finish_tag b.finish_tag || nat_eq a.finish_tag b.finish_tag && nat_lt a.flow b.flow',
     'nat_lt a.start_tag b.start_tag || nat_eq a.start_tag b.start_tag && nat_lt a.flow b.flow', 'laws_of_shares', 'least'),
    ('a finish tag is by the weight at the pick', 'Calls',
     ('TheVariants.{DeletePipe, DeleteQueue}', 'TheVariants.{Deleted}', 'List, [], ◌∷◌, map,', 'Option, Some, None}\n',
     'abbrev pub after_command :', 'after_command _ command known trace = trace\n'),
     ('TheVariants.{Queue, DeletePipe, DeleteQueue}', 'TheVariants.{Configured, Deleted}',
     '◌&&◌, List, [], ◌∷◌, map, take, drop,', 'Option, Some, None}\nuse Rattle.std.specs.List.{list_any}\n',
     'abbrev tagged_at_the_pick : Command → List FlowKey → List Event → Event → Event\n'
     'tagged_at_the_pick (Queue number pipe weight limit loss buckets mask) known trace (arrived p) = '
     'cond (list_any (λ q. nat_eq q.packet p.packet) (backlog p.link p.stamped.flow trace) '
     '&& list_any (λ k. target_eq k.target (ToQueue number)) (take 1 (drop p.stamped.flow known))) ' '(arrived (record p { stamped = record p.stamped { '
     'finish_tag = p.stamped.start_tag + scaled p.stamped.len weight } })) (arrived p)\n' 'tagged_at_the_pick command known trace e = e\n\n'
     'abbrev pub after_command :', 'after_command Configured command known trace = map (tagged_at_the_pick command known trace) trace\n'
     'after_command _ command known trace = trace\n'), 'laws_of_shares', 'stretch'),
    ('ties go to the higher flow', 'Wf2q', 'nat_lt a.flow b.flow', 'nat_lt b.flow a.flow', 'laws_of_shares', 'least'),
    ('a busy period does not reset virtual time', 'SharedLinks', 'virtual_time link (opened l ∷ trace) = cond (link_eq l link) 0 (virtual_time link trace)',
     'virtual_time link (opened l ∷ trace) = virtual_time link trace', 'laws_of_resets', 'afresh'),
    ('a busy period keeps finish tags', 'SharedLinks', 'last_finish_tag link flow (opened l ∷ trace) = cond (link_eq l link) 0 (last_finish_tag link flow trace)',
     'last_finish_tag link flow (opened l ∷ trace) = last_finish_tag link flow trace', 'laws_of_resets', 'afresh'),
    ('a busy period never begins', 'SharedLinks', '(opened link ∷ trace) trace', 'trace trace', 'laws_of_resets', 'afresh'),
    ('a delete keeps the last finish tag', 'SharedLinks', 'last_finish_tag link flow (discarded f ∷ trace) = cond (nat_eq f flow) 0 (last_finish_tag link flow trace)',
     'last_finish_tag link flow (discarded f ∷ trace) = last_finish_tag link flow trace', 'laws_of_resets', 'queue_delete'),
    ('nothing is ever lost', 'Drops', 'nat_lt (word % 2 ^ 31) loss', 'nat_lt word 0', 'laws_of_drops', 'explained'),
    ('loss is by all 32 bits', 'Drops', 'nat_lt (word % 2 ^ 31) loss', 'nat_lt word loss', 'laws_of_drops', 'explained'),
    ('a draw of the loss rate itself is lost', 'Drops', 'nat_lt (word % 2 ^ 31) loss', 'nat_le (word % 2 ^ 31) loss', 'laws_of_drops', 'explained'),
    ('the limit in packets is off by one', 'Drops', 'nat_le count (length lengths)', 'nat_lt count (length lengths)', 'laws_of_drops', 'explained'),
    ('the limit in bytes is reached at the limit', 'Drops', 'nat_lt (count * 1024) (sum lengths)', 'nat_le (count * 1024) (sum lengths)', 'laws_of_drops', 'explained'),
    ('a Kbyte has 1,000 bytes', 'Drops', 'nat_lt (count * 1024) (sum lengths)', 'nat_lt (count * 1000) (sum lengths)', 'laws_of_drops', 'explained'),
    ('the limit is tested before the loss', 'Calls', 'cond (is_lost how.loss packet.word) (loses link flow) (cond (is_full how.limit (map (λ p. p.stamped.len) '
     '(backlog link flow trace))) (refuses link flow) (takes link flow how))',
     'cond (is_full how.limit (map (λ p. p.stamped.len) (backlog link flow trace))) (refuses link flow) '
     '(cond (is_lost how.loss packet.word) (loses link flow) (takes link flow how))', 'laws_of_drops', 'explained'),
    ('a lost packet takes the first of its queue with it', 'Trace', 'backlog link flow (_ ∷ trace) = backlog link flow trace',
     'backlog link flow (lost l f ∷ trace) = drop 1 (backlog link flow trace)\n'
     'backlog link flow (_ ∷ trace) = backlog link flow trace', 'laws_of_resets', 'dropped'),
    ('the bandwidth is doubled', 'Starts', 'loss buckets mask)) = bw\n', 'loss buckets mask)) = bw * 2\n', 'laws_of_links', 'configured'),
    ('a millisecond of delay is 7 ns', 'Starts', 'delay * 1000000', 'delay * 7', 'laws_of_links', 'configured'),
    ('the transmission time is rounded down', 'Links', '((len * 8000000000 + (bandwidth - 1)) / bandwidth)',
     '(len * 8000000000 / bandwidth)', 'laws_of_due_moments', 'transmission'),
    ('bandwidth 0 takes a second', 'Links', 'cond (nat_eq bandwidth 0) 0 (', 'cond (nat_eq bandwidth 0) 1000000000 (', 'laws_of_time', 'unlimited'),
    ('a link is free at the start of its last packet', 'Links', '(s.moment + s.transmission) (free link trace)',
     's.moment (free link trace)', 'laws_of_links', 'apart'),
    ('a waiting packet starts at the call', 'Starts', 'option_map (λ p. start_at settings link p (free link trace))',
     'option_map (λ p. start_at settings link p at)', 'laws_of_links', 'at_once'),
    ('a due moment leaves the order of its link', 'Links', 'due_by Ordered arrival last = max last arrival',
     'due_by Ordered arrival last = arrival', 'laws_of_due_moments', 'never_fall'),
    ('due moments are ordered over all links', 'Links', 'cond (link_eq s.packet.link link) (due_by rule (arrival_time s) (last_due rule link trace)) '
     '(last_due rule link trace)', 'due_by rule (arrival_time s) (last_due rule link trace)', 'laws_of_isolation', 'packets'),
    ('a Show forgets what happened', 'Calls', 'after_call calls Show trace = trace', 'after_call calls Show trace = []', 'laws_of_time', 'stay'),
    ('the clock goes back', 'Clock', '= max (effective_moment calls) (moment_of c)', '= moment_of c', 'laws_of_replies', 'greatest'),
    ('a packet joins at the front', 'Trace', '(backlog link flow trace ++ p ∷ [])', '(p ∷ backlog link flow trace)', 'laws_of_starts', 'in_order'),
    ('a Collect gives what one gave before', 'Deliveries', '= filter (λ d. nat_lt at d.due) (undelivered rule trace)',
     '= undelivered rule trace', 'laws_of_collecting', 'once'),
    ('equal due moments go by flow', 'Deliveries', '(ordering_then (nat_cmp a.packet b.packet) (ordering_then (nat_cmp a.flow b.flow) (nat_cmp a.start b.start)))',
     '(ordering_then (nat_cmp a.flow b.flow) (ordering_then (nat_cmp a.packet b.packet) (nat_cmp a.start b.start)))', 'laws_of_time', 'in_order'),
    ('a pipe delete reaches nothing', 'Calls', 'reaches (DeletePipe number) key = nat_eq key.pipe number',
     'reaches (DeletePipe number) key = false', 'laws_of_isolation', 'pipe_delete'),
    ('a pipe delete spares the flows of queues', 'Calls', 'reaches (DeletePipe number) key = nat_eq key.pipe number',
     'reaches (DeletePipe number) key = target_eq key.target (ToPipe number)', 'laws_of_isolation', 'pipe_delete'),
    ('a queue delete reaches nothing', 'Calls', 'reaches (DeleteQueue number) key = target_eq key.target (ToQueue number)',
     'reaches (DeleteQueue number) key = false', 'laws_of_isolation', 'queue_delete'),
    ('a queue delete empties every queue', 'Calls', 'reaches (DeleteQueue number) key = target_eq key.target (ToQueue number)',
     'reaches (DeleteQueue number) key = nat_eq 0 0', 'laws_of_isolation', 'queue_spares'),
    ('a later command is ignored', 'Configuration', 'setting_after Configured command before = Some command',
     'setting_after Configured command (Some before) = Some before\n' 'setting_after Configured command None = Some command', 'laws_of_isolation', 'commands_count'),
    ('what is deleted stays in force', 'Configuration', 'setting_after Deleted command before = None',
     'setting_after Deleted command before = before', 'laws_of_isolation', 'commands_count'),
    ('a refused command counts', 'Configuration', 'setting_after _ command before = before',
     'setting_after _ command before = Some command', 'laws_of_isolation', 'commands_count'),
    ('a queue needs no pipe', 'Configuration', 'cond (is_some (settings (ToPipe pipe))) Configured NoSuchPipe', 'Configured', 'laws_of_isolation', 'queues'),
    ('a pipe is deleted under its queues', 'Configuration',
     '(cond (has_queues settings queues number) PipeHasQueues Deleted)', 'Deleted', 'laws_of_isolation', 'queues'),
    ('masks count for nothing', 'Flows', 'record { src = bit_and t.src m.src; dst = bit_and t.dst m.dst; proto = bit_and t.proto m.proto; '
     'sport = bit_and t.sport m.sport; dport = bit_and t.dport m.dport }', 't', 'laws_of_flows', 'masks'),
    ('a mask forgets a field', 'Flows', 'dport = bit_and t.dport m.dport }', 'dport = t.dport }', 'laws_of_flows', 'masks'),
    ('a mask keeps one field by another', 'Flows', 'src = bit_and t.src m.src;', 'src = bit_and t.src m.dst;', 'laws_of_flows', 'masks'),
    ('a new flow comes first', 'Flows', '(known ++ key ∷ [])', '(key ∷ known)', 'laws_of_flows', 'stay'),
    ('all packets to a pipe share one link', 'Calls', 'link_of (ToPipe number) flow pipe = own pipe flow',
     'link_of (ToPipe number) flow pipe = shared pipe', 'laws_of_parts', 'replies'),
    ('any queue keeps each pipe', 'Configuration', 'is_queue_of n (Some (Queue number pipe weight limit loss buckets mask)) = nat_eq pipe n',
     'is_queue_of n (Some (Queue number pipe weight limit loss buckets mask)) = nat_eq n n', 'laws_of_parts', 'alone'),
    ('the fields of a packet play no part', 'Flows', '&& mask_eq a.mask b.mask && tuple_eq a.tuple b.tuple', '&& mask_eq a.mask b.mask', 'laws_of_flows', 'masks'),
    ('an Advance is told the moment 0', 'Replies', 'Advanced (max (effective_moment calls) moment)', 'Advanced 0', 'laws_of_replies', 'clock'),
    ('a lost packet is told the moment 0', 'Replies', '(loses link flow) trace = Lost at flow', '(loses link flow) trace = Lost 0 flow', 'laws_of_replies', 'clock'),
    ('a refused packet is told the moment 0', 'Replies', '(refuses link flow) trace = Full at flow',
     '(refuses link flow) trace = Full 0 flow', 'laws_of_replies', 'clock'),
    ('a Collect is told the moment 0', 'Replies', 'Delivered at (given', 'Delivered 0 (given', 'laws_of_replies', 'clock'),
    ('a Collect is told of no packet', 'Replies', 'Delivered at (given rule at (settled (settings calls) at (trace_of calls)))', 'Delivered at []',
     'laws_of_replies', 'due'),
    ('a Show is told of no flow', 'Replies', 'Status (statuses_from 0 (keys calls) (trace_of calls))', 'Status []', 'laws_of_replies', 'shows'),
    ('a Show tells no losses', 'Replies', 'lost = count_by (is_loss_of flow) trace;', 'lost = 0;', 'laws_of_replies', 'shows'),
    ('a Show tells packets for bytes', 'Replies', 'bytes = sum lengths;', 'bytes = length lengths;', 'laws_of_replies', 'shows'),
    ('a packet without a target makes a flow', 'Flows', 'keys_with target tuple None known = known',
     'keys_with target tuple None known = with_key (record { target = target; pipe = 0; '
     'mask = record { src = 0; dst = 0; proto = 0; sport = 0; dport = 0 }; tuple = tuple }) known', 'laws_of_replies', 'flows'),
    ('packets are numbered from 1', 'Replies', 'Queued at flow (accepted_count trace)', 'Queued at flow (accepted_count trace + 1)', 'laws_of_replies', 'numbers'),
    ('a queue without its pipe is told that the queue is missing', 'Configuration', 'Configured NoSuchPipe', 'Configured NoSuchQueue', 'laws_of_replies', 'commands'),
    ('a delete of no queue is told that the pipe is missing', 'Configuration', 'Deleted NoSuchQueue', 'Deleted NoSuchPipe', 'laws_of_replies', 'commands'),
    ('a pipe is never configured', 'Configuration', 'command_reply settings queues (Pipe number bw delay limit loss buckets mask) = Configured',
     'command_reply settings queues (Pipe number bw delay limit loss buckets mask) = NoSuchPipe', 'laws_of_replies', 'commands'),
    ('the limit of calls is 2^61', 'Clock', 'call_limit = 2 ^ 62', 'call_limit = 2 ^ 61', 'laws_of_replies', 'limit'),
    ('packets to a pipe have no bytes', 'Calls', ('-- The packet as it is accepted', 'len = packet.len; weight'),
     ('abbrev pub taken_len : Link → ℕ → ℕ\ntaken_len (own p f) n = 0\ntaken_len (shared p) n = n\n\n'
     '-- The packet as it is accepted', 'len = taken_len link packet.len; weight'), 'laws_of_acceptance', 'arrivals'),
    ('each flow of a queue has a link of its own', 'Calls', 'link_of (ToQueue number) flow pipe = shared pipe',
     'link_of (ToQueue number) flow pipe = own pipe flow', 'laws_of_acceptance', 'rate'),
    ('a pipe that is configured anew is emptied', 'Calls', ('TheVariants.{DeletePipe, DeleteQueue}', 'TheVariants.{Deleted}', 'reaches _ key = false',
     'after_command _ command known trace = trace'), ('TheVariants.{Pipe, DeletePipe, DeleteQueue}', 'TheVariants.{Configured, Deleted}',
     'reaches (Pipe number bw delay limit loss buckets mask) key = nat_eq key.pipe number\nreaches _ key = false',
     'after_command Configured command known trace = discard_reached command 0 known trace\n'
     'after_command _ command known trace = trace'), 'laws_of_discards', 'deletes'),
    ('a refused delete empties queues', 'Calls', 'after_command _ command known trace = trace',
     'after_command _ command known trace = discard_reached command 0 known trace', 'laws_of_discards', 'spared'),
    ('a queue keeps one packet', 'Calls', '    let before = opening link at trace in\n    join',
     '    let before = discarded flow ∷ opening link at trace in\n    join', 'laws_of_discards', 'deletes'),
    ('a busy period of any link forgets the tags of idle flows', 'SharedLinks', ('cond (link_eq l link) 0 (last_finish_tag link flow trace)', '◌&&◌, List, []'),
     ('cond (link_eq l link) 0 (cond (nat_eq (length (backlog link flow trace)) 0) 0 ' '(last_finish_tag link flow trace))',
     '◌&&◌, length, List, []'), 'laws_of_resets', 'kept'),
    ('each packet begins a busy period', 'SharedLinks', 'cond (nat_eq (waiting link trace) 0 && nat_le (free link trace) at) (opened link ∷ trace) trace',
     'opened link ∷ trace', 'laws_of_resets', 'begins'),
    ('each arrival makes its link free a nanosecond later', 'Links', ('Start, Event, started}', 'free link (_ ∷ trace) = free link trace'),
     ('Start, Event, arrived, started}', 'free link (arrived p ∷ trace) = cond (link_eq p.link link) (free link trace + 1) (free link trace)\n'
     'free link (_ ∷ trace) = free link trace'), 'laws_of_links', 'kept'),
    ('each arrival puts off what is due later on its link', 'Links', ('Start, Event, started}', 'last_due rule link (_ ∷ trace) = last_due rule link trace'),
     ('Start, Event, arrived, started}', 'last_due rule link (arrived p ∷ trace) = '
     'cond (link_eq p.link link) (last_due rule link trace + 1) (last_due rule link trace)\n'
     'last_due rule link (_ ∷ trace) = last_due rule link trace'), 'laws_of_links', 'kept'),
    ('each head counts twice in the sum of weights', 'Wf2q', '= heads flow backlog ++ take 1 (backlog flow)',
     '= heads flow backlog ++ (take 1 (backlog flow) ++ take 1 (backlog flow))', 'laws_of_the_pick', 'heads'),
    ('the flow with the greatest number has no head', 'Trace', 'max (flow_bound trace) (p.stamped.flow + 1)', 'max (flow_bound trace) p.stamped.flow',
     'laws_of_the_pick', 'heads'),
    ('a Collect ends what is in force', 'Configuration', ('TheVariants.{Configure}', 'settings (_ ∷ calls) target = settings calls target'),
     ('TheVariants.{Configure, Collect}', 'settings (Collect moment ∷ calls) target = None\nsettings (_ ∷ calls) target = settings calls target'),
     'laws_of_isolation', 'only_commands'),
    ('each arrival moves virtual time', 'SharedLinks', ('Prelude.{ℕ, cond', 'virtual_time link (_ ∷ trace) = virtual_time link trace'), ('Prelude.{ℕ, ◌+◌, cond',
     'virtual_time link (arrived p ∷ trace) = ' 'cond (link_eq p.link link) (virtual_time link trace + 1) (virtual_time link trace)\n'
     'virtual_time link (_ ∷ trace) = virtual_time link trace'), 'laws_of_links', 'virtual_time'),
    ('a history is read backwards', 'History', 'reverse (map (λ e. e.call) history)', 'map (λ e. e.call) history', 'laws_of_histories', 'replies'),
    ('each entry is every caller\'s own', 'History', 'filter (λ e. nat_eq e.caller caller) history', 'history', 'laws_of_histories', 'own'),
    ('each pipe is configured at first', 'Configuration', ('Reply.{Reply}\n', 'settings [] target = None'),
     ('Reply.{Reply}\nuse Rattle.dn_types.specs.declared.limit.Limit.TheVariants.{Slots}\n', 'settings [] (ToPipe number) = Some (Pipe number 0 0 (Slots 50) 0 None '
     '(record { src = 0; dst = 0; proto = 0; sport = 0; dport = 0 }))\nsettings [] target = None'), 'laws_of_isolation', 'only_commands'),
    ('every head is eligible', 'Wf2q', '= nat_le h.start_tag virtual_time', '= nat_le 0 virtual_time', 'laws_of_the_pick', 'first'),
    ('the pick does not look at virtual time', 'SharedLinks', '(pick (virtual_time (shared pipe) trace) (link_heads',
     '(pick 0 (link_heads', 'laws_of_the_pick', 'started'),
    ('a shared link serves its flows in order of number', 'SharedLinks', '(pick (virtual_time (shared pipe) trace) (link_heads (shared pipe) trace))',
     '(slice_get (link_heads (shared pipe) trace) 0)', 'laws_of_the_pick', 'started'),
    ('no history is lawful', 'History', ('◌≡◌, ⊤, List', 'IsLawfulAfter rule calls [] = ⊤'), ('◌≡◌, List', 'IsLawfulAfter rule calls [] = ⊥'),
     'laws_of_histories', 'grow'),
    ('a packet may have 2^32 bytes', 'Bounds', 'packet.len ≤ 65535', 'packet.len ≤ 2 ^ 32', 'laws_of_bounds', 'bytes'),
    ('a moment may be 2^63 ns', 'Bounds', 'IsInRange (Advance moment) = moment ≤ 2 ^ 62', 'IsInRange (Advance moment) = moment ≤ 2 ^ 63', 'laws_of_bounds', 'moments'),
    ('a delay may be 2^50 ms', 'Bounds', 'delay ≤ 3600000', 'delay ≤ 2 ^ 50', 'laws_of_bounds', 'dues'),
    ('no packet is longer than 1,500 bytes', 'Bounds', 'packet.len ≤ 65535', 'packet.len ≤ 1500', 'laws_of_bounds', 'calls'),
    ('no delay is longer than a minute', 'Bounds', 'delay ≤ 3600000', 'delay ≤ 60000', 'laws_of_bounds', 'calls'),
    ('a link rests a nanosecond after each packet', 'Starts', 'option_map (λ p. start_at settings link p (free link trace))',
     'option_map (λ p. start_at settings link p (free link trace + 1))', 'laws_of_waiting', 'known'),
    ('a queue holds twice its slots', 'Drops', 'nat_le count (length lengths)', 'nat_le (count * 2) (length lengths)', 'laws_of_waiting', 'slots'),
    ('a deleted pipe stays configured', 'Configuration', 'subject (DeletePipe number) = ToPipe number',
     'subject (DeletePipe number) = ToQueue 0', 'laws_of_replies', 'obeyed'),
    ('a deleted queue stays configured', 'Configuration', 'subject (DeleteQueue number) = ToQueue number',
     'subject (DeleteQueue number) = ToQueue 0', 'laws_of_replies', 'obeyed'),
    ('the command of a queue is in force for the next one', 'Configuration', ('Prelude.{ℕ, ', 'limit loss buckets mask) = ToQueue number',
     'buckets mask) ∷ calls) = number ∷ queue_numbers calls'), ('Prelude.{ℕ, ◌+◌, ', 'limit loss buckets mask) = ToQueue (number + 1)',
     'buckets mask) ∷ calls) = (number + 1) ∷ queue_numbers calls'), 'laws_of_replies', 'obeyed'),
    ('a command is told Configured and never obeyed', ('Configuration', 'Replies'), ((SETTING_AFTER, OBEYED_AS_TOLD, TOLD), (IMPORTS_TOLD, REPLIED)),
     ((NEVER_OBEYED + SETTING_AFTER, OBEYED_OTHERWISE, TOLD_OTHERWISE), (IMPORTS_BOTH, REPLIED_ALONE)), 'laws_of_replies', 'obeyed'),
    ('what is configured anew stays as it was', ('Configuration', 'Replies'), ((SETTING_AFTER, OBEYED_AS_TOLD, TOLD, 'Prelude.{ℕ, Bool, '), (IMPORTS_TOLD, REPLIED)),
     ((OBEYED_ONCE + SETTING_AFTER, OBEYED_OTHERWISE, TOLD_OTHERWISE, 'Prelude.{ℕ, Bool, true, '), (IMPORTS_BOTH, REPLIED_ALONE)), 'laws_of_replies', 'obeyed'),
    ('time stands still', ('Clock', 'Calls', 'Replies'), (NAMED, AT_NAMED, AT_NAMED),
     (tuple(line.replace('= moment', '= 0') for line in NAMED), AT_NAMED.replace(') moment', ') 0'),
     AT_NAMED.replace(') moment', ') 0')), 'laws_of_replies', 'follows'),
    ('moments count in whole milliseconds', ('Clock', 'Calls', 'Replies'),
     (('Prelude.{ℕ, ', 'abbrev pub moment_of', *NAMED), ('Clock.{', AT_NAMED), ('Clock.{', AT_NAMED)), (('Prelude.{ℕ, ◌/◌, ◌*◌, ', TICKED + 'abbrev pub moment_of',
     *(line.replace('= moment', '= ticked moment') for line in NAMED)), ('Clock.{ticked, ', AT_NAMED.replace(') moment', ') (ticked moment)')),
     ('Clock.{ticked, ', AT_NAMED.replace(') moment', ') (ticked moment)'))), 'laws_of_replies', 'follows'),
    ('a Show tells started packets as discarded', 'Trace', ('Prelude.{ℕ, ', 'is_start_of flow (started s) = nat_eq s.packet.stamped.flow flow\n',
     'discarded_count link flow [] = 0\n'), ('Prelude.{ℕ, min, ', '', 'discarded_count link flow [] = 0\ndiscarded_count link flow (started s ∷ trace) = '
     'cond (is_of link flow s.packet) (min 1 (length (backlog link flow trace))) 0 ' '+ discarded_count link flow trace\n'), 'laws_of_replies', 'starts'),
    ('the entries of a caller begin with a Show that nobody made', 'History',
     ('use Rattle.dn_types.specs.declared.entry.Entry.{Entry}', 'own_entries caller history = '), ('use Rattle.dn_types.specs.declared.entry.Entry.{Entry}\n'
     'use Rattle.dn_types.specs.declared.call.Call.TheVariants.{Show}\n' 'use Rattle.dn_types.specs.declared.reply.Reply.TheVariants.{Exhausted}',
     'own_entries caller history = record { caller = caller; call = Show; reply = Exhausted } ∷ '), 'laws_of_histories', 'none'),
    ('a Kbyte has 2,048 bytes', 'Drops', 'nat_lt (count * 1024) (sum lengths)', 'nat_lt (count * 2048) (sum lengths)', 'laws_of_waiting', 'kbytes'),
    ('K is 1,024', 'Values', '== 107) (1000,', '== 107) (1024,', 'laws_of_lines', 'pipes'),
    ('M is 2^20', 'Values', '== 109) (1000000,', '== 109) (1048576,', 'laws_of_lines', 'pipes'),
    ('a byte has 10 bits', 'Values', '(Some 8) None', '(Some 10) None', 'laws_of_lines', 'pipes'),
    ('units are in lower case alone', 'Values', '(rate_of (lower (unit w)))', '(rate_of (unit w))', 'laws_of_lines', 'pipes'),
    ('a loss rate is rounded up', 'Values', 'Ok (n * 2 ^ 31 / 10 ^ 18)', 'Ok ((n * 2 ^ 31 + (10 ^ 18 - 1)) / 10 ^ 18)', 'laws_of_lines', 'pipes'),
    ('each place behind the point is the last', 'Values', '10 ^ (18 - length fs)', '10 ^ (18 - 18)', 'laws_of_lines', 'pipes'),
    ('a limit in Kbytes counts packets', 'Values', '(limited Kbytes (placed', '(limited Slots (placed', 'laws_of_lines', 'pipes'),
    ('a queue has 100 slots at first', 'Settings', 'limit = Slots 50;', 'limit = Slots 100;', 'laws_of_lines', 'defaults'),
    ('a queue weighs 10 at first', 'Settings', 'weight = 1;', 'weight = 10;', 'laws_of_lines', 'defaults'),
    ('bw sets the delay', 'Settings', 'record o { bw = n }', 'record o { delay = n }', 'laws_of_lines', 'pipes'),
    ('a queue is on the pipe with its number', 'Line', 'c.Queue n p o.weight', 'c.Queue n n o.weight', 'laws_of_lines', 'defaults'),
    ('weights are forgotten', 'Line', 'Ok (c.Queue n p o.weight', 'Ok (c.Queue n p 1', 'laws_of_lines', 'queues'),
    ('dst-port sets the source port', 'Masks', 'record mask { dport = n }', 'record mask { sport = n }', 'laws_of_lines', 'pipes'),
    ('all spares the protocol', 'Masks', '2 ^ 32 - 1; proto = 255;', '2 ^ 32 - 1; proto = 0;', 'laws_of_lines', 'pipes'),
    ('a weight may be 1,000', 'Values', 'number_within 1 100 w', 'number_within 1 1000 w', 'laws_of_lines', 'ranges'),
    ('a loss rate may be 2', 'Values', 'within 0 (10 ^ 18) (rate', 'within 0 (2 * 10 ^ 18) (rate', 'laws_of_lines', 'ranges'),
    ('a queue may have no slot', 'Values', 'number_within 1 10000 (digits', 'number_within 0 10000 (digits', 'laws_of_lines', 'ranges'),
    ('a delay may be two hours', 'Values', 'number_within 0 3600000', 'number_within 0 7200000', 'laws_of_lines', 'ranges'),
    ('a delete behind its number is of a queue', 'Line', '(whole_at (at + 3) ws (deletes k n))\n', '(whole_at (at + 3) ws (deletes kind.Queue n))\n',
     'laws_of_lines', 'deletes'),
    ('words behind a delete say nothing', 'Line', 'whole_at at (w ∷ ws) command = Err (UnknownWord at)',
     'whole_at at (w ∷ ws) command = Ok command', 'laws_of_lines', 'behind'),
    ('a line behind ipfw deletes pipe 1', 'Line', 'behind_ipfw (w ∷ ws) = command_from 2 (w ∷ ws)',
     'behind_ipfw (w ∷ ws) = Ok (c.DeletePipe 1)', 'laws_of_lines', 'prefix'),
    ('a comment begins with a semicolon', 'Words', 'is_hash byte = byte == 35', 'is_hash byte = byte == 59', 'laws_of_lines', 'words'),
    ('a tab is no separator', 'Tokens/Words', 'byte == 32 || byte == 9 || byte == 13', 'byte == 32 || byte == 13', 'laws_of_lines', 'words'),
    ('a query is an unknown word', 'Line', 'cond (is_query w) (Err (LeftOut (at + 1)))', 'cond (is_query w) (Err (UnknownWord (at + 1)))', 'laws_of_lines', 'behind'),
    ('a queue without a pipe is on the pipe of its number', 'Line', 'queue_with at n o None = Err (NeedsPipe at)',
     'queue_with at n o None = Ok (c.Queue n n o.weight o.limit o.loss o.buckets o.mask)', 'laws_of_lines', 'needs_pipe'),
    ('an unknown word is a weight', 'Groups', 'left_out rest = Err (cond left_out (LeftOut at) (UnknownWord at))',
     'left_out rest = Ok (set.Weight 1)', 'laws_of_lines', 'others'),
    ('words that are left out are unknown', 'Groups', 'left_out rest = Err (cond left_out (LeftOut at) (UnknownWord at))',
     'left_out rest = Err (UnknownWord at)', 'laws_of_lines', 'left_out'),
    ('source and destination of a row are exchanged', 'Fields', 'record { src = src; dst = dst;', 'record { src = dst; dst = src;', 'laws_of_records', 'rows'),
    ('a row has its word before its length', 'Fields', ('(place + 5) 1', '(place + 6) 0'), ('(place + 6) 1', '(place + 5) 0'), 'laws_of_records', 'rows'),
    ('the moment of a row is in microseconds', 'PacketFile', ('Prelude.{', '{ moment = moment;'),
     ('Prelude.{◌*◌, ', '{ moment = moment * 1000;'), 'laws_of_records', 'rows'),
    ('the length of a row is in bits', 'Fields', ('Prelude.{', 'len = len;'), ('Prelude.{◌/◌, ', 'len = len / 8;'), 'laws_of_records', 'rows'),
    ('a random number has 31 bits', 'Fields', '0 4294967295', '0 2147483647', 'laws_of_records', 'rows'),
    ('a missing random number counts as 1', ('Fields', 'PacketFile'), (('Prelude.{', '0 4294967295 fields'), ('Prelude.{', 'cond (length fields == 10) (do')),
     (('Prelude.{◌∷◌, ◌++◌, ', '0 4294967295 (fields ++ codes "1" ∷ [])'),
     ('Prelude.{◌||◌, ', 'cond (length fields == 9 || length fields == 10) (do')), 'laws_of_records', 'ten'),
    ('rows count from 0', 'PacketFile', '(rows_from 1 rest)', '(rows_from 0 rest)', 'laws_of_records', 'ten'),
    ('any other target of a row is a queue', 'Fields',
     '(cond (is_name place fields (codes "queue")) (number_at (place + 1) 1 65535 fields >>= λ n. Ok (Queue n)) (Err place))',
     '(number_at (place + 1) 1 65535 fields >>= λ n. Ok (Queue n))', 'laws_of_records', 'only_rows'),
    ('a protocol may be 300', 'Fields', '(place + 2) 0 255', '(place + 2) 0 300', 'laws_of_records', 'only_rows'),
    ('the last name of a header says nothing', 'PacketFile', ' && is_name 10 fields (codes "word")', '', 'laws_of_records', 'only_rows'),
    ('a packet file may lack its header', 'PacketFile', '(Err (BadRow 0 0))', '(rows_from 1 (first ∷ rest))', 'laws_of_records', 'only_rows'),
    ('a history may lack its end', 'HistoryFile', ('Prelude.{', 'first ← entry_from version count rest'),
     ('Prelude.{nat_eq, ', 'first ← cond (nat_eq (length rest.records) 0) (Ok (None, rest)) (entry_from version count rest)'), 'laws_of_records', 'only_histories'),
    ('records behind the end say nothing', 'HistoryFile', 'nothing_in rest (fields ∷ records) = Err (BadRecord rest.number)',
     'nothing_in rest (fields ∷ records) = Ok (None, rest)', 'laws_of_records', 'only_histories'),
    ('the end may count fewer entries', 'HistoryRecords', 'number_at 2 count count', 'number_at 2 0 count', 'laws_of_records', 'only_histories'),
    ('each history may have remarks', 'HistoryRecords', 'has_remarks Third = false', 'has_remarks Third = true', 'laws_of_records', 'only_histories'),
    ('a remark begins with a semicolon', 'Remarks', 'byte == 35', 'byte == 59', 'laws_of_records', 'only_histories'),
    ('an unknown reply is Exhausted', 'HistoryRecords', 'Ok (r.Advanced at)) (Err 2)', 'Ok (r.Advanced at)) (Ok r.Exhausted)', 'laws_of_records', 'only_histories'),
    ('further fields of a call say nothing', 'HistoryRecords', '&& is_form 3 name count fields', '&& is_name 3 fields name', 'laws_of_records', 'only_histories'),
    ('a history may have caller 16', 'HistoryRecords', 'number_at 2 0 15', 'number_at 2 0 16', 'laws_of_records', 'only_histories'),
    ('a packet file may have 2^27 bytes', 'PacketFile', '67108864', '134217728', 'laws_of_records', 'limits'),
    ('each record of a call is of caller 0', 'EntryRecords', '"c" ∷ decimal caller', '"c" ∷ decimal 0', 'laws_of_records', 'written'),
    ('flow and packet of a reply are exchanged', ('EntryRecords', 'HistoryRecords'), ('decimal flow ∷ decimal packet', ('flow ← long_at 4', 'packet ← long_at 5')),
     ('decimal packet ∷ decimal flow', ('flow ← long_at 5', 'packet ← long_at 4')), 'laws_of_records', 'written'),
    ('start and due moment of a delivery are exchanged', ('EntryRecords', 'HistoryItems'),
     ('decimal d.start ∷ decimal d.due', ('start ← long_at 4', 'due ← long_at 5')),
     ('decimal d.due ∷ decimal d.start', ('start ← long_at 5', 'due ← long_at 4')), 'laws_of_records', 'written'),
    ('packets and bytes of a flow are exchanged', ('EntryRecords', 'HistoryItems'),
     ('decimal s.queued ∷ decimal s.bytes', ('queued ← long_at 16', 'bytes ← long_at 17')),
     ('decimal s.bytes ∷ decimal s.queued', ('queued ← long_at 17', 'bytes ← long_at 16')), 'laws_of_records', 'written'),
    ('the end counts itself', ('HistoryText', 'HistoryRecords'), (('Prelude.{', '"end" ∷ decimal count'), ('Prelude.{', 'number_at 2 count count')),
     (('Prelude.{◌+◌, ', '"end" ∷ decimal (count + 1)'), ('Prelude.{◌+◌, ', 'number_at 2 (count + 1) (count + 1)')), 'laws_of_records', 'written'),
    ('version 2 of a history is by rule Ordered', 'HistoryRecords', 'rule_of Second = Free', 'rule_of Second = Ordered', 'laws_of_records', 'read'),
    ('any packet may lack memory', 'Shaper', 'is_some (treatment (settings calls target)) ≡ true', 'Unit {0}', 'laws_of_reservations', 'memory'),
    ('a refused command may lack memory', 'Shaper', ' × (reply_to_command calls command ≡ Configured)', '', 'laws_of_reservations', 'memory'),
    ('an Advance may lack memory', 'Shaper', 'calls (Advance moment) = ⊥', 'calls (Advance moment) = Unit {0}', 'laws_of_reservations', 'memory'),
    ('no command has room', 'Room', 'is_some (settings_of s.configured (subject command)) ≡ true', '⊥', 'laws_of_reservations', 'room'),
    ('a packet to no pipe has no room', 'Room', 'HasRoomBy None target tuple p = Unit {0}', 'HasRoomBy None target tuple p = ⊥', 'laws_of_reservations', 'room'),
    ('a packet leaves no room', 'Room', '= KeepsOthersRoom target packet.tuple old new', '= Unit {0}', 'laws_of_reservations', 'stays'),
    ('a Collect leaves no room', 'Room', 'LeavesRoom (Collect moment) old new = KeepsRoom old new',
     'LeavesRoom (Collect moment) old new = Unit {0}', 'laws_of_reservations', 'stays'),
    ('a service is by rule Free', 'Callers', ('Rule.TheVariants.{Ordered}', 'pub lawful : IsLawful Ordered history'),
     ('Rule.TheVariants.{Ordered, Free}', 'pub lawful : IsLawful Free history'), 'laws_of_services', 'deliveries'),
    ('a history has entries of anybody', 'Histories', '(λ e. e.caller < n)', '(λ e. e.caller ≡ e.caller)', 'laws_of_services', 'entries'),
    ('a service closes without a caller', 'Callers', '(k : ℕ) → k < service', '(k : ℕ) → k + 1 < service', 'laws_of_services', 'entries'),
    ('a front begins no history', 'Histories', '× (history ≡ front ++ rest)', '× (rest ≡ rest)', 'laws_of_services', 'callers'),
    ('each caller has every entry', 'Callers', '≡ own_entries c.number history', '≡ history', 'laws_of_services', 'histories'),
    ('each entry is of caller 0', 'Histories', 'record { caller = k;', 'record { caller = 0;', 'laws_of_services', 'answers'),
    ('no try is counted', 'Callers', 'c.faced ≡ lost_to c.number callers', 'c.faced ≡ c.faced', 'laws_of_services', 'callers'),
    ('a caller is told replies by rule Free', 'Callers', ('Rule.TheVariants.{Ordered}', 'pub lawful : IsLawful Ordered after'),
     ('Rule.TheVariants.{Ordered, Free}', 'pub lawful : IsLawful Free after'), 'laws_of_services', 'answers'),
    ('a held packet is told as lost', 'Report', 'queued_line row at flow packet None = line.Held row flow packet at',
     'queued_line row at flow packet None = line.Lost row flow at', 'laws_of_reports', 'lines'),
    ('start and due moment of a line are exchanged', 'Report', 'at d.start d.due', 'at d.due d.start', 'laws_of_reports', 'lines'),
    ('rows of a report count from 0', 'Report', '(e.caller + before * n + 1)', '(e.caller + before * n)', 'laws_of_reports', 'lines'),
    ('the rows of each caller follow each other', 'Report', '(e.caller + before * n + 1)', '(e.caller + before + 1)', 'laws_of_reports', 'lines'),
    ('a refused packet is told as lost', 'Report', 'Some (line.Full row flow at)', 'Some (line.Lost row flow at)', 'laws_of_reports', 'lines'),
    ('delivered packets are ordered by start', 'Report', 'due_of (line.Out row flow packet at start due) = due',
     'due_of (line.Out row flow packet at start due) = start', 'laws_of_reports', 'order'),
    ('packets that are due together are ordered by row', 'Report', 'packet_of (line.Out row flow packet at start due) = packet',
     'packet_of (line.Out row flow packet at start due) = row', 'laws_of_reports', 'order'),
    ('lost packets come before delivered ones', 'Report',
     'outs_in_order (filter is_out (submit_lines n history)) ++ sorted_by row_number (filter is_other (submit_lines n history))',
     'sorted_by row_number (filter is_other (submit_lines n history)) ++ outs_in_order (filter is_out (submit_lines n history))', 'laws_of_reports', 'order'),
    ('a lost packet has its moment for its number', 'Report', 'codes "lost" ∷ decimal row ∷ decimal flow ∷ [] ∷ decimal at ∷',
     'codes "lost" ∷ decimal row ∷ decimal flow ∷ decimal at ∷ [] ∷', 'laws_of_reports', 'text'),
    ('a replay collects at 2^61', 'Runs', 'Collect (2 ^ 62)', 'Collect (2 ^ 61)', 'laws_of_reports', 'inputs'),
    ('a bad line is not counted', 'Session', 'bad_of (Bad bad) = 1', 'bad_of (Bad bad) = 0', 'laws_of_sessions', 'histories'),
    ('each call is made twice', 'Session', 'calls_after calls (Calls caller call) = call ∷ calls',
     'calls_after calls (Calls caller call) = call ∷ call ∷ calls', 'laws_of_sessions', 'histories'),
    ('a bad line gets no remark', 'Session', 'answer number calls (Bad bad) = bad_record number bad ∷ []', 'answer number calls (Bad bad) = []',
     'laws_of_sessions', 'answered'),
    ('lines count from 0', 'Session', 'answers lines ++ answer (length lines + 1)', 'answers lines ++ answer (length lines)', 'laws_of_sessions', 'answered'),
    ('the newest answer comes first', 'Session', 'answers lines ++ answer (length lines + 1) (calls_of lines) (asked line)',
     'answer (length lines + 1) (calls_of lines) (asked line) ++ answers lines', 'laws_of_sessions', 'answered'),
    ('lines that begin with n are comments', 'Asked', 'is_comment (b ∷ line) = b == 35', 'is_comment (b ∷ line) = b == 110', 'laws_of_sessions', 'lines'),
    ('a configuration line is of caller 1', 'Asked', 'typed_asked (Ok (Some command)) = Calls 0', 'typed_asked (Ok (Some command)) = Calls 1',
     'laws_of_sessions', 'lines'),
    ('a Show is asked by caller 0', 'Asked', 'plain_asked caller (Ok call) = Calls caller call', 'plain_asked caller (Ok call) = Calls 0 call',
     'laws_of_sessions', 'calls'),
    ('a second record in a line says nothing', 'Asked', 'cond (not one && is_asking fields) (bad 0 NotOneRecord) (asked_by line fields)',
     'asked_by line fields', 'laws_of_sessions', 'only_calls'),
    ('a link with a backlog wakes nobody', 'Waking', '= cond (nat_lt 0 (waiting link trace)) (Some (free link trace)) None', '= None', 'laws_of_sessions', 'wakes'),
    ('the later of two moments wakes', 'Waking', ('Prelude.{ℕ, min,', 'Some (min a b)'), ('Prelude.{ℕ, max,', 'Some (max a b)'), 'laws_of_sessions', 'wakes'),
    ('a greater caller stands for a missing one', 'Callers', ('Prelude.{', 'list_any (λ c. c.number == k)'),
     ('Prelude.{nat_le, ', 'list_any (λ c. nat_le k c.number)'), 'laws_of_services', 'entries'),
    ('a history may have the entries of one caller more', 'Histories', ('Prelude.{', '(λ e. e.caller < n)'),
     ('Prelude.{◌≤◌, ', '(λ e. e.caller ≤ n)'), 'laws_of_services', 'entries'),
    ('a try counts twice', 'Accounts', 'cond (nat_eq x k) 1 0 + times', 'cond (nat_eq x k) 2 0 + times', 'laws_of_services', 'callers'),
    ('each try counts for each caller', 'Callers', ('Prelude.{', '= times k c.lost + lost_to'), ('Prelude.{length, ', '= length c.lost + lost_to'),
     'laws_of_services', 'callers'),
    ('only the tries of the first caller count', 'Callers', '= times k c.lost + lost_to k callers', '= times k c.lost', 'laws_of_services', 'callers'),
    ('what came in between is left out', 'Callers', '(before.front ++ between) ++ entry_of', 'before.front ++ entry_of', 'laws_of_services', 'answers'),
    ('what came in between comes after the call', 'Callers', '(before.front ++ between) ++ entry_of before.number c r ∷ []',
     '(before.front ++ entry_of before.number c r ∷ []) ++ between', 'laws_of_services', 'answers'),
    ("a new entry is the first of the caller's own", 'Callers', 'before.own ++ entry_of before.number c r ∷ []', 'entry_of before.number c r ∷ before.own',
     'laws_of_services', 'answers'),
    ("a caller's own entries are those of the front before", 'Callers', 'own_entries before.number after.front', 'own_entries before.number before.front',
     'laws_of_services', 'answers'),
    ('a caller sees the entries of lower callers only', 'Callers', 'AreBelow before.service.callers after.front', 'AreBelow before.number after.front',
     'laws_of_services', 'answers'),
    ('a front ends the history', 'Histories', '(history ≡ front ++ rest)', '(history ≡ rest ++ front)', 'laws_of_services', 'callers'),
    ('an Advance has no room', 'Room', 'HasRoomFor (Advance moment) s = Unit {0}', 'HasRoomFor (Advance moment) s = ⊥', 'laws_of_reservations', 'room'),
    ('a command has room where nothing is in force', 'Room', '(subject command)) ≡ true', '(subject command)) ≡ false', 'laws_of_reservations', 'room'),
    ('a Show leaves no room', 'Room', 'LeavesRoom Show old new = KeepsRoom old new', 'LeavesRoom Show old new = Unit {0}', 'laws_of_reservations', 'stays'),
    ('an Advance leaves no room', 'Room', 'LeavesRoom (Advance moment) old new = KeepsRoom old new', 'LeavesRoom (Advance moment) old new = Unit {0}',
     'laws_of_reservations', 'stays'),
    ('a Collect may change what is configured', 'Room', 'KeepsRoom old new = (new.configured ≡ old.configured) × (', 'KeepsRoom old new = (',
     'laws_of_reservations', 'stays'),
    ("a packet leaves no other flow's room", 'Room', '= key ≡ key_of target tuple how → ⊥', '= key ≡ key_of target tuple how', 'laws_of_reservations', 'stays'),
    ('a packet without a target leaves no room', 'Room', 'IsOther None target tuple key = Unit {0}', 'IsOther None target tuple key = ⊥',
     'laws_of_reservations', 'stays'),
    ('a command about a configured pipe may lack memory', 'Shaper', '(settings calls (subject command) ≡ None) × (reply_to_command', '(reply_to_command',
     'laws_of_reservations', 'memory'),
    ('only a packet without a target may lack memory', 'Shaper', ('Prelude.{', '(treatment (settings calls target)) ≡ true'),
     ('Prelude.{false, ', '(treatment (settings calls target)) ≡ false'), 'laws_of_reservations', 'memory'),
    ('a packet under way wakes nobody while none waits', 'Waking', 'earlier (Some a) None = Some a', 'earlier (Some a) None = None', 'laws_of_sessions', 'wakes'),
    ('only the first link with a backlog wakes', 'Waking', '= earlier m (earliest others)', '= m', 'laws_of_sessions', 'wakes'),
    ('a link with one packet wakes nobody', 'Waking', 'nat_lt 0 (waiting', 'nat_lt 1 (waiting', 'laws_of_sessions', 'wakes'),
    ('a link wakes a nanosecond after it is free', 'Waking', ('Prelude.{', '(Some (free link trace))'), ('Prelude.{◌+◌, ', '(Some (free link trace + 1))'),
     'laws_of_sessions', 'wakes'),
    ('a line without its line feed is not bad', 'Session', 'bad_tail (b ∷ tail) = 1', 'bad_tail (b ∷ tail) = 0', 'laws_of_sessions', 'histories'),
    ('next asks for nothing', 'Asked', 'cond (is_form 1 (codes "next") 1 fields) Next', 'cond (is_form 1 (codes "next") 1 fields) Nothing',
     'laws_of_sessions', 'lines'),
    ('a row may have no bytes', 'Fields', '(place + 5) 1', '(place + 5) 0', 'laws_of_records', 'only_rows'),
    ('src-ip sets the destination address', 'Masks', 'record mask { src = n }', 'record mask { dst = n }', 'laws_of_lines', 'pipes'),
    ('G is 10^6', 'Values', '== 103) (1000000000,', '== 103) (1000000,', 'laws_of_lines', 'pipes'),
    ("a refused packet's line says lost", 'Report', 'codes "full"', 'codes "lost"', 'laws_of_reports', 'text'),
    ('a packet without a target has no line', 'Report', '= Some (line.NoTarget row at)', '= None', 'laws_of_reports', 'lines'),
    ('a Show exchanges losses and refusals', 'Replies', 'lost = count_by (is_loss_of flow) trace; full = count_by (is_refusal_of flow) trace',
     'lost = count_by (is_refusal_of flow) trace; full = count_by (is_loss_of flow) trace', 'laws_of_replies', 'shows'),
    ("the entries of lower callers are a caller's own", 'History', 'nat_eq', 'nat_le', 'laws_of_histories', 'own'),
    ('a Collect loses what is due at its moment', 'Deliveries', 'nat_le d.due at', 'nat_lt d.due at', 'laws_of_replies', 'due'),
    ('a Collect moves no clock', 'Clock', '(Collect moment) = moment', '(Collect moment) = 0', 'laws_of_replies', 'clock'),
    ('new callers are numbered from 1', 'Callers', 'new_caller service k ∷', 'new_caller service (k + 1) ∷', 'laws_of_services', 'begin'),
    ('each new caller is caller 0', 'Callers', 'new_callers service (k + 1) n', 'new_callers service k n', 'laws_of_services', 'begin'),
    ('a new service has a caller too many', 'Callers', 'new_callers service k zero = []', 'new_callers service k zero = new_caller service k ∷ []', 'laws_of_services', 'begin'),
    ('a new caller was found in a call before', 'Callers', 'lost = []; faced = 0 }', 'lost = []; faced = 1 }', 'laws_of_services', 'begin'),
    ('a try that finds a caller notes nothing', 'Callers', 'Refuses before (Busy k) after = after ≡ having_lost k before', 'Refuses before (Busy k) after = after ≡ before', 'laws_of_services', 'refused'),
    ('a try notes whom it finds first', 'Callers', 'lost = c.lost ++ k ∷ []', 'lost = k ∷ c.lost', 'laws_of_services', 'refused'),
    ('a try without memory finds caller 0', 'Callers', 'after ≡ having_faced after.faced before', 'after ≡ having_lost 0 before', 'laws_of_services', 'refused'),
    ('a try without memory forgets what was seen', 'Callers', 'front = c.front; own = c.own; lost = c.lost; faced = n', 'front = []; own = c.own; lost = c.lost; faced = n', 'laws_of_services', 'refused'),
    ('a call without memory makes any entries', 'Callers', 'pub own : after.own ≡ before.own\n\n', 'pub own : after.own ≡ after.own\n\n', 'laws_of_services', 'refused'),
    ('a try ahead of its place finds caller 0', 'Lasting', 'RefusesAfter before Ahead after = after ≡ having_faced after.faced before', 'RefusesAfter before Ahead after = after ≡ having_lost 0 before', 'laws_of_services', 'refused'),
    ('a token tells nothing', 'Lasting', ('told : StartsWith after.front seen.front', '(StartsWith before.front seen.front'), ('told : StartsWith after.front before.front', '(StartsWith before.front before.front'), 'laws_of_services', 'tokens'),
    ('a token takes back what was seen', 'Lasting', ('had : StartsWith after.front before.front', '(StartsWith seen.front before.front'), ('had : StartsWith after.front seen.front', '(StartsWith seen.front seen.front'), 'laws_of_services', 'tokens'),
    ("a token brings entries of the caller's own", 'Lasting', 'pub own : after.own ≡ before.own', 'pub own : after.own ≡ after.own', 'laws_of_services', 'tokens'),
    ('places count from 1', 'Lasting', ('Prelude.{', 'place ≡ length before.taken'), ('Prelude.{◌+◌, ', 'place ≡ length before.taken + 1'), 'laws_of_services', 'segments'),
    ('a segment comes before those taken earlier', 'Lasting', 'before.taken ++ entries', 'entries ++ before.taken', 'laws_of_services', 'segments'),
    ('who takes a segment sees that alone', 'Lasting', "caller'.front ≡ after.taken", "caller'.front ≡ entries", 'laws_of_services', 'segments'),
    ('what is left comes before what was taken', 'Lasting', '(lasting.taken ++ rest)', '(rest ++ lasting.taken)', 'laws_of_services', 'segments'),
    ('a caller that is there is told absent', 'Callers', 'missing : has_number k callers ≡ false', 'missing : has_number k callers ≡ has_number k callers', 'laws_of_services', 'absent'),
    ('the last caller that is absent is told', 'Callers', 'least : (j : ℕ) → j < k →', 'least : (j : ℕ) → k < j → j < n →', 'laws_of_services', 'absent'),
    ("a caller beyond a service's is told absent", 'Callers', 'below : k < n', 'below : k ≤ n', 'laws_of_services', 'absent'),
    ('each history is lawful', 'Audit', 'IsVerdict rule history Lawful = IsLawful rule history', 'IsVerdict rule history Lawful = IsLawful rule (take 0 history)', 'laws_of_records', 'verdicts'),
    ('an audit passes over wrong replies', 'Audit', 'lawful : IsLawful rule (take i history)', 'lawful : IsLawful rule (take 0 history)', 'laws_of_records', 'verdicts'),
    ('a right reply differs', 'Audit', 'e.reply ≢ reply rule', 'e.reply ≡ reply rule', 'laws_of_records', 'verdicts'),
    ('an audit forgets the calls before', 'Audit', 'calls_of (take i history)', 'calls_of (take 0 history)', 'laws_of_records', 'verdicts'),
    ('an audit counts entries from 1', 'Audit', ('Prelude.{', 'slice_get history i', 'take i history'), ('Prelude.{◌-◌, ', 'slice_get history (i - 1)', 'take (i - 1) history'), 'laws_of_records', 'verdicts'),
]
# fmt: on


# The crate of each law's definitions; dn_types has those of the other laws.
DEFINITIONS = Base("dn_types", "laws", is_whole=True)
BASES = {
    "laws_of_lines": Base("dn_config", "lines"),
    "laws_of_records": Base("dn_history", "records", ("dn_files",)),
    "laws_of_reservations": Base("dn_shaper", "reservations", is_whole=True),
    "laws_of_services": Base("dn_service", "services"),
    "laws_of_reports": Base("dn_replay", "reports"),
    "laws_of_sessions": Base("dn_live", "sessions", ("dn_shaper",)),
}


def base_of(row: Row) -> Base:
    return BASES.get(row[4], DEFINITIONS)


def changed(text: str, old: Text, new: Text) -> str:
    """Returns a spec's text with the wrong definition in place of the right one."""
    befores, afters = ([one] if isinstance(one, str) else [*one] for one in (old, new))
    for before, after in zip(befores, afters):
        if before not in text:
            sys.exit("the text to change is not there: " + before)
        text = text.replace(before, after)
    return text


@contextlib.contextmanager
def wrongly_defined(crate: Path, row: Row) -> Iterator[None]:
    """Has the row's wrong definition in a copy of the crate, and then the right one again."""
    _, names, old, new, _, _ = row
    kept: dict[Path, str] = {}
    try:
        for name, before, after in zip(names, old, new) if isinstance(names, tuple) else [(names, old, new)]:
            spec = crate / "specs" / f"{name}.antt"
            kept[spec] = spec.read_text()
            spec.write_text(changed(kept[spec], before, after))
        yield
    finally:
        for spec, right in kept.items():
            spec.write_text(right)


if __name__ == "__main__":
    print(*(f"{place} {row[0]}" for place, row in enumerate(ROWS, 1)), sep="\n")
