#!/usr/bin/env python3
"""Changes definitions together with their code, as one who misreads a rule would, and says what notices each.

    tools/redefine.py [--list | --texts] [NAME ..]

A contract binds code to a definition, and says nothing where both are changed. Each change below is such a one: texts of
specs/, src/ and proofs/ of one crate, changed until the crate was proved again. They are applied one at a time to a copy
of the repository's files. Then, in this order,

- the changed crate is checked: most are proved as before; where functions are not, the line names them. A change that
  does not compile, or whose definitions are not admitted, shows nothing: the script ends with what the check says;
- the modules of `tables` that speak of the crate are checked, the one that stands on the fewest crates first: each is
  computed lines and proved cases. Only the crates that it speaks of are checked below it;
- if all of that is proved, the programs are run on their stored cases, unproved, and what they print is compared.

A line is printed for each change: its name, and what noticed it, or NOT NOTICED; then the status is 1. --list prints
the changes and checks nothing. --texts proves nothing: it looks whether each text that a change replaces stands in its
file as often as the change says, and prints how many do; where one does not, it is printed and the status is 1. NAMEs
are the changes to try, all if none is given. The longest check takes some minutes.
"""

import argparse
import re
import shutil
import subprocess
import sys
import tempfile
from dataclasses import dataclass
from pathlib import Path

ROOT = Path(__file__).resolve().parent.parent
# definitions that a crate's own functions carry computed lines of
COMPUTED = {"row_rule::worked_numbers_hold"}


@dataclass
class Change:
    """A definition and its code, read otherwise.

    Each text is a file of crates/, what stands there (nothing for a new file), what is to, and how often if not once.
    """
    name: str
    says: str
    texts: list

    @property
    def crate(self):
        return self.texts[0][0].split("/")[0]


CHANGES = [
    # layout
    Change("three-data-buffers", "a view has at most 3 data buffers", [
        ("layout/specs/Nodes.antt", "table View = Pairs 65535", "table View = Pairs 3"),
        ("layout/src/data_type.rt", "Table::Pairs(65_535)", "Table::Pairs(3)"),
    ]),
    Change("two-of-a-list-view", "a list view has 1 or 2 children", [
        ("layout/specs/Nodes.antt", "table (ListView w) = Children 1 1", "table (ListView w) = Children 1 2"),
        ("layout/src/data_type.rt", "            | DataType::ListView(_)\n", ""),
        ("layout/src/data_type.rt",
         "            DataType::Map => Table::Children(2, 2),",
         "            DataType::Map => Table::Children(2, 2),\n"
         "            DataType::ListView(_) => Table::Children(1, 2),"),
    ]),
    Change("many-of-a-fixed-list", "a fixed-size list has 1 to 255 children", [
        ("layout/specs/Nodes.antt",
         "table (FixedSizeList p) = Children 1 1",
         "table (FixedSizeList p) = Children 1 255"),
        ("layout/src/data_type.rt", "            | DataType::FixedSizeList(_)\n", ""),
        ("layout/src/data_type.rt",
         "            DataType::Map => Table::Children(2, 2),",
         "            DataType::Map => Table::Children(2, 2),\n"
         "            DataType::FixedSizeList(_) => Table::Children(1, 255),"),
    ]),
    Change("narrow-binary-offsets", "kind 7 may have offsets of 1 and 2 bytes", [
        ("layout/specs/Types.antt", "(option_map Binary (width r.p 4))", "(option_map Binary (width r.p 1))"),
        ("layout/src/data_type.rt", "DataType::Binary(Width::of(p, 4)?)", "DataType::Binary(Width::of(p, 1)?)"),
    ]),
    Change("sign-above-its-bit", "a number of 4 bytes is negative above 2^31, and not from it on", [
        ("layout/specs/Bytes.antt", "nat_le 0x8000_0000 value", "nat_le 0x8000_0001 value"),
        ("layout/src/bytes.rt", "Width::Four => value >= 0x8000_0000,", "Width::Four => value > 0x8000_0000,"),
    ]),
    Change("highest-bit-first", "bits of a bitmap, the highest of a byte first", [
        ("layout/specs/Bytes.antt", "2 ^ (index % 8) % 2", "2 ^ (7 - index % 8) % 2"),
        ("layout/specs/Bytes.antt", "◌+◌, ◌*◌,", "◌+◌, ◌-◌, ◌*◌,"),
        ("layout/src/bytes.rt", ">> (index % 8)) % 2", ">> (7 - index % 8)) % 2"),
    ]),
    Change("marks-by-ones", "a row is marked null where its bit is 1", [
        ("layout/specs/Nodes.antt",
         "&& not (bit bytes r.nulls (r.start + row))",
         "&& bit bytes r.nulls (r.start + row)"),
        ("layout/src/column.rt", "&& !bit_at(", "&& bit_at("),
    ]),
    Change("runs-have-bitmaps", "NULLS of a run-end column is read", [
        ("layout/specs/Nodes.antt", "reads_nulls (RunEnd w) = false\n", ""),
        ("layout/src/data_type.rt",
         "!matches!(self, DataType::Null | DataType::RunEnd(_))",
         "!matches!(self, DataType::Null)"),
    ]),
    Change("large-fixed-sizes", "kinds 8 and 15 have sizes up to 65,536", [
        ("layout/specs/Types.antt", "nat_le r.p 65535", "nat_le r.p 65536", 2),
        ("layout/src/data_type.rt", "if p <= 65_535 =>", "if p <= 65_536 =>", 2),
    ]),
    # admission
    Change("small-images-only", "an image has at most 65,600 bytes", [
        ("admission/specs/FirstFault.antt", "nat_lt 1073741824 len", "nat_lt 65600 len"),
        ("admission/src/check.rt", "MAX_BYTES: usize = 1_073_741_824", "MAX_BYTES: usize = 65_600"),
    ]),
    Change("table-before-length", "4 is asked before 3", [
        ("admission/specs/FirstFault.antt",
         "    cond (too_long r) (Some 3)\n    (cond (bad_table (length bytes) (table t) r) (Some 4)\n",
         "    cond (bad_table (length bytes) (table t) r) (Some 4)\n    (cond (too_long r) (Some 3)\n"),
        ("admission/src/check.rt",
         "    if is_too_long(&column.record) {\n        return Err(ImageFault::Length(node));\n    }\n",
         ""),
        ("admission/src/check.rt",
         "        return Err(ImageFault::Table(node));\n    }\n",
         "        return Err(ImageFault::Table(node));\n    }\n    if is_too_long(&column.record) {\n"
         "        return Err(ImageFault::Length(node));\n    }\n"),
        ("admission/proofs/Sound.antt",
         "let c3 = cond_none (too_long r) 3 _ e in",
         "let c4 = cond_none (bad_table (length bytes) (table t) r) 4 _ e in"),
        ("admission/proofs/Sound.antt",
         "let c4 = cond_none (bad_table (length bytes) (table t) r) 4 _ c3.1 in",
         "let c3 = cond_none (too_long r) 3 _ c4.1 in"),
        ("admission/proofs/Sound.antt", "5 _ c4.1 in", "5 _ c3.1 in"),
        ("admission/proofs/Typed.antt",
         "      ∙ cond-false (too_long r) _ _ p.short\n"
         "      ∙ cond-false (bad_table (length bytes) (table t) r) _ _ p.tabled\n",
         "      ∙ cond-false (bad_table (length bytes) (table t) r) _ _ p.tabled\n"
         "      ∙ cond-false (too_long r) _ _ p.short\n"),
    ]),
    Change("own-child-is-too-high", "6 is asked before 5 where a node is its own child", [
        ("admission/specs/Rejections.antt",
         "-- whether a node's height is above h:",
         "-- a child is the node itself\nabbrev pub own_child : List ℕ → ℕ → Table → Record → Bool\n"
         "own_child bytes node t r = some_below (listed t r.cnt) (λ k. child bytes r k == node)\n\n"
         "-- whether a node's height is above h:"),
        ("admission/specs/FirstFault.antt",
         "    (cond (bad_child bytes node (table t) r) (Some 5)\n"
         "    (cond (too_high bytes node) (Some 6) (buffer_fault bytes t r))))",
         "    (cond (own_child bytes node (table t) r) (Some 6)\n"
         "    (cond (bad_child bytes node (table t) r) (Some 5)\n"
         "    (cond (too_high bytes node) (Some 6) (buffer_fault bytes t r)))))"),
        ("admission/specs/FirstFault.antt",
         "{too_long, bad_table, bad_child,",
         "{own_child, too_long, bad_table, bad_child,"),
        ("admission/src/table.rt",
         "// The greatest height of a node's children, 0 without children.",
         "pub(crate) fn is_own_child(column: &Column, node: u32, table: Table) -> bool\n"
         "    requires { bad_table (length column.now.bytes.now) table column.now.record ≡ false }\n"
         "    ensures { result ≡ own_child column.now.bytes.now node table column.now.record }\n{\n"
         "    (0..table.listed(column.record.cnt)).any(|index| column.child(index) == node)\n}\n\n"
         "// The greatest height of a node's children, 0 without children."),
        ("admission/src/table.rt", "{bad_child, bad_table,", "{bad_child, own_child, bad_table,"),
        ("admission/src/check.rt",
         "    if is_bad_child(",
         "    if is_own_child(&column, node, table) {\n        return Err(ImageFault::Height(node));\n    }\n"
         "    if is_bad_child("),
        ("admission/src/check.rt",
         "is_bad_child, is_bad_table, is_too_long",
         "is_bad_child, is_bad_table, is_own_child, is_too_long"),
        ("admission/proofs/table/is_own_child/Answers.antt",
         "",
         "use Rattle.std.proofs.Common.{refl, rules, tests}\n"
         "use Rattle.admission.proofs.Below.{some_below-from_any}\n"
         "use Rattle.admission.proofs.table.is_own_child.Goals as goal\n\npub returns : goal.returns\n"
         "returns c = rw (← c.listed.ensures) (some_below-from_any _ _ refl c.any.ensures.ran (λ x b q k. search "
         "(rules, tests)))\n"),
        ("admission/proofs/check/check_node/Answers.antt",
         "      lined = search rules;\n",
         "      other = search rules;\n      lined = search rules;\n"),
        ("admission/proofs/Typed.antt",
         "  pub lined : bad_child",
         "  pub other : own_child bytes node (table t) r ≡ false\n  pub lined : bad_child"),
        ("admission/proofs/Typed.antt",
         "      ∙ cond-false (bad_child",
         "      ∙ cond-false (own_child bytes node (table t) r) _ _ p.other\n      ∙ cond-false (bad_child"),
        ("admission/proofs/Typed.antt",
         "{bad_child, bad_table, higher,",
         "{bad_child, own_child, bad_table, higher,"),
        ("admission/proofs/Sound.antt",
         "    let c5 = cond_none (bad_child bytes node (table t) r) 5 _ c4.1 in\n",
         "    let own = cond_none (own_child bytes node (table t) r) 6 _ c4.1 in\n"
         "    let c5 = cond_none (bad_child bytes node (table t) r) 5 _ own.1 in\n"),
        ("admission/proofs/Sound.antt",
         "{bad_buffer, bad_child, bad_order,",
         "{own_child, bad_buffer, bad_child, bad_order,"),
    ]),
    Change("reach-before-order", "9 is asked before 8", [
        ("admission/specs/FirstFault.antt",
         "    (cond (bad_order bytes t r) (Some 8)\n    (cond (out_of_reach bytes t r) (Some 9)\n",
         "    (cond (out_of_reach bytes t r) (Some 9)\n    (cond (bad_order bytes t r) (Some 8)\n"),
        ("admission/src/check.rt",
         "        if self.is_bad_order() {\n            return Err(ImageFault::Order(node));\n        }\n",
         ""),
        ("admission/src/check.rt",
         "            return Err(ImageFault::Reach(node));\n        }\n",
         "            return Err(ImageFault::Reach(node));\n        }\n        if self.is_bad_order() {\n"
         "            return Err(ImageFault::Order(node));\n        }\n"),
        ("admission/proofs/Sound.antt",
         "let c8 = cond_none (bad_order bytes t r) 8 _ c7.1 in",
         "let c9 = cond_none (out_of_reach bytes t r) 9 _ c7.1 in"),
        ("admission/proofs/Sound.antt",
         "let c9 = cond_none (out_of_reach bytes t r) 9 _ c8.1 in",
         "let c8 = cond_none (bad_order bytes t r) 8 _ c9.1 in"),
        ("admission/proofs/Sound.antt", "10 None c9.1 in", "10 None c8.1 in"),
    ]),
    Change("empty-list-views-anywhere", "a list view of size 0 may have any offset", [
        ("admission/specs/Rejections.antt",
         "    not (marked bytes r row)\n    && (negative w (element w bytes r.a (r.start + row))\n"
         "    || (negative w (element w bytes r.b",
         "    not (marked bytes r row)\n    && (not (element w bytes r.b (r.start + row) == 0)\n"
         "    && (negative w (element w bytes r.a (r.start + row))\n    || (negative w (element w bytes r.b"),
        ("admission/specs/Rejections.antt",
         "(element w bytes r.a (r.start + row) + element w bytes r.b (r.start + row))))",
         "(element w bytes r.a (r.start + row) + element w bytes r.b (r.start + row)))))"),
        ("admission/src/reach.rt",
         "        width.negative(offset)\n            || width.negative(size)\n"
         "            || is_past(u64::from(self.column.child_rows(0)), offset, size)",
         "        size != 0\n            && (width.negative(offset)\n                || width.negative(size)\n"
         "                || is_past(u64::from(self.column.child_rows(0)), offset, size))"),
    ]),
    # image
    Change("no-depth", "slots change no more further down: of no node", [
        ("image/specs/Levels.antt", "node < nodes bytes →", "node < 0 →"),
        ("image/specs/Levels.antt", "use Rattle.layout.specs.Records.{nodes}\n", ""),
        ("image/proofs/Levels.antt",
         "  deep_enough node row there more = levels_same",
         "  deep_enough node row none more = let there : node < nodes bytes = omega (arith, none) in levels_same"),
    ]),
    # summary
    Change("nulls-to-255", "more than 255 nulls count as 255", [
        ("summary/specs/Nulls.antt",
         "option_map (λ r. count_below r.rows (is_null bytes r))",
         "option_map (λ r. min 255 (count_below r.rows (is_null bytes r)))"),
        ("summary/specs/Nulls.antt", "{ℕ, zero,", "{ℕ, min, zero,"),
        ("summary/src/lib.rt", "    Some(count)\n", "    Some(count.min(255))\n"),
    ]),
    # hash_state
    Change("length-modulo-128", "SipHash's last byte is the length modulo 128", [
        ("hash_state/specs/Sip.antt", "(length bs % 256)", "(length bs % 128)"),
        ("hash_state/specs/Stream.antt", "% 256) (waiting", "% 128) (waiting"),
        ("hash_state/src/siphash/stream.rt", "(self.length % 256)", "(self.length % 128)"),
        ("hash_state/proofs/Streams.antt", "% 256", "% 128", 18),
    ]),
    Change("one-nan", "all NaNs of a width are hashed as one", [
        ("hash_state/specs/Values.antt",
         "float_bits w b = cond (b == 2 ^ (8 * w - 1)) 0 b",
         "float_bits w b =\n    cond (b == 2 ^ (8 * w - 1)) 0\n"
         "    (cond (nat_lt (cond (w == 2) 0x7c00 (cond (w == 4) 0x7f80_0000 0x7ff0_0000_0000_0000)) (b % 2 ^ (8 "
         "* w - 1)))\n    (cond (w == 2) 0x7e00 (cond (w == 4) 0x7fc0_0000 0x7ff8_0000_0000_0000)) b)"),
        ("hash_state/specs/Values.antt", "◌*◌, ◌^◌, Bool", "◌*◌, ◌%◌, ◌^◌, nat_lt, Bool"),
        ("hash_state/src/value.rt",
         "        if self == 0x8000 { 0 } else { self }",
         "        if self == 0x8000 {\n            0\n        } else if self % 0x8000 > 0x7c00 {\n"
         "            0x7e00\n        } else {\n            self\n        }"),
        ("hash_state/src/value.rt",
         "        if self == 0x8000_0000 { 0 } else { self }",
         "        if self == 0x8000_0000 {\n            0\n"
         "        } else if self % 0x8000_0000 > 0x7f80_0000 {\n            0x7fc0_0000\n        } else {\n"
         "            self\n        }"),
        ("hash_state/src/value.rt",
         "        if self == 0x8000_0000_0000_0000 {\n            0\n        } else {",
         "        if self == 0x8000_0000_0000_0000 {\n            0\n"
         "        } else if self % 0x8000_0000_0000_0000 > 0x7ff0_0000_0000_0000 {\n"
         "            0x7ff8_0000_0000_0000\n        } else {"),
    ]),
    Change("no-words-one-to-one", "two numbers are combined one-to-one: words below 1", [
        ("hash_state/specs/Combine.antt", "a < 2 ^ 64 → b < 2 ^ 64 →", "a < 1 → b < 1 →"),
    ]),
    # row_rule
    Change("value-before-key", "a map's value is led before its key", [
        ("row_rule/specs/Number.antt",
         "number_of false (number_of true 0 k) v",
         "number_of false (number_of true 0 v) k"),
    ]),
    Change("map-of-structs", "a map is a list of structs", [
        ("row_rule/specs/Number.antt",
         "pairs (C e (number_of false (number_of true 0 k) v)) es",
         "pairs (C e (C 0 (number_of false (number_of true 0 k) v))) es"),
    ]),
    Change("references-never-combine", "a reference does not combine", [
        ("row_rule/specs/Laws.antt",
         "combines first (refer s) = cond first (is_null s) true",
         "combines first (refer s) = false"),
        ("row_rule/proofs/Apart.antt",
         "apart true (refer s) a b ha hb c e = refer_first (is_null s) _ _ a b c e",
         "apart true (refer s) a b ha hb c e = no c"),
        ("row_rule/proofs/Apart.antt",
         "apart false (refer s) a b ha hb c e = refer_later (is_null s) _ a b ha hb e",
         "apart false (refer s) a b ha hb c e = no c"),
    ]),
    Change("structs-never-combine", "a struct does not combine", [
        ("row_rule/specs/Laws.antt", "combines first (struct ss) = true", "combines first (struct ss) = false"),
        ("row_rule/proofs/Apart.antt",
         "apart first (struct ss) a b ha hb c e = C_left a b _ ha hb e",
         "apart first (struct ss) a b ha hb c e = no c"),
    ]),
    Change("no-entries-apart", "slots keep entries apart: those below 1", [
        ("row_rule/specs/Laws.antt", "(a b : ℕ) → a < 2 ^ 64 → b < 2 ^ 64\n", "(a b : ℕ) → a < 1 → b < 1\n"),
        ("row_rule/proofs/Apart.antt",
         "(apart ONE SEED first s a b ha hb c,",
         "(apart ONE SEED first s a b (omega (arith, ha)) (omega (arith, hb)) c,"),
    ]),
    Change("no-entries-below", "numbers stay below 2^64: from entries below 1", [
        ("row_rule/specs/Laws.antt", "→ e < 2 ^ 64 → number_of", "→ e < 1 → number_of"),
        ("row_rule/proofs/Below.antt",
         "stays_below ONE SEED one seed = number_word ONE SEED one seed",
         "stays_below ONE SEED one seed first e s h = number_word ONE SEED one seed first e s (omega (arith, h))"),
    ]),
    # columns
    Change("all-work-open", "every word of the work is open to a column", [
        ("columns/specs/Open.antt",
         "is_open claimed work k = nat_le claimed k && nat_lt k work",
         "is_open claimed work k = true"),
        ("columns/specs/Open.antt",
         "Bool, false, ◌&&◌, List, length, nat_le, nat_lt, slice_index",
         "Bool, true, false, List, length, slice_index"),
        ("columns/proofs/Open.antt",
         "closed_below : (claimed work k : ℕ) → k < claimed → is_open claimed work k ≡ false\n"
         "closed_below claimed work k l = ap (λ (b : Bool). b && ltb k work) (lt-leb claimed k l)\n",
         ""),
        ("columns/proofs/Open.antt",
         "closed claimed work k e l = ltb-false k work (sym (ap (λ (b : Bool). b && ltb k work) (le-leb claimed k "
         "l)) ∙ e)",
         "closed claimed work k e l = cc"),
        ("columns/proofs/Open.antt",
         "pub claimed_stay : (claimed n : ℕ) (w w' : List ℕ) → OthersStay (is_open claimed n) w w' → take claimed "
         "w' ≡ take claimed w\n"
         "claimed_stay claimed n w w' stay = take_same claimed w' w stay.0 (λ k l. stay.1 k (closed_below claimed "
         "n k l))\n",
         ""),
        ("columns/proofs/Open.antt",
         "    by_place k shut (inl l) = closed_below at n k l\n",
         "    by_place k shut (inl l) = shut\n"),
        ("columns/proofs/Open.antt",
         "        let past : n ≤ k = elim (cases_lt k claimed) [ inl m ↦ omega arith | inr m ↦ closed claimed n k "
         "shut m ] in\n        ap (λ (b : Bool). b && ltb k n) (le-leb at k l) ∙ le-ltb k n past\n",
         "        shut\n"),
    ]),
    # runs
    Change("all-calls-open", "a call opens every word of the work", [
        ("runs/specs/Open.antt",
         "opens (column c list lent) accepted k = is_open lent.claimed lent.work k\n"
         "opens (keep list lent) accepted k = is_open lent.claimed lent.work k\n"
         "opens request reply k = false\n",
         "opens request reply k = true\n"),
        ("runs/specs/Open.antt", "{ℕ, Bool, false,", "{ℕ, Bool, true, false,"),
    ]),
    Change("refused-calls-open", "a refused column or keep opens the words that it was lent too", [
        ("runs/specs/Open.antt", "lent) accepted k = is_open", "lent) reply k = is_open", 2),
    ]),
    Change("none-combine", "no list of columns combines", [
        ("runs/specs/Apart.antt", "all_combine [] = true", "all_combine [] = false"),
        ("runs/specs/Apart.antt", "Bool, true, ◌&&◌", "Bool, true, false, ◌&&◌"),
    ]),
    Change("struct-columns-never-combine", "a column of structs does not combine", [
        ("runs/specs/Columns.antt", "combining first Struct = true", "combining first Struct = false"),
    ]),
    Change("list-columns-never-combine", "columns of lists, list views, fixed-size lists and maps do not combine", [
        ("runs/specs/Columns.antt", "combining first (ListOf w) = true", "combining first (ListOf w) = false"),
        ("runs/specs/Columns.antt", "combining first (ListView w) = true", "combining first (ListView w) = false"),
        ("runs/specs/Columns.antt",
         "combining first (FixedSizeList p) = true",
         "combining first (FixedSizeList p) = false"),
        ("runs/specs/Columns.antt", "combining first Map = true", "combining first Map = false"),
    ]),
    Change("dictionary-columns-never-combine", "a column of a dictionary does not combine", [
        ("runs/specs/Columns.antt",
         "combining first rest = not first",
         "combining first (Dictionary w signed) = false\ncombining first rest = not first"),
        ("runs/specs/Columns.antt", "{Number, Float, View, Struct,", "{Number, Float, View, Dictionary, Struct,"),
        ("runs/proofs/Staying.antt",
         "unmarked_combines first (Dictionary w signed) bytes r down row at e = refer_combines first _ e",
         "unmarked_combines first (Dictionary w signed) bytes r down row at e = cc"),
    ]),
    Change("never-enough", "enough entries before the keep: nobody has them", [
        ("runs/specs/Reordering.antt", "pub before : begun ≤ lent.entries", "pub before : begun < begun"),
    ]),
    Change("never-enough-work", "enough work for the keep: nobody has it", [
        ("runs/specs/Reordering.antt",
         "pub keep : length l.rows ≤ unclaimed lent",
         "pub keep : (length l.rows ≤ unclaimed lent) × (unclaimed lent < unclaimed lent)"),
        ("runs/proofs/Reordering.antt",
         "keep = omega (arith, e.keep, length-map rows earlier);",
         "keep = (omega (arith, e.keep.0, length-map rows earlier), e.keep.1);"),
    ]),
    Change("same-rows-of-none", "the reordered calls leave the words of no row", [
        ("runs/specs/Reordering.antt", "(k : ℕ) → k < s'.rows →", "(k : ℕ) → k < 0 →"),
        ("runs/proofs/Reordering.antt",
         "let there : k < length l.rows = omega (arith, h, b.rows) in",
         "let there : k < length l.rows = omega (arith, h) in"),
    ]),
    Change("follows-without-rows", "a call follows ledgers without rows", [
        ("runs/specs/Agreement.antt",
         "(l : Ledger) → Agrees l s →",
         "(l : Ledger) → Agrees l s → length l.rows ≡ 0 →"),
        ("runs/proofs/Agreeing.antt", "follows s q r s' p e l a =", "follows s q r s' p e l a none ="),
    ]),
    Change("lasts-before-begin", "what lasts over a list of calls does so after fewer than none", [
        ("runs/specs/Lasting.antt", "(n : ℕ) → n ≤ length requests →", "(n : ℕ) → n < 0 →", 4),
        ("runs/specs/Lasting.antt", "◌≤◌, List, length, map, take", "◌<◌, List, length, map, take"),
    ]),
    Change("list-before-its-length", "15 is asked before 14 of a column", [
        ("runs/specs/Refusals.antt",
         "    cond (not (meeting_of height list == rows)) (Some 14)\n"
         "    (cond (not (list_below height list)) (Some 15)\n",
         "    cond (not (list_below height list)) (Some 15)\n"
         "    (cond (not (meeting_of height list == rows)) (Some 14)\n"),
        ("runs/src/judge.rt",
         "cond (not (meeting_of height (list_of list.entry) == rows)) (Some 14) (cond (not (list_below height "
         "(list_of list.entry))) (Some 15) None)",
         "cond (not (list_below height (list_of list.entry))) (Some 15) (cond (not (meeting_of height (list_of "
         "list.entry) == rows)) (Some 14) None)"),
        ("runs/src/judge.rt",
         "    if list.len() != rows as usize {\n        return Err(RunFault::Length);\n    }\n"
         "    check_list(list, height)\n",
         "    check_list(list, height)?;\n    if list.len() != rows as usize {\n"
         "        return Err(RunFault::Length);\n    }\n    Ok(())\n"),
        ("runs/proofs/Going.antt",
         "    let f = passed _ 14 _ both.1 in\n    let g = passed _ 15 _ f.1 in\n"
         "    let h = passed _ 16 _ g.1 in\n",
         "    let g = passed _ 15 _ both.1 in\n    let f = passed _ 14 _ g.1 in\n"
         "    let h = passed _ 16 _ f.1 in\n"),
        ("runs/proofs/Reordering.antt",
         "(cond-false _ _ _ (ap not (eq-eqb _ _ g.as_many)) ∙ cond-false _ _ _ (ap not g.below) ∙",
         "(cond-false _ _ _ (ap not g.below) ∙ cond-false _ _ _ (ap not (eq-eqb _ _ g.as_many)) ∙"),
    ]),
]


class Copy:
    """A copy of the repository's files, in which texts are exchanged and put back."""

    def __init__(self, folder):
        self.root = Path(folder)
        asked = ["git", "ls-files", "-co", "--exclude-standard", "-z"]
        listed = subprocess.run(asked, cwd=ROOT, check=True, capture_output=True, text=True)
        for name in listed.stdout.split("\0"):
            if name and (ROOT / name).is_file():
                (self.root / name).parent.mkdir(parents=True, exist_ok=True)
                shutil.copy(ROOT / name, self.root / name)
        self.before = {}

    def write(self, name, text):
        """A file with another text, or None for none."""
        path = self.root / name
        self.before.setdefault(name, path.read_text() if path.exists() else None)
        self.put(path, text)

    def put(self, path, text):
        """A file's text, or None for none."""
        if text is None:
            path.unlink()
        else:
            path.parent.mkdir(parents=True, exist_ok=True)
            path.write_text(text)

    def exchange(self, name, old, new, times=1):
        """One text for another, which stands there once or so many times; of no old text, a file that there is not."""
        if not old:
            return self.write(name, new)
        text = (self.root / name).read_text()
        if text.count(old) != times:
            sys.exit(f"redefine: {text.count(old)} times in {name}: {old}")
        self.write(name, text.replace(old, new))

    def restore(self, names=None):
        """Every file, or these, as it was."""
        for name in list(self.before if names is None else names):
            self.put(self.root / name, self.before.pop(name))


def crates_of(copy):
    """Each crate with those that it stands on."""
    lines = [line.partition(":") for line in (copy.root / "crates.txt").read_text().splitlines()]
    return {name.split()[0]: below.split() for name, colon, below in lines if colon and not name.startswith("#")}


def stale(change):
    """The texts of a change that do not stand in their files as often as it says, each after those before it."""
    texts, found = {}, []
    for name, old, new, *times in change.texts:
        path = ROOT / "crates" / name
        if name not in texts:
            texts[name] = path.read_text() if path.is_file() else None
        text, wanted = texts[name], times[0] if times else 1
        if not old:
            found += [] if text is None else [f"{name} is there already"]
            texts[name] = new
        elif text is None or text.count(old) != wanted:
            found.append(f"{text.count(old) if text else 0} times in {name}, not {wanted}: {old}")
        else:
            texts[name] = text.replace(old, new)
    return found


def check(copy, crate):
    """Whether a crate is proved; else the functions that are not, as far as the check says, and its first errors."""
    folder = copy.root / "crates" / crate
    done = subprocess.run(["rt", "check"], cwd=folder, stdin=subprocess.DEVNULL, capture_output=True, text=True)
    said = done.stdout + done.stderr
    unproved = re.findall(r"^fn (\S+): not proved", said, re.M)
    wrong = re.findall(r"^(?:\./)?(\S+?):\d+:\d+: error: `(.+?)`: ", said, re.M)
    return done.returncode == 0 and not unproved, unproved, wrong, said


def speaking_of(copy, crate):
    """The modules of `tables` that speak of a crate, each with its specs and the crates below it, fewest first."""
    tables, crates = copy.root / "crates/tables", crates_of(copy)
    cites = re.compile(r"use Rattle\.tables\.specs\.(\w+)")
    specs = {file.stem: file.read_text() for file in tables.glob("specs/*.antt") if file.stem != "Lib"}

    def closed(names):
        found = set()
        while names:
            name = names.pop()
            if name not in found:
                found.add(name)
                names |= set(cites.findall(specs[name]))
        return found

    found = []
    for module in re.findall(r"^pub mod (\w+);", (tables / "src/lib.rt").read_text(), re.M):
        cited = closed(set(cites.findall((tables / f"src/{module}.rt").read_text())))
        named = {name for it in cited for name in re.findall(r"use Rattle\.(\w+)\.", specs[it])} - {"tables", "std"}
        below = named.union(*(crates[name] for name in named))
        if crate in below:
            found.append((len(below), module, cited, below))
    return sorted(found)


def cut(copy, module, specs, below):
    """Leaves one module of `tables`, with the crates that it speaks of."""
    for file in (copy.root / "crates/tables").rglob("*"):
        name = file.relative_to(copy.root)
        if file.is_file() and "out" not in name.parts and "must-fail" not in name.parts:
            part, stem = name.parts[2], name.parts[3] if len(name.parts) > 4 else file.stem
            kept = {"src": {module, "lib"}, "proofs": {module, "Lib"}, "specs": specs | {"Lib"}}[part]
            if stem not in kept:
                copy.write(str(name), None)
    others = [
        ("crates/tables/src/lib.rt", rf"pub mod (?!{module};).*\n", ""),
        ("crates/tables/specs/Lib.antt", rf"pub mod (?!({'|'.join(specs)})\n).*\n", ""),
        ("crates.txt", "tables:.*", "tables: " + " ".join(sorted(below))),
    ]
    for name, old, new in others:
        copy.write(name, re.sub(old, new, (copy.root / name).read_text()))


def stored(copy):
    """The first stored case of a program that comes out otherwise, if there is one."""
    for program, arguments in [("rowhash", ["--", "replay"]), ("vectors", [])]:
        folder = copy.root / "crates" / program
        data = [part for file in sorted(folder.glob("data/*")) for part in ("--data", f"{file.name}={file}")]
        asked = (folder / "stdin").read_text()
        done = subprocess.run(["rt", "try", "--seconds", "600", *data, *arguments],
                              cwd=folder, input=asked, capture_output=True, text=True)
        if "run=ended" not in done.stdout + done.stderr:
            sys.exit(f"redefine: {program} does not end on its stored cases: {done.stderr[-500:]}")
        commands = [line for line in asked.splitlines() if line and not line.startswith("#")]
        wanted, got = (folder / "stdout").read_text().splitlines(), done.stdout.splitlines()
        for number, line in enumerate(wanted):
            if number >= len(got) or got[number] != line:
                case = commands[number][:60] if program == "rowhash" else f"line {number + 1}"
                return f"{program}, a stored case: {case} .. gives {', '.join(got[number:number + 1])}, not {line}"
    return None


def clauses(function, wrong):
    """The clauses of a function that the check's errors are about, by their lemmas."""
    folder = "/".join(["proofs", *function.split("::")[1:]])
    return dict.fromkeys(name for file, name in wrong if file.startswith(folder))


def first_errors(said):
    """The first errors of a check, or the end of what it says."""
    lines = [line for line in said.splitlines() if "error" in line]
    return "\n".join(lines[:5]) or said[-500:]


def noticed(copy, crate):
    """What notices that a crate is changed, or None."""
    proved, unproved, wrong, said = check(copy, crate)
    if not proved:
        if not unproved or re.search(r"^(?:\./)?specs/\S+: error: ", said, re.M):
            sys.exit(f"redefine: {crate} cannot be checked with the change:\n{first_errors(said)}")
        return ", ".join(sorted(COMPUTED & set(unproved))) or f"its own crate: {', '.join(unproved)}"
    for _, module, specs, below in speaking_of(copy, crate):
        before = set(copy.before)
        cut(copy, module, specs, below)
        proved, unproved, wrong, said = check(copy, "tables")
        copy.restore(set(copy.before) - before)
        mine = [name for name in unproved if name.startswith("tables::")]
        if mine:
            return "; ".join(f"{name}: {', '.join(clauses(name, wrong))}" for name in sorted(mine))
        if not proved:
            print(f"    {module} is not asked, since a crate below it is not proved: {unproved or said[-500:]}")
    return stored(copy)


def main():
    parser = argparse.ArgumentParser(usage=__doc__)
    only = parser.add_mutually_exclusive_group()
    only.add_argument("--list", action="store_true")
    only.add_argument("--texts", action="store_true")
    parser.add_argument("names", nargs="*")
    asked = parser.parse_args()
    chosen = [change for change in CHANGES if not asked.names or change.name in asked.names]
    unknown = set(asked.names) - {change.name for change in CHANGES}
    if unknown:
        sys.exit(f"redefine: no change {', '.join(sorted(unknown))}")
    if asked.list:
        for change in chosen:
            print(f"{change.name}: {change.says}")
        return
    if asked.texts:
        lost = [f"redefine: {change.name}: {text}" for change in chosen for text in stale(change)]
        if lost:
            sys.exit("\n".join(lost))
        print(f"redefine: {sum(len(change.texts) for change in chosen)} texts of {len(chosen)} changes stand")
        return
    missed = 0
    with tempfile.TemporaryDirectory() as folder:
        copy = Copy(folder)
        for change in chosen:
            for file, old, new, *times in change.texts:
                copy.exchange(f"crates/{file}", old, new, *times)
            by = noticed(copy, change.crate)
            copy.restore()
            missed += by is None
            print(f"{change.name}: {by or 'NOT NOTICED'}", flush=True)
    sys.exit(1 if missed else 0)


if __name__ == "__main__":
    main()
