#!/usr/bin/env python3
"""Spells the repository's own definitions and lemmas as today's library does: words in snake case.

usage: python3 tools/respell.py     once, at the top, right after /opt/rattle/port/port.py

Types, modules and constructors keep their names, and so do functions of src/, strings, comments, inputs and outputs.
A dash stays after length and hex_of, where a lemma says the one of another function, as in length-cells.
Some of the names are those of commands and console of the unfinished translation, which docs/PORT.md speaks of.
"""

import os
import re
import subprocess

# old name, new name; table-of, codes-of and the two that end in -append would fall together with others, and get other words
NAMES = """
a-long a_long
a-stand a_stand
adds-both adds_both
adds-known adds_known
adds-next adds_next
adds-set adds_set
after-added after_added
after-moves after_moves
all-decoded all_decoded
all-wider all_wider
all-written all_written
answerText answer_text
apply-call-room apply_call_room
apply-done apply_done
apply-find-room apply_find_room
apply-ready apply_ready
at-end at_end
at-end' at_end'
b-long b_long
before-is before_is
begin-done begin_done
begin-end begin_end
begin-first-ready begin_first_ready
begin-rest-ready begin_rest_ready
between-bound between_bound
blank-no-digit blank_no_digit
body-stand body_stand
body-stands body_stands
build-encode build_encode
build-encodes build_encodes
bytes-are bytes_are
bytes-push bytes_push
bytes2-of bytes2_of
bytes4-injective bytes4_injective
bytes4-of bytes4_of
c-long c_long
cause-memory cause_memory
cell-back cell_back
cell-here cell_here
cellFrom cell_from
cells-append cells_append
cells-back cells_back
cells-front cells_front
cells-nth cells_nth
cells-of-arrays cells_of_arrays
cells-valid cells_valid
cells-within cells_within
code-apply code_apply
code-begin code_begin
code-done code_done
code-empty code_empty
code-if code_if
code-literal code_literal
code-set code_set
code-var code_var
code-while code_while
codes-append written_codes_append
codes-are codes_are
codes-long codes_long
codes-of written_codes
codes-of-cells codes_of_cells
codesIn codes_in
codesOfImage codes_of_image
condition-stand condition_stand
count-is count_is
countIn count_in
definitionOf definition_of
depth-bound depth_bound
depths-bound depths_bound
digit-high digit_high
digit-lies digit_lies
digit-range digit_range
digit-same digit_same
distinct-too distinct_too
drops-joins drops_joins
empty-done empty_done
encode-digit encode_digit
encode-size encode_size
encodes-size encodes_size
end-within end_within
exp-bounds exp_bounds
exps-bounds exps_bounds
exps-within exps_within
facts-of facts_of
faulty-memory faulty_memory
first-faulty first_faulty
first-is-table first_is_table
first-told first_told
fits-value fits_value
flat-head flat_head
formal-at formal_at
formal-cell formal_cell
formal-first formal_first
formal-here formal_here
formal-never formal_never
formals-are formals_are
formals-nth formals_nth
formals-to formals_to
formalsIn formals_in
forward-reaches forward_reaches
has-after has_after
head-is head_is
headerBytes header_bytes
headerOf header_of
height-some height_some
heightsOf heights_of
hex-memory hex_memory
hex-only hex_only
hexMistake hex_mistake
hexOf hex_of
hexOf-digits hex_of-digits
hexOf-push hex_of-push
hexOf-same hex_of-same
highest-raised highest_raised
holds-some holds_some
if-done if_done
if-ends if_ends
if-second-ready if_second_ready
if-test-ready if_test_ready
if-third-ready if_third_ready
image-done image_done
image-in image_in
imageHeader image_header
indexText index_text
inside-all inside_all
inside-arguments inside_arguments
inside-load inside_load
inside-more inside_more
inside-none inside_none
inside-rest inside_rest
inside-sequence inside_sequence
inside-store inside_store
inside-wider inside_wider
instrs-are instrs_are
instrsOf instrs_of
is-apply is_apply
is-begin is_begin
is-high is_high
is-if is_if
is-low is_low
is-while is_while
isFormal is_formal
jumps-wider jumps_wider
kind-is kind_is
kindByte kind_byte
lastFor last_for
length-hexOf length-hex_of
length-set-code length-set_code
lift-low lift_low
liftOf lift_of
list-end list_end
list-first-ready list_first_ready
list-none list_none
list-rest-ready list_rest_ready
list-room list_room
literal-done literal_done
low-is low_is
missing-word missing_word
mistakeText mistake_text
mostFormals most_formals
move-arguments move_arguments
move-rest move_rest
move-sequence move_sequence
moved-load moved_load
names-are names_are
names-from names_from
names-valid names_valid
next-is next_is
no-bind no_bind
no-blank no_blank
no-blank-more no_blank_more
no-blank-none no_blank_none
no-blanks no_blanks
no-cause no_cause
no-cell-here no_cell_here
no-count no_count
no-first no_first
no-formals no_formals
no-formals-in no_formals_in
no-jz no_jz
no-parts no_parts
no-rest no_rest
no-row-here no_row_here
no-sum no_sum
none-append none_append
none-at none_at
not-both not_both
not-distinct not_distinct
not-later not_later
not-silent not_silent
number-memory number_memory
numberMistake number_mistake
one-cause one_cause
one-command one_command
one-definition one_definition
one-exp one_exp
one-header one_header
one-kind one_kind
one-refusal one_refusal
one-wrong one_wrong
oneOrTwo one_or_two
only-memory only_memory
onward-here onward_here
operand-is operand_is
operand-value operand_value
operandBytes operand_bytes
operands-append operands_append
operands-are operands_are
operands-fit operands_fit
operands-long operands_long
operands-of-append written_operands_append
operands-of-cells operands_of_cells
operandsIn operands_in
operandsOf operands_of
operandsOfImage operands_of_image
out-is out_is
over-append over_append
over-comm over_comm
over-is over_is
over-length over_length
over-set over_set
over-sets over_sets
own-bound own_bound
pass-more pass_more
pass-none pass_none
pass-whole pass_whole
past-second past_second
past-third past_third
raised-bound raised_bound
ranged-valid ranged_valid
rangeds-valid rangeds_valid
ready-bounds ready_bounds
refuse-cell refuse_cell
refuse-code refuse_code
refuse-head refuse_head
refuse-nest refuse_nest
refuse-shape refuse_shape
refuse-size refuse_size
refuse-twice refuse_twice
rest-stand rest_stand
roomOf room_of
same-cells same_cells
same-definition same_definition
same-no same_no
same-spaced same_spaced
same-table same_table
same-words same_words
second-end second_end
second-faulty second_faulty
second-moves second_moves
second-on second_on
second-ready second_ready
second-stand second_stand
set-done set_done
set-ready set_ready
silent-comment silent_comment
silent-complete silent_complete
silent-empty silent_empty
silent-spells silent_spells
size-some size_some
sized-some sized_some
sizes-of sizes_of
some-head some_head
some-sized some_sized
source-fit source_fit
source-ready source_ready
stacked-raised stacked_raised
steps-nowhere steps_nowhere
steps-onward steps_onward
surplus-one surplus_one
surplus-two surplus_two
table-no-blank table_no_blank
table-of is_table
take-four take_four
take-two take_two
takes-joins takes_joins
test-end test_end
test-stand test_stand
third-end third_end
third-is third_is
third-moves third_moves
third-stand third_stand
together-own together_own
together-some together_some
told-later told_later
told-to told_to
toldText told_text
two-words two_words
u16At u16_at
unknown-name unknown_name
valid-append valid_append
valid-back valid_back
valid-front valid_front
valid-names valid_names
valid-ranged valid_ranged
valids-ranged valids_ranged
value-append value_append
value-back value_back
value-fits value_fits
valueAfter value_after
var-done var_done
weight-bound weight_bound
weight-some weight_some
weights-bound weights_bound
while-body-ready while_body_ready
while-done while_done
while-ends while_ends
while-test-ready while_test_ready
words-after words_after
words-before words_before
words-fit words_fit
words-memory words_memory
words-one words_one
written-append written_append
written-comm written_comm
written-length written_length
written-more written_more
written-table written_table
written-three written_three
written-two written_two
written-whole written_whole
wrong-in wrong_in
wrong-memory wrong_memory
wrote-both wrote_both
y-is y_is
"""

# names that would fall together with another of the same spelling
LOCAL = {
    "Writing.antt": {"operands_of": "written_operands"},
}

# the folders of functions that call one another, and the names of these cycles
CYCLES = {
    "read_expression_read_parts": "reading",
    "translate_apply_translate_begin_translate_expression_translate_if_translate_list_translate_set_translate_while": "emitting",
}

WORD = re.compile(r"[A-Za-z_][A-Za-z0-9_'-]*")
ANSWERS = ("Answers.antt", "Invariants.antt")


def respell(text, table, answers):
    """Each whole word of the table outside strings and comments, but for the names of goals in a file of answers."""

    def turn(line):
        out, last = [], 0
        for m in WORD.finditer(line):
            word = m.group(0)
            before = line[: m.start()]
            goal = answers and (before.endswith("goal.") or re.fullmatch(r"(abbrev )?(pub )?", before))
            quoted = before.count('"') % 2 == 1 or "-- " in before
            if word in table and not goal and not quoted:
                out += [line[last : m.start()], table[word]]
                last = m.end()
        return "".join(out) + line[last:]

    return "".join(turn(line) for line in text.splitlines(keepends=True))


def in_clauses(text, table):
    """In a source, the lines of clauses and imports alone."""
    lines = []
    for line in text.splitlines(keepends=True):
        if re.match(r"\s*(ghost|requires|ensures)\b", line):
            line = respell(line, table, False)
        lines.append(line)
    return "".join(lines)


def main():
    root = subprocess.run(["git", "rev-parse", "--show-toplevel"], capture_output=True, text=True, check=True).stdout.strip()
    table = dict(line.split() for line in NAMES.strip().splitlines())
    for folder, dirs, files in os.walk(os.path.join(root, "crates")):
        dirs[:] = [d for d in dirs if d != "out"]
        for name in files:
            path = os.path.join(folder, name)
            if not name.endswith((".antt", ".rt")):
                continue
            with open(path, encoding="utf-8") as f:
                text = f.read()
            new = respell(text, LOCAL.get(name, {}), False)
            new = in_clauses(new, table) if name.endswith(".rt") else respell(new, table, name in ANSWERS)
            for old, cycle in CYCLES.items():
                new = re.sub(r"(?<=cycle\()" + old + r"(?=\))|(?<=\+)" + old + r"(?=\.)", cycle, new)
            if new != text:
                with open(path, "w", encoding="utf-8") as f:
                    f.write(new)
        for d in list(dirs):
            if d.startswith("+") and d[1:] in CYCLES:
                os.rename(os.path.join(folder, d), os.path.join(folder, "+" + CYCLES[d[1:]]))
                dirs[dirs.index(d)] = "+" + CYCLES[d[1:]]


if __name__ == "__main__":
    main()
