#!/usr/bin/env python3
"""Respells the repository's own definitions and lemmas in snake case, once, after the kit's port.py: what that script leaves.

usage: tools/port_spelling.py        at the top of the repository

It goes through clauses and `ghost use` lines (.rt), definitions and proofs (.antt) and wrong answers (.edit) below crates/, and
through the pages README.md and docs/*.md, landing notes and docs/PORT.md aside. Functions, exported names, strings and file names stay:
no word of the lists is one. Two names would fall together with others and get a name of their own: inRow, beside which a variable in_row
stands, and where-some, beside which another definition is where_some. getD is the library's get_or.
"""
import glob
import os
import re

NAMES = dict(line.split() for line in """
answerAt answer_at
answerText answer_text
bitWhere bit_where
bodyLines body_lines
bodyTable body_table
cellKey cell_key
cellLines cell_lines
cellsTable cells_table
checkNumber check_number
checkPlace check_place
coefficientAt coefficient_at
coefficientRule coefficient_rule
countsText counts_text
decimalBy decimal_by
degreeAt degree_at
degreeOf degree_of
degreesOf degrees_of
determinantNumbersOf determinant_numbers_of
determinantReplyOf determinant_reply_of
determinantSizes determinant_sizes
determinantTable determinant_table
determinantText determinant_text
digitsOf digits_of
excessAt excess_at
excessOf excess_of
getD get_or
gotNumbers got_numbers
gotRest got_rest
headColumns head_columns
headDegree head_degree
headKeys head_keys
headLines head_lines
headModulus head_modulus
headRows head_rows
inRow place_in_row
inputNumber input_number
inputPlace input_place
inverseBy inverse_by
isDigit is_digit
lastNonzero last_nonzero
leadingAt leading_at
leadingOf leading_of
leastDegree least_degree
lengthRule length_rule
linesRule lines_rule
matrixLines matrix_lines
matrixOf matrix_of
matrixTable matrix_table
numberRules number_rules
numbersOf numbers_of
onPart on_part
outcomeOf outcome_of
outputRoom output_room
plusMultiple plus_multiple
plusTerm plus_term
plusTimes plus_times
popovForm popov_form
popovNumbersOf popov_numbers_of
popovOutcomeOf popov_outcome_of
popovReplyOf popov_reply_of
printerTable printer_table
productAt product_at
productOf product_of
readLine read_line
readLines read_lines
reductionSizes reduction_sizes
refusalText refusal_text
replyOf reply_of
resultText result_text
scaledBy scaled_by
shortLengths short_lengths
singleStep single_step
squareRule square_rule
stepNumbersOf step_numbers_of
stepOutcomeOf step_outcome_of
stepReplyOf step_reply_of
stepSizes step_sizes
tableBy table_by
textIn text_in
textOut text_out
usedPlaces used_places
valueBy value_by
valueFrom value_from
wExamples w_examples
weightOf weight_of
whereSome where_some
whereTrue where_true
whereZero where_zero
wrongLine wrong_line
zeroRow zero_row
""".split("\n") if line)
# whole names of definitions and of fields, whose words a dash joined
WHOLE = dict(line.split() for line in """
New-is new_is
v-top v_top
x_Fits x_fits
get_d_part get_or-part
get_d_past get_or-past
advance-pair advance_pair
c-below c_below
c-is c_is
col-fits col_fits
column-at column_at
column-most column_most
column-room column_room
column-size column_size
column-zero column_zero
columns-most columns_most
count-rank count_rank
count-state count_state
deg-fits deg_fits
degree-is degree_is
e-is e_is
f-below f_below
f-is f_is
first-rank first_rank
from-fits from_fits
from-residues from_residues
height-most height_most
i-fits i_fits
i-pivot i_pivot
i-short i_short
if-equal if_equal
j-fits j_fits
k-fits k_fits
k-most k_most
k-pivot k_pivot
k-short k_short
k-some k_some
k-term k_term
l-fits l_fits
l-pivot l_pivot
l-short l_short
left-polynomial left_polynomial
left-right left_right
lowest-a lowest_a
lowest-b lowest_b
next-at next_at
next-size next_size
one-fits one_fits
ordered-by ordered_by
pivot-degree pivot_degree
pivot-of pivot_of
pivots-are pivots_are
places-most places_most
product-below product_below
product-size product_size
r-divided r_divided
r-move r_move
r-room r_room
r-rows r_rows
r-size r_size
rank-fits rank_fits
rank-form rank_form
rank-kept rank_kept
reduce-row reduce_row
right-left right_left
right-polynomial right_polynomial
rows-most rows_most
second-bound second_bound
second-kind second_kind
second-rank second_rank
some-columns some_columns
spent-since spent_since
to-fits to_fits
to-residues to_residues
u-bound u_bound
u-degrees u_degrees
u-divided u_divided
u-move u_move
u-one u_one
u-residues u_residues
u-room u_room
u-rows u_rows
u-short u_short
u-size u_size
v-bound v_bound
v-columns v_columns
v-degrees v_degrees
v-move v_move
v-multiplied v_multiplied
v-one v_one
v-residues v_residues
v-room v_room
v-short v_short
v-size v_size
weak-popov weak_popov
where-some some_or_one
wide-most wide_most
with-entry with_entry
y-fits y_fits
zp-field zp_field
""".split("\n") if line)
# a part of a name, between dashes or at its ends
PART = re.compile(r"(?<![\w'.\u2080-\u2089])(?:[\w'*+]+-)*(?:%s)(?![\w'\u2080-\u2089])(?:-[\w'*+]+)*" % "|".join(NAMES))
ALL = re.compile(r"(?<![\w'-])(?:%s)(?![\w'\u2080-\u2089-])" % "|".join(sorted(WHOLE, key=len, reverse=True)))
DOT = re.compile(r"(?<=\.)(?:%s)(?![\w'\u2080-\u2089])" % "|".join(NAMES))


def respelled(word):
    return "-".join(NAMES.get(part, part) for part in word.split("-"))


def main():
    files = [p for end in ("rt", "antt", "edit") for p in glob.glob(f"crates/*/**/*.{end}", recursive=True)]
    files += ["README.md"] + [p for p in glob.glob("docs/*.md") if p != "docs/PORT.md"]
    changed = 0
    for path in sorted(files):
        if "/out/" in path or not os.path.exists(path):
            continue
        with open(path, encoding="utf-8") as f:
            old = f.read()
        new = PART.sub(lambda m: respelled(m.group(0)), old)
        new = DOT.sub(lambda m: NAMES[m.group(0)], new)
        new = ALL.sub(lambda m: WHOLE[m.group(0)], new)
        if new != old:
            changed += 1
            with open(path, "w", encoding="utf-8") as f:
                f.write(new)
    print(f"{changed} files changed")


if __name__ == "__main__":
    main()
