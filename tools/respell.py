#!/usr/bin/env python3
"""Respells the repository's own definitions, fields and lemmas of specs/ and proofs/.

usage: python3 tools/respell.py    at the top of the checkout

A definition, a field or a local fact is in snake case, a fact that is a type in camel case; in a lemma's name a dash
joins two names, and a plain word is added with an underscore. Names of the code, strings and comments stay.
Each line of NAMES is the old name and the new one. It is run once, on a tree in the old spelling; a second run finds
nothing to do.
"""

import os
import re

NAMES = """\
Body-allowed BodyAllowed
Cut-short CutShort
Fair-kind FairKind
Le-allowed LeAllowed
Read-back ReadBack
Sides-fit SidesFit
Told-last ToldLast
Told-mark ToldMark
Way-back WayBack
Written-back WrittenBack
after-above after_above
after-foreign after_foreign
after-known after_known
all-passed all_passed
amount-at amount_at
amount-max amount_max
amount-size amount_size
amount-width amount_width
amounts-bytes amounts_bytes
amounts-fit amounts_fit
amounts-in amounts_in
amounts-joined amounts_joined
amounts-read amounts_read
amounts-size amounts_size
and-false and_false
answer-bytes answer_bytes
answer-read answer_read
answer-size answer_size
answer-width answer_width
at-blank at_blank
at-end at_end
at-fault at_fault
at-form at_form
be-above be_above
be-two be_two
before-comment before_comment
bench-cover bench_cover
bench-keeps bench_keeps
bench-seal bench_seal
bench-sizes bench_sizes
blank-more blank_more
body-fault body_fault
both-short both_short
buyer-at buyer_at
buyer-good buyer_good
byte-again byte_again
byte-back byte_back
byte-before byte_before
byte-behind byte_behind
byte-first byte_first
byte-number byte_number
byte-part byte_part
byte-said byte_said
byte-within byte_within
bytes-result bytes_result
categories-in categories_in
categories-of categories_of
category-added category_added
category-at category_at
category-count category_count
category-fits category_fits
category-later category_later
category-size category_size
codes-known codes_known
command-in command_in
command-read command_read
comment-here comment_here
comment-more comment_more
comment-nowhere comment_nowhere
composed-after composed_after
composed-after-as composed_after_as
composed-as composed_as
count-right count_right
count-width count_width
counters-at counters_at
counters-kind-at counters_kind_at
counters-record counters_record
counters-width counters_width
counters-widths counters_widths
cover-gives cover_gives
cover-takes cover_takes
data-beside data_beside
data-length data_length
data-of-answer data_of-answer
digest-all digest_all
digest-more digest_more
entry-cut entry_cut
entry-if entry_if
entry-result entry_result
error-name error_name
error-number error_number
error-text error_text
every-ends every_ends
every-fails every_fails
every-most every_most
every-step every_step
examined-as examined_as
export-size export_size
fair-entries fair_entries
fair-first fair_first
fair-if fair_if
fair-in fair_in
fair-kind fair_kind
fair-on fair_on
fault-more fault_more
fault-name fault_name
fields-all fields_all
fields-below fields_below
fields-good fields_good
fields-more fields_more
fields-next fields_next
fields-none fields_none
first-answer first_answer
first-entries first_entries
first-laid first_laid
first-sound first_sound
fit-again fit_again
fits-flag fits_flag
flag-cases flag_cases
flag-good flag_good
flat-filled flat_filled
flat-fits flat_fits
flat-image flat_image
flat-image-bad flat_image_bad
flat-laid flat_laid
flat-left flat_left
flat-size flat_size
flat-whole flat_whole
flat-written flat_written
flaw-name flaw_name
form-after form_after
form-value form_value
form-ways form_ways
form-with form_with
free-is free_is
free-next free_next
free-stop free_stop
freed-more freed_more
getD-categories get_or-categories
has-cover has_cover
head-size head_size
id-count id_count
id-known id_known
identifier-size identifier_size
ids-end ids_end
ids-fail ids_fail
ids-known ids_known
image-after image_after
image-at image_at
image-bytes image_bytes
image-cut image_cut
image-fields image_fields
image-filled image_filled
image-given image_given
image-in image_in
image-laid image_laid
image-of-tape image_of_tape
image-part image_part
image-put image_put
image-read image_read
image-size image_size
image-standing image_standing
image-whole image_whole
invoice-fault invoice_fault
invoice-read invoice_read
invoice-size invoice_size
is-published is_published
judged-known judged_known
key-at key_at
key-byte key_byte
key-kind-at key_kind_at
key-record key_record
key-version key_version
key-widths key_widths
kind-free kind_free
kind-name kind_name
kind-named kind_named
kind-next kind_next
kind-of kind_of
kind-past kind_past
kind-written kind_written
kinds-right kinds_right
kinds-written kinds_written
known-words known_words
last-again last_again
last-at last_at
last-bytes last_bytes
last-flag last_flag
last-in last_in
last-kind-at last_kind_at
last-part last_part
last-record last_record
last-right last_right
last-two last_two
last-two-of last_two_of
last-type last_type
last-width last_width
last-widths last_widths
layout-written layout_written
le-enough le_enough
le-or le_or
le-range le_range
left-filled left_filled
left-of-tape left_of_tape
left-put left_put
left-some left_some
left-standing left_standing
left-then left_then
left-width left_width
length-categories-in length-categories_in
length-laid length_laid
length-no-image length-no_image
length-packed-sides length-packed_sides
length-parts length_parts
length-put length_put
length_cut length-cut
length_fields length-fields
length_part length-part
limit-at limit_at
long-body long_body
long-exact long_exact
long-le long_le
long-le-back long_le-back
long-more long_more
long-ways long_ways
looked-up looked_up
low-bytes low_bytes
mark-again mark_again
mark-amount mark_amount
mark-amount-at mark_amount_at
mark-at mark_at
mark-counter mark_counter
mark-counter-at mark_counter_at
mark-flag mark_flag
mark-in mark_in
mark-part mark_part
mark-width mark_width
marked-amount marked_amount
marked-counter marked_counter
money-ceiling money_ceiling
money-counted money_counted
money-kind-at money_kind_at
money-record money_record
money-size money_size
money-widths money_widths
most-tries most_tries
no-image no_image
number-again number_again
number-back number_back
number-ceiling number_ceiling
number-counted number_counted
number-written number_written
numberAfter-be number_from_digits_after-be
numberAfter-place number_from_digits_after-place
one-read one_read
one-rule one_rule
only-read only_read
other-side other_side
out-of-memory out_of_memory
overwritten-next overwritten_next
own-side own_side
packed-sides packed_sides
packed-sides-in packed_sides-sides_in
packed-write packed_write
parse-result parse_result
part-behind part_behind
part-middle part_middle
parties-good parties_good
personal-after personal_after
personal-good personal_good
personal-value personal_value
pin-good pin_good
pin-kind-at pin_kind_at
pin-record pin_record
pin-width pin_width
pin-widths pin_widths
place-of-tape place_of_tape
place-put place_put
placed-is placed_is
places-end places_end
power-room power_room
put-after put_after
put-at put_at
put-back-at put_back_at
put-there put_there
put-value put_value
putMid-is put_mid_is
read-after read_after
read-field read_field
read-on read_on
read-seen read_seen
read-written read_written
readable-is readable_is
reads-one reads_one
record-put record_put
record-size record_size
recorded-cover recorded_cover
recorded-keeps recorded_keeps
recorded-seal recorded_seal
recorded-sizes recorded_sizes
records-layout records_layout
refusal-of refusal_of
request-read request_read
request-result request_result
right-length right_length
row-added row_added
row-after row_after
row-counted row_counted
row-grows row_grows
row-stops row_stops
rows-kind-at rows_kind_at
rows-record rows_record
rows-width rows_width
rows-widths rows_widths
same-on same_on
same-rule same_rule
seal-at seal_at
seal-gives seal_gives
sealer-after sealer_after
sealer-value sealer_value
set-grows set_grows
shape-le shape_le
shape-place shape_place
short-body short_body
short-exact short_exact
short-le short_le
short-le-back short_le-back
short-more short_more
short-ways short_ways
shorter-first shorter_first
shorter-if shorter_if
shorter-in shorter_in
side-at side_at
side-counted side_counted
side-counter side_counter
side-fits side_fits
sides-again sides_again
sides-in sides_in
sides-in-packed sides_in-packed_sides
sides-read sides_read
sides-sized sides_sized
sides-written sides_written
signed-as signed_as
signed-bytes signed_bytes
signed-in signed_in
signed-read signed_read
signed-size signed_size
signing-length signing_length
size-record size_record
sized-by sized_by
sized-in sized_in
sized-read sized_read
some-above some_above
stored-read stored_read
stored-written stored_written
stretch-all stretch_all
stretch-more stretch_more
sum-width sum_width
sums-width sums_width
tally-done tally_done
tally-put tally_put
tape-cut tape_cut
tape-fits tape_fits
tape-image tape_image
tape-laid tape_laid
tape-laid-is tape_laid_is
tape-left tape_left
tape-of-place tape_of_place
tape-put tape_put
tape-written tape_written
taxpayer-at taxpayer_at
taxpayer-named taxpayer_named
text-met text_met
total-at total_at
total-ceiling total_ceiling
total-counter total_counter
transaction-at transaction_at
transaction-byte transaction_byte
transaction-known transaction_known
transaction-of transaction_of
transaction-said transaction_said
tries-at tries_at
tries-size tries_size
two-parts two_parts
type-code type_code
type-known type_known
unaudited-at unaudited_at
used-is used_is
used-more used_more
used-next used_next
used-stop used_stop
used_le used-le
version-size version_size
well-formed well_formed
with-body with_body
with-both with_both
with-le with_le
with-side with_side
word-known word_known
word-name word_name
word-only word_only
write-after write_after
write-value write_value
written-field written_field
written-record written_record
zero-byte zero_byte
zero-passed zero_passed
zeros-are zeros_are
"""

WORD = r"[A-Za-z_][\w'\u2019-]*"
# What keeps its names: comments and strings of the code, comments of specs/ and proofs/.
KEPT_RT = r"//[^\n]*|\"(?:\\.|[^\"\\])*\"|'(?:\\.|[^'\\])'"
KEPT_ANTT = r"(?m:(?<!\S)--.*$)"


def respelled(text, kept, names):
    """The text with each word that names has in its new spelling, but for the kept parts."""

    def turn(found):
        word = found.group(0)
        return names.get(word, word)

    return re.sub(f"{kept}|{WORD}", turn, text)


def sources(top):
    for folder, folders, files in os.walk(top):
        folders[:] = sorted(name for name in folders if name != "out")
        for name in sorted(files):
            if name.endswith((".rt", ".antt")):
                yield os.path.join(folder, name)


def main():
    names = dict(line.split() for line in NAMES.splitlines())
    # A word of the code has no dash: only words with one are turned there.
    dashed = {old: new for old, new in names.items() if "-" in old}
    changed = 0
    for path in sources("crates"):
        with open(path, encoding="utf-8") as file:
            old = file.read()
        code = path.endswith(".rt")
        new = respelled(old, KEPT_RT if code else KEPT_ANTT, dashed if code else names)
        if new != old:
            changed += 1
            with open(path, "w", encoding="utf-8") as file:
                file.write(new)
    print(f"respell: {changed} files changed")


if __name__ == "__main__":
    main()
