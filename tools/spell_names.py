#!/usr/bin/env python3
"""Spells the repository's own definitions, fields and lemmas as today's library does: words in snake case, types and facts in camel
case, and a dash only between two names. Run once, at the top, right after the toolchain's own port.py. It goes by whole names, in
.antt files and in the clauses and ghost items of .rt files, and leaves comments, strings, code and the names that Rattle makes alone."""

import glob
import re
import sys

NAMES = """
All-kept AllKept
All-made AllMade
Blanks-by-side BlanksBySide
Brings-back BringsBack
By-side BySide
Changes-by-side ChangesBySide
Checks-under ChecksUnder
Comes-in ComesIn
Empty-beyond EmptyBeyond
Fetches-by-side FetchesBySide
Gives-back GivesBack
Holds-payload HoldsPayload
Made-share MadeShare
No-byte NoByte
Nothing-beyond NothingBeyond
One-payload OnePayload
One-polynomial OnePolynomial
Only-at OnlyAt
Payload-length PayloadLength
Puts-by-side PutsBySide
Puts-under PutsUnder
Shares-of SharesOf
Sled-sized SledSized
Sound-share SoundShare
Sound-sled SoundSled
add-plain add_plain
added-under added_under
after-blank after_blank
after-put after_put
alike-add alike_add
alike-limited alike_limited
all-add all_add
all-between all_between
all-clear all_clear
all-free all_free
all-limited all_limited
all-places all_places
all-reverse all_reverse
all-with-places all_with_places
answers-alike answers_alike
answers-clear answers_clear
answers-first answers_first
answers-nowhere answers_nowhere
answers-refused answers_refused
answers-weaker answers_weaker
apart-all apart_all
apart-sub apart_sub
associates-all associates_all
at-points at_points
back-byte back_byte
bad-sled bad_sled
between-over-above between_over_above
between-over-all between_over_all
between-over-at between_over_at
between-over-below between_over_below
between-over-other between_over_other
binary-0 binary_0
binary-1 binary_1
binary-2 binary_2
binary-3 binary_3
bit-fits bit_fits
bit-product bit_product
bit-scale bit_scale
bit-times bit_times
blank-alike blank_alike
blank-empties blank_empties
blank-grounds blank_grounds
blank-joined blank_joined
blank-limited blank_limited
blank-mark blank_mark
blank-nowhere blank_nowhere
blank-same blank_same
blank-shape blank_shape
blanked-limited blanked_limited
blanked-places blanked_places
blanked-within blanked_within
block-below block_below
block-byte block_byte
block-length block_length
block-some block_some
bounds-in bounds_in
by-bank by_bank
by-image by_image
byte-law byte_law
bytes-are bytes_are
bytes-differ bytes_differ
bytes-from bytes_from
bytes-or-none bytes_or_none
cell-fits cell_fits
cells-apart cells_apart
chain-none chain_none
changed-sled changed_sled
changes-joined changes_joined
checks-limited checks_limited
clear-more clear_more
clear-not-told clear_not_told
code-grounds code_grounds
commutes-all commutes_all
counts-is counts_is
decode-grounds decode_grounds
decodes-good decodes_good
decodes-one decodes_one
distinct-add distinct_add
distinct-with-places distinct_with_places
doubled-is doubled_is
doubles-all doubles_all
eight-bytes eight_bytes
else-none else_none
encode-grounds encode_grounds
entries-apart entries_apart
entry-cell-apart entry_cell_apart
entry-fits entry_fits
entry-from entry_from
eq-T eq_T
fetch-alike fetch_alike
fetch-checks fetch_checks
fetch-grounds fetch_grounds
fetch-joined fetch_joined
fetch-limited fetch_limited
fetch-nowhere fetch_nowhere
fetch-same fetch_same
fetched-payload fetched_payload
few-cells few_cells
few-sleds few_sleds
few-with-places few_with_places
field-number field_number
first-fails first_fails
first-is first_is
first-length first_length
fnv-from fnv_from
fnv-from-below fnv_from-below
found-length found_length
found-payload found_payload
four-fit four_fit
free-within free_within
freed-below freed_below
freed-here freed_here
freed-other freed_other
frees-next frees_next
front-part front_part
getD-over-above get_or-over_above
getD-over-at get_or-over_at
getD-over-below get_or-over_below
grows-alike grows_alike
half-below half_below
halves-add halves_add
halves-all halves_all
id-fits id_fits
image-blank image_blank
image-put image_put
interpolated-same interpolated_same
inverse-at inverse_at
inverse-law inverse_law
inverse-of inverse_of
inverse-two inverse_two
inverts-all inverts_all
is-sound is_sound
joined-more joined_more
kept-now kept_now
layer-at layer_at
layer-number layer_number
layers-apart layers_apart
length-freed-below length-freed_below
length-of length_of
lengths-at lengths_at
listed-all listed_all
lookup-with-places lookup-with_places
length-is length_is
low-bytes low_bytes
many-end many_end
many-le many_le
many-no many_no
many-some many_some
many-yes many_yes
mark-same mark_same
mul-not-zero mul_not_zero
mul-plain mul_plain
new-count new_count
new-here new_here
new-place new_place
new-sound new_sound
no-sled no_sled
no-such-sled no_such_sled
none-high none_high
not-both not_both
not-keyed not_keyed
not-other not_other
not-other-list not_other_list
nothing-beyond nothing_beyond_lem
number-back number_back
odd-scale odd_scale
one-is one_is
one-more-from one_more_from
one-payload one_payload
one-polynomial one_polynomial
only-joined only_joined
only-limited only_limited
only-this only_this
open-grounds open_grounds
orElse-assoc or_else-assoc
orElse-none or_else-none
others-more others_more
others-none others_none
others-skip others_skip
others-stay others_stay
outside-at outside_at
payload-at payload_at
payload-first payload_first
payload-from payload_from
payload-of payload_of
pick-found pick_found
pick-none pick_none
place-left place_left
place-new place_new
place-within place_within
point-law point_law
point-more point_more
point-of point_of
point-step point_step
points-apart points_apart
points-differ points_differ
position-before position_before
position-end position_end
position-is position_is
position-le position_le
position-more position_more
position-passes position_passes
position-upto position_upto
power-of-two power_of_two
prime-0 prime_0
prime-1 prime_1
prime-2 prime_2
prime-3 prime_3
product-left product_left
product-right product_right
put-added put_added
put-at put_at
put-checked put_checked
put-checks put_checks
put-grounds put_grounds
put-joined put_joined
put-limited put_limited
put-mark put_mark
put-nowhere put_nowhere
put-shape put_shape
putMid-over put_mid-over
puts-limited puts_limited
quota-of quota_of
rack-at rack_at
rack-bounds rack_bounds
rack-of rack_of
rack-past rack_past
raise-ring raise_ring
reads-back reads_back
reason-at reason_at
reason-number reason_number
reasons-apart reasons_apart
refusal-of refusal_of
remainder-sum remainder_sum
row-end row_end
row-item row_item
row-length row_length
same-payload same_payload
same-sled same_sled
scan-is scan_is
seen-count seen_count
seen-is seen_is
serial-more serial_more
serial-same serial_same
serial-start serial_start
shape-in shape_in
share-of share_of
share-value share_value
shares-apart shares_apart
side-by side_among
side-of side_of
sized-within sized_within
skip-free skip_free
sled-after-blank sled_after_blank
sled-after-put sled_after_put
sled-at sled_at
sled-at-limited sled_at-limited
sled-bounds sled_bounds
sled-by-side sled_by_side
sled-bytes sled_bytes
sled-checks sled_checks
sled-fits sled_fits
sled-of sled_of
sled-on sled_on
sled-sized sled_sized
sled-start sled_start
sled-there sled_there
sled-within sled_within
sleds-of sleds_of
some-cells some_cells
some-pick some_pick
some-sleds some_sleds
sound-joined sound_joined
sound-len sound_len
sound-limited sound_limited
sound-share sound_share
sound-shares sound_shares
sound-sleds sound_sleds
sound-under sound_under
square-chain square_chain
stands-nowhere stands_nowhere
sub-zero-equal sub_zero_equal
sums-payload sums_payload
symbol-bytes symbol_bytes
symbols-differ symbols_differ
this-now this_now
times-assoc times_assoc
times-comm times_comm
times-left times_left
times-lt times_lt
times-right times_right
told-bad told_bad
total-more total_more
total-same total_same
tray-rack tray_rack
turn-sum turn_sum
twice-is twice_is
unit-all unit_all
value-is value_is
with-new with_new
with-place with_place
with-places with_places
with-places-append with_places-append
with-places-more with_places_more
with-sled with_sled
written-here written_here
written-other written_other
zero-not-one zero_not_one
zone-rack zone_rack
zone-room zone_room
"""

DASHED = r"(?<![\w'·-])(?<!goal\.)(?<!given\.)({})(?![\w'·-])"


def table():
    pairs = [line.split() for line in NAMES.strip().splitlines()]
    return {old: new for old, new in pairs}


def spell(text, names, pattern):
    return pattern.sub(lambda m: names[m.group(1)], text)


def in_antt(text, names, pattern):
    lines = []
    for line in text.split("\n"):
        code, dashes, comment = line.partition("-- ")
        lines.append(spell(code, names, pattern) + dashes + comment)
    return "\n".join(lines)


def in_rt(text, names, pattern):
    lines, inside = [], False
    for line in text.split("\n"):
        word = line.strip()
        starts = re.match(r"(ghost|requires|ensures)\b", word)
        inside = inside or bool(starts)
        lines.append(spell(line, names, pattern) if inside and not word.startswith("//") else line)
        if inside and re.search(r"[;}],?;?$", word):
            inside = False
    return "\n".join(lines)


def main():
    names = table()
    words = "|".join(re.escape(w) for w in sorted(names, key=len, reverse=True))
    pattern = re.compile(DASHED.format(words))
    changed = 0
    for path in sorted(glob.glob("crates/**/*", recursive=True)):
        if "/out/" in path or not path.endswith((".antt", ".rt")):
            continue
        with open(path, encoding="utf-8") as f:
            old = f.read()
        new = (in_antt if path.endswith(".antt") else in_rt)(old, names, pattern)
        if new != old:
            changed += 1
            with open(path, "w", encoding="utf-8") as f:
                f.write(new)
    print(f"{changed} files changed")


if __name__ == "__main__":
    sys.exit(main())
