#!/usr/bin/env python3
"""Brings this repository's own definitions and lemmas to the spelling of today's Rattle.

usage: python3 tools/spelling.py [FOLDER]     once, after /opt/rattle/port/port.py, at the top of a checkout (or of FOLDER)

Words are in snake case. A dash stays only where it joins two names, as in `rises-insert`. A lemma that would then have the name of a
definition gets `_lem`. It rewrites whole names in crates/*/specs, proofs and src (not in string literals), in must-fail edits, and
between backticks in README.md and docs/. Types, modules, functions of src/ and the names that Rattle makes keep their spelling.
"""

import glob
import os
import re
import sys

# old name, new name
RENAMED = dict(line.split() for line in """
M-is M_is
account-adds account_adds
account-same account_same
accrue-done accrue_done
accrue-fits accrue_fits
accrue-kept accrue_kept
accrue-phase accrue_phase
accrue-refused accrue_refused
accrueAnswer accrue_answer
accrues-to accrues_to
add-up add_up
adds-up adds_up
admitted-due admitted_due
admitted-goes admitted_goes
all-at all_at
all-good all_good
all-leave all_leave
all-through all_through
allHold all_hold
allModest all_modest
allOnStep all_on_step
amount-in amount_in
amount-out amount_out
amount-within amount_within
amountAt amount_at
amountOf amount_of
and-false and_false
and-true and_true
andLight and_light
answerBy answer_by
atField at_field
atOne at_one
bad-day bad_day
bad-rate bad_rate
base-least base_least
base-most base_most
before-guess before_guess
beyond-none beyond_none
beyond-past beyond_past
body-eight body_eight
both-free both_free
bothDays both_days
bottom-step bottom_step
boundRate bound_rate
bounds-in-reach bounds_in-reach
bounds-is bounds_is
bounds-next bounds_next
bounds-push bounds_push
boundsAt bounds_at
boundsBefore bounds_before
boundsIn bounds_in
by-verdict by_verdict
carried-next carried_next
ceil-of ceil_of
ceil-over ceil_over
ceil-under ceil_under
ceil-within ceil_within
ceilDiv ceil_div
checkAnswer check_answer
chosen-keeps chosen_keeps
chosenBounds chosen_bounds
chosenFactor chosen_factor
christmasDay christmas_day
close-done close_done
close-early close_early
close-fits close_fits
close-without close_without
closeAnswer close_answer
codeNumber code_number
compounded-keeps compounded_keeps
compounded-step compounded_step
compoundedBounds compounded_bounds
compoundedFactor compounded_factor
computus-limit computus_limit
count-few count_few
cumulative-is cumulative_is
cumulative-of cumulative_of_lem
cumulative-pushed cumulative_pushed
cumulativeBefore cumulative_before
cumulativeOf cumulative_of
date-at date_at
date-here date_here
date-same date_same
dateAfter date_after
dates-altered dates_altered
dates-rise dates_rise
datesOf dates_of
day-at day_at
day-good day_good
day-is day_is
day-same day_same
day-self day_self
dayAfterChristmas day_after_christmas
dayAt day_at
dayOf day_of
dayOf-high day_of_high
dayOf-low day_of_low
days-back days_back
days-good days_good
days-pushed days_pushed
daysBefore days_before
daysIn days_in
daysOf days_of
difference-here difference_here
difference-later difference_later
difference-more difference_more
difference-none difference_none
direct-lawful direct_lawful
double-held double_held
due-known due_known
due-ok due_ok
due-within due_within
dueDay due_day
easter-high easter_high
easter-low easter_low
easterMonday easter_monday
easterSunday easter_sunday
encloses-of encloses_of
entries-lawful entries_lawful
entries-ok entries_ok
entriesOf entries_of
exact-cut exact_cut
exact-or-next exact_or_next
exact-push exact_push
exactIn exact_in
exactRate exact_rate
exactRateAt exact_rate_at
exactRateOf exact_rate_of
excess-within excess_within
factor-is factor_is
factorAt factor_at
factorOf factor_of
faithful-to faithful_to
falls-in-year falls_in_year
fallsOn falls_on
few-days few_days
field-long field_long
fields-end fields_end
fields-err fields_err
fields-lawful fields_lawful
fields-more fields_more
fieldsFrom fields_from
figures-is figures_is
figures-of figures_of_lem
figures-pushed figures_pushed
figures-self figures_self
figuresBefore figures_before
figuresOf figures_of
first-none first_none
firstDay first_day
firstDifference first_difference
firstField first_field
fixing-lawful fixing_lawful
fixing-long fixing_long
fixing-read fixing_read
fixingIn fixing_in
floor-mono floor_mono
floor-next floor_next
floor-of floor_of
floor-over floor_over
floor-under floor_under
floor-within floor_within
floorDiv floor_div
follows-push follows_push
from-least from_least
front-is front_is
gain-small gain_small
gap-first gap_first
gap-from-stuck gap_from_stuck
gap-known gap_known
gap-least gap_least
gap-most gap_most
given-ok given_ok
givenBack given_back
givenBy given_by
giversFrom givers_from
goes-all goes_all
goes-front goes_front
goes-push goes_push
goes-take goes_take
going-stuck going_stuck
good-at good_at
good-run good_run
goodFriday good_friday
growth-of growth_of
h-is h_is
half-held half_held
has-day has_day
has-none has_none
held-compounded held_compounded
held-simple held_simple
hi-is hi_is
high-cross high_cross
high-law high_law
high-least high_least
high-step high_step
holder-used holder_used
holiday-year holiday_year
in-guess in_guess
in-phase in_phase_lem
in-reach-is in_reach_is
inPhase in_phase
is-good is_good
is-in-reach is_in_reach_lem
is-posted is_posted
is-rate is_rate_lem
is-unknown is_unknown
isAccruing is_accruing
isAmount is_amount
isClosed is_closed
isComputus is_computus
isDate is_date
isFree is_free
isHolidayOf is_holiday_of
isInReach is_in_reach
isLeap is_leap
isListDay is_list_day
isMargin is_margin
isModest is_modest
isOnStep is_on_step
isOpened is_opened
isPastFebruary is_past_february
isPublished is_published
isRate is_rate
isSaturday is_saturday
isSunday is_sunday
isTargetDay is_target_day
isUpTo is_up_to
isWeekend is_weekend
isWeight is_weight
issuer-by issuer_by
issuer-empty issuer_empty
judge-parts judge_parts
judgeHoliday judge_holiday
judgeKnown judge_known
judgeOpening judge_opening
judgeReconciling judge_reconciling
judgeRoom judge_room
judgeStep judge_step
judged-parts judged_parts
known-after known_after
l-is l_is
labourDay labour_day
last-at last_at
last-before last_before
last-day last_day
last-from last_from
last-gives last_gives
last-is last_is
lastFrom last_from
lawfulFrom lawful_from
least-last least_last
least-none least_none
least-of-last least_of_last
least-of-none least_of_none
leastAfter least_after
length-err length_err
length-ok length_ok
light-goes light_goes
light-known light_known
light-ok light_ok
light-within light_within
lightest-ok lightest_ok
line-decides line_decides
line-done line_done
line-found line_found
line-is line_is
line-past line_past
line-self line_self
lineAfter line_after
lineAnswer line_answer
lines-count lines_count
lines-known lines_known
lines-push lines_push
linesIn lines_in
lo-is lo_is
low-cross low_cross
low-law low_law
low-most low_most
made-always made_always
made-day made_day
made-line made_line
made-tally made_tally
margin-in margin_in
margin-out margin_out
mark-is mark_is
mark-self mark_self
meanings-more meanings_more
moderate-of moderate_of
modest-is modest_is
modest-last modest_last
modest-push modest_push
modest-small modest_small
modest-take modest_take
more-here more_here
narrow-held narrow_held
narrow-of narrow_of
nearest-is nearest_is
nearest-mono nearest_mono
nearest-next nearest_next
neg-within neg_within
newYear new_year
newYear-high new_year_high
newYear-limit new_year_limit
newYear-low new_year_low
newYear-next new_year_next
newYearsDay new_years_day
next-cross next_cross
next-is next_is
next-push next_push
nextDate next_date
no-day no_day
no-fault no_fault
no-rate no_rate
no-weight no_weight
none-at none_at
not-allowed not_allowed
not-published not_published
not-refused not_refused
not-rising not_rising
notGood not_good
nowDue now_due
number-self number_self
observationOf observation_of
of-days of_days
off-step off_step
on-terms on_terms
onCode on_code
onVerdict on_verdict
oneTick one_tick
opened-known opened_known
opening-amount opening_amount
opening-goes opening_goes
opening-margin opening_margin
opening-phase opening_phase
opening-refused opening_refused
orIncomplete or_incomplete
out-of-phase out_of_phase
over-lawful over_lawful
parse-code parse_code
parse-err parse_err
part-fits part_fits
part-within part_within
past-last-day past_last_day
pay-accepted pay_accepted
pay-done pay_done
pay-refused pay_refused
payAnswer pay_answer
phase-after phase_after_lem
phase-refused phase_refused
phaseAfter phase_after
place-within place_within
positionAt position_at
post-rises post_rises
post-stepped post_stepped
prepend-err prepend_err
prepend-ok prepend_ok
prependAll prepend_all
principal-within principal_within
published-of published_of
rank-flat rank_flat
rank-good rank_good
rank-neighbour rank_neighbour
rank-next rank_next
rank-past rank_past
rank-poor rank_poor
ranked-back ranked_back
rate-at-none rate_at_none
rate-at-some rate_at-some
rate-none rate_none
rate-same rate_same
rate-some rate_some
rate-within rate_within
rateAt rate_at
rateIn rate_in
rateOf rate_of
ratesOf rates_of
reached-more reached_more
reached-none reached_none
refusalOf refusal_of
refused-here refused_here
refused-is refused_is
replay-leaves replay_leaves
replay-through replay_through
replayed-more replayed_more
report-of report_of
restate-stepped restate_stepped
risesFrom rises_from
room-here room_here
row-encloses row_encloses
row-in-reach row_in_reach
row-narrow row_narrow
same-due same_due
same-is same_is
same-terms same_terms
sameAmounts same_amounts
sameDay same_day
sameFactor same_factor
sameFigures same_figures
sameLine same_line
sameMark same_mark
samePeriod same_period
sameReport same_report
scale-least scale_least
second-good second_good
settled-err settled_err
settled-exact settled_exact
settled-ok settled_ok
settledAt settled_at
settledPhase settled_phase
simple-gap simple_gap
simple-keeps simple_keeps
simple-low simple_low
simple-numerator simple_numerator
simple-step simple_step
simpleBounds simple_bounds
simpleFactor simple_factor
some-only some_only
sound-of sound_of
split-long split_long
standing-known standing_known
standingOf standing_of
status-done status_done
statusAnswer status_answer
stepped-insert stepped_insert
sum-from sum_from
sum-times sum_times
sumOfDaily sum_of_daily
take-days take_days
take-lines take_lines
tallyFrom tally_from
termsOf terms_of
tests-in-reach tests_in_reach
through-by through_by
took-none took_none
took-same took_same
took-some took_some
top-step top_step
total-is total_is
totalBefore total_before
true-here true_here
unlessRefused unless_refused
unlessSome unless_some
verdict-2 verdict_2
verdict-9 verdict_9
verdict-none verdict_none
verdict-other verdict_other
weight-append weight_append
weight-count weight_count
weight-cut weight_cut
weight-next weight_next
weight-push weight_push
weight-same weight_same
weight-take weight_take
weightIn weight_in
weightOf weight_of
wind-back-done wind_back_done
wind-back-refused wind_back_refused
windBack wind_back
windBackAnswer wind_back_answer
withDate with_date
withRate with_rate
withWeight with_weight
withdraw-accepted withdraw_accepted
withdraw-done withdraw_done
withdraw-refused withdraw_refused
withdrawAnswer withdraw_answer
within-range within_range
within-times within_times
woundBack wound_back
x-is x_is
year-follows year_follows
yearBase year_base
""".split("\n") if line)

# Names that port.py has turned in the crates already, as the documents still have them.
IN_DOCUMENTS = dict(line.split() for line in """
allBelow all_below
baseOf base_of
boundsOf bounds_of
codeOf code_of
factorOf factor_of
stepOf step_of
weightOf weight_of
""".split("\n") if line)

NAME = re.compile(r"[A-Za-z_\u00c0-\uffff][\w'-]*")
STRING = re.compile(r'b?"(?:[^"\\\n]|\\.)*"')


def turned(text, names):
    return NAME.sub(lambda m: names.get(m.group(0), m.group(0)), text)


def outside_strings(text, names):
    out, at = [], 0
    for m in STRING.finditer(text):
        out += [turned(text[at:m.start()], names), m.group(0)]
        at = m.end()
    return "".join(out + [turned(text[at:], names)])


def rewrite(path, change):
    with open(path, encoding="utf-8") as f:
        old = f.read()
    new = change(old)
    if new != old:
        with open(path, "w", encoding="utf-8") as f:
            f.write(new)


def main():
    top = sys.argv[1] if len(sys.argv) > 1 else "."
    for crate in sorted(glob.glob(os.path.join(top, "crates", "*"))):
        for folder, pattern in (("specs", "*.antt"), ("proofs", "*.antt")):
            for path in glob.glob(os.path.join(crate, folder, "**", pattern), recursive=True):
                rewrite(path, lambda t: turned(t, RENAMED))
        for path in glob.glob(os.path.join(crate, "src", "**", "*.rt"), recursive=True) + glob.glob(os.path.join(crate, "must-fail", "*.edit")):
            rewrite(path, lambda t: outside_strings(t, RENAMED))
    documents = {**RENAMED, **IN_DOCUMENTS}
    for path in [os.path.join(top, "README.md")] + glob.glob(os.path.join(top, "docs", "*.md")):
        rewrite(path, lambda t: re.sub(r"`[^`\n]*`", lambda m: turned(m.group(0), documents), t))


if __name__ == "__main__":
    main()
