#!/usr/bin/env python3
"""Spells the repository's own definitions and lemmas as today's Rattle does: functions and lemmas in snake case,
statements and other types in upper camel case.

usage: python3 tools/respell.py [ROOT]    once, right after /opt/rattle/port/port.py; ROOT is this repository by default

It goes by whole names, through specs/, proofs/, clauses, must-fail edits, and names in backquotes of docs/.
Names of code, strings, inputs and outputs are not in the table. It stops, with nothing written, where two of the new names in its table are the same.
"""
import glob
import os
import re
import sys

TABLE = """
Block-is-lawful BlockIsLawful
Clean-bit-costs-nothing CleanBitCostsNothing
Clean-path-costs-nothing CleanPathCostsNothing
Clean-path-keeps-zeros CleanPathKeepsZeros
Clean-speaks CleanSpeaks
Clean-word-first AnyCleanWordFirst
Coded-words-sent CodedWordsSent
Cost-at-most-magnitudes CostAtMostMagnitudes
Cost-fits CostFits
Cost-looks-back CostLooksBack
Cost-never-falls CostNeverFalls
Costs-of-a-pair CostsOfAPair
Decision-bounded DecisionBounded
Decision-looks-back DecisionLooksBack
Earlier-costs-no-more EarlierCostsNoMore
Encoded-payloads-received EncodedPayloadsReceived
Finished-words-received FinishedWordsReceived
Fixed-points FixedPoints
Granted-files-are-laid-out GrantedFilesAreLaidOut
Kinds-counted KindsCounted
Laid-lawful LaidLawful
Laid-out-files-are-granted LaidOutFilesAreGranted
None-before-itself NoneBeforeItself
One-of-32 OneOf32
Order-carries-over OrderCarriesOver
Order-permutes OrderPermutes
Pair-identity PairIdentity
Plans-lawful PlansLawful
Put-is-accounted PutIsAccounted
Reads-as-ruled ReadsAsRuled
Received-payload-first ReceivedPayloadFirst
Received-word-first ReceivedWordFirst
Received-word-stands-apart ReceivedWordStandsApart
Reliability-total ReliabilityTotal
Shortened-places-carry-zero ShortenedPlacesCarryZero
Soft-bounded SoftBounded
Store-reads-as-ruled StoreReadsAsRuled
Supersets-later SupersetsLater
Take-is-absent-exactly-when-empty TakeIsAbsentExactlyWhenEmpty
Take-is-least-and-accounted TakeIsLeastAndAccounted
Unordered-are-equal UnorderedAreEqual
Unsent-places UnsentPlaces
Whole-path-costs-contradictions WholePathCostsContradictions
Word-costs-contradictions WordCostsContradictions
Words-can-be-received WordsCanBeReceived
Words-judged-whole WordsJudgedWhole
Wrong-bit-costs WrongBitCosts
Zeros-closed ZerosClosed
addedWord added_word
advanceRefusal advance_refusal
advanceVerdict advance_verdict
advancedTo advanced_to
afterTake after_take
allBelow-at all_below-at
allBelow-same all_below-same
allButLast all_but_last
allButLast-in-order all_but_last-in-order
among-allButLast among-all_but_last
answersIn answers_in
answersOf answers_of
answersTo answers_to
anyBelow any_below
atHand at_hand
badByte bad_byte
badPlace bad_place
badValue bad_value
barredAt barred_at
barredBy barred_by
barredFor barred_for
barredIn barred_in
beginsWithZero begins_with_zero
behindFirst behind_first
behindFirst-in-order behind_first-in-order
bitOf-first bit_of-first
bitOf-high bit_of-high
bitOf-next bit_of-next
bitOf-xor bit_of-xor
bitOf-zero bit_of-zero
bitOfKind bit_of_kind
bitWeights bit_weights
blockBit block_bit
blockLength block_length
builtinKinds builtin_kinds
builtinRequest builtin_request
candidateIn candidate_in
checkBits check_bits
checkCode check_code
checkOf check_of
checkedAnswers checked_answers
checkedBits checked_bits
checkedCalls checked_calls
codeBit code_bit
codedAt coded_at
codedPlan coded_plan
contentsIn contents_in
contentsOf contents_of
count-allButLast count-all_but_last
countBelow count_below
countedSoft counted_soft
emptiedTo emptied_to
entersAt enters_at
entersLongest enters_longest
errorOf error_of
exampleAnswers example_answers
exampleCalls example_calls
faultText fault_text
fieldBody field_body
fieldFault field_fault
figuresOf figures_of
fileFault file_fault
finishedBy finished_by
firstBadValue first_bad_value
firstBelow first_below
firstBits first_bits
firstMetric first_metric
fitsCheck fits_check
fiveOf32 five_of_32
floorAfter floor_after
getD get_or
getD-added get_or-added
getD-deinterleaved get_or-deinterleaved
getD-place get_or-place
getD-zeros get_or-zeros
haltAt halt_at
haltOf halt_of
heapCapacity heap_capacity
heapFloor heap_floor
heapKept heap_kept
heldCapacity held_capacity
holdsRow holds_row
hopelessRow hopeless_row
ifPlayed if_played
inOrder in_order
inPhase in_phase
inSearching in_searching
informationBits information_bits
informationCount information_count
informationFrom information_from
isBlock is_aligned_block
isEnded is_ended
isInformation is_information
isLoadable is_loadable
isLoaded is_loaded
isOneZero is_one_zero
isParity is_parity
isPrefix is_prefix
isShorten is_shorten
isThere IsThere
keepingAll keeping_all
kindBy kind_by
kindFor kind_for
kindOfRank kind_of_rank
kindsOf kinds_of
laidAt laid_at
laidBit laid_bit
lastMetric last_metric
lawfulWithin lawful_within
layerName layer_name
layerOf layer_of
layerOfCall layer_of_call
layingVerdict laying_verdict
leftAfter left_after
leftBy left_by
leftOut is_left_out
lengthFor length_for
lesserOf lesser_of
limitsAllowed limits_allowed
listBelow list_below
llrIn llr_in
llrOf llr_of
loadRefusal load_refusal
loadedIn loaded_in
loadedOf loaded_of
logLength log_length
longestPayload longest_payload
lowBits-at low_bits-at
lowBits-past low_bits-past
lowBound low_bound
metFrom met_from
metOf met_of
metricOf metric_of
modeFor mode_for
modeIn mode_in
modelOf model_of
moreReliable more_reliable
mostFailures most_failures
mostSteps most_steps
noneBefore none_before
noneHas none_has
ofFive of_five
onBlock on_block
onceLoaded OnceLoaded
openCount open_count
outputAfter output_after
outputLeft output_left
pairCost pair_cost
parityBit parity_bit
parityBits parity_bits
parityKinds parity_kinds
parityPath parity_path
paritySum parity_sum
pathAt path_at
pathCost path_cost
pathIn path_in
pathOf path_of
pathsUpTo paths_up_to
payloadBits payload_bits
payloadIn payload_in
payloadLength payload_length
payloadShown payload_shown
payloadVerdict payload_verdict
phaseIn phase_in
phaseOf phase_of
phaseRefusal phase_refusal
planBody plan_body
planIn plan_in
putChild put_child
putChildren put_children
putInto put_into
putInto-capacity put_into-capacity
putInto-cheapest put_into-cheapest
putInto-in-order put_into-in-order
putInto-keeps put_into-keeps
rangeFront range_front
rankBy rank_by
receivedAt received_at
recoveryVerdict recovery_verdict
remainder-of-one RemainderOfOne
reportFrom report_from
reportOf report_of
reportThen report_then
requestOf request_of
rowBit row_bit
rungAt rung_at
sameBits same_bits
sameKind equal_kinds
scratchAfter scratch_after
scratchLeft scratch_left
searchAt search_at
searchBody search_body
sendingVerdict sending_verdict
sentAt sent_at
sentBits sent_bits
sentBy sent_by
sentOf sent_of
sentPlace sent_place
sessionFrom session_from
setBit set_bit
sheddingLast shedding_last
shortenedOne shortened_one
shownIn shown_in
shownMetric shown_metric
shownPath shown_path
shownPayload shown_payload
signsOf signs_of
sizeIn size_in
softAt soft_at
softCount soft_count
someBit some_bit
spread-as-published SpreadAsPublished
spread-of-eight SpreadOfEight
stageBit stage_bit
startedWith started_with
stepFrom step_from
storeCode store_code
sumBelow sum_below
sumInto sum_into
tableCapacity table_capacity
tableFloor table_floor
tableKept table_kept
tailFault tail_fault
takenFrom taken_from
totalBelow total_below
turnCall turn_call
twoBitCost two_bit_cost
twoBits two_bits
twoBytes two_bytes
unlessBlank unless_blank
unlessHalted unless_halted
unlessRefused unless_refused
unlessShown unless_shown
unsentSoft unsent_soft
valueBytes value_bytes
valueRefusal value_refusal
valuesAt values_at
valuesBody values_body
valuesVerdict values_verdict
withPath with_path
withPut with_put
withinLimits within_limits
wordAnswer word_answer
wordBitAt word_bit_at
wordBits word_bits
wordRefusal word_refusal
wordsBit words_bit
xorBelow xor_below
xorBelow-first xor_below-first
xorBelow-same xor_below-same
"""

NAME = re.compile(r"[A-Za-z_][A-Za-z0-9_']*(?:-[A-Za-z0-9_']+)*")


def table():
    return dict(line.split() for line in TABLE.strip().split("\n"))


def main(root):
    names = table()
    together = len(names) - len(set(names.values()))
    if together:
        sys.exit(f"respell: {together} names fall together")

    def respelled(text):
        return NAME.sub(lambda m: names.get(m.group(0), m.group(0)), text)

    kinds = ["specs/**/*.antt", "proofs/**/*.antt", "src/**/*.rt", "must-fail/*.edit"]
    changed = 0
    for kind in kinds:
        for path in sorted(glob.glob(os.path.join(root, "crates", "*", kind), recursive=True)):
            with open(path, encoding="utf-8") as f:
                text = f.read()
            new = respelled(text)
            if new != text:
                changed += 1
                with open(path, "w", encoding="utf-8") as f:
                    f.write(new)
    for path in sorted(glob.glob(os.path.join(root, "docs", "*.md"))):
        if os.path.basename(path).startswith("PORT"):
            continue
        with open(path, encoding="utf-8") as f:
            text = f.read()
        new = re.sub(r"`[^`\n]+`", lambda m: respelled(m.group(0)), text)
        if new != text:
            changed += 1
            with open(path, "w", encoding="utf-8") as f:
                f.write(new)
    print(f"respell: {changed} files")


if __name__ == "__main__":
    main(sys.argv[1] if len(sys.argv) > 1 else os.path.dirname(os.path.dirname(os.path.abspath(__file__))))
