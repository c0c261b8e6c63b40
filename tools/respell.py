#!/usr/bin/env python3
"""Respells the definitions and lemmas of this repository: words in snake case, facts and types in camel case.

Run once at the top, after the toolchain's own port script. It touches no string and no comment, and in .md files only what stands
between back quotes.
"""
import re
import subprocess
from pathlib import Path

# Definitions, fields and lemmas: a small first letter makes snake case of them, a capital one camel case.
PLAIN = """
    letter-written
    Call-delivers Codes-have-at-most-512-records Eight-given Equal-requests-get-equal-answers Follow-one-another
    Four-given Gives-registers-in-order Placed-and-coded-is-ready Run-delivers
    Starts-at-multiples-of-the-alignment a-budget-of-512-covers-both-codes a-call-that-is-not-refused-is-placed
    a-register-in-two-banks-gets-every-type-23 a-type-always-placed-is-refused-only-past-4088-or-at-sixteen
    adjust-lawful after-every-list afterBody afterPast all-carried all-in-registers all-keeps all-parts
    all-pieces-both all-pieces-weaker all-places all-spared always-after always-past alwaysPlaced
    an-empty-call-ends-after-7-steps answer-alike answer-is answerFor answerNext answers-alike answersIn
    apart-back apart-by-pieces apart-differ apart-from-arguments apart-from-results
    arguments-and-results-are-delivered-and-nothing-else-changes arguments-are-apart arguments-are-at-most-16
    arguments-fit asHeld asked-whole at-apart at-most-27 at-most-4 at-most-eight at-reach atFront bank-set
    bankProfile bankQuestions before-the-pile beforeBody beforeCall begun-size below-every below-few below-four
    below-kept below-ten bench-arguments bench-holds-each-argument bench-holds-each-result bench-passes
    bench-results benchCode beside-part between-apart bits-cases bits-here bits-lawful bitsBook bitsDoes bitsMove
    bitsProfile bitsStart blamedLine block-ends-by-b block-is-at-most-4096-bytes block-register-apart block-step
    blockBytes blockPlace blocks-apart body-begins-at-the-callee-homes body-finds-each-argument-widened
    body-has-no-fault body-is-sized body-lies-in-the-callee-list body-load body-passes body-runs body-runs-through
    body-step body-store body-too bodyFault bookOf both-keeps bothOn bottomBook budget-covers-both-codes builtIn
    by-four by-the-pile byte-suc byte-zero bytes-frame bytes-have-8-bits call-delivers call-frame
    call-of-straight-lines-ends callFaultOf callee-after callee-before
    callee-code-is-at-the-front-and-the-rest-untouched callee-none calleeCode calleeFault caller-after
    caller-before caller-code-is-at-the-front-and-the-rest-untouched caller-finds-each-result callerCode
    callerFault came-out-by-the-rules-of-code-and-machine carried-fails carried-frame carriedOut causeLine
    causeNumber changes-grow choose-gave choose-keeps choose-lawful chooseBlame chooseBook chooseNext
    chooseProfile chooseShows codeFaultOf codeOn codes-are-short codes-have-at-most-512-records codingFault
    comes-to composes-if-straight contents-are-sane contents-are-those-at-the-end contentsOf copy-piece-short
    copy-short copyAll copyPiece copyPieces copyPlace core-arguments core-holds-each-argument
    core-holds-each-result core-passes core-results coreCode count-cases count-lawful
    count-refuses-u8-with-24-and-places-u4 countBook countDoes countMove countPair countProfile counted-more
    counted-zero cursor-lawful cursorOf differ-at each-by each-grant each-held each-is-held each-moment-is-lawful
    each-short eachHome eachWord effect-frame effects-append eight-next emit-append emit-at emit-fits emit-length
    emit-whole emits-last emits-put empty-call-ends empty-fits endless-requests-are-granted-up-to-4088
    ends-if-called equal-answers equal-answers-to-questions equal-first-books
    equal-requests-for-arguments-get-equal-answers equal-requests-for-results-get-equal-answers err-ok
    every-type-23 fails-inside fails-ok fails-same faultElse faultIn faultOf few-by few-of fill-all-short
    fill-high fill-low fill-piece fill-short fillAll fillFurther fillPieces fillPlace fillRest first-blame-is-back
    first-book-is-back first-or-second first-sound first-spares firstBlame firstOn firstRefused follow-one-another
    for-arguments for-results found-frame four-grown four-next frame-deep frameBytes framedCode fresh-parts
    freshIn freshKinds from-keeps frozenSides further-byte further-step given-between given-granted
    gives-registers-in-order goes-on-from-last goes-to-the-last goesOn good-all good-by grantBy granted-all
    granted-by granted-goes-on granted-more granted-no-fault granted-of granted-one grantsIn halt-step hasKind
    head-granted held-apart held-as-many held-count held-few held-for held-grants held-in-set
    held-places-are-aligned-in-the-block held-places-are-as-wide-as-requested-or-wider
    held-places-are-those-granted-since held-places-share-no-byte holdingFor holds-append holds-behind holds-front
    homeBytes homeSize homes-all homes-are-within-memory idle-once idle-twice in-front in-larger in-register
    in-set inBlockAny inBlockTwice inPair instructionAt is-accepted is-as-wide-as-requested-or-wider is-eight
    is-four is-sound is-well-formed is-wide-enough keeps-weaker kept-registers-are-as-before
    kept-registers-are-r0-to-r27 keptClashes kind-back kindsFault larger-budget-goes-on largerOf lawful-after
    lawful-call lawful-past leads-end leads-on leads-then leads-weaker length-of-the-callee-code
    length-of-the-caller-code length-saved-more length-stored letterOf limitFault lineAmong lineBy link-comes-back
    listFault load-frame load-offset load-test loaded-below loaded-same low-block-piece-is-aligned low-registers
    lowPiece map-granted map-here map-lawful map-spares mapBlame mapBook mapNext mapProfile mapQuestions mapShows
    meetsRule memory-fits memory-is-as-large-as-before memory-too-large memoryFault met-later met-now misses-above
    misses-beside mode-stuck moved-bytes moved-covers moved-small moved-within narrow-byte neverBook neverProfile
    newly-good newly-twins next-decides next-effect next-frame next-good next-is next-none
    no-argument-has-a-kept-register no-argument-or-result-goes-astray no-fault-accepted no-fault-before
    no-fault-of-places no-left no-result-has-a-kept-register no-some no-state noKinds none-coded none-given
    none-in-block none-next none-placed none-refused not-accepted not-before not-below not-both not-refused
    nothing-goes-astray nothing-saved nth-there of-block of-each of-register offset-whole one-granted
    one-more-held one-step one-too-many onward-frame open-bits-give-their-last-register-after-a-refusal openPair
    openSides orBody orSame other-memory other-memory-is-as-before others-of outcome-is-that-of-the-last-state
    outcome-none outcomeFrom outcomeOf over-gave over-keeps over-lawful over-made overBlame overBook overNext
    overProfile overShows own-profile own-registers ownRequest pair-granted parameterFault past-request
    piece-carried pieceText pieceWidth pieces-apart pieces-share-no-byte pieces-sound pile-says pileAnswer
    place-carried place-small placeAnswer placeWidth placed-and-coded-is-ready placed-holds placedAll placedBy
    placedNext placedUntil placementFault placementIn places-apart places-are-granted-lawfully places-before-body
    places-held placesFault placingFault plain-loaded plain-test played-profile playedRounds power-itself
    power-other profile-by profile-stays reach-alike reach-is-0-at-first reach-is-0-without-a-block
    reach-is-at-most-4096 reach-lies-above-its-block-bytes reach-never-falls reached-is reachingBy reachingWith
    refusal-alike refused-fault refused-only-when-full refused-stops refused-with-room
    refused-with-the-first-fault refusedWith register-block-apart register-carried register-ends register-missed
    registerPair registers-apart registers-are-32 registers-are-in-the-set registers-are-r0-to-r27
    registers-have-32-bits reopenedSides request-has requestFor requestIn requestOf restoreAll restoreWord
    result-above results-are-apart results-are-at-most-4 results-few results-travel-in-registers resultsForbidden
    ret-frame returned-same round-reopens rounds-leave-nothing rounds-within run-comes-to-the-body run-delivers
    run-goes-through-the-body run-leaves-the-body running-fails runs-made runs-spent runs-stop same-all
    same-arguments same-caller same-frame same-later same-now same-or-next same-results same-run same-sides
    saveAll saveWord saved-all saved-every saved-few saved-kept saved-more saved-same savedBelow second-sound
    second-spares secondOn set-bounded set-bytes set-frame set-step setOf sets-apart settle-short shielded-all
    shielded-apart shielded-below shielded-but shielded-carried shielded-spared short-body shortFault
    shut-bits-give-no-register-after-a-refusal shut-here shut-keeps shut-lawful shut-spares shutBlame shutBook
    shutNext shutPair shutProfile shutQuestions shutShows sides-are-placed-by-the-rules sides-lawful sidesOf
    sign-byte sign-four sign-one sign-two signed-below-one signed-below-two signed-bytes signed-loaded signed-one
    signed-two signed-whole signedByte single-granted size-bytes some-none some-second sound-places-share-no-byte
    soundTogether spared-clear spares-after spares-by spares-here spent-has-next stack-bytes-of-the-callee
    stack-bytes-of-the-caller stack-is-deep-enough stack-pointer-is-as-before stack-split stackBytes stackPointer
    starts-at-multiples-of-the-alignment state-held stays-if-stopped step-frame step-state
    steps-are-the-sum-of-both-code-lengths steps-are-those-of-the-run stepsTo still-aligned stopped-stays
    stops-at-first stops-at-second stops-at-third store-frame store-high store-offset store-piece-short
    store-register-short store-short store-test storeAll storePiece storePieces storePlace storeRegister
    stored-byte straight-line-composes stuck-exactly-where that-given that-size through-below twins-all twins-by
    two-long type-of-word u1-after-them-reaches-4089 u8-511-times-reaches-4088 u8-is-granted-at-reach-4088
    u8-is-refused-at-reach-4089 union-cases up-cases up-eight up-endless up-here up-lawful upAfter upBook upMove
    upProfile upQuestions upper-step used-at-most-4096 used-by used-up-if-spent usedOf uses-up uses-up-from
    values-kept whole-list whole-loaded wholeSides wide-pile-places-f8-f8-u1-s8 wide-pile-places-u1-s8-u2
    widened-to-four widenedByte widthFault with-others withAll withKind withKinds withReg withinHomes word-past
    word-written words-all words-many worked-cases worldOf zero-byte zero-bytes
""".split()

# Lemmas whose plain name would be that of a definition.
LEMMAS = """
    bits-move copy-all copy-piece copy-place fill-all fill-place own-request restore-all save-all saved-below store-all store-place within-homes
""".split()

SPECIAL = {"bit-or": "bit-bit_or", "bit-and": "bit-bit_and"}

# In one file alone.
IN_FILE = {"crates/machine/proofs/Runs.antt": {"goes_on": "goes_on_lem"}}

TOKEN = re.compile(r"[^\s(){}\[\],;.:\"`|=⌜⌝]+")
RUST_NAME = re.compile(r"\b[a-z][a-z0-9]*(?:_[a-z0-9]+)+\b")
# What the toolchain calls the steps and goals of a function, older and newer.
STEPS = [
    ("from-residual-in-err-", "returns-in_err-"), ("in-ok-", "in_ok-"), ("in-err-", "in_err-"), ("type-inv", "type_inv"),
    ("in-default", "in_default"),
]


def respelt(name):
    if name[0].isupper():
        return "".join(part[:1].upper() + part[1:] for part in name.split("-"))
    return re.sub(r"(?<=[a-z0-9])([A-Z])", lambda m: "_" + m.group(1).lower(), name.replace("-", "_"))


def tracked():
    listed = subprocess.check_output(["git", "ls-files", "-co", "--exclude-standard"], text=True).split("\n")
    return [Path(f) for f in listed if f and Path(f).is_file()]


def words_of_std(files):
    """Names that a file takes from the library stay as they are."""
    taken = set()
    for f in files:
        if f.suffix in (".antt", ".rt"):
            for m in re.finditer(r"use (?:Rattle\.std|borrow|native|lib|mathlib|Prim|logic)\b[^{\n]*\{([^}]*)\}", f.read_text()):
                taken.update(n.strip().split(" as ")[0] for n in m.group(1).split(","))
    return taken


def main():
    files = tracked()
    table = {n: respelt(n) for n in PLAIN}
    table.update({n: respelt(n) + "_lem" for n in LEMMAS})
    table.update(SPECIAL)
    std = words_of_std(files)
    code = [f for f in files if f.suffix == ".rt"]
    idents = set()
    for f in code:
        idents.update(RUST_NAME.findall(f.read_text()))
    dashed = {i.replace("_", "-"): i for i in idents}
    longest = sorted(dashed, key=len, reverse=True)

    def generated(token):
        """A name that the toolchain makes of the code's: the code's part keeps its spelling."""
        if token in dashed:
            return dashed[token]
        for old, new in STEPS:
            token = re.sub(r"(^|(?<=[.+-]))" + re.escape(old), new, token)
        for d in longest:
            if d in token:
                token = re.sub(r"(^|(?<=[-+]))" + re.escape(d) + r"(?=$|[-+])", dashed[d], token)
        return token

    def turn(path):
        own = IN_FILE.get(str(path), {})

        def one(m):
            t = m.group(0)
            if t in own:
                return own[t]
            if t in table:
                return table[t]
            if path.suffix == ".antt" and "-" in t and t not in std:
                return generated(t)
            return t

        def line(text):
            if path.suffix == ".md":
                return re.sub(r"`[^`]+`", lambda m: TOKEN.sub(one, m.group(0)), text)
            cut = re.search(r"(^|\s)--\s" if path.suffix == ".antt" else r"(^|\s)//", text)
            head, tail = (text[: cut.start()], text[cut.start():]) if cut and path.suffix in (".antt", ".rt") else (text, "")
            parts = re.split(r'("(?:[^"\\]|\\.)*")', head) if path.suffix == ".rt" else [head]
            return "".join(p if i % 2 else TOKEN.sub(one, p) for i, p in enumerate(parts)) + tail

        old = path.read_text()
        new = "\n".join(line(t) for t in old.split("\n"))
        if new != old:
            path.write_text(new)

    for f in files:
        if f.suffix in (".antt", ".rt", ".edit", ".md"):
            turn(f)


main()
