"""What a row of README's claims has to say of the premises of its clause: which words stand for which premise.

A premise of a clause is what its call requires, and what stands before a `→` of the clause itself; so is what a part of the clause says
within (that the files report their bytes, that the code is intact), and that a call may return an error in the place of its result.
"""
import re
from typing import NamedTuple

from clauses import blanked, group_end, parts


class Premise(NamedTuple):
    """What a contract has, the words by which the premises of the row have to say it, and whether the claim itself says it instead."""

    pattern: str
    words: str
    in_claim: bool = False


PREMISES = (
    # whatever a call does
    Premise(r"\b\w\.tells \w+\.old", r"\breports?\b"),
    Premise(r"\bRose\b|\bCountsStay\b|\b\w\.faults \w+\.", r"\breports?\b"),
    Premise(r"¬ IsCut result|¬ \(?Rose|-> Result<[^>]*\bStop>", r"\bnothing fails\b"),
    Premise(r"≡ Status\.Memory\) ⊎|-> Result<.*\b(?:Memory|Fail)>", r"\bmemory suffices\b"),
    Premise(r"result ≡ Status\.\w+Fault →", r"\binvented\b", in_claim=True),
    Premise(r"result ≢ Status\.\w+Fault →", r"\bhidden\b", in_claim=True),
    Premise(r"≡ Run app trace", r"`run`", in_claim=True),
    # of an application, its code and its files
    Premise(r"\bAccepted \w+\.now|\bIsAcceptedAs\b", r"\baccepted\b"),
    Premise(r"\bIsSome \(held name\)", r"\bfiles asked for are there\b"),
    Premise(r"\bKeeps(?:Exactly)?\b", r"\bcode is intact\b"),
    Premise(r"\bReleasedIsRight\b", r"\bone channel is corrupted\b"),
    Premise(r"\bSpoiledSeatIsOutvoted\b|\bMendedSeats\b", r"\bhealed before another is struck\b"),
    Premise(r"\bIsRunnable\b", r"\bcan be run\b"),
    Premise(r"\bNeverMetHolds\b|\bNeverMetSame\b|\bAnswersNever\b|\bAnswersSame\b", r"\bas (?:its|the) rules file says\b"),
    Premise(r"\bAnswersWhy\b", r"\bstate before and time are those\b"),
)
# What names of an application what there is exactly once, and asks for nothing: its sizes, its machines with its own code, the states
# that `Meaning` has, and the text of which the bytes that were read are the front.
SUBJECTS = r"\bAreSizesOf\b|\bIsSetupOf\b|^Meaning net items ws$|\bIsFrontOf\b"


def before_arrows(text):
    """What stands before the arrows of a clause, without what it is said of: `A` and `B` of `(x : X) → A → B → C`."""
    for piece in parts(text)[0]:
        while re.match(r"\([\w' ]+ : ", piece):
            piece = piece[group_end(piece, 0) :].strip()
        if piece:
            yield piece


def lacking(function, clauses, claim, premises):
    """Why a claim with these premises does not say what these clauses of a function suppose; nothing if it does."""
    supposed = [text for clause in clauses for text in before_arrows(clause.text)] + [" ".join(clause.text.split()) for clause in function.requires]
    for piece in supposed:
        if not re.search(SUBJECTS, piece) and not any(re.search(one.pattern, piece + " →") for one in PREMISES):
            yield f"it supposes `{piece}`, and tools/premises.py does not have the words for that"
    every = "\n".join([" ".join(blanked(function.head).split()), *supposed, *(" ".join(clause.text.split()) for clause in clauses)])
    for one in PREMISES:
        if (found := re.search(one.pattern, every)) and not re.search(one.words, claim if one.in_claim else premises):
            words = re.sub(r"\\b|\?:|[()?]", "", one.words).replace("|", " or ")
            yield f"it supposes `{found[0]}`, and the {'claim' if one.in_claim else 'premise'} does not say: {words}"
