"""Why the prover refused an edit: at a fact that no longer holds, or only because a proof no longer fits the code's form."""
import re

# Refusals that say only that the proof no longer fits the code's form. A rewrite that finds nothing ("`rw`: no occurrence of the path's
# left endpoint") is none of them: the form fits, and a test or call now says something else than the rule.
UNFIT = [
    "has no `", "is not in scope", "has no field", "is no name", "missing field(s)", "Parse error", "no such module", "operand is missing", "expected the end",
    "cannot continue",
]
# What only follows from an error elsewhere, and is no finding of its own: `N declarations that depend on X, which was rejected, were not checked`.
FOLLOWS = re.compile(r"\bdepends? on .*\b(?:was|were) not checked")


# An error of a definition or a proof, or a note of a fact that is not proved of the code, both with their place; a note without one is advice.
ERROR = re.compile(r"\S+:\d+:\d+: error|note: \S+:\d+:\d+: ")


def errors_of(log):
    """The log's errors, each on a line of its own, the first first."""
    errors = [line for line in log.replace("\n  ", " ").splitlines() if ERROR.match(line)]
    return [line for line in errors if not FOLLOWS.search(line) and "was not admitted" not in line]


def unfit(log, at=()):
    """Why an edit shows nothing: its first error is one of form, or no error stands in the file that is to refuse it."""
    errors = errors_of(log)
    if not errors:
        return "no error"
    for word in UNFIT:
        if word in errors[0][:600]:
            return f"first error: {errors[0][:160]}"
    if at and not any(f"/{place}:" in line and ": error" in line for line in errors for place in at):
        return f"no error in {' or '.join(at)}"
    return ""


# The proofs of a crate without functions that hold its definitions to what document 01 says: tables that are computed, and claims in other words.
# The other files are laws, which restate a definition: one that changes breaks them, whether or not what is claimed is still true.
SAYING = {
    "rules": ["Tables", "PinCases", "Meant", "Forms", "Answered", "Therm", "Steps", "Status", "Alarm", "Assured", "Commands", "Kept", "Rows", "Judged", "Ended", "Left"],
    "text_rules": ["Tables", "Written", "Begins", "RecordText", "AnswerText", "Completed", "Bounded", "PutCases"],
    "replay_rules": ["Examples", "ReplayCases", "Meant", "Alarms", "Consumed", "Room", "Best", "Enough"],
    "console_rules": ["Examples", "Texts"],
    "saved_rules": ["FaceCases", "Saved"],
    "session_rules": ["Calls", "Portions", "InBytes", "OneOutput", "SessionCases"],
}


def said_by(log, crate):
    """What refused an edit: a claim, only a proof's own restatement, or the code."""
    if crate not in SAYING:
        return "code"
    return "claim" if any(f"/proofs/{name}.antt:" in line and ": error" in line for line in errors_of(log) for name in SAYING[crate]) else "restated"
