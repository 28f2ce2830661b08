"""`make case`: runs cases on a build of `edihub` or `trial_script` without any proof (unproved_build.py), in seconds.

    python3 -m tests.unproved GROUP [WORDS]

GROUP is one of GROUPS below; WORDS select the cases whose names contain them. Large cases, and those that limit memory, are left
out, because the build checks each access and takes more memory and time. The last line is `N passed, M failed`."""
import sys

from tests import test
from tests.cases import calls, corrections, fault_places, goods, hub_commands, hub_files, hub_rules, joins, limits
from tests.cases import older_files, order_of_rules, orders, without_hub
from tests.unproved_build import EDIHUB, SCRIPTS, built

GROUPS = {
    "texts": (EDIHUB, without_hub.TEXT_CASES),
    "envelopes": (EDIHUB, without_hub.ENVELOPE_CASES),
    "orders": (EDIHUB, orders.CASES),
    "goods": (EDIHUB, goods.CASES),
    "places": (EDIHUB, fault_places.CASES),
    "registers": (EDIHUB, without_hub.REGISTER_CASES),
    "cases": (EDIHUB, without_hub.CASES),
    "commands": (EDIHUB, hub_commands.COMMANDS + hub_files.OPENED),
    "migrations": (EDIHUB, older_files.MIGRATIONS),
    "limits": (EDIHUB, limits.LIMITS),
    "rules": (SCRIPTS, hub_rules.HUBS + hub_rules.OVER_SQL + order_of_rules.ORDER),
    "joins": (SCRIPTS, joins.JOINS),
    "corrections": (SCRIPTS, corrections.CORRECTIONS),
    "calls": (SCRIPTS, calls.CALLS),
}


def main(words):
    if not words or words[0] not in GROUPS:
        print(f"usage: python3 -m tests.unproved {' | '.join(GROUPS)} [WORDS]")
        return 2
    build, cases = GROUPS[words[0]]
    why = built(build)
    if why:
        print(why)
        return 1
    asked = [it for it in cases if " ".join(words[1:]) in it.name and not it.memory and not it.large]
    count = test.program_cases(build.program(), asked)
    print(f"{count.passed} passed, {len(count.failures)} failed")
    return 1 if count.failures else 0


if __name__ == "__main__":
    sys.exit(main(sys.argv[1:]))
