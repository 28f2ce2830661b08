"""Receiving advices that take the place of those before (BGM 1225 5): scripts for the program `trial_script`, over lists and over SQL in
memory, and for `edihub`, over a file, what is printed, and which rows the file then has."""
from dataclasses import replace

from tests.harness.database_files import has_rows
from tests.harness.hub_scripts import OTHER_PALLET, PALLET, PALLET_OF_BETA, RECEIPT, STATUS, accepted, article
from tests.harness.hub_scripts import despatch, goods_in_turn, interchange, message, order, ordered, parties, receipt
from tests.harness.register_texts import ALPHA, BETA, RETAILER

ITEM, SECOND_ITEM = "04000862141404", "04000862141411"


def counted(number, *units, function="5", day="20250606", supplier=ALPHA):
    """A receiving advice. A unit is its SSCC and its lines, each a GTIN and its quantities by their kinds."""
    segments = [f"BGM+632+{number}+{function}", f"DTM+137:{day}:102", *parties(supplier)]
    for place, (sscc, *lines) in enumerate(units, 1):
        segments += [f"CPS+{place}", "PAC+1", "PCI+33E", f"GIN+BJ+{sscc}"]
        for line, (gtin, *quantities) in enumerate(lines, 1):
            segments += [f"LIN+{line}++{gtin.lstrip('0')}:SRV", *(f"QTY+{kind}:{quantity}" for kind, quantity in quantities)]
    return message("RECADV:D:01B:UN:EAN005", 1, *segments)


def corrected(reference, number, *units, **how):
    return interchange(RETAILER, reference, counted(number, *units, **how))


def told(play, reference, text, word):
    return play.upload(RETAILER, text, f"interchange {reference} messages 1", f"1 RECADV {word}")


TWELVE = (PALLET, (ITEM, (194, 12)))
CORRECTION = corrected("1007", "G3", TWELVE)
CORRECTED = (STATUS[0], STATUS[1], article(PALLET, ITEM, "C", 12, 12, 0, 0, "+0"), STATUS[4])
FOURTH_MAIL = (
    "UNA:+.? 'UNB+UNOC:3+5412345000006:14+4012345500004:14+250603:0920+4'"
    "UNH+1+RECADV:D:01B:UN:EAN005'BGM+632+G3+5'DTM+137:20250606:102'"
    "NAD+BY+5412345000013::9'NAD+SU+4012345500004::9'CPS+1'PAC+1'PCI+33E'GIN+BJ+340123455000000012'"
    "LIN+1++4000862141404:SRV'QTY+194:12'UNT+12+1'UNZ+1+4'"
)
assert "UNT+12+1'" in CORRECTION and sum(len(it) + 1 for it in CORRECTED) + 4 == 456


def correction():
    """A pallet is counted again: the new sums take the place of the old, of each article, and what comes after that is judged by them."""
    play = accepted(goods_in_turn(), RETAILER, "1007", "RECADV", CORRECTION)
    play.status(*CORRECTED).item(4, FOURTH_MAIL).list(3, (4, "RECADV", "G3"))
    told(play, "1007", CORRECTION, "repeated")
    told(play, "1008", corrected("1008", "G4", TWELVE, function="9"), "refused B15")
    told(play, "1009", corrected("1009", "G5", TWELVE, function="4"), "refused M03")
    told(play, "1007", corrected("1007", "G3", (PALLET, (ITEM, (194, 11)))), "refused B03")
    play.status(*CORRECTED)
    told(play, "1005", RECEIPT, "repeated")
    return play.status(*CORRECTED).list(3, (4, "RECADV", "G3")).status(*CORRECTED, who=RETAILER, line=f"status-of {ALPHA}")


def again_and_again():
    """A correction is corrected, back to the first count; only articles of the last one stand."""
    play = goods_in_turn()
    first = (PALLET, (ITEM, (194, 10), (195, 1)), (SECOND_ITEM, (194, 3)))
    accepted(play, RETAILER, "1010", "RECADV", corrected("1010", "G10", (PALLET, (SECOND_ITEM, (194, 1), (196, 2)))))
    play.status(
        STATUS[0], STATUS[1], article(PALLET, ITEM, "C", 12, 0, 0, 0, "-12"), article(PALLET, SECOND_ITEM, "C", 0, 1, 0, 2, "+3"), STATUS[4]
    )
    accepted(play, RETAILER, "1011", "RECADV", corrected("1011", "G11", first))
    play.status(STATUS[0], STATUS[1], STATUS[2].replace(" R ", " C "), STATUS[3].replace(" R ", " C "), STATUS[4])
    accepted(play, RETAILER, "1012", "RECADV", corrected("1012", "G12", (PALLET, (ITEM, (194, 0)))))
    return play.status(STATUS[0], STATUS[1], article(PALLET, ITEM, "C", 12, 0, 0, 0, "-12"), STATUS[4])


def first_of_all():
    """A pallet that was only announced is received by an advice that replaces."""
    play = goods_in_turn()
    accepted(play, RETAILER, "1013", "RECADV", corrected("1013", "G13", (OTHER_PALLET, (ITEM, (194, 12)))))
    play.status(*STATUS[:4], article(OTHER_PALLET, ITEM, "C", 12, 12, 0, 0, "+0"))
    told(play, "1014", corrected("1014", "G14", (OTHER_PALLET, (ITEM, (194, 12))), function="9"), "refused B15")
    return play.status(*STATUS[:4], article(OTHER_PALLET, ITEM, "C", 12, 12, 0, 0, "+0"))


def several_units():
    """Units of one advice: each pallet by itself, and all of them or none."""
    play = goods_in_turn()
    both = ((PALLET, (ITEM, (194, 12))), (OTHER_PALLET, (ITEM, (194, 11), (196, 1))))
    told(play, "1015", corrected("1015", "G15", both[0], ("340123455000000036", (ITEM, (194, 1)))), "refused B14")
    play.status(*STATUS)
    told(play, "1016", corrected("1016", "G16", *both, function="9"), "refused B15")
    play.status(*STATUS)
    accepted(play, RETAILER, "1017", "RECADV", corrected("1017", "G17", *both))
    return play.status(
        STATUS[0], STATUS[1], article(PALLET, ITEM, "C", 12, 12, 0, 0, "+0"), article(OTHER_PALLET, ITEM, "C", 12, 11, 0, 1, "+0")
    )


def of_another():
    """A pallet of another supplier is unknown, and what was received of it stays."""
    play = accepted(goods_in_turn(), RETAILER, "1001", "ORDERS", interchange(RETAILER, "1001", order(supplier=BETA)))
    accepted(play, BETA, "S1", "DESADV", interchange(BETA, "S1", despatch("DA1", PALLET_OF_BETA, 5, supplier=BETA)))
    accepted(play, RETAILER, "1020", "RECADV", interchange(RETAILER, "1020", receipt("G20", PALLET_OF_BETA, supplier=BETA)))
    theirs = (
        "L 128576                                   1 04000862141404 W        48        43         0         0         5",
        article(PALLET_OF_BETA, ITEM, "R", 5, 10, 1, 0, "+6"),
        article(PALLET_OF_BETA, SECOND_ITEM, "R", 0, 3, 0, 0, "+3"),
    )
    play.status(*theirs, who=BETA)
    told(play, "1021", corrected("1021", "G21", (PALLET_OF_BETA, (ITEM, (194, 5)))), "refused B14")
    told(play, "1022", corrected("1022", "G22", TWELVE, supplier=BETA), "refused B14")
    play.status(*STATUS).status(*theirs, who=BETA)
    accepted(play, RETAILER, "1023", "RECADV", corrected("1023", "G23", TWELVE))
    return play.status(*CORRECTED).status(*theirs, who=BETA)


def before_any_despatch():
    """Nothing can be corrected that nobody announced; nor can sums be too great."""
    play = told(ordered(), "1007", CORRECTION, "refused B14")
    great = corrected("1008", "G4", (PALLET, (ITEM, (194, 500_000_000)), (ITEM, (194, 500_000_000))))
    return told(play, "1008", great, "refused M08").list(1)


def rows(*pallets):
    """The rows of pallets and of receipts in a file. A pallet is its SSCC, its supplier, its advice, what its `received` is, and its
    receipts."""
    return {
        "pallet": [(sscc.encode(), supplier.encode(), advice.encode(), received) for sscc, supplier, advice, received, *_ in pallets],
        "receipt": [(sscc.encode(), gtin.encode(), *sums) for sscc, _, _, _, *receipts in pallets for gtin, *sums in receipts],
    }


RECEIVED = (PALLET, ALPHA, "DA1", 1, (ITEM, 10, 1, 0), (SECOND_ITEM, 3, 0, 0))
COUNTED_AGAIN = (PALLET, ALPHA, "DA1", 2, (ITEM, 12, 0, 0))
OTHER = (OTHER_PALLET, ALPHA, "DA4")
PLAYS = [
    ("a receiving advice that replaces", correction(), rows(COUNTED_AGAIN, (*OTHER, 0))),
    ("corrections of a correction", again_and_again(), rows((PALLET, ALPHA, "DA1", 2, (ITEM, 0, 0, 0)), (*OTHER, 0))),
    ("a pallet that is first received by a correction", first_of_all(), rows(RECEIVED, (*OTHER, 2, (ITEM, 12, 0, 0)))),
    ("corrections of several pallets", several_units(), rows(COUNTED_AGAIN, (*OTHER, 2, (ITEM, 11, 0, 1)))),
    (
        "corrections and another supplier's pallets",
        of_another(),
        rows(COUNTED_AGAIN, (*OTHER, 0), (PALLET_OF_BETA, BETA, "DA1", 1, (ITEM, 10, 1, 0), (SECOND_ITEM, 3, 0, 0))),
    ),
    ("corrections of what was not despatched", before_any_despatch(), rows()),
]
CORRECTIONS = [play.case(name) for name, play, _ in PLAYS]
# the same over tables of SQL
CORRECTIONS += [replace(it, name=f"{it.name}, over SQL", words=["sql"]) for it in CORRECTIONS]
# what is played on a file, and what is wrong with it then
ON_FILES = [(name, play, {}, has_rows(left)) for name, play, left in PLAYS]
