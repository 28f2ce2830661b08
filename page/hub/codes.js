// @ts-check
// What the hub's codes mean, their usual causes, and what to do then: written from docs/codes.toml by `python3 -m tests.codes --write`.

/** @typedef {{ meaning: string, cause: string, remedy: string }} Words */

/** @type {Record<string, Words>} */
export const CODES = {
  E01: {
    meaning: "The file is longer than 1,048,576 bytes.",
    cause: "Too many messages are in one file.",
    remedy: "Split it into several interchanges.",
  },
  E02: {
    meaning: "The service string (UNA) at the beginning is wrong or cut off.",
    cause: "The sender's program uses one character for two separators, or a wrong one.",
    remedy: "Use the usual separators: + . ? and the apostrophe.",
  },
  E03: {
    meaning: "The file has a character that is not allowed in an interchange.",
    cause: "A text contains a tab or a line break, or the file was saved as UTF-8.",
    remedy: "Remove the character, or save the file as ISO 8859-1.",
  },
  E04: {
    meaning: "The file is cut off: it ends inside a segment.",
    cause: "A transfer broke off, or the last terminator is missing.",
    remedy: "Send the whole file.",
  },
  E05: {
    meaning: "The file has something other than a segment's tag where one has to be.",
    cause: "It is not EDIFACT, has a byte order mark or a second UNA, or a text has an apostrophe without a release character.",
    remedy: "Send one interchange, with each apostrophe in a text as ?'.",
  },
  E06: {
    meaning: "The file does not begin with UNB and end with UNZ, or has one of them twice.",
    cause: "The file is incomplete, or has several interchanges.",
    remedy: "Send each interchange whole, in its own file.",
  },
  E07: {
    meaning: "The header (UNB) is wrong: its syntax, sender, recipient, date, time or reference.",
    cause: "The sender's program has another syntax, version or qualifier.",
    remedy: "Set it to UNOC and version 3, and qualifier 14 for both GLNs.",
  },
  E08: {
    meaning: "The sender in the file is not the company that is signed in.",
    cause: "The file is another company's, or the sender's program has a wrong GLN.",
    remedy: "Sign in as the sender, or correct the sender in UNB.",
  },
  E09: {
    meaning: "The recipient in the file is not this hub.",
    cause: "The sender's program has the wrong GLN for the hub.",
    remedy: "Give the hub's GLN; a supplier may also give the retailer's.",
  },
  E10: {
    meaning: "The messages are not each one UNH, its segments and one UNT.",
    cause: "A UNH or UNT is missing, or there are groups (UNG and UNE).",
    remedy: "Write the file again, without groups.",
  },
  E11: {
    meaning: "A message's header (UNH) is wrong, or the count in its UNT is not a number.",
    cause: "The message reference is missing or too long, or the type is incomplete.",
    remedy: "Correct UNH: a reference, and a type such as ORDRSP:D:01B:UN.",
  },
  E12: {
    meaning: "The count of segments in a message's UNT is wrong.",
    cause: "Part of the message is missing, or it was changed by hand.",
    remedy: "Write the file again.",
  },
  E13: {
    meaning: "A message's UNT has another reference than its UNH.",
    cause: "The message was changed by hand, or is put together from two.",
    remedy: "Write the file again.",
  },
  E14: {
    meaning: "The count of messages in UNZ is wrong.",
    cause: "A message is missing, or was added by hand.",
    remedy: "Write the file again.",
  },
  E15: {
    meaning: "The end of the file (UNZ) has another reference than its beginning (UNB).",
    cause: "The file was changed by hand, or is put together from two.",
    remedy: "Write the file again.",
  },
  E16: {
    meaning: "Two messages in the file have the same reference.",
    cause: "A message was copied, or the sender's program does not number its messages.",
    remedy: "Give each message of a file its own reference.",
  },
  E17: {
    meaning: "The file is marked as a test, and the hub takes no tests.",
    cause: "The sender's program is still set to testing.",
    remedy: "Leave the test indicator out.",
  },
  E18: {
    meaning: "The file has more than 999 messages.",
    cause: "The messages of a long time are in one file.",
    remedy: "Split it into several interchanges.",
  },
  E19: {
    meaning: "The file has letters that its character set, UNOA or UNOB, does not have.",
    cause: "A name or a text has an umlaut or an accent.",
    remedy: "Set the sender's program to UNOC.",
  },
  E20: {
    meaning: "A segment is longer than 8,192 bytes.",
    cause: "A text in it is too long, or a terminator is missing.",
    remedy: "Shorten the text, or end the segment.",
  },
  M01: {
    meaning: "The hub does not take this type of message, or not from this side.",
    cause: "The other side sends such messages, or the version is not D.01B.",
    remedy: "The retailer sends ORDERS and RECADV, a supplier ORDRSP and DESADV, as D:01B:UN.",
  },
  M02: {
    meaning: "The beginning (BGM) or the document number is wrong.",
    cause: "The document number is missing, too long, or has an umlaut or an accent.",
    remedy: "Give it 1 to 35 plain letters, digits or signs.",
  },
  M03: {
    meaning: "The hub does not take this function of a message.",
    cause: "The sender's program sends a copy, a change or a cancellation.",
    remedy: "Send function 9; an answer may also have 4, 27 or 29, a receipt 5.",
  },
  M04: {
    meaning: "The document date is missing, there are two, or it is not a date.",
    cause: "Another format is written, or a day that does not exist.",
    remedy: "Give exactly one date (DTM 137), in format 102 or 203.",
  },
  M05: {
    meaning: "The buyer or the supplier is missing, there are two, or its GLN is wrong.",
    cause: "A check digit is wrong, or a customer number is given instead of the GLN.",
    remedy: "Give each party once, by its GLN with code 9.",
  },
  M06: {
    meaning: "The summary (UNS) is missing or in the wrong place.",
    cause: "The sender's program leaves it out, or writes it before the last line.",
    remedy: "Write one UNS+S after the last line.",
  },
  M07: {
    meaning: "A line is wrong: its number, its article or its answer.",
    cause: "The GTIN's check digit is wrong, or it is a company's own article number.",
    remedy: "Give each line its number and the GTIN of its article.",
  },
  M08: {
    meaning: "A quantity is missing, there are two, or it is not valid.",
    cause: "It is not a whole number, not in pieces, or zero.",
    remedy: "Give each quantity once, in whole pieces, at most 999,999,999.",
  },
  M09: {
    meaning: "The reference to an order is missing or wrong.",
    cause: "The order number is left out, or an answer names two orders.",
    remedy: "Give the order's number (RFF+ON); answer each order by itself.",
  },
  M10: {
    meaning: "A pallet is wrong: its SSCC is missing or not valid, or two pallets have it.",
    cause: "The check digit of an SSCC is wrong, or a line comes before the first pallet.",
    remedy: "Give each pallet its own SSCC, and put each line on a pallet.",
  },
  M11: {
    meaning: "The count of lines (CNT+2) is wrong.",
    cause: "A line is missing, or the sender's program counts something else.",
    remedy: "Write the message again, perhaps without the count.",
  },
  M12: {
    meaning: "The message has no line.",
    cause: "The document was still empty.",
    remedy: "Send at least one line, except with function 27 or 29.",
  },
  B01: {
    meaning: "The buyer in the message is not this hub's retailer.",
    cause: "The GLN is a branch's or another customer's.",
    remedy: "Give the retailer's GLN as the buyer.",
  },
  B02: {
    meaning: "The supplier is not registered in the hub, or is not the one that is signed in.",
    cause: "The GLN is wrong, or the supplier is not registered yet.",
    remedy: "Check the GLN. Once the supplier is registered, send the message again.",
  },
  B03: {
    meaning: "Something else was sent under the same reference before.",
    cause: "A document was changed and sent again, or the sender's program began to count again.",
    remedy: "Send it under a new reference; the page takes a new one when you send again.",
  },
  B04: {
    meaning: "The supplier already has an order of this number.",
    cause: "The order was sent before, or its number was used again.",
    remedy: "If it is a new order, give it another number.",
  },
  B05: {
    meaning: "The supplier has no such order.",
    cause: "The order number is mistyped, or is the supplier's own.",
    remedy: "Give the number as it is in the order.",
  },
  B06: {
    meaning: "The order has no such line, or it is not clear which line is meant.",
    cause: "The line number is wrong; or it is missing, and the article is on no line or several.",
    remedy: "Give the line's number as it is in the order.",
  },
  B07: {
    meaning: "The line does not wait for an answer any more.",
    cause: "It was answered before, perhaps by a colleague.",
    remedy: "Look at the status: it has the answer that counts.",
  },
  B08: {
    meaning: "The changed quantity is less than what is despatched, or more than that and what is open together.",
    cause: "It is more than was ordered, or part was despatched or cancelled.",
    remedy: "Look at the status, and give a quantity between the two.",
  },
  B09: {
    meaning: "The line has another article.",
    cause: "The line number is wrong, or a substitute was delivered.",
    remedy: "Give the line and its article as they are in the order.",
  },
  B10: {
    meaning: "More is despatched than is open.",
    cause: "Part of the line was despatched, refused or cancelled before.",
    remedy: "Look at the status, and lower the quantity.",
  },
  B11: {
    meaning: "The SSCC is under none of the supplier's company prefixes.",
    cause: "The SSCC is another company's, or the prefix is not registered.",
    remedy: "Use your GS1 prefix, and ask the retailer which are registered.",
  },
  B12: {
    meaning: "The SSCC was used before.",
    cause: "The despatch was sent before, or serial numbers began again.",
    remedy: "Take a new one: an SSCC is used only once.",
  },
  B13: {
    meaning: "The supplier has sent a despatch advice of this number before.",
    cause: "The despatch was sent before, or its number was used again.",
    remedy: "If it is a new despatch, give it another number.",
  },
  B14: {
    meaning: "The supplier has announced no such pallet.",
    cause: "The SSCC is mistyped, or the despatch advice has not come yet.",
    remedy: "Check the SSCC. Once the despatch advice has come, send the receipt again.",
  },
  B15: {
    meaning: "The pallet was received before.",
    cause: "The receipt was sent before, or the same pallet was counted twice.",
    remedy: "To correct a receipt, send one with function 5.",
  },
  B16: {
    meaning: "The supplier's mailbox is full.",
    cause: "This hardly happens.",
    remedy: "Ask the hub's operator: the supplier needs another hub.",
  },
  B17: {
    meaning: "More is cancelled than is open.",
    cause: "Meanwhile the supplier has despatched or refused part of the line.",
    remedy: "Look at the status, and lower the quantity.",
  },
  B18: {
    meaning: "The GLN is already the hub's, the retailer's or a supplier's.",
    cause: "The supplier was registered before, perhaps by a command whose answer was lost.",
    remedy: "If the supplier is in the hub, you are done; if not, check the GLN.",
  },
  B19: {
    meaning: "A company prefix begins one of another supplier, or is begun by it.",
    cause: "One of the two prefixes is mistyped or cut short.",
    remedy: "Ask both suppliers which prefix GS1 gave them.",
  },
  B20: {
    meaning: "The hub has 1,000 suppliers, the most that it takes.",
    cause: "No supplier ever leaves a hub.",
    remedy: "Set up another hub for further suppliers.",
  },
};
