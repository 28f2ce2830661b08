// @ts-check
// What the hub's codes mean in German, their usual causes, and what to do then.

/** @type {Record<string, import("../hub/codes.js").Words>} */
export const CODES = {
  E01: {
    meaning: "Die Datei ist länger als 1.048.576 Byte.",
    cause: "In eine Datei wurden zu viele Nachrichten gepackt.",
    remedy: "Teilen Sie sie in mehrere Übertragungsdateien.",
  },
  E02: {
    meaning: "Die Trennzeichenvorgabe (UNA) am Anfang ist falsch oder abgeschnitten.",
    cause: "Das Programm des Absenders verwendet Trennzeichen, die nicht erlaubt sind, etwa ein Zeichen für zwei davon.",
    remedy: "Stellen Sie das Programm auf die üblichen Trennzeichen ein: : + . ? und das Apostroph.",
  },
  E03: {
    meaning: "Die Datei hat ein Zeichen, das in einer Übertragungsdatei nicht erlaubt ist.",
    cause: "In einem Text steht ein Tabulator oder ein Zeilenumbruch, oder die Datei wurde als UTF-8 gespeichert.",
    remedy: "Nehmen Sie das Zeichen heraus, oder speichern Sie die Datei als ISO 8859-1.",
  },
  E04: {
    meaning: "Die Datei ist abgeschnitten: Sie endet mitten in einem Segment.",
    cause: "Eine Übertragung brach ab, oder das Endezeichen des letzten Segments fehlt.",
    remedy: "Senden Sie die ganze Datei.",
  },
  E05: {
    meaning: "Wo ein Segmentname stehen muss, steht in der Datei etwas anderes.",
    cause: "Es ist kein EDIFACT, die Datei hat eine Bytereihenfolge-Marke (BOM) oder ein zweites UNA, oder in einem Text steht ein Apostroph ohne Freigabezeichen davor.",
    remedy: "Senden Sie eine einzige Übertragungsdatei, mit jedem Apostroph in einem Text als ?'.",
  },
  E06: {
    meaning: "Die Datei beginnt nicht mit UNB oder endet nicht mit UNZ, oder sie hat eines davon zweimal.",
    cause: "Die Datei ist unvollständig, oder mehrere Übertragungsdateien stehen darin.",
    remedy: "Senden Sie jede Übertragungsdatei ganz und in einer eigenen Datei.",
  },
  E07: {
    meaning: "Der Kopf (UNB) ist falsch: seine Syntax, Absender, Empfänger, Datum, Uhrzeit oder Referenz.",
    cause: "Das Programm des Absenders ist auf eine andere Syntax oder Version oder auf einen anderen Qualifier als 14 eingestellt.",
    remedy: "Stellen Sie es auf UNOC und Version 3 ein, mit einer GLN und dem Qualifier 14 für Absender und Empfänger.",
  },
  E08: {
    meaning: "Der Absender in der Datei ist nicht das Unternehmen, das angemeldet ist.",
    cause: "Die Datei gehört einem anderen Unternehmen, oder das Programm des Absenders hat dafür eine andere GLN.",
    remedy: "Melden Sie sich als der Absender an, oder berichtigen Sie den Absender in UNB.",
  },
  E09: {
    meaning: "Der Empfänger in der Datei ist nicht dieser Hub.",
    cause: "Das Programm des Absenders hat für den Hub eine andere GLN.",
    remedy: "Berichtigen Sie den Empfänger in UNB: die GLN des Hubs; ein Lieferant darf auch die des Händlers angeben.",
  },
  E10: {
    meaning: "Die Nachrichten bestehen nicht jede aus einem UNH, ihren Segmenten und einem UNT.",
    cause: "Ein UNH oder UNT fehlt, oder das Programm des Absenders schreibt Nachrichtengruppen (UNG und UNE).",
    remedy: "Lassen Sie die Datei noch einmal ohne Gruppen schreiben.",
  },
  E11: {
    meaning: "Der Kopf einer Nachricht (UNH) ist falsch, oder die Anzahl in ihrem UNT ist keine Zahl.",
    cause: "Die Nachrichtenreferenz fehlt oder ist länger als 14 Zeichen, oder die Nachrichtenart ist unvollständig.",
    remedy: "Berichtigen Sie UNH: eine Referenz und eine Art wie ORDRSP:D:01B:UN.",
  },
  E12: {
    meaning: "Die Anzahl der Segmente im UNT einer Nachricht ist falsch.",
    cause: "Ein Teil der Nachricht fehlt, oder sie wurde von Hand geändert.",
    remedy: "Lassen Sie die Datei noch einmal schreiben.",
  },
  E13: {
    meaning: "Das UNT einer Nachricht hat eine andere Referenz als ihr UNH.",
    cause: "Die Nachricht wurde von Hand geändert oder aus zweien zusammengesetzt.",
    remedy: "Lassen Sie die Datei noch einmal schreiben.",
  },
  E14: {
    meaning: "Die Anzahl der Nachrichten in UNZ ist falsch.",
    cause: "Eine Nachricht fehlt oder wurde von Hand hinzugefügt.",
    remedy: "Lassen Sie die Datei noch einmal schreiben.",
  },
  E15: {
    meaning: "Das Ende der Datei (UNZ) hat eine andere Referenz als ihr Anfang (UNB).",
    cause: "Die Datei wurde von Hand geändert oder aus zweien zusammengesetzt.",
    remedy: "Lassen Sie die Datei noch einmal schreiben.",
  },
  E16: {
    meaning: "Zwei Nachrichten in der Datei haben dieselbe Referenz.",
    cause: "Eine Nachricht wurde kopiert, oder das Programm des Absenders nummeriert seine Nachrichten nicht.",
    remedy: "Geben Sie jeder Nachricht einer Datei eine eigene Referenz.",
  },
  E17: {
    meaning: "Die Datei ist als Test gekennzeichnet, und der Hub nimmt keine Tests.",
    cause: "Das Programm des Absenders steht noch auf Test.",
    remedy: "Lassen Sie das Testkennzeichen weg, und senden Sie die Datei noch einmal.",
  },
  E18: {
    meaning: "Die Datei hat mehr als 999 Nachrichten.",
    cause: "Die Nachrichten einer langen Zeit wurden in eine Datei gepackt.",
    remedy: "Teilen Sie sie in mehrere Übertragungsdateien.",
  },
  E19: {
    meaning: "Die Datei hat Buchstaben, die ihr Zeichensatz, UNOA oder UNOB, nicht hat.",
    cause: "Ein Name oder ein Text hat einen Umlaut oder einen Akzent.",
    remedy: "Stellen Sie das Programm des Absenders auf UNOC ein.",
  },
  E20: {
    meaning: "Ein Segment ist länger als 8.192 Byte.",
    cause: "Ein Text darin ist zu lang, oder ein Endezeichen fehlt.",
    remedy: "Kürzen Sie den Text, oder beenden Sie das Segment.",
  },
  M01: {
    meaning: "Der Hub nimmt diese Nachrichtenart nicht, oder nicht von dieser Seite.",
    cause: "Die Nachricht gehört der anderen Seite, oder das Programm des Absenders schreibt eine andere Version als D.01B.",
    remedy: "Der Händler sendet ORDERS und RECADV, ein Lieferant ORDRSP und DESADV, jeweils als D:01B:UN.",
  },
  M02: {
    meaning: "Der Anfang (BGM) oder die Dokumentnummer ist falsch.",
    cause: "Die Dokumentnummer fehlt, ist länger als 35 Zeichen oder hat einen Umlaut oder einen Akzent.",
    remedy: "Geben Sie ihr 1 bis 35 Buchstaben ohne Umlaute, Ziffern oder Zeichen.",
  },
  M03: {
    meaning: "Der Hub nimmt diese Funktion einer Nachricht nicht.",
    cause: "Das Programm des Absenders sendet eine Kopie, eine Änderung oder eine Stornierung.",
    remedy: "Senden Sie Originale (Funktion 9). Eine Bestellantwort darf auch 4, 27 oder 29 haben, eine Wareneingangsmeldung 5.",
  },
  M04: {
    meaning: "Das Dokumentdatum fehlt, kommt zweimal vor oder ist kein Datum.",
    cause: "Das Programm des Absenders schreibt ein Datum in einem anderen Format oder einen Tag, den es nicht gibt.",
    remedy: "Geben Sie genau ein Datum (DTM 137) im Format 102 oder 203 an.",
  },
  M05: {
    meaning: "Der Käufer oder der Lieferant fehlt, kommt zweimal vor, oder seine GLN ist falsch.",
    cause: "Eine Prüfziffer ist falsch, oder das Programm des Absenders gibt statt der GLN eine Kundennummer an.",
    remedy: "Geben Sie jeden Beteiligten einmal an, mit seiner GLN und dem Code 9.",
  },
  M06: {
    meaning: "Der Abschlussteil (UNS) fehlt oder steht an der falschen Stelle.",
    cause: "Das Programm des Absenders lässt ihn weg oder schreibt ihn vor die letzte Position.",
    remedy: "Lassen Sie ein UNS+S nach der letzten Position schreiben.",
  },
  M07: {
    meaning: "Eine Position ist falsch: ihre Nummer, ihr Artikel oder ihre Antwort.",
    cause: "Die Prüfziffer einer GTIN ist falsch, oder stattdessen ist eine eigene Artikelnummer angegeben.",
    remedy: "Geben Sie jeder Position ihre Nummer und die GTIN ihres Artikels.",
  },
  M08: {
    meaning: "Eine Menge fehlt, kommt zweimal vor oder ist nicht gültig.",
    cause: "Sie ist keine ganze Zahl, steht in einer anderen Einheit als Stück oder ist in einer Bestellung oder Lieferung null.",
    remedy: "Geben Sie jede Menge einmal an, in ganzen Stück, höchstens 999.999.999.",
  },
  M09: {
    meaning: "Der Bezug auf eine Bestellung fehlt oder ist falsch.",
    cause: "Das Programm des Absenders lässt die Bestellnummer weg, oder eine Antwort nennt zwei Bestellungen.",
    remedy:
      "Geben Sie die Bestellnummer (RFF+ON) an, wie sie in der Bestellung steht, und senden Sie für jede Bestellung eine eigene Antwort.",
  },
  M10: {
    meaning: "Eine Palette ist falsch: Ihre SSCC fehlt oder ist nicht gültig, oder zwei Paletten haben dieselbe.",
    cause: "Die Prüfziffer einer SSCC ist falsch, oder eine Position steht vor der ersten Palette.",
    remedy: "Geben Sie jeder Palette eine eigene SSCC, und ordnen Sie jede Position einer Palette zu.",
  },
  M11: {
    meaning: "Die Anzahl der Positionen (CNT+2) ist falsch.",
    cause: "Eine Position fehlt, oder das Programm des Absenders zählt etwas anderes.",
    remedy: "Lassen Sie die Nachricht noch einmal schreiben; die Anzahl darf auch fehlen.",
  },
  M12: {
    meaning: "Die Nachricht hat keine Position.",
    cause: "Das Dokument war noch leer, als es gesendet wurde.",
    remedy: "Senden Sie mindestens eine Position; nur eine Antwort auf eine ganze Bestellung (Funktion 27 oder 29) braucht keine.",
  },
  B01: {
    meaning: "Der Käufer in der Nachricht ist nicht der Händler dieses Hubs.",
    cause: "Die GLN gehört einer Filiale oder einem anderen Kunden.",
    remedy: "Geben Sie als Käufer die GLN des Händlers an.",
  },
  B02: {
    meaning: "Der Lieferant ist im Hub nicht registriert, oder es ist nicht der angemeldete.",
    cause: "Die GLN des Lieferanten ist falsch, oder der Händler hat ihn noch nicht registriert.",
    remedy: "Prüfen Sie die GLN. Sobald der Händler den Lieferanten registriert hat, senden Sie es noch einmal.",
  },
  B03: {
    meaning: "Unter derselben Referenz wurde früher etwas anderes gesendet.",
    cause: "Ein Dokument wurde geändert und noch einmal gesendet, oder das Programm des Absenders fing wieder von vorn zu zählen an.",
    remedy: "Senden Sie es unter einer neuen Referenz; die Seite nimmt eine neue, wenn Sie noch einmal senden.",
  },
  B04: {
    meaning: "Der Lieferant hat schon eine Bestellung mit dieser Nummer.",
    cause: "Die Bestellung wurde schon gesendet, oder ihre Nummer gehörte einer anderen.",
    remedy: "Wenn es eine neue Bestellung ist, geben Sie ihr eine andere Nummer.",
  },
  B05: {
    meaning: "Der Lieferant hat keine solche Bestellung.",
    cause: "Die Bestellnummer ist vertippt oder ist die eigene Nummer des Lieferanten dafür.",
    remedy: "Geben Sie die Nummer an, wie sie in der Bestellung steht.",
  },
  B06: {
    meaning: "Die Bestellung hat keine solche Position, oder es ist nicht klar, welche gemeint ist.",
    cause: "Die Positionsnummer ist falsch; oder es ist keine angegeben, und der Artikel kommt in keiner Position oder in mehreren vor.",
    remedy: "Geben Sie die Positionsnummer an, wie sie in der Bestellung steht.",
  },
  B07: {
    meaning: "Die Position wartet nicht mehr auf eine Antwort.",
    cause: "Sie wurde schon beantwortet, vielleicht von einer Kollegin oder einem Kollegen.",
    remedy: "Sehen Sie im Status nach: Dort steht die Antwort, die gilt.",
  },
  B08: {
    meaning: "Die geänderte Menge ist kleiner als das, was versandt ist, oder größer als das und das Offene zusammen.",
    cause: "Es ist mehr, als bestellt wurde, oder ein Teil wurde schon versandt oder storniert.",
    remedy: "Sehen Sie im Status nach, und geben Sie eine Menge dazwischen an.",
  },
  B09: {
    meaning: "Die Position hat einen anderen Artikel.",
    cause: "Die Positionsnummer ist falsch, oder es wurde ein Ersatzartikel geliefert.",
    remedy: "Geben Sie Position und Artikel an, wie sie in der Bestellung stehen.",
  },
  B10: {
    meaning: "Es ist mehr versandt, als offen ist.",
    cause: "Ein Teil der Position wurde schon versandt, abgelehnt oder storniert.",
    remedy: "Sehen Sie im Status nach, und verringern Sie die Menge.",
  },
  B11: {
    meaning: "Die SSCC gehört zu keiner Basisnummer des Lieferanten.",
    cause: "Die SSCC gehört einem anderen Unternehmen, oder die Basisnummer ist im Hub nicht registriert.",
    remedy: "Verwenden Sie die Basisnummer, die GS1 Ihnen gegeben hat, und fragen Sie den Händler, welche registriert sind.",
  },
  B12: {
    meaning: "Die SSCC wurde schon verwendet.",
    cause: "Die Lieferung wurde schon gesendet, oder das Programm des Absenders fing mit seinen laufenden Nummern wieder von vorn an.",
    remedy: "Nehmen Sie eine neue: Eine SSCC gilt nur einmal.",
  },
  B13: {
    meaning: "Der Lieferant hat schon ein Lieferavis mit dieser Nummer gesendet.",
    cause: "Die Lieferung wurde schon gesendet, oder ihre Nummer gehörte einer anderen.",
    remedy: "Wenn es eine neue Lieferung ist, geben Sie ihr eine andere Nummer.",
  },
  B14: {
    meaning: "Der Lieferant hat keine solche Palette avisiert.",
    cause: "Die SSCC ist vertippt, oder das Lieferavis ist noch nicht da.",
    remedy: "Prüfen Sie die SSCC. Sobald das Lieferavis da ist, senden Sie die Wareneingangsmeldung noch einmal.",
  },
  B15: {
    meaning: "Die Palette ist schon eingegangen.",
    cause: "Die Wareneingangsmeldung wurde schon gesendet, oder dieselbe Palette wurde zweimal gezählt.",
    remedy: "Um eine Meldung zu berichtigen, senden Sie eine mit Funktion 5.",
  },
  B16: {
    meaning: "Das Postfach des Lieferanten ist voll.",
    cause: "Es hat 99.999.999.999.999 Einträge, und mehr fasst es nicht.",
    remedy: "Fragen Sie den Betreiber des Hubs: Der Lieferant braucht einen anderen Hub.",
  },
  B17: {
    meaning: "Es soll mehr storniert werden, als offen ist.",
    cause: "Der Lieferant hat inzwischen einen Teil der Position versandt oder abgelehnt.",
    remedy: "Sehen Sie im Status nach, und verringern Sie die Menge.",
  },
  B18: {
    meaning: "Die GLN gehört schon dem Hub, dem Händler oder einem Lieferanten.",
    cause: "Der Lieferant wurde schon registriert, vielleicht durch einen Befehl, dessen Antwort verloren ging.",
    remedy: "Ist der Lieferant im Hub, so ist nichts mehr zu tun; wenn nicht, prüfen Sie die GLN.",
  },
  B19: {
    meaning: "Eine Basisnummer ist der Anfang der eines anderen Lieferanten, oder umgekehrt.",
    cause: "Eine der beiden Basisnummern ist vertippt oder zu kurz.",
    remedy: "Fragen Sie beide Lieferanten, welche Basisnummer GS1 ihnen gegeben hat.",
  },
  B20: {
    meaning: "Der Hub hat 1.000 Lieferanten, und mehr fasst er nicht.",
    cause: "Kein Lieferant verlässt je einen Hub, so füllt er sich.",
    remedy: "Richten Sie für weitere Lieferanten einen anderen Hub ein.",
  },
};
