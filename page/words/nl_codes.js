// @ts-check
// What the hub's codes mean in Dutch, their usual causes, and what to do then.

/** @type {Record<string, import("../hub/codes.js").Words>} */
export const CODES = {
  E01: {
    meaning: "Het bestand is langer dan 1.048.576 bytes.",
    cause: "Er zijn te veel berichten in één bestand gezet.",
    remedy: "Verdeel het over meerdere interchanges.",
  },
  E02: {
    meaning: "De servicestring (UNA) aan het begin is fout of afgekapt.",
    cause: "Het programma van de afzender gebruikt scheidingstekens die niet mogen, bijvoorbeeld één teken voor twee daarvan.",
    remedy: "Stel het programma in op de gewone scheidingstekens: : + . ? en de apostrof.",
  },
  E03: {
    meaning: "Het bestand bevat een teken dat in een interchange niet mag.",
    cause: "In een tekst staat een tab of een regeleinde, of het bestand is als UTF-8 opgeslagen.",
    remedy: "Haal het teken weg, of sla het bestand op als ISO 8859-1.",
  },
  E04: {
    meaning: "Het bestand is afgekapt: het eindigt midden in een segment.",
    cause: "Een overdracht is afgebroken, of het eindteken van het laatste segment ontbreekt.",
    remedy: "Verzend het hele bestand.",
  },
  E05: {
    meaning: "Waar een segmentnaam moet staan, staat in het bestand iets anders.",
    cause: "Het is geen EDIFACT, het bestand heeft een bytevolgorde-markering (BOM) of een tweede UNA, of in een tekst staat een apostrof zonder vrijgaveteken ervoor.",
    remedy: "Verstuur één interchange, met elke apostrof in een tekst als ?'.",
  },
  E06: {
    meaning: "Het bestand begint niet met UNB of eindigt niet met UNZ, of heeft een van beide twee keer.",
    cause: "Het bestand is onvolledig, of er staan meerdere interchanges in.",
    remedy: "Verzend elke interchange in zijn geheel en in een eigen bestand.",
  },
  E07: {
    meaning: "De kop (UNB) is fout: de syntaxis, afzender, ontvanger, datum, tijd of referentie.",
    cause: "Het programma van de afzender staat ingesteld op een andere syntaxis of versie, of op een andere qualifier dan 14.",
    remedy: "Stel het in op UNOC en versie 3, met een GLN en qualifier 14 voor afzender en ontvanger.",
  },
  E08: {
    meaning: "De afzender in het bestand is niet het bedrijf dat is ingelogd.",
    cause: "Het bestand is van een ander bedrijf, of het programma van de afzender heeft er een andere GLN voor.",
    remedy: "Log in als de afzender, of verbeter de afzender in UNB.",
  },
  E09: {
    meaning: "De ontvanger in het bestand is niet deze hub.",
    cause: "Het programma van de afzender heeft een andere GLN voor de hub.",
    remedy: "Verbeter de ontvanger in UNB: de GLN van de hub; een leverancier mag ook die van de retailer opgeven.",
  },
  E10: {
    meaning: "De berichten bestaan niet elk uit één UNH, de segmenten en één UNT.",
    cause: "Een UNH of UNT ontbreekt, of het programma van de afzender schrijft functionele groepen (UNG en UNE).",
    remedy: "Laat het bestand opnieuw schrijven, zonder groepen.",
  },
  E11: {
    meaning: "De kop van een bericht (UNH) is fout, of het aantal in de UNT is geen getal.",
    cause: "De berichtreferentie ontbreekt of is langer dan 14 tekens, of het berichttype is onvolledig.",
    remedy: "Verbeter UNH: een referentie, en een type zoals ORDRSP:D:01B:UN.",
  },
  E12: {
    meaning: "Het aantal segmenten in de UNT van een bericht is fout.",
    cause: "Een deel van het bericht ontbreekt, of het is met de hand gewijzigd.",
    remedy: "Laat het bestand opnieuw schrijven.",
  },
  E13: {
    meaning: "De UNT van een bericht heeft een andere referentie dan de UNH.",
    cause: "Het bericht is met de hand gewijzigd, of uit twee samengesteld.",
    remedy: "Laat het bestand opnieuw schrijven.",
  },
  E14: {
    meaning: "Het aantal berichten in UNZ is fout.",
    cause: "Er ontbreekt een bericht, of er is er met de hand een toegevoegd.",
    remedy: "Laat het bestand opnieuw schrijven.",
  },
  E15: {
    meaning: "Het einde van het bestand (UNZ) heeft een andere referentie dan het begin (UNB).",
    cause: "Het bestand is met de hand gewijzigd, of uit twee samengesteld.",
    remedy: "Laat het bestand opnieuw schrijven.",
  },
  E16: {
    meaning: "Twee berichten in het bestand hebben dezelfde referentie.",
    cause: "Een bericht is gekopieerd, of het programma van de afzender nummert zijn berichten niet.",
    remedy: "Geef elk bericht van een bestand een eigen referentie.",
  },
  E17: {
    meaning: "Het bestand is als test gemarkeerd, en de hub neemt geen tests aan.",
    cause: "Het programma van de afzender staat nog op testen.",
    remedy: "Laat de testindicator weg, en verzend het bestand opnieuw.",
  },
  E18: {
    meaning: "Het bestand heeft meer dan 999 berichten.",
    cause: "De berichten van een lange tijd zijn in één bestand gezet.",
    remedy: "Verdeel het over meerdere interchanges.",
  },
  E19: {
    meaning: "Het bestand heeft letters die zijn tekenset, UNOA of UNOB, niet heeft.",
    cause: "In een naam of een tekst staat een accent of een trema.",
    remedy: "Stel het programma van de afzender in op UNOC.",
  },
  E20: {
    meaning: "Een segment is langer dan 8.192 bytes.",
    cause: "Er staat een te lange tekst in, of een eindteken ontbreekt.",
    remedy: "Kort de tekst in, of beëindig het segment.",
  },
  M01: {
    meaning: "De hub neemt dit type bericht niet aan, of niet van deze kant.",
    cause: "Het bericht hoort bij de andere kant, of het programma van de afzender schrijft een andere versie dan D.01B.",
    remedy: "De retailer verzendt ORDERS en RECADV, een leverancier ORDRSP en DESADV, elk als D:01B:UN.",
  },
  M02: {
    meaning: "Het begin (BGM) of het documentnummer is fout.",
    cause: "Het documentnummer ontbreekt, is langer dan 35 tekens, of heeft een accent of een trema.",
    remedy: "Geef het 1 tot 35 letters zonder accent, cijfers of tekens.",
  },
  M03: {
    meaning: "De hub neemt deze functie van een bericht niet aan.",
    cause: "Het programma van de afzender verzendt een kopie, een wijziging of een annulering.",
    remedy: "Verzend originelen (functie 9). Een antwoord op een bestelling mag ook 4, 27 of 29 hebben, een ontvangstbericht 5.",
  },
  M04: {
    meaning: "De documentdatum ontbreekt, staat er twee keer, of is geen datum.",
    cause: "Het programma van de afzender schrijft een datum in een ander formaat, of een dag die niet bestaat.",
    remedy: "Geef precies één datum (DTM 137), in formaat 102 of 203.",
  },
  M05: {
    meaning: "De koper of de leverancier ontbreekt, staat er twee keer, of de GLN is fout.",
    cause: "Een controlecijfer is fout, of het programma van de afzender geeft een klantnummer in plaats van de GLN.",
    remedy: "Geef elke partij één keer, met de GLN en code 9.",
  },
  M06: {
    meaning: "Het slotdeel (UNS) ontbreekt of staat op de verkeerde plaats.",
    cause: "Het programma van de afzender laat het weg, of schrijft het vóór de laatste regel.",
    remedy: "Laat één UNS+S na de laatste regel schrijven.",
  },
  M07: {
    meaning: "Een regel is fout: het nummer, het artikel of het antwoord.",
    cause: "Het controlecijfer van een GTIN is fout, of er staat een eigen artikelnummer in plaats daarvan.",
    remedy: "Geef elke regel zijn nummer en de GTIN van het artikel.",
  },
  M08: {
    meaning: "Een aantal ontbreekt, staat er twee keer, of is niet geldig.",
    cause: "Het is geen geheel getal, staat in een andere eenheid dan stuks, of is nul in een bestelling of een zending.",
    remedy: "Geef elk aantal één keer, in hele stuks, hoogstens 999.999.999.",
  },
  M09: {
    meaning: "De verwijzing naar een bestelling ontbreekt of is fout.",
    cause: "Het programma van de afzender laat het bestelnummer weg, of een antwoord noemt twee bestellingen.",
    remedy: "Geef het nummer van de bestelling (RFF+ON) zoals het in de bestelling staat, en verzend een antwoord voor elke bestelling.",
  },
  M10: {
    meaning: "Een pallet is fout: de SSCC ontbreekt of is niet geldig, of twee pallets hebben dezelfde.",
    cause: "Het controlecijfer van een SSCC is fout, of er komt een regel vóór de eerste pallet.",
    remedy: "Geef elke pallet een eigen SSCC, en zet elke regel op een pallet.",
  },
  M11: {
    meaning: "Het aantal regels (CNT+2) is fout.",
    cause: "Er ontbreekt een regel, of het programma van de afzender telt iets anders.",
    remedy: "Laat het bericht opnieuw schrijven; het aantal mag ook weg.",
  },
  M12: {
    meaning: "Het bericht heeft geen regel.",
    cause: "Het document was nog leeg toen het werd verzonden.",
    remedy: "Verzend minstens één regel; alleen een antwoord op een hele bestelling (functie 27 of 29) heeft er geen nodig.",
  },
  B01: {
    meaning: "De koper in het bericht is niet de retailer van deze hub.",
    cause: "De GLN is die van een filiaal of van een andere klant.",
    remedy: "Geef de GLN van de retailer als koper.",
  },
  B02: {
    meaning: "De leverancier is niet in de hub geregistreerd, of is niet degene die is ingelogd.",
    cause: "De GLN van de leverancier is fout, of de retailer heeft de leverancier nog niet geregistreerd.",
    remedy: "Controleer de GLN. Zodra de retailer de leverancier heeft geregistreerd, verzendt u het opnieuw.",
  },
  B03: {
    meaning: "Onder dezelfde referentie is eerder iets anders verzonden.",
    cause: "Een document is gewijzigd en opnieuw verzonden, of het programma van de afzender is opnieuw gaan tellen.",
    remedy: "Verzend het onder een nieuwe referentie; de pagina neemt een nieuwe wanneer u opnieuw verzendt.",
  },
  B04: {
    meaning: "De leverancier heeft al een bestelling met dit nummer.",
    cause: "De bestelling is al eerder verzonden, of het nummer is voor een andere gebruikt.",
    remedy: "Is het een nieuwe bestelling, geef die dan een ander nummer.",
  },
  B05: {
    meaning: "De leverancier heeft zo'n bestelling niet.",
    cause: "Het bestelnummer is verkeerd getypt, of is het eigen nummer van de leverancier ervoor.",
    remedy: "Geef het nummer zoals het in de bestelling staat.",
  },
  B06: {
    meaning: "De bestelling heeft zo'n regel niet, of het is niet duidelijk welke regel wordt bedoeld.",
    cause: "Het regelnummer is fout; of er is geen gegeven, en het artikel staat op geen enkele regel of op meerdere.",
    remedy: "Geef het regelnummer zoals het in de bestelling staat.",
  },
  B07: {
    meaning: "De regel wacht niet meer op een antwoord.",
    cause: "Hij is al beantwoord, misschien door een collega.",
    remedy: "Kijk in de status: daar staat het antwoord dat geldt.",
  },
  B08: {
    meaning: "Het gewijzigde aantal is minder dan wat is verzonden, of meer dan dat en wat openstaat samen.",
    cause: "Het is meer dan besteld, of een deel is al verzonden of geannuleerd.",
    remedy: "Kijk in de status, en geef een aantal daartussen.",
  },
  B09: {
    meaning: "De regel heeft een ander artikel.",
    cause: "Het regelnummer is fout, of er is een vervangend artikel geleverd.",
    remedy: "Geef de regel en het artikel zoals ze in de bestelling staan.",
  },
  B10: {
    meaning: "Er is meer verzonden dan er openstaat.",
    cause: "Een deel van de regel is al verzonden, geweigerd of geannuleerd.",
    remedy: "Kijk in de status, en verlaag het aantal.",
  },
  B11: {
    meaning: "De SSCC valt onder geen van de bedrijfsprefixen van de leverancier.",
    cause: "De SSCC is van een ander bedrijf, of de prefix is niet in de hub geregistreerd.",
    remedy: "Gebruik de prefix die GS1 u heeft gegeven, en vraag de retailer welke prefixen zijn geregistreerd.",
  },
  B12: {
    meaning: "De SSCC is al gebruikt.",
    cause: "De zending is al eerder verzonden, of het programma van de afzender is opnieuw met zijn serienummers begonnen.",
    remedy: "Neem een nieuwe: een SSCC wordt maar één keer gebruikt.",
  },
  B13: {
    meaning: "De leverancier heeft al een verzendbericht met dit nummer verzonden.",
    cause: "De zending is al eerder verzonden, of het nummer is voor een andere gebruikt.",
    remedy: "Is het een nieuwe zending, geef die dan een ander nummer.",
  },
  B14: {
    meaning: "De leverancier heeft zo'n pallet niet aangekondigd.",
    cause: "De SSCC is verkeerd getypt, of het verzendbericht is er nog niet.",
    remedy: "Controleer de SSCC. Zodra het verzendbericht er is, verzendt u het ontvangstbericht opnieuw.",
  },
  B15: {
    meaning: "De pallet is al ontvangen.",
    cause: "Het ontvangstbericht is al eerder verzonden, of dezelfde pallet is twee keer geteld.",
    remedy: "Verzend een ontvangstbericht met functie 5 om een eerder te verbeteren.",
  },
  B16: {
    meaning: "Het postvak van de leverancier is vol.",
    cause: "Het heeft 99.999.999.999.999 items, en meer past er niet in.",
    remedy: "Vraag het de beheerder van de hub: de leverancier heeft een andere hub nodig.",
  },
  B17: {
    meaning: "Er wordt meer geannuleerd dan er openstaat.",
    cause: "De leverancier heeft intussen een deel van de regel verzonden of geweigerd.",
    remedy: "Kijk in de status, en verlaag het aantal.",
  },
  B18: {
    meaning: "De GLN is al van de hub, de retailer of een leverancier.",
    cause: "De leverancier is al geregistreerd, misschien door een opdracht waarvan het antwoord verloren ging.",
    remedy: "Staat de leverancier in de hub, dan hoeft er niets meer te gebeuren; zo niet, controleer dan de GLN.",
  },
  B19: {
    meaning: "Een bedrijfsprefix is het begin van die van een andere leverancier, of omgekeerd.",
    cause: "Een van beide prefixen is verkeerd getypt of te kort.",
    remedy: "Vraag beide leveranciers welke prefix GS1 hun heeft gegeven.",
  },
  B20: {
    meaning: "De hub heeft 1.000 leveranciers, en meer passen er niet in.",
    cause: "Geen leverancier verlaat ooit een hub, dus raakt hij vol.",
    remedy: "Richt een andere hub in voor verdere leveranciers.",
  },
};
