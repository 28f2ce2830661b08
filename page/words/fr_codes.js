// @ts-check
// What the hub's codes mean in French, their usual causes, and what to do then.

/** @type {Record<string, import("../hub/codes.js").Words>} */
export const CODES = {
  E01: {
    meaning: "Le fichier dépasse 1 048 576 octets.",
    cause: "Trop de messages ont été mis dans un seul fichier.",
    remedy: "Répartissez-les en plusieurs interchanges.",
  },
  E02: {
    meaning: "La chaîne de service (UNA) au début est erronée ou tronquée.",
    cause: "Le programme de l'expéditeur utilise des séparateurs non autorisés, par exemple un même caractère pour deux d'entre eux.",
    remedy: "Réglez le programme sur les séparateurs habituels : : + . ? et l'apostrophe.",
  },
  E03: {
    meaning: "Le fichier contient un caractère interdit dans un interchange.",
    cause: "Un texte contient une tabulation ou un saut de ligne, ou le fichier a été enregistré en UTF-8.",
    remedy: "Retirez ce caractère, ou enregistrez le fichier en ISO 8859-1.",
  },
  E04: {
    meaning: "Le fichier est tronqué : il se termine au milieu d'un segment.",
    cause: "Un transfert s'est interrompu, ou la fin du dernier segment manque.",
    remedy: "Envoyez le fichier entier.",
  },
  E05: {
    meaning: "Le fichier contient autre chose qu'un nom de segment là où il en faut un.",
    cause: "Ce n'est pas de l'EDIFACT, le fichier a une marque d'ordre des octets (BOM) ou un second UNA, ou un texte contient une apostrophe sans caractère d'échappement devant elle.",
    remedy: "Envoyez un seul interchange, avec chaque apostrophe d'un texte sous la forme ?'.",
  },
  E06: {
    meaning: "Le fichier ne commence pas par UNB ou ne finit pas par UNZ, ou contient deux fois l'un des deux.",
    cause: "Le fichier est incomplet, ou contient plusieurs interchanges.",
    remedy: "Envoyez chaque interchange en entier, dans son propre fichier.",
  },
  E07: {
    meaning: "L'en-tête (UNB) est erroné : sa syntaxe, l'expéditeur, le destinataire, la date, l'heure ou la référence.",
    cause: "Le programme de l'expéditeur est réglé sur une autre syntaxe ou version, ou sur un qualifiant autre que 14.",
    remedy: "Réglez-le sur UNOC et la version 3, avec un GLN et le qualifiant 14 pour l'expéditeur et le destinataire.",
  },
  E08: {
    meaning: "L'expéditeur indiqué dans le fichier n'est pas l'entreprise connectée.",
    cause: "Le fichier appartient à une autre entreprise, ou le programme de l'expéditeur a un autre GLN pour elle.",
    remedy: "Connectez-vous comme l'expéditeur, ou corrigez l'expéditeur dans UNB.",
  },
  E09: {
    meaning: "Le destinataire indiqué dans le fichier n'est pas ce hub.",
    cause: "Le programme de l'expéditeur a un autre GLN pour le hub.",
    remedy: "Corrigez le destinataire dans UNB : le GLN du hub ; un fournisseur peut aussi donner celui du distributeur.",
  },
  E10: {
    meaning: "Les messages ne sont pas tous formés d'un UNH, de leurs segments et d'un UNT.",
    cause: "Un UNH ou un UNT manque, ou le programme de l'expéditeur écrit des groupes fonctionnels (UNG et UNE).",
    remedy: "Faites réécrire le fichier sans groupes.",
  },
  E11: {
    meaning: "L'en-tête d'un message (UNH) est erroné, ou le compte dans son UNT n'est pas un nombre.",
    cause: "La référence du message manque ou dépasse 14 caractères, ou le type de message est incomplet.",
    remedy: "Corrigez UNH : une référence, et un type comme ORDRSP:D:01B:UN.",
  },
  E12: {
    meaning: "Le nombre de segments dans l'UNT d'un message est faux.",
    cause: "Une partie du message manque, ou il a été modifié à la main.",
    remedy: "Faites réécrire le fichier.",
  },
  E13: {
    meaning: "L'UNT d'un message a une autre référence que son UNH.",
    cause: "Le message a été modifié à la main, ou assemblé à partir de deux.",
    remedy: "Faites réécrire le fichier.",
  },
  E14: {
    meaning: "Le nombre de messages dans UNZ est faux.",
    cause: "Un message manque, ou a été ajouté à la main.",
    remedy: "Faites réécrire le fichier.",
  },
  E15: {
    meaning: "La fin du fichier (UNZ) a une autre référence que son début (UNB).",
    cause: "Le fichier a été modifié à la main, ou assemblé à partir de deux.",
    remedy: "Faites réécrire le fichier.",
  },
  E16: {
    meaning: "Deux messages du fichier ont la même référence.",
    cause: "Un message a été copié, ou le programme de l'expéditeur ne numérote pas ses messages.",
    remedy: "Donnez à chaque message d'un fichier sa propre référence.",
  },
  E17: {
    meaning: "Le fichier est marqué comme un test, et le hub n'accepte pas de tests.",
    cause: "Le programme de l'expéditeur est encore en mode test.",
    remedy: "Faites retirer l'indicateur de test, et renvoyez le fichier.",
  },
  E18: {
    meaning: "Le fichier contient plus de 999 messages.",
    cause: "Les messages d'une longue période ont été mis dans un seul fichier.",
    remedy: "Répartissez-les en plusieurs interchanges.",
  },
  E19: {
    meaning: "Le fichier contient des lettres absentes de son jeu de caractères, UNOA ou UNOB.",
    cause: "Un nom ou un texte contient un accent ou un tréma.",
    remedy: "Réglez le programme de l'expéditeur sur UNOC.",
  },
  E20: {
    meaning: "Un segment dépasse 8 192 octets.",
    cause: "Un texte y est trop long, ou une fin de segment manque.",
    remedy: "Raccourcissez le texte, ou terminez le segment.",
  },
  M01: {
    meaning: "Le hub n'accepte pas ce type de message, ou pas de ce côté.",
    cause: "Le message est celui de l'autre côté, ou le programme de l'expéditeur écrit une autre version que D.01B.",
    remedy: "Le distributeur envoie ORDERS et RECADV, un fournisseur ORDRSP et DESADV, chacun en D:01B:UN.",
  },
  M02: {
    meaning: "Le début (BGM) ou le numéro de document est erroné.",
    cause: "Le numéro de document manque, dépasse 35 caractères, ou contient un accent ou un tréma.",
    remedy: "Donnez-lui de 1 à 35 lettres sans accent, chiffres ou signes.",
  },
  M03: {
    meaning: "Le hub n'accepte pas cette fonction d'un message.",
    cause: "Le programme de l'expéditeur envoie une copie, une modification ou une annulation.",
    remedy: "Envoyez des originaux (fonction 9). Une réponse à une commande peut aussi avoir 4, 27 ou 29, un avis de réception 5.",
  },
  M04: {
    meaning: "La date du document manque, figure deux fois, ou n'est pas une date.",
    cause: "Le programme de l'expéditeur écrit une date dans un autre format, ou un jour qui n'existe pas.",
    remedy: "Donnez exactement une date (DTM 137), au format 102 ou 203.",
  },
  M05: {
    meaning: "L'acheteur ou le fournisseur manque, figure deux fois, ou son GLN est faux.",
    cause: "Un chiffre de contrôle est faux, ou le programme de l'expéditeur donne un numéro de client au lieu du GLN.",
    remedy: "Indiquez chaque partie une seule fois, par son GLN avec le code 9.",
  },
  M06: {
    meaning: "La partie récapitulative (UNS) manque ou n'est pas à sa place.",
    cause: "Le programme de l'expéditeur l'omet, ou l'écrit avant la dernière ligne.",
    remedy: "Faites écrire un UNS+S après la dernière ligne.",
  },
  M07: {
    meaning: "Une ligne est erronée : son numéro, son article ou sa réponse.",
    cause: "Le chiffre de contrôle d'un GTIN est faux, ou un numéro d'article interne est donné à sa place.",
    remedy: "Donnez à chaque ligne son numéro et le GTIN de son article.",
  },
  M08: {
    meaning: "Une quantité manque, figure deux fois, ou n'est pas valable.",
    cause:
      "Ce n'est pas un nombre entier, elle est dans une autre unité que la pièce, ou elle est nulle dans une commande ou une expédition.",
    remedy: "Donnez chaque quantité une seule fois, en pièces entières, au plus 999 999 999.",
  },
  M09: {
    meaning: "La référence à une commande manque ou est fausse.",
    cause: "Le programme de l'expéditeur omet le numéro de commande, ou une réponse cite deux commandes.",
    remedy: "Donnez le numéro de la commande (RFF+ON) tel qu'il y figure, et envoyez une réponse pour chaque commande.",
  },
  M10: {
    meaning: "Une palette est erronée : son SSCC manque ou n'est pas valable, ou deux palettes ont le même.",
    cause: "Le chiffre de contrôle d'un SSCC est faux, ou une ligne précède la première palette.",
    remedy: "Donnez à chaque palette son propre SSCC, et placez chaque ligne sur une palette.",
  },
  M11: {
    meaning: "Le nombre de lignes (CNT+2) est faux.",
    cause: "Une ligne manque, ou le programme de l'expéditeur compte autre chose.",
    remedy: "Faites réécrire le message ; le compte peut aussi être omis.",
  },
  M12: {
    meaning: "Le message n'a aucune ligne.",
    cause: "Le document était encore vide quand il a été envoyé.",
    remedy: "Envoyez au moins une ligne ; seule une réponse à une commande entière (fonction 27 ou 29) s'en passe.",
  },
  B01: {
    meaning: "L'acheteur du message n'est pas le distributeur de ce hub.",
    cause: "Le GLN est celui d'un magasin ou d'un autre client.",
    remedy: "Donnez le GLN du distributeur comme acheteur.",
  },
  B02: {
    meaning: "Le fournisseur n'est pas enregistré dans le hub, ou n'est pas celui qui est connecté.",
    cause: "Le GLN du fournisseur est faux, ou le distributeur ne l'a pas encore enregistré.",
    remedy: "Vérifiez le GLN. Dès que le distributeur a enregistré le fournisseur, renvoyez le message.",
  },
  B03: {
    meaning: "Autre chose a déjà été envoyé sous la même référence.",
    cause: "Un document a été modifié et renvoyé, ou le programme de l'expéditeur a recommencé à compter.",
    remedy: "Envoyez-le sous une nouvelle référence ; la page en prend une nouvelle quand vous renvoyez.",
  },
  B04: {
    meaning: "Le fournisseur a déjà une commande de ce numéro.",
    cause: "La commande a déjà été envoyée, ou son numéro a servi à une autre.",
    remedy: "S'il s'agit d'une nouvelle commande, donnez-lui un autre numéro.",
  },
  B05: {
    meaning: "Le fournisseur n'a pas cette commande.",
    cause: "Le numéro de commande est mal saisi, ou c'est le numéro interne du fournisseur.",
    remedy: "Donnez le numéro tel qu'il figure dans la commande.",
  },
  B06: {
    meaning: "La commande n'a pas cette ligne, ou on ne sait pas de quelle ligne il s'agit.",
    cause: "Le numéro de ligne est faux ; ou aucun n'est donné, et l'article ne figure sur aucune ligne ou sur plusieurs.",
    remedy: "Donnez le numéro de la ligne tel qu'il figure dans la commande.",
  },
  B07: {
    meaning: "La ligne n'attend plus de réponse.",
    cause: "Quelqu'un y a déjà répondu, peut-être une personne de votre équipe.",
    remedy: "Consultez le statut : la réponse qui compte y figure.",
  },
  B08: {
    meaning: "La quantité modifiée est inférieure à ce qui est expédié, ou supérieure à la somme de l'expédié et de l'ouvert.",
    cause: "C'est plus que la commande, ou une partie a déjà été expédiée ou annulée.",
    remedy: "Consultez le statut, et donnez une quantité entre les deux.",
  },
  B09: {
    meaning: "La ligne a un autre article.",
    cause: "Le numéro de ligne est faux, ou un article de remplacement a été livré.",
    remedy: "Donnez la ligne et son article tels qu'ils figurent dans la commande.",
  },
  B10: {
    meaning: "La quantité expédiée dépasse ce qui est ouvert.",
    cause: "Une partie de la ligne a déjà été expédiée, refusée ou annulée.",
    remedy: "Consultez le statut, et réduisez la quantité.",
  },
  B11: {
    meaning: "Le SSCC ne relève d'aucun préfixe du fournisseur.",
    cause: "Le SSCC est celui d'une autre entreprise, ou le préfixe n'est pas enregistré dans le hub.",
    remedy: "Utilisez le préfixe que GS1 vous a attribué, et demandez au distributeur quels préfixes sont enregistrés.",
  },
  B12: {
    meaning: "Le SSCC a déjà servi.",
    cause: "L'expédition a déjà été envoyée, ou le programme de l'expéditeur a recommencé ses numéros de série.",
    remedy: "Prenez-en un nouveau : un SSCC ne sert qu'une fois.",
  },
  B13: {
    meaning: "Le fournisseur a déjà envoyé un avis d'expédition de ce numéro.",
    cause: "L'expédition a déjà été envoyée, ou son numéro a servi à une autre.",
    remedy: "S'il s'agit d'une nouvelle expédition, donnez-lui un autre numéro.",
  },
  B14: {
    meaning: "Le fournisseur n'a pas annoncé cette palette.",
    cause: "Le SSCC est mal saisi, ou l'avis d'expédition n'est pas encore arrivé.",
    remedy: "Vérifiez le SSCC. Dès que l'avis d'expédition est arrivé, renvoyez l'avis de réception.",
  },
  B15: {
    meaning: "La palette a déjà été reçue.",
    cause: "L'avis de réception a déjà été envoyé, ou la même palette a été comptée deux fois.",
    remedy: "Pour corriger un avis de réception, envoyez-en un avec la fonction 5.",
  },
  B16: {
    meaning: "La boîte du fournisseur est pleine.",
    cause: "Elle contient 99 999 999 999 999 entrées, le maximum.",
    remedy: "Adressez-vous à l'exploitant du hub : le fournisseur a besoin d'un autre hub.",
  },
  B17: {
    meaning: "L'annulation dépasse ce qui est ouvert.",
    cause: "Le fournisseur a entre-temps expédié ou refusé une partie de la ligne.",
    remedy: "Consultez le statut, et réduisez la quantité.",
  },
  B18: {
    meaning: "Le GLN est déjà celui du hub, du distributeur ou d'un fournisseur.",
    cause: "Le fournisseur a déjà été enregistré, peut-être par une commande dont la réponse s'est perdue.",
    remedy: "Si le fournisseur est dans le hub, il n'y a plus rien à faire ; sinon, vérifiez le GLN.",
  },
  B19: {
    meaning: "Un préfixe est le début de celui d'un autre fournisseur, ou l'inverse.",
    cause: "L'un des deux préfixes est mal saisi ou trop court.",
    remedy: "Demandez aux deux fournisseurs quel préfixe GS1 leur a attribué.",
  },
  B20: {
    meaning: "Le hub a 1 000 fournisseurs, le maximum.",
    cause: "Aucun fournisseur ne quitte jamais un hub, il se remplit donc.",
    remedy: "Installez un autre hub pour les fournisseurs suivants.",
  },
};
