/* The answer in a sentence, in each language, in the words of the library's page. */

import type { VerdictObject } from "../auditor/objects.js";
import type { Unpriceable, Verdict } from "../auditor/says.js";

export const HEADLINES = {
  en: {
    saysSupported: "The prices support this outcome",
    saysStable: "The prices support this outcome in the stable form",
    saysNotSupported: "The prices don’t support this outcome",
    saysViolation: "This group was treated worse than it deserves",
    saysNoViolation: "This certificate doesn’t prove unfair treatment",
    saysRefuted: "No prices can support this outcome",
    saysRefutedCover: "No prices with budgets above the limit can support this outcome",
    saysRefutedStable: "No stable prices can support this outcome",
    saysRefutedStableCover: "No stable prices with budgets above the limit can support this outcome",
    saysNotRefuted: "This certificate doesn’t prove that no prices can support this outcome",
    saysNotRefutedStable: "This certificate doesn’t prove that no stable prices can support this outcome",
    someShort: "A group of voters falls short",
    noneShort: "No group of voters falls short",
  },
  pl: {
    saysSupported: "Ceny wspierają ten wynik",
    saysStable: "Ceny wspierają ten wynik w wersji stabilnej",
    saysNotSupported: "Ceny nie wspierają tego wyniku",
    saysViolation: "Tę grupę potraktowano gorzej, niż na to zasługuje",
    saysNoViolation: "Ten certyfikat nie dowodzi niesprawiedliwego potraktowania",
    saysRefuted: "Żadne ceny nie mogą wesprzeć tego wyniku",
    saysRefutedCover: "Żadne ceny z budżetami większymi niż pula nie mogą wesprzeć tego wyniku",
    saysRefutedStable: "Żadne stabilne ceny nie mogą wesprzeć tego wyniku",
    saysRefutedStableCover: "Żadne stabilne ceny z budżetami większymi niż pula nie mogą wesprzeć tego wyniku",
    saysNotRefuted: "Ten certyfikat nie dowodzi, że żadne ceny nie mogą wesprzeć tego wyniku",
    saysNotRefutedStable: "Ten certyfikat nie dowodzi, że żadne stabilne ceny nie mogą wesprzeć tego wyniku",
    someShort: "Pewna grupa głosujących dostała za mało",
    noneShort: "Żadna grupa głosujących nie dostała za mało",
  },
  de: {
    saysSupported: "Die Preise stützen dieses Ergebnis",
    saysStable: "Die Preise stützen dieses Ergebnis in der stabilen Form",
    saysNotSupported: "Die Preise stützen dieses Ergebnis nicht",
    saysViolation: "Diese Gruppe wurde schlechter behandelt, als ihr zusteht",
    saysNoViolation: "Eine ungerechte Behandlung ist damit nicht bewiesen",
    saysRefuted: "Keine Preise können dieses Ergebnis stützen",
    saysRefutedCover: "Keine Preise mit Budgets über dem Gesamtbudget können dieses Ergebnis stützen",
    saysRefutedStable: "Keine stabilen Preise können dieses Ergebnis stützen",
    saysRefutedStableCover: "Keine stabilen Preise mit Budgets über dem Gesamtbudget können dieses Ergebnis stützen",
    saysNotRefuted: "Dass keine Preise dieses Ergebnis stützen können, ist damit nicht bewiesen",
    saysNotRefutedStable: "Dass keine stabilen Preise dieses Ergebnis stützen können, ist damit nicht bewiesen",
    someShort: "Eine Gruppe von Abstimmenden kommt zu kurz",
    noneShort: "Keine Gruppe von Abstimmenden kommt zu kurz",
  },
  fr: {
    saysSupported: "Les prix soutiennent ce résultat",
    saysStable: "Les prix soutiennent ce résultat sous sa forme stable",
    saysNotSupported: "Les prix ne soutiennent pas ce résultat",
    saysViolation: "Ce groupe a été traité moins bien qu’il ne le mérite",
    saysNoViolation: "Ce certificat ne prouve aucun traitement injuste",
    saysRefuted: "Aucun prix ne peut soutenir ce résultat",
    saysRefutedCover: "Aucun prix dont les budgets dépassent l’enveloppe ne peut soutenir ce résultat",
    saysRefutedStable: "Aucun prix stable ne peut soutenir ce résultat",
    saysRefutedStableCover: "Aucun prix stable dont les budgets dépassent l’enveloppe ne peut soutenir ce résultat",
    saysNotRefuted: "Ce certificat ne prouve pas qu’aucun prix ne peut soutenir ce résultat",
    saysNotRefutedStable: "Ce certificat ne prouve pas qu’aucun prix stable ne peut soutenir ce résultat",
    someShort: "Un groupe de votants est laissé pour compte",
    noneShort: "Aucun groupe de votants n’est laissé pour compte",
  },
} as const;

export type Headline = keyof typeof HEADLINES.en;

/** Which prices can't support the outcome. */
export function refutedBy({ stable, cover }: Pick<Unpriceable, "stable" | "cover">): Headline {
  if (stable) return cover ? "saysRefutedStableCover" : "saysRefutedStable";
  return cover ? "saysRefutedCover" : "saysRefuted";
}

/** The sentence on what an answer says, by what was asked about, and whether stable prices were. */
export function headlineOf(kind: VerdictObject["kind"], said: Verdict, isStable: boolean): Headline {
  switch (said.says) {
    case "supported": return said.form === "stable" ? "saysStable" : "saysSupported";
    case "violation": return "saysViolation";
    case "unpriceable": return refutedBy(said);
    case "satisfied": return "noneShort";
    case "failed": return {
      prices: "saysNotSupported", violation: "saysNoViolation", groups: "someShort",
      refutation: isStable ? "saysNotRefutedStable" : "saysNotRefuted",
    }[kind] as Headline;
  }
}
