/* What a file is, by its first record that isn't blank: the numbers that pbaudit_kind tells. */

export type Kind = "election" | "prices" | "violation" | "refutation" | "outcome" | "unknown";

export const KINDS: readonly Kind[] = ["unknown", "election", "outcome", "prices", "violation", "refutation"];
