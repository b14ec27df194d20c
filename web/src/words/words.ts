/* The texts of a language: each with the slots of the English one, or it doesn't compile. */

import type { ENGLISH } from "./en.js";

/** What a text may leave open, as `{file}`. */
export type Slot =
  | "file" | "names" | "count" | "voters" | "projects" | "funded" | "said" | "counted" | "yes" | "no" | "certificate"
  | "election" | "outcome" | "line" | "answer" | "condition" | "project" | "voter" | "all" | "measure" | "option"
  | "head" | "cost" | "share" | "most" | "options" | "column" | "row" | "text" | "thousands" | "decimals" | "limit"
  | "need" | "sum" | "part" | "percent" | "least";

declare const slots: unique symbol;

/** A text with slots, which is no string before they are filled. */
export interface Template<S extends Slot> {
  readonly [slots]: S;
}

type English = typeof ENGLISH;
type Key = keyof English;

type SlotsOf<Text extends string> =
  Text extends `${string}{${infer Name}}${infer Rest}` ? Name | SlotsOf<Rest> : never;

type WordOf<Text extends string> =
  [SlotsOf<Text>] extends [never] ? string : SlotsOf<Text> extends Slot ? Template<SlotsOf<Text>> : never;

export type Words = { readonly [Name in Key]: WordOf<English[Name]> };

type IsSame<One, Other> = [One] extends [Other] ? [Other] extends [One] ? true : false : false;

/** The texts that a language may have: of each name, one with the slots of the English one. */
type Translation<Texts extends Record<Key, string>> = {
  [Name in keyof Texts]: Name extends Key
    ? IsSame<SlotsOf<Texts[Name]>, SlotsOf<English[Name]>> extends true ? Texts[Name] : never
    : never;
};

/** The texts of a language. One that is missing, or has other slots than the English one, doesn't compile. */
export function translated<Texts extends Record<Key, string>>(texts: Texts & Translation<Texts>): Words {
  return texts as unknown as Words;
}

/** A text with its slots filled. */
export function fill<S extends Slot>(template: Template<S>, values: Readonly<Record<S, string | number>>): string {
  const text = template as unknown as string;
  return text.replace(/\{(\w+)\}/g, (_, name: S) => `${values[name]}`);
}
