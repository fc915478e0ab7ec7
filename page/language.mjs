// The language in which the page speaks.

import { WORDS as ENGLISH } from './words.mjs';
import { WORDS as GERMAN } from './words-de.mjs';

const LANGUAGES = { en: ENGLISH, de: GERMAN };

/** The languages that there are, each with what it calls itself. */
export const NAMES_OF_LANGUAGES = Object.entries(LANGUAGES).map(([language, { language: name }]) => ({ language, name }));

/** The words of the language that was chosen last. */
export const WORDS = { ...ENGLISH };

/** Chooses a language for what is said from now on. */
export function speak(language) {
  Object.assign(WORDS, LANGUAGES[language]);
}

/** The first of the languages that are wanted, as a browser names them, that there is; or else English. */
export const likelyLanguage = (wanted) =>
  wanted.map((name) => name.toLowerCase().split('-')[0]).find((name) => name in LANGUAGES) || 'en';
