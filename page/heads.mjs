// What columns of a sheet are likely to be, by their names in several languages.

import { MOST_DATES, noPicks } from './choices.mjs';

// Words in the names of columns, without marks on their letters.
const IDS = `id no nr number nummer numer numero numéro číslo cislo sign signatur signature sygnatura kennung lfd shelfmark
  cote ref reference`;
const CALENDARS = `calendar calendars kalender kalendarz kalendář kalendar calendrier calendario calendarium stil style styl
  zeitrechnung almanach`;
const DATES = `date dates dated datum data fecha tag day dies dzień jour
  birth born geburt geburtstag geboren geb naissance nacimiento nascita nato nata urodzenia urodzony narození natus
  baptism baptised christening taufe tauftag getauft taufdatum baptême bautismo battesimo chrztu chrzest křest baptizatus
  marriage married wedding heirat trauung getraut hochzeit mariage matrimonio matrimonium ślub ślubu sňatek copulatus
  death died tod todestag gestorben verstorben sterbedatum décès mort muerte morte zgon zgonu úmrtí obiit
  burial buried begräbnis begraben beerdigt inhumation sépulture entierro sepoltura pogrzeb pohřeb sepultus
  geburtsdatum heiratsdatum todesdatum ausstellungsdatum datierung gest begr`;
// A column with one of these is none of dates, as a place of birth.
const OTHERS = `place ort lieu lugar luogo miejsce místo name names nom nombre nome imię jméno note notes bemerkung remark
  source quelle age alter`;
// Beside one of these, a column with days has no whole dates.
const PARTS = 'month months monat mois mes mese miesiąc měsíc year years jahr an année año anno rok';

const plain = (text) => text.normalize('NFD').replace(/\p{M}/gu, '').replace(/ł/g, 'l').toLowerCase();
const wordsOf = (text) => plain(text).match(/\p{L}+/gu) || [];
const listOf = (words) => new Set(wordsOf(words));
const [ids, calendars, dates, others, parts] = [IDS, CALENDARS, DATES, OTHERS, PARTS].map(listOf);
const days = listOf('tag day dies dzień jour');

const names = (list) => (head) => wordsOf(head).some((word) => list.has(word));
const isOnly = (list) => (head) => {
  const found = wordsOf(head);
  return found.length > 0 && found.every((word) => list.has(word));
};

// Of these columns, that which stands nearest to this one, and of two the one behind it.
const nearest = (columns, place) => [...columns].sort((one, other) =>
  Math.abs(one - place) - Math.abs(other - place) || other - one)[0];

/**
 * What is proposed for a sheet with this heading: its columns of dates, each with one of calendars, and that of ids. Where
 * `three` have years, months and days, none of these is one of dates, and that at the place `joined` is.
 * @param {string[]} three
 * @param {number | null} joined
 */
export function likelyPicks(heading, three = [], joined = null) {
  const among = (isOne) => heading.flatMap((head, i) => (isOne(head, i) ? [i] : []));
  const ofCalendars = among(names(calendars)), hasParts = heading.some(isOnly(parts));
  const isOther = (head) => names(calendars)(head) || names(others)(head) || (hasParts && isOnly(days)(head));
  const isDate = (head, i) => i === joined || (names(dates)(head) && !isOther(head) && !three.includes(String(i)));
  const calendarOf = (place) => (ofCalendars.length ? String(nearest(ofCalendars, place)) : '');
  const found = among(isDate).slice(0, MOST_DATES).map((date) =>
    ({ date: String(date), calendar: calendarOf(date === joined ? Number(three[0]) : date) }));
  const [id] = among(isOnly(ids)), proposed = noPicks();
  return { ...proposed, dates: found.length ? found : proposed.dates, id: id === undefined ? proposed.id : String(id) };
}
